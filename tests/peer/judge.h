// Rules 2 to 4 over a whole table, and the comparison of rule 5.
//
// Rule 1 is not here: the counts of a table that was read are in range, since the reader
// refuses all others with 14. Rule 5 needs the holding times, which each engine makes its
// own way.
#ifndef PEER_JUDGE_H
#define PEER_JUDGE_H

#include <stdbool.h>
#include <stdint.h>

#include "report.h"
#include "slips.h"
#include "table.h"

// The first refusal by the rules 2, 3, 4, or number 0.
struct refusal judge_times(const struct table *table);

// Rule 5. The holding time can be near 8,000,000, far from the end of 32 bits.
static inline bool overrun_too_long(uint32_t budget, uint32_t holding, uint32_t period)
{
    return SLIP_RULE_5_EDGE ? budget + holding >= period : budget + holding > period;
}

#endif
