// The engine written for speed: steps 1 to 3 and 6 are worked out once per table, a least
// solution is found by repeating x := right side from a start known to lie below it.
#ifndef PEER_FAST_H
#define PEER_FAST_H

#include <stdint.h>

#include "report.h"
#include "table.h"

void fast_report(const struct table *table, struct report *report);

// For the generator, which looks for tables on the edge; s and i count from 0, and the rules
// 1 to 4 hold. The row of subsystem s with its tasks not asked, false where rule 5 refuses.
bool row_without_tasks(const struct table *table, unsigned s, struct row *row);

// How many jobs of subsystem s have the largest response, 0 where there is none.
uint32_t jobs_reaching_response(const struct table *table, unsigned s);

// The first moment up to `last` at which task i passes, or 0.
uint32_t moment_of_task(const struct table *table, unsigned s, unsigned i, uint32_t last);

#endif
