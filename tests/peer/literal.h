// The engine that follows the definitions: every least solution is found by counting up
// from 1, every moment up to a deadline is tried, nothing is carried from one job to the
// next. It is slow, and it is what the fast engine is held against.
#ifndef PEER_LITERAL_H
#define PEER_LITERAL_H

#include <stdbool.h>

#include "report.h"
#include "table.h"

// With `ways`, the supply of each subsystem with a tiny period is first compared with what
// the ways of handing out really give.
void literal_report(const struct table *table, bool ways, struct report *report);

#endif
