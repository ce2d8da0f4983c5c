// Steps 1 to 4 and 6, each as a function of the table that says what its step says and
// keeps nothing between calls. Subsystems, tasks and resources are counted from 1 here, so
// that every formula can be laid beside its rule. The table has passed the rules 1 to 4.
#ifndef PEER_DEFINITIONS_H
#define PEER_DEFINITIONS_H

#include <stdint.h>

#include "table.h"

const struct subsystem *subsystem_at(const struct table *table, unsigned s);
const struct task *task_at(const struct table *table, unsigned s, unsigned i);
uint64_t access_at(const struct table *table, unsigned s, unsigned i, unsigned l);

unsigned inner_ceiling(const struct table *table, unsigned s, unsigned l); // rc(s,l)
unsigned outer_ceiling(const struct table *table, unsigned l);            // RC(l)

uint64_t holding_of_task(const struct table *table, unsigned s, unsigned i, unsigned l); // X(i,l)
uint64_t holding_of_resource(const struct table *table, unsigned s, unsigned l);         // X(s,l)
uint64_t holding(const struct table *table, unsigned s);                                 // X(s)

uint64_t task_blocking(const struct table *table, unsigned s, unsigned i); // b(i)
uint64_t blocking(const struct table *table, unsigned s);                  // B(s)

// Supply for a window of x ticks; early is E, the part of a period that can give.
uint64_t supply(uint64_t period, uint64_t budget, uint64_t early, uint64_t x);

uint64_t up(uint64_t a, uint64_t b);

#endif
