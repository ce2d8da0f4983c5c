// Random tables that the rules admit.
#ifndef PEER_RANDOM_TABLE_H
#define PEER_RANDOM_TABLE_H

#include <stdint.h>

#include "prng.h"
#include "table.h"

struct shape {
    unsigned subsystems_from, subsystems_to;
    unsigned resources_from, resources_to;
    unsigned tasks_from, tasks_to;
    uint32_t period_from, period_to;
    uint32_t work_to;
    unsigned percent_from, percent_to; // of the processor, taken by all loads together
    unsigned slack_from, slack_to;     // separations, in percent of a fair share of the load
    unsigned access_percent;           // how often a task uses a resource
    unsigned stretch_percent;          // how often one access takes most of the load
    unsigned tight_percent;            // how often a period is put near the response
    unsigned alike_percent;            // how often all periods are multiples of one another
};

extern const struct shape tiny_shape;   // periods of a few ticks
extern const struct shape medium_shape; // periods of some ten ticks
extern const struct shape full_shape;   // counts up to 8, periods of some hundred ticks

void random_table(struct prng *prng, const struct shape *shape, struct table *table);

// How many steps the literal engine would count, give or take a few; a row without an
// active period counts to the horizon.
uint64_t literal_steps(const struct table *table);

// A table of the shape that the literal engine can follow in some milliseconds. Those with
// a row that is none cost it more, so only some are kept.
void random_table_for_literal(struct prng *prng, const struct shape *shape, struct table *table);

#endif
