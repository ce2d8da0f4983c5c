// Steps 1 to 3 and 6 worked out once for a table, for the fast engine.
#ifndef PEER_PREPARED_H
#define PEER_PREPARED_H

#include <stdint.h>

#include "report.h"
#include "table.h"

// What a subsystem can take of the processor in each of its periods: Q + X every P.
struct load {
    uint32_t period;
    uint32_t load;
};

// A resource that a subsystem uses. Ceilings count from 0, so the outer one is also the
// number of subsystems above it.
struct held {
    uint32_t holding;  // X(s,l)
    unsigned inner;    // rc(s,l)
    unsigned outer;    // RC(l)
    unsigned resource; // from 1
};

struct prepared {
    unsigned subsystems;
    struct load load[MAX_SUBSYSTEMS];
    uint32_t holding[MAX_SUBSYSTEMS]; // X(s)
    unsigned lowest_outer[MAX_SUBSYSTEMS]; // over the held resources, s if none
    unsigned held_count[MAX_SUBSYSTEMS];
    struct held held[MAX_SUBSYSTEMS][MAX_RESOURCES]; // those with X(s,l) > 0, by l
};

// Fills everything, or gives the refusal of rule 5 and leaves it half filled. The rules 1 to
// 4 hold for the table.
struct refusal prepare(const struct table *table, struct prepared *prepared);

// b(i) for every task of a subsystem.
void task_blockings(const struct subsystem *subsystem, const struct prepared *prepared, unsigned s,
                    uint32_t *blockings);

// B(s)
uint32_t subsystem_blocking(const struct prepared *prepared, unsigned s);

#endif
