// The profiles: one function for each, which makes one file.
#ifndef PEER_PROFILES_H
#define PEER_PROFILES_H

#include <stddef.h>
#include <stdint.h>

#include "prng.h"
#include "report.h"
#include "table.h"

enum { MADE_BYTES = 16384 };

struct made {
    size_t length;
    struct refusal expected; // what a broken table must get; number 0 elsewhere
    uint8_t bytes[MADE_BYTES];
};

void make_tiny(struct prng *prng, struct made *made);
void make_edge(struct prng *prng, struct made *made);
void make_large(struct prng *prng, struct made *made);
void make_horizon(struct prng *prng, struct made *made);
void make_broken(struct prng *prng, struct made *made);
void make_damaged(struct prng *prng, struct made *made);
void make_long(struct prng *prng, struct made *made);

#endif
