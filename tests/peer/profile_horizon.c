// Tables with an active period at the horizon or a few ticks around it.
//
// Two ways to make one. Blocking: periods are coarse, so one tick more of blocking is
// mostly one tick more of active period, and the blocking that reaches the wanted period is
// found by halving. Filling: two loads fill the processor to the last tick with nothing
// blocked; then the right side exceeds x everywhere but at the common multiples of both
// periods, and the active period is the lowest of them.
#include <string.h>

#include "encode.h"
#include "profiles.h"
#include "random_table.h"

enum { TRIES = 3000, AROUND = 3, BLOCKING_TO = 900000, DIVISOR_TO = 3000 };

static uint32_t wanted_period(struct prng *prng)
{
    if (chance(prng, 60))
        return HORIZON + between(prng, 0, 1);
    return HORIZON - AROUND + between(prng, 0, 2 * AROUND);
}

static void plain_subsystem(struct table *table, uint32_t period, uint32_t load)
{
    struct subsystem *subsystem = &table->subsystem[table->subsystems++];
    *subsystem = (struct subsystem){.period = period, .budget = load, .tasks = 1};
    uint32_t deadline = period < 500 ? period : 500;
    subsystem->task[0] = (struct task){.separation = period, .work = 1, .deadline = deadline};
}

// The active period of all subsystems in the table so far, or something past `bound`.
static uint64_t period_with(const struct table *table, uint64_t blocking, uint64_t bound)
{
    uint64_t x = 0, next = blocking + 1;
    while (next != x && next <= bound) {
        x = next;
        next = blocking;
        for (unsigned t = 0; t < table->subsystems; t++) {
            uint64_t period = table->subsystem[t].period;
            next += (x + period - 1) / period * table->subsystem[t].budget;
        }
    }
    return next;
}

// The blocking that makes the active period exactly the wanted one, or 0.
static uint32_t blocking_for(const struct table *table, uint32_t wanted)
{
    uint32_t from = 1, to = BLOCKING_TO;
    while (from < to) {
        uint32_t middle = from + (to - from) / 2;
        if (period_with(table, middle, wanted) < wanted)
            from = middle + 1;
        else
            to = middle;
    }
    return period_with(table, from, wanted) == wanted ? from : 0;
}

static void coarse_loads(struct prng *prng, struct table *table)
{
    unsigned count = between(prng, 1, 6);
    uint32_t percent = between(prng, 82, 97);
    table->subsystems = 0;
    for (unsigned s = 0; s < count; s++) {
        uint32_t period = chance(prng, 15) ? between(prng, 8000, 50000) : between(prng, 50000, MAX_TIME);
        uint64_t load = (uint64_t)period * percent / (100 * count);
        plain_subsystem(table, period, (uint32_t)(load + between(prng, 0, (uint32_t)load / 50)));
    }
}

// Splits each load into a budget and an overrun on resources of all kinds, without changing
// the load; resource 1 keeps the first subsystem as its ceiling so that the last one blocks.
static void share_loads(struct prng *prng, struct table *table)
{
    table->resources = between(prng, 1, 8);
    for (unsigned s = 0; s < table->subsystems; s++) {
        struct subsystem *subsystem = &table->subsystem[s];
        struct task *task = &subsystem->task[0];
        uint32_t longest = 0;
        for (unsigned l = 0; l < table->resources; l++) {
            bool used = (l == 0 && s == 0) || chance(prng, 30);
            task->access[l] = used ? between(prng, 1, 400) : 0;
            if (task->access[l] > longest)
                longest = task->access[l];
        }
        if (longest > 0)
            task->work = longest;
        subsystem->budget -= longest;
    }
}

// Nobody but the last subsystem may block the row above it, or the blocking would not be
// the one that was found: the accesses made above are all shorter.
static void add_blocker(struct prng *prng, struct table *table, uint32_t blocking)
{
    plain_subsystem(table, MAX_TIME, between(prng, 1, 1000));
    struct task *task = &table->subsystem[table->subsystems - 1].task[0];
    *task = (struct task){.separation = MAX_TIME, .work = blocking, .deadline = blocking};
    task->access[0] = blocking;
}

static bool make_by_blocking(struct prng *prng, struct table *table)
{
    coarse_loads(prng, table);
    uint32_t blocking = blocking_for(table, wanted_period(prng));
    if (blocking < 400)
        return false;
    share_loads(prng, table);
    add_blocker(prng, table, blocking);
    return true;
}

static uint32_t common_divisor(uint32_t a, uint32_t b)
{
    return b == 0 ? a : common_divisor(b, a % b);
}

// Periods wanted / a and wanted / b for two divisors without a common factor.
static bool make_by_filling(struct prng *prng, struct table *table)
{
    uint32_t wanted = wanted_period(prng);
    uint32_t a = between(prng, 16, DIVISOR_TO), b = between(prng, 16, DIVISOR_TO);
    if (wanted % a != 0 || wanted % b != 0 || common_divisor(a, b) != 1)
        return false;
    uint32_t shares = wanted / a / b; // load 1 is `part` times b, load 2 the rest
    if (shares < 2 || wanted / a < 3000)
        return false;
    uint32_t part = between(prng, 1, shares - 1);
    table->subsystems = 0;
    plain_subsystem(table, wanted / a, b * part);
    plain_subsystem(table, wanted / b, wanted / b - a * part);
    if (chance(prng, 50))
        plain_subsystem(table, MAX_TIME, between(prng, 1, MAX_TIME));
    return true;
}

void make_horizon(struct prng *prng, struct made *made)
{
    struct table table;
    bool filling = chance(prng, 25);
    for (unsigned tries = 0; tries < TRIES; tries++) {
        memset(&table, 0, sizeof table);
        if (filling ? make_by_filling(prng, &table) : make_by_blocking(prng, &table))
            break;
        filling = filling && tries + 1 < TRIES / 2;
    }
    made->length = encode_table(&table, made->bytes, 0);
}
