// Tables that one tick decides: deadlines at the first moment that passes or the tick
// before, responses of P or P + 1, overruns that just fit the period or just do not.
#include "definitions.h"
#include "encode.h"
#include "fast.h"
#include "profiles.h"
#include "random_table.h"

enum { TRIES = 12, LEVER_TO = 40, MOMENTS = 3000, EDGE_STEPS = 4000000, NONE_KEPT_PERCENT = 15 };

// Puts D where the task just passes, or `early` ticks before; T gives way if it must.
static void deadline_at_edge(struct table *table, unsigned s, unsigned i, uint32_t early)
{
    struct task *task = &table->subsystem[s].task[i];
    uint32_t moment = moment_of_task(table, s, i, MOMENTS);
    if (moment < task->work + early)
        return;
    task->deadline = moment - early;
    if (task->separation < task->deadline)
        task->separation = task->deadline;
}

// Tasks are set from the highest on: a separation that moves changes those below only.
static void make_deadlines(struct prng *prng, struct table *table)
{
    unsigned missed = between(prng, 0, table->subsystems); // N: nobody misses
    for (unsigned s = 0; s < table->subsystems; s++) {
        unsigned tasks = table->subsystem[s].tasks;
        unsigned late = s == missed ? between(prng, 0, tasks - 1) : tasks;
        for (unsigned i = 0; i < tasks; i++)
            deadline_at_edge(table, s, i, i == late ? 1 : 0);
    }
}

static void lengthen_access(struct table *table, unsigned s, unsigned i, unsigned l, uint32_t access)
{
    struct task *task = &table->subsystem[s].task[i];
    task->access[l] = access;
    if (task->work < access)
        task->work = access;
    if (task->deadline < task->work)
        task->deadline = task->work;
    if (task->separation < task->deadline)
        task->separation = task->deadline;
}

// What is turned until a row's response is the one wanted: the row's own budget, or an
// access in the row's subsystem or one below it.
struct lever {
    bool budget;
    unsigned subsystem, task, resource;
};

static struct lever random_lever(struct prng *prng, const struct table *table, unsigned s)
{
    struct lever lever = {.budget = table->resources == 0 || chance(prng, 40), .subsystem = s};
    if (lever.budget)
        return lever;
    lever.subsystem = between(prng, s, table->subsystems - 1);
    lever.task = between(prng, 0, table->subsystem[lever.subsystem].tasks - 1);
    lever.resource = between(prng, 0, table->resources - 1);
    return lever;
}

static bool response_is(const struct table *table, unsigned s, uint32_t past)
{
    struct row row;
    return row_without_tasks(table, s, &row) && row.outcome != OUTCOME_NONE &&
           row.response == table->subsystem[s].period + past;
}

static bool turn_lever(const struct lever *lever, unsigned s, uint32_t past, struct table *table)
{
    uint32_t last = lever->budget ? table->subsystem[s].period : LEVER_TO;
    for (uint32_t value = 1; value <= last; value++) {
        struct table turned = *table;
        if (lever->budget)
            turned.subsystem[s].budget = value;
        else
            lengthen_access(&turned, lever->subsystem, lever->task, lever->resource, value);
        if (response_is(&turned, s, past)) {
            *table = turned;
            return true;
        }
    }
    return false;
}

static bool make_response(struct prng *prng, struct table *table)
{
    unsigned s = between(prng, 0, table->subsystems - 1);
    struct lever lever = random_lever(prng, table, s);
    return turn_lever(&lever, s, between(prng, 0, 1), table);
}

// Q + X is P, or P + 1 where some X is above 0.
static void make_overrun(struct prng *prng, struct table *table)
{
    unsigned s = between(prng, 0, table->subsystems - 1);
    struct subsystem *subsystem = &table->subsystem[s];
    uint32_t overrun = (uint32_t)holding(table, s + 1);
    uint32_t past = overrun > 0 && chance(prng, 50) ? 1 : 0;
    if (overrun < subsystem->period)
        subsystem->budget = subsystem->period - overrun + past;
}

// False where the table came out too long for the literal engine, or off the edge.
static bool make_table(struct prng *prng, struct table *table)
{
    unsigned family = between(prng, 0, 99);
    random_table_for_literal(prng, chance(prng, 50) ? &medium_shape : &tiny_shape, table);
    if (family >= 45 && family < 88 && !make_response(prng, table))
        return false;
    if (family < 45 || (family < 88 && chance(prng, 30)))
        make_deadlines(prng, table);
    if (family >= 88)
        make_overrun(prng, table);
    uint64_t steps = literal_steps(table);
    return steps < EDGE_STEPS || (steps / HORIZON <= 4 && chance(prng, NONE_KEPT_PERCENT));
}

void make_edge(struct prng *prng, struct made *made)
{
    struct table table;
    for (unsigned tries = 0; tries < TRIES; tries++)
        if (make_table(prng, &table))
            break;
    made->length = encode_table(&table, made->bytes, 0);
}
