#include "prepared.h"

#include "judge.h"
#include "slips.h"

// X(s,l) = longest access + the work of the tasks above the inner ceiling, 0 if none.
static uint32_t find_holding(const struct subsystem *subsystem, unsigned l, unsigned *inner)
{
    uint32_t above = 0, longest = 0;
    unsigned i = 0;
    while (i < subsystem->tasks && subsystem->task[i].access[l] == 0)
        above += subsystem->task[i++].work;
    if (i == subsystem->tasks)
        return 0;
    *inner = i;
    for (; i < subsystem->tasks; i++)
        if (subsystem->task[i].access[l] > longest)
            longest = subsystem->task[i].access[l];
    return above + longest;
}

// Only a slip asks for this.
static inline void forget_last_held(struct prepared *prepared, unsigned s)
{
    unsigned kept = --prepared->held_count[s];
    prepared->holding[s] = 0;
    for (unsigned h = 0; h < kept; h++)
        if (prepared->held[s][h].holding > prepared->holding[s])
            prepared->holding[s] = prepared->held[s][h].holding;
}

// Subsystems come in order, so the first that uses a resource is its outer ceiling.
static void prepare_resource(const struct table *table, unsigned l, struct prepared *prepared)
{
    unsigned outer = MAX_SUBSYSTEMS, users = 0, inner = 0;
    for (unsigned s = 0; s < table->subsystems; s++) {
        uint32_t holding = find_holding(&table->subsystem[s], l, &inner);
        if (holding == 0)
            continue;
        if (outer == MAX_SUBSYSTEMS)
            outer = s;
        if (holding > prepared->holding[s])
            prepared->holding[s] = holding;
        if (outer < prepared->lowest_outer[s])
            prepared->lowest_outer[s] = outer;
        prepared->held[s][prepared->held_count[s]++] = (struct held){holding, inner, outer, l + 1};
        users++;
    }
    if (SLIP_SHARED_ONLY && users == 1)
        forget_last_held(prepared, outer);
}

struct refusal prepare(const struct table *table, struct prepared *prepared)
{
    prepared->subsystems = table->subsystems;
    for (unsigned s = 0; s < table->subsystems; s++) {
        prepared->holding[s] = 0;
        prepared->held_count[s] = 0;
        prepared->lowest_outer[s] = s;
    }
    for (unsigned l = 0; l < table->resources; l++)
        prepare_resource(table, l, prepared);
    for (unsigned s = 0; s < table->subsystems; s++) {
        const struct subsystem *subsystem = &table->subsystem[s];
        if (overrun_too_long(subsystem->budget, prepared->holding[s], subsystem->period))
            return (struct refusal){5, s + 1, 0};
        prepared->load[s] = (struct load){subsystem->period, subsystem->budget + prepared->holding[s]};
    }
    return (struct refusal){0, 0, 0};
}

// `below` keeps, for each resource, the longest access of the tasks passed so far, coming
// from the last; a resource counts as long as its inner ceiling reaches the task.
void task_blockings(const struct subsystem *subsystem, const struct prepared *prepared, unsigned s,
                    uint32_t *blockings)
{
    const struct held *held = prepared->held[s];
    const unsigned held_count = prepared->held_count[s];
    uint32_t below[MAX_RESOURCES] = {0};
    for (unsigned i = subsystem->tasks; i-- > 0;) {
        uint32_t largest = 0;
        for (unsigned h = 0; h < held_count; h++) {
            uint32_t access = subsystem->task[i].access[held[h].resource - 1];
            uint32_t longest = SLIP_BLOCKED_BY_HOLDING && below[h] > 0 ? held[h].holding : below[h];
            bool reached = SLIP_INNER_CEILING ? held[h].inner < i : held[h].inner <= i;
            if (reached && longest > largest)
                largest = longest;
            if (access > below[h])
                below[h] = access;
        }
        blockings[i] = largest;
    }
}

uint32_t subsystem_blocking(const struct prepared *prepared, unsigned s)
{
    uint32_t largest = 0;
    for (unsigned t = s + 1; t < prepared->subsystems; t++)
        for (unsigned h = 0; h < prepared->held_count[t]; h++) {
            const struct held *held = &prepared->held[t][h];
            if ((SLIP_OUTER_CEILING ? held->outer < s : held->outer <= s) && held->holding > largest)
                largest = held->holding;
        }
    return largest;
}
