// Tables that break the rules 2 to 5 at chosen places, one or several at once. The maker
// knows which refusal is due: the lowest rule, and in it the lowest place.
#include "definitions.h"
#include "encode.h"
#include "profiles.h"
#include "random_table.h"

enum { WHOLE_FILE_PERCENT = 20 };

static uint32_t out_of_range(struct prng *prng, bool zero_too)
{
    static const uint32_t past[] = {MAX_TIME + 1, 0x00ffffff, 0x7fffffff, 0x80000000, 0xffffffff};
    if (zero_too && chance(prng, 40))
        return 0;
    return chance(prng, 30) ? between(prng, MAX_TIME + 1, 0xffffffff) : past[between(prng, 0, 4)];
}

static struct refusal break_range(struct prng *prng, struct table *table, unsigned s)
{
    struct subsystem *subsystem = &table->subsystem[s];
    unsigned i = between(prng, 0, subsystem->tasks);
    if (i == 0) {
        uint32_t *time = chance(prng, 50) ? &subsystem->period : &subsystem->budget;
        *time = out_of_range(prng, true);
        return (struct refusal){2, s + 1, 0};
    }
    struct task *task = &subsystem->task[i - 1];
    uint32_t *times[] = {&task->separation, &task->work, &task->deadline};
    unsigned which = between(prng, 0, 2 + table->resources);
    if (which < 3)
        *times[which] = out_of_range(prng, true);
    else
        task->access[which - 3] = out_of_range(prng, false); // 0 is a good access
    return (struct refusal){2, s + 1, i};
}

static struct refusal break_order(struct prng *prng, struct table *table, unsigned s)
{
    struct subsystem *subsystem = &table->subsystem[s];
    unsigned i = between(prng, 0, subsystem->tasks);
    if (i == 0) {
        subsystem->budget = subsystem->period + (chance(prng, 70) ? 1 : between(prng, 1, 1000));
        return (struct refusal){3, s + 1, 0};
    }
    struct task *task = &subsystem->task[i - 1];
    if (chance(prng, 50))
        task->work = task->deadline + 1;
    else
        task->deadline = task->separation + 1;
    return (struct refusal){3, s + 1, i};
}

static struct refusal break_access(struct prng *prng, struct table *table, unsigned s)
{
    struct subsystem *subsystem = &table->subsystem[s];
    unsigned i = between(prng, 0, subsystem->tasks - 1);
    if (table->resources == 0)
        return (struct refusal){0, 0, 0};
    struct task *task = &subsystem->task[i];
    unsigned l = between(prng, 0, table->resources - 1);
    task->access[l] = task->work + (chance(prng, 70) ? 1 : 50);
    return (struct refusal){4, s + 1, i + 1};
}

static struct refusal break_overrun(struct prng *prng, struct table *table, unsigned s)
{
    struct subsystem *subsystem = &table->subsystem[s];
    uint32_t overrun = (uint32_t)holding(table, s + 1);
    if (overrun == 0)
        return (struct refusal){0, 0, 0};
    uint32_t most = subsystem->period;
    uint32_t least = overrun < most ? most - overrun + 1 : 1;
    subsystem->budget = chance(prng, 60) ? least : between(prng, least, most);
    return (struct refusal){5, s + 1, 0};
}

static bool comes_before(struct refusal a, struct refusal b)
{
    if (a.number != b.number)
        return a.number < b.number;
    return a.subsystem != b.subsystem ? a.subsystem < b.subsystem : a.task < b.task;
}

static struct refusal break_rule(struct prng *prng, struct table *table, unsigned rule)
{
    unsigned s = between(prng, 0, table->subsystems - 1);
    switch (rule) {
    case 2: return break_range(prng, table, s);
    case 3: return break_order(prng, table, s);
    case 4: return break_access(prng, table, s);
    default: return break_overrun(prng, table, s);
    }
}

// From rule 5 down to rule 2: a break may mend one of a later rule, which then does not
// matter, and never one of its own or an earlier rule.
static void break_table(struct prng *prng, struct table *table, struct refusal *first)
{
    unsigned alone = chance(prng, 60) ? between(prng, 2, 5) : 0;
    for (unsigned rule = 5; rule >= 2; rule--) {
        unsigned breaks = alone != 0 ? rule == alone : between(prng, 0, 2);
        while (breaks-- > 0) {
            struct refusal refusal = break_rule(prng, table, rule);
            if (refusal.number != 0 && (first->number == 0 || comes_before(refusal, *first)))
                *first = refusal;
        }
    }
}

void make_broken(struct prng *prng, struct made *made)
{
    struct table table;
    const struct shape *shape = chance(prng, WHOLE_FILE_PERCENT) ? &full_shape : &medium_shape;
    made->expected = (struct refusal){0, 0, 0};
    while (made->expected.number == 0) {
        random_table(prng, shape, &table);
        break_table(prng, &table, &made->expected);
    }
    made->length = encode_table(&table, made->bytes, 0);
}
