// Tables that use the limits: mostly N 8, n 8 and M 8, times up to 1,000,000. Deadlines and
// jobs are held down so far that the fast engine needs milliseconds for each.
#include "encode.h"
#include "fast.h"
#include "profiles.h"
#include "random_table.h"

enum { MOMENTS_TO = 1500000, MANY_MOMENTS_TO = 10000000, JOBS_TO = 6000 };

static struct shape large_shape(struct prng *prng)
{
    struct shape shape = full_shape;
    shape.period_to = between_by_size(prng, 300, MAX_TIME);
    shape.period_from = shape.period_to / between(prng, 2, 20);
    shape.work_to = shape.period_to / between(prng, 20, 400) + 1;
    if (chance(prng, 15))
        shape.percent_to = 110;
    if (chance(prng, 25)) {
        shape.tasks_to = 2; // long deadlines are affordable with few tasks
    } else if (chance(prng, 80)) {
        shape.subsystems_from = 8;
        shape.resources_from = 8;
        shape.tasks_from = 8;
    }
    shape.slack_from = between(prng, 80, 400);
    shape.slack_to = 3 * shape.slack_from;
    shape.access_percent = between(prng, 3, 30);
    return shape;
}

// Cuts deadlines above `longest`, down to the work at most; gives the divisions that trying
// all moments of all tasks would then take.
static uint64_t shorten_to(struct prng *prng, uint32_t longest, struct table *table)
{
    uint64_t divisions = 0;
    for (unsigned s = 0; s < table->subsystems; s++)
        for (unsigned i = 0; i < table->subsystem[s].tasks; i++) {
            struct task *task = &table->subsystem[s].task[i];
            if (task->deadline > longest)
                task->deadline = between(prng, longest / 2 + 1, longest);
            if (task->deadline < task->work)
                task->deadline = task->work;
            divisions += (uint64_t)task->deadline * (i + 1);
        }
    return divisions;
}

// Shortens the longest deadlines until all moments of all tasks are few enough to try.
static void shorten_deadlines(struct prng *prng, struct table *table)
{
    uint32_t longest = MAX_TIME;
    uint64_t affordable = chance(prng, 5) ? MANY_MOMENTS_TO : MOMENTS_TO;
    while (shorten_to(prng, longest, table) > affordable && longest > 3)
        longest = longest / 4 * 3;
}

static bool few_jobs(const struct table *table)
{
    struct report report;
    uint64_t jobs = 0;
    fast_report(table, &report);
    for (unsigned s = 0; s < report.rows; s++)
        jobs += report.row[s].jobs;
    return jobs <= JOBS_TO;
}

void make_large(struct prng *prng, struct made *made)
{
    struct table table;
    do {
        struct shape shape = large_shape(prng);
        random_table(prng, &shape, &table);
        shorten_deadlines(prng, &table);
    } while (!few_jobs(&table));
    made->length = encode_table(&table, made->bytes, 0);
}
