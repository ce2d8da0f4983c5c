#include "random_table.h"

#include <string.h>

#include "definitions.h"
#include "fast.h"

const struct shape tiny_shape = {.subsystems_from = 1, .subsystems_to = 4, .resources_from = 0,
    .resources_to = 3, .tasks_from = 1, .tasks_to = 3, .period_from = 2, .period_to = 14, .work_to = 3,
    .percent_from = 50, .percent_to = 108, .slack_from = 60, .slack_to = 300,
    .access_percent = 45, .stretch_percent = 25,
    .tight_percent = 70, .alike_percent = 35};
const struct shape medium_shape = {.subsystems_from = 1, .subsystems_to = 5, .resources_from = 0,
    .resources_to = 4, .tasks_from = 1, .tasks_to = 4, .period_from = 8, .period_to = 80, .work_to = 12,
    .percent_from = 50, .percent_to = 102, .slack_from = 60, .slack_to = 300,
    .access_percent = 35, .stretch_percent = 25,
    .tight_percent = 70, .alike_percent = 20};
const struct shape full_shape = {.subsystems_from = 1, .subsystems_to = 8, .resources_from = 0,
    .resources_to = 8, .tasks_from = 1, .tasks_to = 8, .period_from = 60, .period_to = 400, .work_to = 6,
    .percent_from = 30, .percent_to = 98, .slack_from = 80, .slack_to = 500,
    .access_percent = 25, .stretch_percent = 10,
    .tight_percent = 30, .alike_percent = 10};

enum { LITERAL_STEPS = 1500000, NONE_KEPT_PERCENT = 40 };

static uint32_t smaller(uint64_t a, uint64_t b)
{
    return (uint32_t)(a < b ? a : b);
}

static uint32_t random_period(struct prng *prng, const struct shape *shape, bool alike)
{
    static const uint32_t multiples[] = {1, 2, 3, 4, 6, 12};
    if (!alike)
        return between(prng, shape->period_from, shape->period_to);
    return smaller((uint64_t)shape->period_from * multiples[between(prng, 0, 5)], MAX_TIME);
}

// The separation leaves the task a share of the budget that is sometimes enough and
// sometimes not; D is T, or less.
static void random_task(struct prng *prng, const struct shape *shape, const struct subsystem *subsystem,
                        uint32_t load, struct task *task)
{
    task->work = between(prng, 1, shape->work_to < load ? shape->work_to : load);
    uint32_t slack_periods = (uint32_t)((uint64_t)subsystem->period * shape->slack_to / 100);
    uint64_t fair = (uint64_t)task->work * subsystem->tasks * subsystem->period / load;
    uint64_t separation = fair * between(prng, shape->slack_from, shape->slack_to) / 100;
    separation += between(prng, 0, slack_periods);
    task->separation = smaller(separation, MAX_TIME);
    if (task->separation < task->work)
        task->separation = task->work;
    task->deadline = task->separation;
    if (chance(prng, 50))
        task->deadline = between(prng, task->separation / 2, task->separation);
    if (task->deadline < task->work)
        task->deadline = task->work;
}

// Short accesses are more frequent than a fair draw would make them: they are what ties
// between resources come from.
static void random_accesses(struct prng *prng, const struct shape *shape, unsigned resources,
                            struct task *task)
{
    for (unsigned l = 0; l < resources; l++)
        if (chance(prng, shape->access_percent))
            task->access[l] = between(prng, 1, chance(prng, 50) && task->work > 2 ? 2 : task->work);
}

// An overrun longer than the budget: the one whose preemptions the rules leave out.
static void stretch_access(struct prng *prng, struct table *table, struct subsystem *subsystem,
                           uint32_t load)
{
    struct task *task = &subsystem->task[between(prng, 0, subsystem->tasks - 1)];
    uint32_t access = between(prng, load / 2, load - 1);
    if (access < 1 || table->resources == 0)
        return;
    task->access[between(prng, 0, table->resources - 1)] = access;
    if (task->work < access)
        task->work = access;
    if (task->deadline < task->work)
        task->deadline = task->work;
    if (task->separation < task->deadline)
        task->separation = task->deadline;
}

// Takes accesses away until the overrun leaves room for a budget in the load.
static void trim_holding(struct prng *prng, struct table *table, unsigned s, uint32_t load)
{
    struct subsystem *subsystem = &table->subsystem[s];
    while (holding(table, s + 1) >= load) {
        struct task *task = &subsystem->task[between(prng, 0, subsystem->tasks - 1)];
        task->access[between(prng, 0, table->resources - 1)] = 0;
    }
    subsystem->budget = load - (uint32_t)holding(table, s + 1);
}

static void random_subsystem(struct prng *prng, const struct shape *shape, struct table *table, unsigned s,
                             uint32_t load)
{
    struct subsystem *subsystem = &table->subsystem[s];
    subsystem->tasks = between(prng, shape->tasks_from, shape->tasks_to);
    for (unsigned i = 0; i < subsystem->tasks; i++) {
        random_task(prng, shape, subsystem, load, &subsystem->task[i]);
        random_accesses(prng, shape, table->resources, &subsystem->task[i]);
    }
    if (chance(prng, shape->stretch_percent))
        stretch_access(prng, table, subsystem, load);
    trim_holding(prng, table, s, load);
}

// Where an overrun is spared preemptions, its first job responds before the active period
// of a lone job is over. A period between the two gives several jobs that can still fit.
static void tighten_period(struct prng *prng, struct table *table, unsigned s)
{
    struct row row;
    struct subsystem *subsystem = &table->subsystem[s];
    uint32_t before = subsystem->period;
    subsystem->period = smaller(32 * (uint64_t)before, MAX_TIME);
    bool admitted = row_without_tasks(table, s, &row);
    subsystem->period = before;
    if (admitted && row.jobs == 1 && row.response < row.active_period)
        subsystem->period = between(prng, row.response, row.active_period - 1);
}

void random_table(struct prng *prng, const struct shape *shape, struct table *table)
{
    uint32_t weight[MAX_SUBSYSTEMS], weights = 0;
    bool alike = chance(prng, shape->alike_percent);
    uint32_t percent = between(prng, shape->percent_from, shape->percent_to);
    memset(table, 0, sizeof *table);
    table->subsystems = between(prng, shape->subsystems_from, shape->subsystems_to);
    table->resources = between(prng, shape->resources_from, shape->resources_to);
    for (unsigned s = 0; s < table->subsystems; s++)
        weights += weight[s] = between(prng, 1, 10);
    for (unsigned s = 0; s < table->subsystems; s++) {
        uint32_t period = random_period(prng, shape, alike);
        uint64_t parts = (uint64_t)period * percent * weight[s];
        uint64_t whole = 100 * (uint64_t)weights;
        uint64_t load = (parts + between(prng, 0, (uint32_t)whole - 1)) / whole;
        table->subsystem[s].period = period;
        random_subsystem(prng, shape, table, s, load < 1 ? 1 : smaller(load, period));
    }
    for (unsigned s = 0; s < table->subsystems; s++)
        if (chance(prng, shape->tight_percent))
            tighten_period(prng, table, s);
}

static uint64_t steps_of_row(const struct row *row, unsigned s, unsigned resources)
{
    if (row->outcome == OUTCOME_NONE)
        return (uint64_t)HORIZON * (s + 1);
    return (uint64_t)row->jobs * row->active_period * (s + 1) * (1 + resources) / 2;
}

uint64_t literal_steps(const struct table *table)
{
    struct report report;
    uint64_t steps = 0;
    fast_report(table, &report);
    for (unsigned s = 0; s < report.rows; s++)
        steps += steps_of_row(&report.row[s], s, table->resources);
    return steps;
}

void random_table_for_literal(struct prng *prng, const struct shape *shape, struct table *table)
{
    for (;;) {
        random_table(prng, shape, table);
        uint64_t steps = literal_steps(table);
        if (steps < LITERAL_STEPS)
            return;
        // Rows that are none in the upper part of the table, and nothing else that is long.
        bool none = steps >= HORIZON && steps % HORIZON < LITERAL_STEPS && steps / HORIZON <= 8;
        if (none && chance(prng, NONE_KEPT_PERCENT))
            return;
    }
}
