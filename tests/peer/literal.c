#include "literal.h"

#include <stdio.h>
#include <stdlib.h>

#include "definitions.h"
#include "judge.h"
#include "ways.h"

// x = constant + sum over its terms of Up(x, period) * load.
struct equation {
    uint64_t constant;
    unsigned terms;
    uint64_t period[MAX_SUBSYSTEMS];
    uint64_t load[MAX_SUBSYSTEMS];
};

// The subsystems first..last preempt up to x itself.
static void add_terms(struct equation *equation, const struct table *table, unsigned first, unsigned last)
{
    for (unsigned t = first; t <= last; t++) {
        equation->period[equation->terms] = subsystem_at(table, t)->period;
        equation->load[equation->terms] = subsystem_at(table, t)->budget + holding(table, t);
        equation->terms++;
    }
}

// The least solution from 1 to the bound, or 0. Along with x the right side is counted:
// Up(x, P) is 1 at the start and rises by one whenever x steps past a multiple of P.
static uint64_t count_up(const struct equation *equation, uint64_t bound)
{
    uint64_t left[MAX_SUBSYSTEMS], right_side = equation->constant;
    for (unsigned t = 0; t < equation->terms; t++) {
        left[t] = equation->period[t];
        right_side += equation->load[t];
    }
    for (uint64_t x = 1; x <= bound; x++) {
        if (x == right_side)
            return x;
        for (unsigned t = 0; t < equation->terms; t++)
            if (--left[t] == 0) {
                left[t] = equation->period[t];
                right_side += equation->load[t];
            }
    }
    return 0;
}

// Steps 9 and 10 always have a solution up to L; if this one has none, the rules and this
// program do not agree, and no text may come out.
static uint64_t count_up_to_active_period(const struct equation *equation, uint64_t active_period)
{
    uint64_t x = count_up(equation, active_period);
    if (x == 0) {
        fprintf(stderr, "peer: a job without an end inside the active period\n");
        abort();
    }
    return x;
}

static bool task_passes(const struct table *table, unsigned s, unsigned i)
{
    const struct subsystem *subsystem = subsystem_at(table, s);
    uint64_t early = subsystem->period - holding(table, s);
    uint64_t constant = task_blocking(table, s, i) + task_at(table, s, i)->work;
    for (uint64_t x = 1; x <= task_at(table, s, i)->deadline; x++) {
        uint64_t demand = constant;
        for (unsigned j = 1; j < i; j++)
            demand += up(x, task_at(table, s, j)->separation) * task_at(table, s, j)->work;
        if (demand <= supply(subsystem->period, subsystem->budget, early, x))
            return true;
    }
    return false;
}

static unsigned first_failing_task(const struct table *table, unsigned s)
{
    for (unsigned i = 1; i <= subsystem_at(table, s)->tasks; i++)
        if (!task_passes(table, s, i))
            return i;
    return 0;
}

static uint64_t active_period(const struct table *table, unsigned s)
{
    struct equation equation = {.constant = blocking(table, s)};
    add_terms(&equation, table, 1, s);
    return count_up(&equation, HORIZON);
}

// What steps 9 and 10 have in common: blocking, the jobs before this one, its own budget.
static uint64_t constant_of_job(const struct table *table, unsigned s, uint64_t k)
{
    uint64_t budget = subsystem_at(table, s)->budget;
    return blocking(table, s) + k * (budget + holding(table, s)) + budget;
}

static uint64_t budget_end(const struct table *table, unsigned s, uint64_t k, uint64_t active_period)
{
    struct equation equation = {.constant = constant_of_job(table, s, k)};
    add_terms(&equation, table, 1, s - 1);
    return count_up_to_active_period(&equation, active_period);
}

static uint64_t job_end(const struct table *table, unsigned s, uint64_t k, unsigned l, uint64_t budget_end,
                        uint64_t active_period)
{
    unsigned ceiling = outer_ceiling(table, l);
    struct equation equation = {.constant = constant_of_job(table, s, k)};
    equation.constant += holding_of_resource(table, s, l);
    for (unsigned t = ceiling; t < s; t++)
        equation.constant += up(budget_end, subsystem_at(table, t)->period) *
                             (subsystem_at(table, t)->budget + holding(table, t));
    add_terms(&equation, table, 1, ceiling - 1);
    return count_up_to_active_period(&equation, active_period);
}

// Takes the response over only if it is larger, so the first job and in it the lowest
// resource stay named.
static void take_response(struct row *row, uint64_t response, uint64_t k, unsigned l)
{
    if (response <= row->response)
        return;
    row->response = (uint32_t)response;
    row->job = (uint32_t)k;
    row->resource = l;
}

static void judge_job(const struct table *table, unsigned s, uint64_t k, struct row *row)
{
    uint64_t release = k * subsystem_at(table, s)->period;
    uint64_t end = budget_end(table, s, k, row->active_period);
    if (holding(table, s) == 0) {
        take_response(row, end - release, k, 0);
        return;
    }
    for (unsigned l = 1; l <= table->resources; l++)
        if (holding_of_resource(table, s, l) > 0)
            take_response(row, job_end(table, s, k, l, end, row->active_period) - release, k, l);
}

static void fill_row(const struct table *table, unsigned s, struct row *row)
{
    uint64_t period = subsystem_at(table, s)->period;
    *row = (struct row){.holding = (uint32_t)holding(table, s),
                        .first_failing = first_failing_task(table, s),
                        .blocking = (uint32_t)blocking(table, s)};
    row->active_period = (uint32_t)active_period(table, s);
    if (row->active_period == 0)
        return;
    row->jobs = (uint32_t)up(row->active_period, period);
    for (uint64_t k = 0; k < row->jobs; k++)
        judge_job(table, s, k, row);
    row->outcome = row->response <= period ? OUTCOME_FITS : OUTCOME_LATE;
}

static struct refusal judge(const struct table *table)
{
    struct refusal refusal = judge_times(table);
    for (unsigned s = 1; refusal.number == 0 && s <= table->subsystems; s++)
        if (subsystem_at(table, s)->budget + holding(table, s) > subsystem_at(table, s)->period)
            refusal = (struct refusal){5, s, 0};
    return refusal;
}

void literal_report(const struct table *table, bool ways, struct report *report)
{
    *report = (struct report){.refusal = judge(table)};
    if (report->refusal.number != 0)
        return;
    report->rows = table->subsystems;
    report->accepted = true;
    for (unsigned s = 1; s <= table->subsystems; s++) {
        struct row *row = &report->row[s - 1];
        if (ways)
            check_ways(subsystem_at(table, s)->period, subsystem_at(table, s)->budget, holding(table, s));
        fill_row(table, s, row);
        if (row->first_failing != 0 || row->outcome != OUTCOME_FITS)
            report->accepted = false;
    }
}
