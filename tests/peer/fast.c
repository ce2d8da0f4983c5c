#include "fast.h"

#include "judge.h"
#include "prepared.h"
#include "slips.h"

// Admitted times keep every sum here below 2^28: x stays at or below the horizon, and a
// load is at most its period. So 32 bits carry all of it.
static inline uint32_t up(uint32_t a, uint32_t b)
{
    return SLIP_UP ? a / b + 1 : (a + b - 1) / b;
}

static inline uint32_t interference(const struct load *loads, unsigned count, uint32_t x)
{
    uint32_t sum = 0;
    for (unsigned t = 0; t < count; t++)
        sum += up(x, loads[t].period) * loads[t].load;
    return sum;
}

// The least solution of x = constant + interference that is not below the start, where a
// solution is known to exist.
static uint32_t least_from(uint32_t start, uint32_t constant, const struct load *loads, unsigned count)
{
    uint32_t x = start;
    for (;;) {
        uint32_t next = constant + interference(loads, count, x);
        if (next == x || (SLIPPING && next > 4 * HORIZON))
            return x;
        x = next;
    }
}

// Step 5: the first moment up to `last` at which the supply meets the demand, or 0.
static uint32_t first_moment(const struct subsystem *subsystem, uint32_t holding, unsigned i,
                             uint32_t blocking, uint32_t last)
{
    const uint32_t period = subsystem->period, budget = subsystem->budget;
    const uint32_t early = SLIP_P_FOR_E ? period : period - holding;
    const uint32_t gap = early - budget, longest_gap = gap + period - budget;
    const uint32_t constant = blocking + subsystem->task[i].work;
    struct load above[MAX_TASKS];
    for (unsigned j = 0; j < i; j++)
        above[j] = (struct load){subsystem->task[j].separation, subsystem->task[j].work};
    for (uint32_t x = 1; x <= last; x++) {
        if (x < gap)
            continue;
        uint32_t whole = (x - gap) / period;
        uint32_t without = longest_gap + whole * period;
        uint32_t supply = whole * budget + (x > without ? x - without : 0);
        if (constant + interference(above, i, x) <= supply)
            return x;
    }
    return 0;
}

static uint32_t first_failing_task(const struct subsystem *subsystem, const struct prepared *prepared,
                                   unsigned s)
{
    uint32_t blockings[MAX_TASKS];
    task_blockings(subsystem, prepared, s, blockings);
    for (unsigned i = 0; i < subsystem->tasks; i++) {
        uint32_t last = subsystem->task[i].deadline - (SLIP_BEFORE_DEADLINE ? 1 : 0);
        if (first_moment(subsystem, prepared->holding[s], i, blockings[i], last) == 0)
            return i + 1;
    }
    return 0;
}

// Step 7. Only here a search can be without a solution, so only here the horizon is asked.
static bool find_active_period(const struct prepared *prepared, unsigned s, uint32_t blocking,
                               uint32_t *end)
{
    const uint32_t horizon = HORIZON - SLIP_HORIZON_BELOW + SLIP_HORIZON_ABOVE;
    uint32_t x = SLIP_ZERO && blocking == 0 ? 0 : 1;
    for (;;) {
        uint32_t next = blocking + interference(prepared->load, s + 1, x);
        if (next == x)
            break;
        if (next > horizon)
            return false;
        x = next;
    }
    *end = x;
    return true;
}

struct job_end {
    uint32_t end;
    uint32_t resource;
};

// Step 10: the latest end over the resources the subsystem uses, and the lowest of them
// that reaches it. `constant` is what the budget end's equation had.
static struct job_end latest_end(const struct prepared *prepared, unsigned s, uint32_t constant,
                                 uint32_t budget_end)
{
    const struct load *loads = prepared->load;
    uint32_t from[MAX_SUBSYSTEMS + 1]; // interference up to the budget's end by from..s-1
    struct job_end latest = {budget_end, 0};
    from[s] = 0;
    for (unsigned t = s; t > prepared->lowest_outer[s]; t--)
        from[t - 1] = from[t] + up(budget_end, loads[t - 1].period) * loads[t - 1].load;
    for (unsigned h = 0; h < prepared->held_count[s]; h++) {
        const struct held *held = &prepared->held[s][h];
        uint32_t holding = SLIP_WHOLE_HOLDING ? prepared->holding[s] : held->holding;
        unsigned outer = SLIP_OVERRUN_PREEMPTED ? s : held->outer;
        uint32_t end = least_from(budget_end + holding, constant + holding + from[outer], loads, outer);
        if (end > latest.end || (SLIP_HIGHEST_RESOURCE && end == latest.end))
            latest = (struct job_end){end, held->resource};
    }
    return latest;
}

// Where the jobs of a row stand: the constant of the current job's equations, a start for
// its budget end, and its release.
struct job {
    uint32_t constant;
    uint32_t start;
    uint32_t release;
};

// Ends the current job and goes on to the next. One job more adds Q + X to the constant,
// and its budget ends at least that much later; this is where the next search starts.
static inline struct job_end end_job(const struct prepared *prepared, unsigned s, struct job *job)
{
    const struct load *own = &prepared->load[s];
    uint32_t budget_end = least_from(job->start, job->constant, prepared->load, s);
    struct job_end latest = latest_end(prepared, s, job->constant, budget_end);
    latest.end -= job->release;
    job->constant += own->load;
    job->start = budget_end + own->load;
    job->release += own->period;
    return latest;
}

// Steps 9 to 11.
static void judge_jobs(const struct prepared *prepared, unsigned s, uint32_t budget, struct row *row)
{
    const uint32_t jobs = SLIP_ONLY_JOB_0 && row->jobs > 0 ? 1 : row->jobs;
    struct job job = {row->blocking + budget, row->blocking + budget, 0};
    for (uint32_t k = 0; k < jobs; k++) {
        struct job_end response = end_job(prepared, s, &job);
        if (response.end > row->response || (SLIP_LAST_JOB && response.end == row->response)) {
            row->response = response.end;
            row->job = k;
            row->resource = response.resource;
        }
    }
    uint32_t period = prepared->load[s].period;
    bool fits = SLIP_LATE_AT_P ? row->response < period : row->response <= period;
    row->outcome = fits ? OUTCOME_FITS : OUTCOME_LATE;
}

static void fill_row(const struct subsystem *subsystem, const struct prepared *prepared, unsigned s,
                     struct row *row)
{
    *row = (struct row){.holding = prepared->holding[s], .blocking = subsystem_blocking(prepared, s)};
    if (!find_active_period(prepared, s, row->blocking, &row->active_period))
        return;
    row->jobs = up(row->active_period, subsystem->period);
    judge_jobs(prepared, s, subsystem->budget, row);
}

void fast_report(const struct table *table, struct report *report)
{
    struct prepared prepared;
    report->accepted = false;
    report->rows = 0;
    report->refusal = judge_times(table);
    if (report->refusal.number == 0)
        report->refusal = prepare(table, &prepared);
    if (report->refusal.number != 0)
        return;
    report->rows = table->subsystems;
    report->accepted = true;
    for (unsigned s = 0; s < table->subsystems; s++) {
        struct row *row = &report->row[s];
        fill_row(&table->subsystem[s], &prepared, s, row);
        row->first_failing = first_failing_task(&table->subsystem[s], &prepared, s);
        if (row->first_failing != 0 || row->outcome != OUTCOME_FITS)
            report->accepted = false;
    }
}

bool row_without_tasks(const struct table *table, unsigned s, struct row *row)
{
    struct prepared prepared;
    if (prepare(table, &prepared).number != 0)
        return false;
    fill_row(&table->subsystem[s], &prepared, s, row);
    return true;
}

uint32_t jobs_reaching_response(const struct table *table, unsigned s)
{
    struct prepared prepared;
    struct row row;
    uint32_t reaching = 0;
    if (prepare(table, &prepared).number != 0)
        return 0;
    fill_row(&table->subsystem[s], &prepared, s, &row);
    struct job job = {row.blocking + table->subsystem[s].budget, 0, 0};
    job.start = job.constant;
    for (uint32_t k = 0; k < row.jobs; k++)
        reaching += end_job(&prepared, s, &job).end == row.response;
    return reaching;
}

uint32_t moment_of_task(const struct table *table, unsigned s, unsigned i, uint32_t last)
{
    struct prepared prepared;
    uint32_t blockings[MAX_TASKS];
    const struct subsystem *subsystem = &table->subsystem[s];
    if (prepare(table, &prepared).number != 0)
        return 0;
    task_blockings(subsystem, &prepared, s, blockings);
    return first_moment(subsystem, prepared.holding[s], i, blockings[i], last);
}
