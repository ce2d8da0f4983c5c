#include "judge.h"

static bool time_out_of_range(uint32_t time)
{
    return time < 1 || time > MAX_TIME;
}

static bool task_out_of_range(const struct task *task, unsigned resources)
{
    if (time_out_of_range(task->separation) || time_out_of_range(task->work) ||
        time_out_of_range(task->deadline))
        return true;
    for (unsigned l = 0; l < resources; l++)
        if (task->access[l] > MAX_TIME)
            return true;
    return false;
}

static bool access_past_work(const struct task *task, unsigned resources)
{
    for (unsigned l = 0; l < resources; l++)
        if (task->access[l] > task->work)
            return true;
    return false;
}

static bool subsystem_breaks(unsigned rule, const struct subsystem *subsystem)
{
    if (rule == 2)
        return time_out_of_range(subsystem->period) || time_out_of_range(subsystem->budget);
    return rule == 3 && subsystem->budget > subsystem->period;
}

static bool task_breaks(unsigned rule, const struct task *task, unsigned resources)
{
    if (rule == 2)
        return task_out_of_range(task, resources);
    if (rule == 3)
        return task->work > task->deadline || task->deadline > task->separation;
    return access_past_work(task, resources);
}

// The lowest place that breaks the rule, the subsystem's own times before its tasks.
static struct refusal judge_rule(unsigned rule, const struct table *table)
{
    for (unsigned s = 0; s < table->subsystems; s++) {
        const struct subsystem *subsystem = &table->subsystem[s];
        if (subsystem_breaks(rule, subsystem))
            return (struct refusal){rule, s + 1, 0};
        for (unsigned i = 0; i < subsystem->tasks; i++)
            if (task_breaks(rule, &subsystem->task[i], table->resources))
                return (struct refusal){rule, s + 1, i + 1};
    }
    return (struct refusal){0, 0, 0};
}

struct refusal judge_times(const struct table *table)
{
    for (unsigned rule = 2; rule <= 4; rule++) {
        struct refusal refusal = judge_rule(rule, table);
        if (refusal.number != 0)
            return refusal;
    }
    return (struct refusal){0, 0, 0};
}
