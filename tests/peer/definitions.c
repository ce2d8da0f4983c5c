#include "definitions.h"

const struct subsystem *subsystem_at(const struct table *table, unsigned s)
{
    return &table->subsystem[s - 1];
}

const struct task *task_at(const struct table *table, unsigned s, unsigned i)
{
    return &table->subsystem[s - 1].task[i - 1];
}

uint64_t access_at(const struct table *table, unsigned s, unsigned i, unsigned l)
{
    return table->subsystem[s - 1].task[i - 1].access[l - 1];
}

static unsigned tasks_of(const struct table *table, unsigned s)
{
    return table->subsystem[s - 1].tasks;
}

static uint64_t larger(uint64_t a, uint64_t b)
{
    return a > b ? a : b;
}

unsigned inner_ceiling(const struct table *table, unsigned s, unsigned l)
{
    unsigned n = tasks_of(table, s);
    for (unsigned i = 1; i <= n; i++)
        if (access_at(table, s, i, l) > 0)
            return i;
    return n;
}

unsigned outer_ceiling(const struct table *table, unsigned l)
{
    for (unsigned s = 1; s <= table->subsystems; s++)
        for (unsigned i = 1; i <= tasks_of(table, s); i++)
            if (access_at(table, s, i, l) > 0)
                return s;
    return table->subsystems;
}

uint64_t holding_of_task(const struct table *table, unsigned s, unsigned i, unsigned l)
{
    uint64_t sum = access_at(table, s, i, l);
    for (unsigned j = 1; j < inner_ceiling(table, s, l); j++)
        sum += task_at(table, s, j)->work;
    return sum;
}

uint64_t holding_of_resource(const struct table *table, unsigned s, unsigned l)
{
    uint64_t largest = 0;
    for (unsigned i = 1; i <= tasks_of(table, s); i++)
        if (access_at(table, s, i, l) > 0)
            largest = larger(largest, holding_of_task(table, s, i, l));
    return largest;
}

uint64_t holding(const struct table *table, unsigned s)
{
    uint64_t largest = 0;
    for (unsigned l = 1; l <= table->resources; l++)
        largest = larger(largest, holding_of_resource(table, s, l));
    return largest;
}

uint64_t task_blocking(const struct table *table, unsigned s, unsigned i)
{
    uint64_t largest = 0;
    for (unsigned j = i + 1; j <= tasks_of(table, s); j++)
        for (unsigned l = 1; l <= table->resources; l++)
            if (access_at(table, s, j, l) > 0 && inner_ceiling(table, s, l) <= i)
                largest = larger(largest, access_at(table, s, j, l));
    return largest;
}

uint64_t blocking(const struct table *table, unsigned s)
{
    uint64_t largest = 0;
    for (unsigned t = s + 1; t <= table->subsystems; t++)
        for (unsigned l = 1; l <= table->resources; l++)
            if (holding_of_resource(table, t, l) > 0 && outer_ceiling(table, l) <= s)
                largest = larger(largest, holding_of_resource(table, t, l));
    return largest;
}

uint64_t supply(uint64_t period, uint64_t budget, uint64_t early, uint64_t x)
{
    if (x < early - budget)
        return 0;
    uint64_t y = (x - (early - budget)) / period;
    int64_t rest = (int64_t)x - (int64_t)(period + early - 2 * budget) - (int64_t)(y * period);
    return y * budget + (rest > 0 ? (uint64_t)rest : 0);
}

uint64_t up(uint64_t a, uint64_t b)
{
    uint64_t down = a / b;
    return a % b == 0 ? down : down + 1;
}
