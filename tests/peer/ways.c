#include "ways.h"

#include <stdbool.h>
#include <stdio.h>
#include <stdlib.h>

#include "definitions.h"

// A window of four periods that begins inside a period touches five.
enum { WINDOW_PERIODS = 4, TOUCHED = 5, CHOICES = 1 << WAYS_PERIOD, WAYS_TOGETHER = 4096 };

// One period's choices: bit p of a choice is set when tick p of the period is given.
struct choices {
    unsigned count;
    unsigned given[CHOICES];
};

static unsigned bits(unsigned set)
{
    unsigned count = 0;
    for (; set != 0; set &= set - 1)
        count++;
    return count;
}

static void list_choices(unsigned budget, unsigned early, struct choices *choices)
{
    choices->count = 0;
    for (unsigned given = 0; given < 1u << early; given++)
        if (bits(given) == budget)
            choices->given[choices->count++] = given;
}

// The ticks of period `which` that lie in the window from `begin` of x ticks.
static unsigned seen_of_period(unsigned period, unsigned which, unsigned begin, unsigned x)
{
    unsigned seen = 0;
    for (unsigned tick = 0; tick < period; tick++) {
        unsigned moment = which * period + tick;
        if (moment >= begin && moment < begin + x)
            seen |= 1u << tick;
    }
    return seen;
}

// Every combination of the choices of all touched periods, one after the other.
static unsigned least_together(const struct choices *choices, const unsigned *seen, unsigned touched)
{
    unsigned chosen[TOUCHED] = {0}, least = ~0u, which;
    do {
        unsigned held = 0;
        for (which = 0; which < touched; which++)
            held += bits(choices->given[chosen[which]] & seen[which]);
        if (held < least)
            least = held;
        for (which = 0; which < touched && ++chosen[which] == choices->count; which++)
            chosen[which] = 0;
    } while (which < touched);
    return least;
}

// No period's choice binds another's, so the least of the sum is the sum of the leasts.
static unsigned least_apart(const struct choices *choices, const unsigned *seen, unsigned touched)
{
    unsigned sum = 0;
    for (unsigned which = 0; which < touched; which++)
        sum += least_together(choices, &seen[which], 1);
    return sum;
}

static bool few_enough(unsigned choices, unsigned touched)
{
    unsigned long together = 1;
    while (touched-- > 0 && together <= WAYS_TOGETHER)
        together *= choices;
    return together <= WAYS_TOGETHER;
}

static unsigned least_in_window(const struct choices *choices, unsigned period, unsigned begin, unsigned x)
{
    unsigned seen[TOUCHED];
    unsigned touched = (begin + x + period - 1) / period;
    for (unsigned which = 0; which < touched; which++)
        seen[which] = seen_of_period(period, which, begin, x);
    if (few_enough(choices->count, touched))
        return least_together(choices, seen, touched);
    return least_apart(choices, seen, touched);
}

// Periods are all alike, so a window that begins in the first stands for every other.
static unsigned least_held(const struct choices *choices, unsigned period, unsigned x)
{
    unsigned least = ~0u;
    for (unsigned begin = 0; begin < period; begin++) {
        unsigned held = least_in_window(choices, period, begin, x);
        if (held < least)
            least = held;
    }
    return least;
}

void check_ways(uint64_t period, uint64_t budget, uint64_t holding)
{
    struct choices choices;
    if (period > WAYS_PERIOD)
        return;
    list_choices((unsigned)budget, (unsigned)(period - holding), &choices);
    for (unsigned x = 1; x <= WINDOW_PERIODS * period; x++) {
        unsigned held = least_held(&choices, (unsigned)period, x);
        if (held == supply(period, budget, period - holding, x))
            continue;
        fprintf(stderr, "peer: P %u Q %u X %u: %u ticks hold %u, not the supply\n", (unsigned)period,
                (unsigned)budget, (unsigned)holding, x, held);
        abort();
    }
}
