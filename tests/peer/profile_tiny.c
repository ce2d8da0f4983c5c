// Tables of a few ticks: many jobs in an active period, responses and job ends that tie,
// late and none side by side with what fits.
#include "encode.h"
#include "fast.h"
#include "profiles.h"
#include "random_table.h"

enum { TRIES = 60, SOUGHT_PERCENT = 20 };

static struct shape some_shape(struct prng *prng)
{
    struct shape shape = tiny_shape;
    if (chance(prng, 10)) {
        shape.subsystems_to = 8;
        shape.resources_to = 8;
        shape.access_percent = 20;
    }
    if (chance(prng, 25))
        shape.period_to = 7;
    if (chance(prng, 35)) { // long overruns under a busy processor: several jobs that fit
        shape.subsystems_from = 2;
        shape.resources_from = 1;
        shape.access_percent = 60;
        shape.stretch_percent = 80;
        shape.tight_percent = 100;
        shape.percent_from = 80;
        shape.percent_to = 100;
    }
    return shape;
}

// A row whose largest response comes at a later job, or at several. Drawn freely, such
// tables are too rare to show who forgets the later jobs or names the wrong one.
static bool later_jobs_matter(const struct table *table)
{
    for (unsigned s = 0; s < table->subsystems; s++) {
        struct row row;
        if (!row_without_tasks(table, s, &row) || row.jobs < 2)
            continue;
        if (row.job > 0 || jobs_reaching_response(table, s) > 1)
            return true;
    }
    return false;
}

void make_tiny(struct prng *prng, struct made *made)
{
    struct table table;
    struct shape shape = some_shape(prng);
    unsigned tries = chance(prng, SOUGHT_PERCENT) ? TRIES : 1;
    do
        random_table_for_literal(prng, &shape, &table);
    while (--tries > 0 && !later_jobs_matter(&table));
    made->length = encode_table(&table, made->bytes, 0);
}
