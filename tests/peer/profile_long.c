// Files around and beyond the 4,096 bytes that are judged: a table, good or damaged, with
// as much behind it as the length wanted needs.
#include <string.h>

#include "encode.h"
#include "profiles.h"
#include "random_table.h"

// What stands behind the table: nothing but zeros, noise, or the table over and over.
static void fill_up(struct prng *prng, struct made *made, size_t wanted)
{
    unsigned kind = between(prng, 0, 2);
    size_t table_length = made->length > 0 ? made->length : 1;
    for (size_t b = made->length; b < wanted; b++)
        made->bytes[b] = kind == 0 ? 0 : kind == 1 ? (uint8_t)draw(prng) : made->bytes[b % table_length];
    made->length = wanted;
}

static void largest_table(struct prng *prng, struct table *table)
{
    struct shape shape = full_shape;
    shape.subsystems_from = shape.resources_from = shape.tasks_from = 8;
    random_table(prng, &shape, table);
}

void make_long(struct prng *prng, struct made *made)
{
    static const uint32_t lengths[] = {3109, 3110, 3111, 4094, 4095, 4096, 4097, 4098, 8192, 10000, 16000};
    struct table table;
    if (chance(prng, 35))
        largest_table(prng, &table);
    else
        random_table(prng, &full_shape, &table);
    made->length = encode_table(&table, made->bytes, 0);
    if (chance(prng, 20))
        made->length = between(prng, 0, (uint32_t)made->length);
    if (chance(prng, 15))
        made->bytes[between(prng, 0, made->length > 0 ? (uint32_t)made->length - 1 : 0)] ^= 1;
    size_t wanted = chance(prng, 75) ? lengths[between(prng, 0, 10)] : between(prng, 3100, 12000);
    if (wanted > made->length)
        fill_up(prng, made, wanted);
}
