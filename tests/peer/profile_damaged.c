// Stored files that came to harm: cut off, bytes changed, tags, lengths and counts that are
// not due, bytes left over, and things that never were a table.
#include <string.h>

#include "encode.h"
#include "profiles.h"
#include "random_table.h"

enum damage { CUT, BYTE, TAG, LENGTH, COUNT, LEFT_OVER, SWAPPED, NOISE, DAMAGES };

static void random_bytes(struct prng *prng, uint8_t *bytes, size_t count)
{
    for (size_t b = 0; b < count; b++)
        bytes[b] = (uint8_t)draw(prng);
}

static size_t random_field(struct prng *prng, const struct fields *fields)
{
    return fields->offset[between(prng, 0, fields->count - 1)];
}

static void change_byte(struct prng *prng, struct made *made)
{
    if (made->length == 0)
        return;
    size_t at = between(prng, 0, (uint32_t)made->length - 1);
    made->bytes[at] = (uint8_t)draw(prng);
}

static void change_length(struct prng *prng, uint8_t *field)
{
    static const uint16_t lengths[] = {0, 1, 0x00ff, 0x0100, 0x7fff, 0x8000, 0xfffe, 0xffff};
    unsigned length = (unsigned)field[1] << 8 | field[2];
    if (chance(prng, 50))
        length += chance(prng, 50) ? 1 : 0xffff; // one more, or one less
    else
        length = lengths[between(prng, 0, 7)];
    field[1] = (uint8_t)(length >> 8);
    field[2] = (uint8_t)length;
}

// The version, N, M, or the n of a subsystem.
static void change_count(struct prng *prng, const struct table *table, struct made *made)
{
    static const uint8_t counts[] = {0, 1, 2, 7, 8, 9, 10, 127, 128, 255};
    size_t at = 3 + between(prng, 0, 2);
    if (chance(prng, 50)) {
        unsigned last = between(prng, 0, table->subsystems - 1);
        at = 6 + 11;
        for (unsigned s = 0; s < last; s++)
            at += 12 + table->subsystem[s].tasks * (15 + 4 * (size_t)table->resources);
    }
    if (at < made->length)
        made->bytes[at] = counts[between(prng, 0, 9)];
}

static void leave_over(struct prng *prng, struct made *made)
{
    size_t count = 1;
    if (chance(prng, 60))
        count = chance(prng, 60) ? between(prng, 2, 20) : between(prng, 500, 6000);
    random_bytes(prng, made->bytes + made->length, count);
    made->length += count;
}

static void swap_fields(struct prng *prng, const struct fields *fields, struct made *made)
{
    size_t a = random_field(prng, fields), b = random_field(prng, fields);
    size_t count = between(prng, 1, 15);
    uint8_t kept[16];
    if (a + count > made->length || b + count > made->length)
        return;
    memcpy(kept, made->bytes + a, count);
    memmove(made->bytes + a, made->bytes + b, count);
    memcpy(made->bytes + b, kept, count);
}

static void make_noise(struct prng *prng, struct made *made)
{
    made->length = between(prng, 0, chance(prng, 70) ? 12 : 200);
    random_bytes(prng, made->bytes, made->length);
    for (size_t b = 0; b < made->length && b < 6 && chance(prng, 80); b++)
        made->bytes[b] = (uint8_t[]){1, 0, 3, 1, 1, 0}[b];
}

static void do_damage(struct prng *prng, const struct table *table, const struct fields *fields,
                      struct made *made)
{
    size_t field = random_field(prng, fields);
    bool there = field + 3 <= made->length;
    switch ((enum damage)between(prng, 0, DAMAGES - 1)) {
    case CUT: made->length = between(prng, 0, made->length > 0 ? (uint32_t)made->length - 1 : 0); break;
    case BYTE: change_byte(prng, made); break;
    case TAG:
        if (there)
            made->bytes[field] = (uint8_t)(chance(prng, 70) ? between(prng, 0, 4) : draw(prng));
        break;
    case LENGTH:
        if (there)
            change_length(prng, made->bytes + field);
        break;
    case COUNT: change_count(prng, table, made); break;
    case LEFT_OVER: leave_over(prng, made); break;
    case SWAPPED: swap_fields(prng, fields, made); break;
    default: make_noise(prng, made); break;
    }
}

void make_damaged(struct prng *prng, struct made *made)
{
    struct table table;
    struct fields fields;
    random_table_for_literal(prng, chance(prng, 15) ? &full_shape : &tiny_shape, &table);
    made->length = encode_table(&table, made->bytes, &fields);
    do_damage(prng, &table, &fields, made);
    if (chance(prng, 15))
        do_damage(prng, &table, &fields, made);
}
