#include "encode.h"

static uint8_t *put_time(uint8_t *at, uint32_t time)
{
    at[0] = (uint8_t)(time >> 24);
    at[1] = (uint8_t)(time >> 16);
    at[2] = (uint8_t)(time >> 8);
    at[3] = (uint8_t)time;
    return at + 4;
}

static uint8_t *put_head(uint8_t *at, uint8_t tag, size_t length)
{
    at[0] = tag;
    at[1] = (uint8_t)(length >> 8);
    at[2] = (uint8_t)length;
    return at + 3;
}

static uint8_t *put_task(uint8_t *at, const struct task *task, unsigned resources)
{
    at = put_head(at, 3, 12 + 4 * (size_t)resources);
    at = put_time(at, task->separation);
    at = put_time(at, task->work);
    at = put_time(at, task->deadline);
    for (unsigned l = 0; l < resources; l++)
        at = put_time(at, task->access[l]);
    return at;
}

static uint8_t *put_subsystem(uint8_t *at, const struct subsystem *subsystem)
{
    at = put_head(at, 2, 9);
    at = put_time(at, subsystem->period);
    at = put_time(at, subsystem->budget);
    *at = (uint8_t)subsystem->tasks;
    return at + 1;
}

static void note(struct fields *fields, const uint8_t *start, const uint8_t *at)
{
    if (fields != 0)
        fields->offset[fields->count++] = (size_t)(at - start);
}

size_t encode_table(const struct table *table, uint8_t *bytes, struct fields *fields)
{
    uint8_t *at = bytes;
    if (fields != 0)
        fields->count = 0;
    note(fields, bytes, at);
    at = put_head(at, 1, 3);
    *at++ = 1;
    *at++ = (uint8_t)table->subsystems;
    *at++ = (uint8_t)table->resources;
    for (unsigned s = 0; s < table->subsystems; s++) {
        const struct subsystem *subsystem = &table->subsystem[s];
        note(fields, bytes, at);
        at = put_subsystem(at, subsystem);
        for (unsigned i = 0; i < subsystem->tasks; i++) {
            note(fields, bytes, at);
            at = put_task(at, &subsystem->task[i], table->resources);
        }
    }
    return (size_t)(at - bytes);
}
