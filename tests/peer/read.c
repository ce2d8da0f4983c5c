#include "read.h"

#include <stdbool.h>
#include <string.h>

enum { TAG_HEADER = 1, TAG_SUBSYSTEM = 2, TAG_TASK = 3 };
enum { TAG_AND_LENGTH = 3, HEADER_LENGTH = 3, SUBSYSTEM_LENGTH = 9, TASK_LENGTH = 12 };

struct walk {
    const uint8_t *file;
    size_t length;
    size_t offset; // of the current field
    const uint8_t *value;
    unsigned refusal;
};

static uint32_t number_at(const uint8_t *bytes)
{
    return (uint32_t)bytes[0] << 24 | (uint32_t)bytes[1] << 16 | (uint32_t)bytes[2] << 8 | bytes[3];
}

static bool refuse(struct walk *walk, unsigned number)
{
    walk->refusal = number;
    return false;
}

// Judges the field at the current offset up to its last value byte and lends its value.
// The offset stays: what the value says can still be refused at this field.
static bool open_field(struct walk *walk, unsigned tag_due, size_t length_due)
{
    const uint8_t *field = walk->file + walk->offset;
    size_t left = walk->length - walk->offset;
    if (left < TAG_AND_LENGTH)
        return refuse(walk, 11);
    if (field[0] != tag_due)
        return refuse(walk, 12);
    if (((size_t)field[1] << 8 | field[2]) != length_due)
        return refuse(walk, 13);
    if (left - TAG_AND_LENGTH < length_due)
        return refuse(walk, 11);
    walk->value = field + TAG_AND_LENGTH;
    return true;
}

static void close_field(struct walk *walk, size_t length)
{
    walk->offset += TAG_AND_LENGTH + length;
}

static bool read_header(struct walk *walk, struct table *table)
{
    if (!open_field(walk, TAG_HEADER, HEADER_LENGTH))
        return false;
    unsigned version = walk->value[0], subsystems = walk->value[1], resources = walk->value[2];
    if (version != 1 || subsystems < 1 || subsystems > MAX_SUBSYSTEMS || resources > MAX_RESOURCES)
        return refuse(walk, 14);
    table->subsystems = subsystems;
    table->resources = resources;
    close_field(walk, HEADER_LENGTH);
    return true;
}

static bool read_task(struct walk *walk, unsigned resources, struct task *task)
{
    size_t length = TASK_LENGTH + 4 * (size_t)resources;
    if (!open_field(walk, TAG_TASK, length))
        return false;
    task->separation = number_at(walk->value);
    task->work = number_at(walk->value + 4);
    task->deadline = number_at(walk->value + 8);
    for (unsigned l = 0; l < resources; l++)
        task->access[l] = number_at(walk->value + 12 + 4 * l);
    close_field(walk, length);
    return true;
}

static bool read_subsystem(struct walk *walk, unsigned resources, struct subsystem *subsystem)
{
    if (!open_field(walk, TAG_SUBSYSTEM, SUBSYSTEM_LENGTH))
        return false;
    subsystem->period = number_at(walk->value);
    subsystem->budget = number_at(walk->value + 4);
    unsigned tasks = walk->value[8];
    if (tasks < 1 || tasks > MAX_TASKS)
        return refuse(walk, 14);
    subsystem->tasks = tasks;
    close_field(walk, SUBSYSTEM_LENGTH);
    for (unsigned i = 0; i < tasks; i++)
        if (!read_task(walk, resources, &subsystem->task[i]))
            return false;
    return true;
}

static bool read_fields(struct walk *walk, struct table *table)
{
    if (!read_header(walk, table))
        return false;
    for (unsigned s = 0; s < table->subsystems; s++)
        if (!read_subsystem(walk, table->resources, &table->subsystem[s]))
            return false;
    if (walk->offset < walk->length)
        return refuse(walk, 15);
    return true;
}

struct read_answer read_table(const uint8_t *file, size_t length, struct table *table)
{
    struct walk walk = {.file = file, .length = length};
    memset(table, 0, sizeof *table);
    if (read_fields(&walk, table))
        return (struct read_answer){0, 0};
    memset(table, 0, sizeof *table);
    return (struct read_answer){walk.refusal, walk.offset};
}
