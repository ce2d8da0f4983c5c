// A table as a stored file, whatever its times are.
#ifndef PEER_ENCODE_H
#define PEER_ENCODE_H

#include <stddef.h>
#include <stdint.h>

#include "table.h"

enum { LARGEST_FILE = 3110, MAX_FIELDS = 1 + MAX_SUBSYSTEMS * (1 + MAX_TASKS) };

// Where each field begins, for those who want to damage one.
struct fields {
    unsigned count;
    size_t offset[MAX_FIELDS];
};

// `bytes` has room for LARGEST_FILE; gives the file's length. `fields` may be null.
size_t encode_table(const struct table *table, uint8_t *bytes, struct fields *fields);

#endif
