// The reader of stored tables.
#ifndef PEER_READ_H
#define PEER_READ_H

#include <stddef.h>
#include <stdint.h>

#include "table.h"

enum { FILE_BYTES_JUDGED = 4096 };

// Number 0: the file was read. Otherwise the number of the refusal and the offset it names.
struct read_answer {
    unsigned number;
    size_t offset;
};

// Fills the table; slots past the counts are zero, and so is the whole table when the file
// is refused. Times are not judged here.
struct read_answer read_table(const uint8_t *file, size_t length, struct table *table);

#endif
