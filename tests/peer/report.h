// What an engine answers about a table: a refusal by one of the rules, or a row for each
// subsystem.
#ifndef PEER_REPORT_H
#define PEER_REPORT_H

#include <stdbool.h>
#include <stdint.h>

#include "table.h"

enum outcome { OUTCOME_NONE, OUTCOME_FITS, OUTCOME_LATE };

// A rule's number with its place, or number 0 where no rule refuses.
struct refusal {
    unsigned number;
    unsigned subsystem;
    unsigned task;
};

struct row {
    uint32_t holding;       // X
    uint32_t first_failing; // the first task that does not pass, counted from 1
    uint32_t blocking;      // B
    uint32_t active_period; // L
    uint32_t jobs;
    uint32_t response; // R
    uint32_t job;
    uint32_t resource; // counted from 1
    enum outcome outcome;
};

struct report {
    struct refusal refusal;
    bool accepted;
    unsigned rows;
    struct row row[MAX_SUBSYSTEMS];
};

#endif
