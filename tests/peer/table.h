// The table and its limits.
//
// Arrays count from 0; every number that is printed counts from 1, and the places in a
// refusal are turned at the point where they are made.
#ifndef PEER_TABLE_H
#define PEER_TABLE_H

#include <stdint.h>

enum {
    MAX_SUBSYSTEMS = 8,
    MAX_RESOURCES = 8,
    MAX_TASKS = 8,
    MAX_TIME = 1000000,
    HORIZON = 16000000,
};

struct task {
    uint32_t separation; // T
    uint32_t work;       // C
    uint32_t deadline;   // D
    uint32_t access[MAX_RESOURCES];
};

struct subsystem {
    uint32_t period; // P
    uint32_t budget; // Q
    unsigned tasks;  // n
    struct task task[MAX_TASKS];
};

struct table {
    unsigned subsystems; // N
    unsigned resources;  // M
    struct subsystem subsystem[MAX_SUBSYSTEMS];
};

#endif
