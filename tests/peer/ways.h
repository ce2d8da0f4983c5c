// The supply formula against what it stands for: the least that any window of x ticks holds
// under any way of handing out.
#ifndef PEER_WAYS_H
#define PEER_WAYS_H

#include <stdint.h>

// Compares for a period of up to WAYS_PERIOD ticks, for windows of up to four periods; longer
// periods are left alone. Ends the program with a message at a difference.
enum { WAYS_PERIOD = 8 };
void check_ways(uint64_t period, uint64_t budget, uint64_t holding);

#endif
