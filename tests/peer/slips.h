// Mistakes that can be put into the fast engine on purpose, each by its own switch
// (-DSLIP_...), to find out which generated files notice. All are off in the peer itself.
// SLIPPING is set by whoever sets any of them: a slip may take away the solutions whose
// existence the right rules guarantee, so only then a search needs a way out.
#ifndef PEER_SLIPS_H
#define PEER_SLIPS_H

#ifndef SLIPPING
#define SLIPPING 0
#endif
#ifndef SLIP_ONLY_JOB_0 // the response of the first job is taken for the largest
#define SLIP_ONLY_JOB_0 0
#endif
#ifndef SLIP_UP // division rounded up made by adding one
#define SLIP_UP 0
#endif
#ifndef SLIP_P_FOR_E // the supply forgets the share of the overrun
#define SLIP_P_FOR_E 0
#endif
#ifndef SLIP_OVERRUN_PREEMPTED // RC(l)..s-1 counted to the job's end, not to the budget's
#define SLIP_OVERRUN_PREEMPTED 0
#endif
#ifndef SLIP_WHOLE_HOLDING // X(s) in place of X(s,l) in step 10
#define SLIP_WHOLE_HOLDING 0
#endif
#ifndef SLIP_ZERO // 0 taken for the least solution where nothing blocks
#define SLIP_ZERO 0
#endif
#ifndef SLIP_BLOCKED_BY_HOLDING // X(j,l) in place of c(j,l) in step 3
#define SLIP_BLOCKED_BY_HOLDING 0
#endif
#ifndef SLIP_RULE_5_EDGE // >= for > in rule 5
#define SLIP_RULE_5_EDGE 0
#endif
#ifndef SLIP_OUTER_CEILING // < for <= in step 6
#define SLIP_OUTER_CEILING 0
#endif
#ifndef SLIP_INNER_CEILING // < for <= in step 3
#define SLIP_INNER_CEILING 0
#endif
#ifndef SLIP_HORIZON_BELOW // the horizon one tick too early
#define SLIP_HORIZON_BELOW 0
#endif
#ifndef SLIP_HORIZON_ABOVE // the horizon one tick too late
#define SLIP_HORIZON_ABOVE 0
#endif
#ifndef SLIP_LAST_JOB // among jobs with the same response the last is named
#define SLIP_LAST_JOB 0
#endif
#ifndef SLIP_HIGHEST_RESOURCE // among resources with the same job end the highest is named
#define SLIP_HIGHEST_RESOURCE 0
#endif
#ifndef SLIP_SHARED_ONLY // a resource that one subsystem alone uses is left out of X
#define SLIP_SHARED_ONLY 0
#endif
#ifndef SLIP_BEFORE_DEADLINE // the moment D itself is not tried
#define SLIP_BEFORE_DEADLINE 0
#endif
#ifndef SLIP_LATE_AT_P // a response of exactly P is called late
#define SLIP_LATE_AT_P 0
#endif

#endif
