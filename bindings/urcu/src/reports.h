/* What a flavour tells of itself. All of it is under the lock. */
#ifndef URCU_REPORTS_H
#define URCU_REPORTS_H
#include "layer.h"

#pragma GCC visibility push(hidden)

/* Begin and end the timing of a grace period, which waits for a thread or for none. */
void time_grace_period(bool waits);
void time_end_of_grace_period(bool waited);

/* The gp_thread sleeps until it is woken, or reports the threads that stall the grace period. */
void sleep_or_report(struct engine *engine);

#pragma GCC visibility pop
#endif
