/* What fork.c needs of deferral.c. */
#ifndef URCU_DEFERRAL_H
#define URCU_DEFERRAL_H
#pragma GCC visibility push(hidden)
void renew_deferral(void);
void forget_deferred_calls(void);
void give_back_ring(void);
#pragma GCC visibility pop
#endif
