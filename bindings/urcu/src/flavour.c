/* The flavour as a table, as liburcu-cds takes it, and the pointers' calls as functions, for
 * programs that were built so. */
#include "layer.h"

const struct rcu_flavor_struct CALL(flavor) = {
    .read_lock = CALL(read_lock),
    .read_unlock = CALL(read_unlock),
    .read_ongoing = CALL(read_ongoing),
    .read_quiescent_state = CALL(quiescent_state),
    .update_call_rcu = CALL(call_rcu),
    .update_synchronize_rcu = CALL(synchronize_rcu),
    .update_defer_rcu = CALL(defer_rcu),
    .thread_offline = CALL(thread_offline),
    .thread_online = CALL(thread_online),
    .register_thread = CALL(register_thread),
    .unregister_thread = CALL(unregister_thread),
    .barrier = CALL(barrier),
    .register_rculfhash_atfork = CALL(register_rculfhash_atfork),
    .unregister_rculfhash_atfork = CALL(unregister_rculfhash_atfork),
    .update_start_poll_synchronize_rcu = CALL(start_poll_synchronize_rcu),
    .update_poll_state_synchronize_rcu = CALL(poll_state_synchronize_rcu),
};

/* Nothing is left for them: a constructor sets the flavour up, for as long as the process lives. */
void CALL(init)(void) {}
void CALL(exit)(void) {}

/* Several flavours may be linked together, and each has these: weak, so that one is taken. */
#define SHARED_NAME __attribute__((weak))

/* The caller has loaded the pointer: no order is left to make here. */
SHARED_NAME void *rcu_dereference_sym(void *p) {
    return p;
}

/* Acquire: the reader sees the node as it was when it was published. */
SHARED_NAME void *rcu_dereference_sym2(void **at) {
    return rcu_dereference(*at);
}

/* Release: the node is whole before a reader can find it. */
SHARED_NAME void *rcu_set_pointer_sym(void **at, void *v) {
    rcu_set_pointer(at, v);
    return v;
}

/* Sequentially consistent, so a release too. Of two updaters each gets another old node. */
SHARED_NAME void *rcu_xchg_pointer_sym(void **at, void *v) {
    return rcu_xchg_pointer(at, v);
}

/* In the same order. If the old node is no longer there, nothing is published. */
SHARED_NAME void *rcu_cmpxchg_pointer_sym(void **at, void *old, void *v) {
    return rcu_cmpxchg_pointer(at, old, v);
}

/* Their older names in bp, in the same orders. */
#ifdef URCU_BP
void *urcu_bp_dereference_sym(void *p) {
    return p;
}

void *urcu_bp_set_pointer_sym(void **at, void *v) {
    return rcu_set_pointer_sym(at, v);
}

void *urcu_bp_xchg_pointer_sym(void **at, void *v) {
    return rcu_xchg_pointer(at, v);
}

void *urcu_bp_cmpxchg_pointer_sym(void **at, void *old, void *v) {
    return rcu_cmpxchg_pointer(at, old, v);
}
#endif
