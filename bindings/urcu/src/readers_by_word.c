/* Sections of memb, signal and bp. A slot's seat is within one section of its engine's all the
 * time, and belongs to who holds the lock. The thread says by a word, its depth, whether it is in a
 * section of its own. Where it is in none, who makes a grace period passes a quiescent state by the
 * seat. So each section of a thread lies within one of the engine's.
 *
 * The thread stores its word, makes a fence, and reads. A grace period makes a fence in all
 * threads, and then looks at their words: so either it sees the word, or the section sees what came
 * before the grace period. A grace period that has looked often stores a request at each slot that
 * it awaits. A thread that sees it at a section's end passes the quiescent state itself, by the
 * lock: so one that reads again and again holds no grace period up.
 *
 * It rests on seats.h, and on this sentence of include/rcu.h, of rcu_seat_repin: "no grace period
 * that began before waits for it any more". It adds: that a quiescent state is passed only where
 * the word says so (tests/model.py has each fence, look and order of it). The fence in all threads
 * is membarrier(2), by what its page says; where the system has none, threads make their own. */
#include "layer.h"
#include <linux/membarrier.h>
#include <sys/syscall.h>
#include <unistd.h>

bool by_system;

/* The system is asked once: it makes the fence only in processes that have registered. */
void set_up_readers(void) {
    by_system = syscall(SYS_membarrier, MEMBARRIER_CMD_REGISTER_PRIVATE_EXPEDITED, 0) == 0;
}

/* Pairs with fence() of sections.c. The thread's own fence is the one where readers make theirs. */
void fence_readers(void) {
    rcu_fence();
    if (by_system && syscall(SYS_membarrier, MEMBARRIER_CMD_PRIVATE_EXPEDITED, 0))
        fail("wait for a grace period", "membarrier(2) was refused");
}

/* With the lock held. Acquire: the section that has ended comes before the quiescent state (pairs
 * with the release of exits). A seat is idle if its slot was free as the grace period began, or
 * its thread waits for one. */
void pass_if_out(struct slot *slot) {
    uint64_t number;
    if (atomic_load_explicit(&slot->depth, memory_order_acquire) == 0 &&
        !rcu_seat_is_idle(&slot->seat))
        must("repin", rcu_seat_repin_unfenced(&slot->seat, &number));
}
