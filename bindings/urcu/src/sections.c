/* Sections of memb, mb, signal and bp: how they nest, and those of signal handlers. It rests on
 * readers_by_word.c, or in mb on seats.h: there a thread is awake within its sections alone. It
 * adds the sections beside: those of a signal handler that finds its thread busy. Each grace period
 * sees a moment at which there is none. urcu/sections.h repeats the steps of memb, signal and bp
 * inlined. */
#include "seats.h"

/* Relaxed: the thread's own word, and its handlers leave it as they find it. */
static inline unsigned long depth_of(struct slot *slot) {
    return atomic_load_explicit(&slot->depth, memory_order_relaxed);
}

/* Relaxed: a store that opens or closes a section has its order from the lines around it. */
static inline void set_depth(struct slot *slot, unsigned long depth) {
    atomic_store_explicit(&slot->depth, depth, memory_order_relaxed);
}

#ifdef URCU_BY_SEAT
/* A signal handler that comes in the midst of a call on the seat finds the thread busy. The section
 * is open before its depth says so, and after. */
static inline void enters(struct slot *slot) {
    set_busy(1); /* before the call, in whose midst a handler makes no other */
    open_seat(slot);
    set_depth(slot, 1); /* a handler that sees it nests in an open section */
    set_busy(-1u);
}

static inline void exits(struct slot *slot) {
    set_busy(1); /* till the seat is closed, as for enters */
    set_depth(slot, 0); /* before the close: else a handler would nest in a closed section */
    close_seat(slot);
    set_busy(-1u);
}
#else
/* Between the word and what the section reads. By membarrier(2) the gp_thread makes the processor's
 * fence, and only the compiler has to keep the order here. */
static inline void fence(void) {
    if (!by_system) rcu_fence();
    else atomic_signal_fence(memory_order_seq_cst);
}

static inline void enters(struct slot *slot) {
    set_depth(slot, 1);
    fence(); /* the section reads after its word is stored: else a grace period may not see it */
}

static inline void exits(struct slot *slot) {
    /* Release: the section comes before what follows a grace period that sees the word. */
    atomic_store_explicit(&slot->depth, 0, memory_order_release);
    fence(); /* the word is stored before the look for a request: else both may sleep */
}
#endif

/* The count, a fence, and then the section; a grace period makes a fence, and then looks at the
 * count: so it sees the section, or the section sees what came before. */
static SLOW void open_beside(void) {
    self.beside++;
    atomic_fetch_add(&all.beside, 1);
    rcu_fence();
}

/* The slot is shown to inlined sections again before the count goes, which orders the section. */
static SLOW void close_beside(void) {
    self.beside--;
    show_slot(); /* hidden while a section of the thread is beside */
    atomic_fetch_sub(&all.beside, 1);
}

/* With the slot taken in a call of its own: a handler that comes then has its section beside. */
static SLOW void open_first(const void *registered_at) {
    take_slot(registered_at);
    enters(self.slot);
}

/* An inner section is covered by the outer one, so it needs no fence, also in a signal handler. */
void CALL(read_lock)(void) {
    struct slot *slot = self.slot;
    unsigned long depth = likely(slot) ? depth_of(slot) : 0;
    if (depth) set_depth(slot, depth + 1);
    else if (unlikely(is_busy())) open_beside();
    else if (likely(slot)) enters(slot);
    else open_first(__builtin_return_address(0));
}

void CALL(read_unlock)(void) {
    struct slot *slot = self.slot;
    unsigned long depth = likely(slot) ? depth_of(slot) : 0;
    if (unlikely(self.beside)) close_beside(); /* the innermost one, as a handler ends its own */
    else if (unlikely(!depth)) fail("rcu_read_unlock", "the thread is in no section");
    else if (depth > 1) set_depth(slot, depth - 1);
    else {
        exits(slot);
        got_quiet(slot);
    }
}

#ifdef MAY_INLINE_SECTIONS
/* An inlined section has ended, and a grace period waits for that: it asks to be woken. */
void CALL(got_quiet_1)(void) {
    got_quiet(self.slot);
}

_Static_assert(offsetof(struct slot, depth) == 8 && offsetof(struct slot, wake_requested) == 16,
               "urcu_slot_1 of urcu/sections.h");
_Static_assert(offsetof(struct reader, shown) == 0, "urcu_reader_1 of urcu/sections.h");
#endif

int CALL(read_ongoing)(void) {
    return is_in_section();
}

/* In the child of a fork: its sections go on. */
void stay_as_in(struct slot *old) {
    if (!depth_of(old)) return;
    enters(self.slot);
    set_depth(self.slot, depth_of(old)); /* as deep as the parent's, so that its ends match */
}

void CALL(quiescent_state)(void) {}
void CALL(thread_offline)(void) {}
void CALL(thread_online)(void) {}

/* A wait in a section of the caller's own would never end. */
bool leave(const char *call) {
    refuse_in_section(call);
    return false;
}
