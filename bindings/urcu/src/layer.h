/* What the files of one flavour share. Each file is built once for each flavour, with URCU_FLAVOUR
 * as its name. readers_by_word.c says how a grace period sees a section of memb, signal and bp, and
 * seats.h how it sees one of mb and qsbr. The Makefile joins the objects, and hides all names but
 * those of liburcu's interface.
 *
 * A reader, a thread that is registered, has a slot: the open seat of a processor that is online.
 * A slot that is free is idle when a grace period begins, so none waits for it. A grace period of
 * the layer is one of each engine that has a reader; its gp_thread is the thread that waits for
 * it. */
#ifndef URCU_LAYER_H
#define URCU_LAYER_H
#ifndef _GNU_SOURCE
#define _GNU_SOURCE
#endif
#define URCU_OVER_RCU_BUILD
#include "rcu.h"
#include <pthread.h>
#include <stdatomic.h>
#include <stdbool.h>
#include <time.h>
#include <urcu/flavours.h>
#include <urcu/over-rcu.h>

#pragma GCC visibility push(hidden)

#define CALL_OF(flavour, name) urcu_##flavour##_##name
#define CALL_OF_EXPANDED(flavour, name) CALL_OF(flavour, name)
#define CALL(name) CALL_OF_EXPANDED(URCU_FLAVOUR, name)

#define likely(it) __builtin_expect(!!(it), 1)
#define unlikely(it) __builtin_expect(!!(it), 0)
#define SLOW __attribute__((noinline, cold))

/* The processor of an engine, for one thread at a time. Each has a cache line of its own. */
struct slot {
    _Alignas(64) rcu_seat_t seat;
    atomic_ulong depth;         /* how deep the thread's sections nest; in qsbr 0 */
    atomic_bool wake_requested; /* the gp_thread asks to be woken when it is quiet */
    int thread;                 /* the system's number of the thread that registered last */
    const void *registered_at;  /* the code that registered it */
    struct engine *engine;
    struct slot *next; /* among those of the engine that are free */
};

enum { LARGEST_ENGINE = 128 }; /* processors */
struct engine {
    struct engine *next; /* the one that was opened after it */
    struct engine *next_in_grace_period;
    rcu_t rcu;
    uint32_t cpus, opened, taken; /* of its slots */
    uint64_t cookie; /* of the last grace period */
    struct slot *slots, *free_slots;
};

struct ring;

/* What a thread has. */
struct reader {
    _Atomic(struct slot *) shown; /* what inlined sections see of the slot (show_slot) */
    unsigned long begun;          /* by state: the grace period of its latest quiescent state */
    struct slot *slot;            /* null if it is not registered */
    unsigned long beside;         /* the depth of a signal handler's sections beside the slot */
    atomic_uint busy;             /* the thread is in a call, and may hold the lock */
    int thread;           /* the system's number, or 0 where it was not asked yet */
    bool online;          /* by state */
    bool has_key;         /* its end is told */
    struct call_rcu_data *worker;
    struct ring *deferred;
    unsigned forks; /* how often liburcu's handler was called for one that is to come */
    bool was_online;
};
/* The names of what inlined sections read stay (urcu/sections.h; flavour.h of the layer under
 * C++). */
#ifndef self
#define MAY_INLINE_SECTIONS
#define self CALL(reader_1)
#define SEEN_BY_PROGRAMS __attribute__((visibility("default")))
SEEN_BY_PROGRAMS void CALL(got_quiet_1)(void);
#else
#define SEEN_BY_PROGRAMS
#endif
SEEN_BY_PROGRAMS extern __thread struct reader self __attribute__((tls_model("initial-exec")));

/* By state a thread learns from one word that a grace period has begun. */
#ifdef URCU_BY_STATE
enum { BY_STATE = 1 };
#define latest_begun CALL(begun_1)
SEEN_BY_PROGRAMS extern atomic_ulong latest_begun;
/* Release: a reader that loads the number (acquire) sees the engines' begun grace period. */
static inline void tell_begun(unsigned long grace_period) {
    atomic_store_explicit(&latest_begun, grace_period, memory_order_release);
}
#else
enum { BY_STATE = 0 };
static inline void tell_begun(unsigned long grace_period) {
    (void)grace_period;
}
#endif

/* What all threads share. All but the atomic words is read and written under the lock. */
struct shared {
    pthread_mutex_t lock;
    pthread_cond_t quiet, grace_period_over, paused, resumed;
    struct engine *engines; /* the oldest one first */
    uint32_t used;          /* how many of them have a slot taken */
    bool making, pausing;
    uint64_t begun, asked_for; /* grace periods, each of every engine in use */
    _Atomic uint64_t ended;
    atomic_uint beside; /* how many sections are open beside slots */
};
extern struct shared all;

/* ---- what stops the process */

SLOW void say(const char *call, const char *why);
SLOW __attribute__((noreturn)) void fail(const char *call, const char *why);
SLOW __attribute__((noreturn)) void fail_by(const char *call, uint32_t fault);
static inline void must(const char *call, uint32_t fault) {
    if (unlikely(fault)) fail_by(call, fault);
}

#ifdef URCU_BY_SEAT
enum { BY_WORD = 0 };
#else
enum { BY_WORD = 1 };
#endif
/* readers_by_word.c: membarrier(2) makes the readers' fences */
extern bool by_system;

/* In qsbr no section has a depth. Relaxed: the thread looks at its own word. */
static inline bool is_in_section(void) {
    struct slot *slot = self.slot;
    return self.beside || (slot && atomic_load_explicit(&slot->depth, memory_order_relaxed));
}

static inline void refuse_in_section(const char *call) {
    if (unlikely(is_in_section())) fail(call, "the thread is in a section");
}

/* ---- the lock. A signal handler that finds the thread busy keeps away from its slot and from the
 * lock. No cancellation takes effect where the lock is held. */

/* Relaxed: only the thread and its signal handlers look at the word. */
static inline bool is_busy(void) {
    return atomic_load_explicit(&self.busy, memory_order_relaxed) != 0;
}

/* Inlined sections look at one word of their thread. It is null if the library's calls have to open
 * and close them. */
static inline void show_slot(void) {
    bool by_calls = is_busy() || self.beside || (BY_WORD && !by_system);
    atomic_store_explicit(&self.shown, by_calls ? 0 : self.slot, memory_order_relaxed);
}

/* The slot is shown only while the thread is not busy. The fences are for the compiler alone: only
 * the thread's own signal handlers look at the two words. The first one: the slot is hidden before
 * the count changes. The second one: the count is stored before the call that it covers, and the
 * slot is shown after. */
static inline void set_busy(unsigned more) {
    atomic_store_explicit(&self.shown, 0, memory_order_relaxed);
    atomic_signal_fence(memory_order_seq_cst);
    unsigned was = atomic_load_explicit(&self.busy, memory_order_relaxed);
    atomic_store_explicit(&self.busy, was + more, memory_order_relaxed);
    atomic_signal_fence(memory_order_seq_cst);
    if (more != 1) show_slot(); /* else it is busy from here on */
}

static inline void hold(void) {
    set_busy(1); /* before the lock: a handler that took it too would wait for its own thread */
    pthread_mutex_lock(&all.lock);
}

static inline void let_go(void) {
    pthread_mutex_unlock(&all.lock);
    set_busy(-1u); /* not before the lock is free */
}

/* room.c */
void *room_malloc(size_t size);
void renew_room(void);

/* base.c */
void make_condition(pthread_cond_t *condition);
void sleep_on(pthread_cond_t *condition);
bool sleep_on_until(pthread_cond_t *condition, const struct timespec *until);
struct timespec after(unsigned milliseconds);

/* threads.c */
void set_up(void);
void tell_end(void);
void restore_online(bool was_online);

/* slots.c */
void take_slot(const void *registered_at);
void give_back_slot(void);
void depart_free_slots(struct engine *engine);

/* sections.c or readers_by_state.c */
void stay_as_in(struct slot *old);
bool leave(const char *call);

/* readers_by_word.c; not in mb and qsbr, which call none of them */
void set_up_readers(void);
void pass_if_out(struct slot *slot);
void fence_readers(void);

/* grace_periods.c */
void got_quiet(struct slot *slot);
void wait_for_grace_period(void);

/* fork.c */
void set_up_forks(void);

#pragma GCC visibility pop
#endif
