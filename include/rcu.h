/* The proved grace-period engine, for programs in C (C11) and C++ (C++17). docs/C.md says how to
 * build and link with it, how a program publishes and unlinks its own data, and what is proved.
 *
 * The caller's duties, which nothing checks:
 * - A handle is all zero bits before it is opened, as in `rcu_t rcu = {0};`, and once it is closed.
 *   One that is open is not opened, nor read or written otherwise than by these calls. Between calls
 *   its bits may be moved, as memcpy, realloc or a move constructor does: from then on the new place
 *   is the handle, and the old one is used no more: no call can tell a copy that was left behind.
 * - One call at a time on each handle, and whatever one thread did to it comes before what the
 *   next one does: by a lock, by an atomic store of order release that a load of order acquire
 *   reads, or by starting and joining threads. Calls on different handles need no order among them.
 *   (For the order of the caller's own data see below.)
 * - No call is made in a signal handler, nor in the forked child of a process with threads.
 * - Pointers are not null, even to room for no value; what they point to lies apart from the
 *   handles and from one another, and is there for the call alone to read and write while it lasts.
 * - malloc, realloc and free are of one allocator, and align a block to 16 if that divides its
 *   size, else to the greatest power of two that does. They return (by no exception and no
 *   longjmp), and make no call on the handles of the call that they serve.
 * - "Needs" names conditions besides.
 *
 * A call that returns a uint32_t without a word on it in its note returns 0, or the number of a
 * fault: of several that hold the first one that its note lists. A refused call leaves its handles
 * and what its pointers point to as they were; if a note says otherwise, it says what stays. No
 * call waits for another thread, and only those that list fault 16 take memory.
 *
 * Each call looks first whether its handles are open, and of the kind that it is for: the engine's,
 * and then the seat's. It is refused by 27 if one is closed, as all zero bits are, and by 28 if one
 * is of the other kind, as after a cast. The notes do not list these two. A call that returns no
 * fault changes nothing then either, and its note says what it returns. (An opening does not look at
 * the handle that it opens.)
 *
 * The order of the caller's own data. A publication and an unlink are atomic stores of order release
 * or stronger, and a reader loads such a pointer by order acquire or stronger; nothing more is
 * needed. "Comes before" is what C calls happens before; a section "sees" what a thread did if its
 * loads give what that stored, or what was stored later. The notes say what each call adds to the
 * lock; docs/C.md has the whole.
 *
 * "Fence" says where a call makes a full fence, which this header adds. The archive has the call
 * without it, under its name with _unfenced behind, and no call of the plain name. A note says what
 * is lost without the fence ("unfenced"); all else that it says holds of both.
 */
#ifndef RCU_H
#define RCU_H

#if !defined(__x86_64__) || defined(__ILP32__) || !defined(__linux__)
#error "rcu: the proved library is for Linux on x86-64 alone"
#endif

#ifdef __cplusplus
#include <atomic>
#include <cstddef>
#include <cstdint>
extern "C" {
#else
#include <stdatomic.h>
#include <stdbool.h>
#include <stddef.h>
#include <stdint.h>
#endif

/* The version: three numbers, and one that grows with them. */
#define RCU_VERSION_MAJOR 0
#define RCU_VERSION_MINOR 3
#define RCU_VERSION_PATCH 0
#define RCU_VERSION (RCU_VERSION_MAJOR * 1000000 + RCU_VERSION_MINOR * 1000 + RCU_VERSION_PATCH)

/* >>> types: written by tools/write_calls */

/* Why a call is refused. */
enum rcu_fault {
    RCU_BAD_CPU = 1,         /* there is no processor of this number */
    RCU_OFFLINE = 2,         /* the processor is offline */
    RCU_ALREADY_ONLINE = 3,  /* the processor is online already */
    RCU_IN_SECTION = 4,      /* a read section is open on the processor */
    RCU_NOT_OPEN = 5,        /* no read section is open on the processor */
    RCU_NEST_FULL = 6,       /* the read section nests 65,535 deep already */
    RCU_RUNNING = 8,         /* a grace period runs already */
    RCU_IDLE = 9,            /* no grace period runs */
    RCU_WAITING = 10,        /* a processor is still awaited */
    RCU_EXHAUSTED = 11,      /* the grace-period number is the last one */
    RCU_BOOT_STAYS = 12,     /* processor 0 never departs */
    RCU_BARRIER_BUSY = 13,   /* a barrier runs already */
    RCU_NO_BARRIER = 14,     /* no barrier runs */
    RCU_CALLBACKS_FULL = 15, /* as many callbacks were queued as the opening allows */
    RCU_NO_MEMORY = 16,      /* out of memory */
    RCU_TOO_MANY_CPUS = 17,  /* there is no processor, or there are more than the engine holds */
    RCU_BAD_LAST = 19,       /* the last number is not a multiple of 4 from 4 to 2^62 */
    RCU_NOT_ALIKE = 20,      /* tag, start set or number of processors differ */
    RCU_CPU_IDLE = 23,       /* the processor is idle */
    RCU_NOT_IDLE = 24,       /* the processor is not idle */
    RCU_SEAT_DEALT = 25,     /* the seat of the processor is dealt */
    RCU_OTHER_ENGINE = 26,   /* the seat is of another engine */
    RCU_CLOSED = 27,         /* the handle is closed, or was never opened */
    RCU_OTHER_KIND = 28,     /* the handle is of another kind */
    RCU_BAD_SIZES = 29,      /* a map can't have these sizes (buckets, words an entry, entries) */
    RCU_BAD_KEY = 30,        /* an entry has the key 0 */
    RCU_MAP_FULL = 31,       /* the map has no room for an entry, or none yet */
    RCU_BAD_WORDS = 32,      /* an entry of the map has another number of words */
    RCU_ENTRY_CHANGED = 33   /* the entry of the map is not as it was read */
};

/* A sentence for a fault, without a full stop. At 0 it says that there is none. */
static inline const char *rcu_fault_text(uint32_t fault) {
    switch (fault) {
    case 0: return "no fault";
    case RCU_BAD_CPU: return "there is no processor of this number";
    case RCU_OFFLINE: return "the processor is offline";
    case RCU_ALREADY_ONLINE: return "the processor is online already";
    case RCU_IN_SECTION: return "a read section is open on the processor";
    case RCU_NOT_OPEN: return "no read section is open on the processor";
    case RCU_NEST_FULL: return "the read section nests 65,535 deep already";
    case RCU_RUNNING: return "a grace period runs already";
    case RCU_IDLE: return "no grace period runs";
    case RCU_WAITING: return "a processor is still awaited";
    case RCU_EXHAUSTED: return "the grace-period number is the last one";
    case RCU_BOOT_STAYS: return "processor 0 never departs";
    case RCU_BARRIER_BUSY: return "a barrier runs already";
    case RCU_NO_BARRIER: return "no barrier runs";
    case RCU_CALLBACKS_FULL: return "as many callbacks were queued as the opening allows";
    case RCU_NO_MEMORY: return "out of memory";
    case RCU_TOO_MANY_CPUS: return "there is no processor, or there are more than the engine holds";
    case RCU_BAD_LAST: return "the last number is not a multiple of 4 from 4 to 2^62";
    case RCU_NOT_ALIKE: return "tag, start set or number of processors differ";
    case RCU_CPU_IDLE: return "the processor is idle";
    case RCU_NOT_IDLE: return "the processor is not idle";
    case RCU_SEAT_DEALT: return "the seat of the processor is dealt";
    case RCU_OTHER_ENGINE: return "the seat is of another engine";
    case RCU_CLOSED: return "the handle is closed, or was never opened";
    case RCU_OTHER_KIND: return "the handle is of another kind";
    case RCU_BAD_SIZES: return "a map can't have these sizes (buckets, words an entry, entries)";
    case RCU_BAD_KEY: return "an entry has the key 0";
    case RCU_MAP_FULL: return "the map has no room for an entry, or none yet";
    case RCU_BAD_WORDS: return "an entry of the map has another number of words";
    case RCU_ENTRY_CHANGED: return "the entry of the map is not as it was read";
    default: return "no fault has this number";
    }
}

/* The result of a collection. */
enum rcu_collected {
    RCU_COLLECTED_IDLE = 0,    /* no grace period runs */
    RCU_COLLECTED_NOT_YET = 1, /* the processor did not pass a quiescent state in the running grace
                                * period yet */
    RCU_COLLECTED_TAKEN = 2,   /* the processor was awaited, and others still are */
    RCU_COLLECTED_LAST = 3,    /* the processor was the only one awaited */
    RCU_COLLECTED_REPEAT = 4   /* the processor is not awaited */
};

/* The result of a visit. */
enum rcu_visited {
    RCU_VISIT_MARKED = 0, /* the barrier put a marker behind the processor's list */
    RCU_VISIT_EMPTY = 1,  /* the processor's list was empty */
    RCU_VISIT_ALREADY = 2 /* the barrier had visited the processor already */
};

/* The result of a turn. */
enum rcu_turned {
    RCU_TURN_NOTHING = 0, /* no grace period runs, and none is needed */
    RCU_TURN_BEGUN = 1,   /* a grace period of this number began, and awaits this many processors */
    RCU_TURN_ENDED = 2,   /* the grace period ended, and this is the number now */
    RCU_TURN_WAITING = 3  /* the grace period goes on, and awaits this many processors */
};

/* An engine's handle, which lies under a lock of the caller's. Handles may pass between threads. */
typedef struct rcu {
    unsigned char *at;
} rcu_t;

/* A seat's handle: of one processor, for one thread at a time, beside all other handles. */
typedef struct rcu_seat {
    unsigned char *at;
} rcu_seat_t;

/* The identity of an engine, which no other engine of the process has: its opener gives it, and its
 * seats have it too. */
typedef struct rcu_identity {
    uint64_t place; /* the place of the counter: no two counters have the same */
    uint64_t count; /* which of the engines that this counter numbered it is */
} rcu_identity_t;

/* The result of a turn. */
typedef struct rcu_turn {
    uint32_t what;    /* an rcu_turned */
    uint32_t awaited; /* how many processors are awaited, if it began one or waits; else 0 */
    uint64_t number;  /* the number, if a grace period began or ended; else 0 */
} rcu_turn_t;

/* <<< */

/* ---- the full fence */

/* A sequentially consistent fence, which the calls below make. It is made under a thread sanitizer
 * too, which does not follow it; of that alone gcc's warning speaks. */
#if defined(__GNUC__) && !defined(__clang__) && __GNUC__ >= 11
#pragma GCC diagnostic push
#pragma GCC diagnostic ignored "-Wtsan"
#endif
static inline void rcu_fence(void) {
#ifdef __cplusplus
    std::atomic_thread_fence(std::memory_order_seq_cst);
#else
    atomic_thread_fence(memory_order_seq_cst);
#endif
}
#if defined(__GNUC__) && !defined(__clang__) && __GNUC__ >= 11
#pragma GCC diagnostic pop
#endif

/* ---- the thread sanitizer */

/* Marks for the thread sanitizer: what came before a release of a place comes before what follows
 * an acquire of it. It sees neither the archive's steps nor a fence, so a program that is to run
 * under it marks the order that calls make. docs/C.md says where. Else the marks do nothing. */
#if defined(__SANITIZE_THREAD__)
#define RCU_THREAD_SANITIZER 1
#elif defined(__has_feature)
#if __has_feature(thread_sanitizer)
#define RCU_THREAD_SANITIZER 1
#endif
#endif
#ifdef RCU_THREAD_SANITIZER
void __tsan_release(void *place);
void __tsan_acquire(void *place);
#define RCU_SANITIZER_RELEASE(place) __tsan_release(place)
#define RCU_SANITIZER_ACQUIRE(place) __tsan_acquire(place)
#else
#define RCU_SANITIZER_RELEASE(place) ((void)(place))
#define RCU_SANITIZER_ACQUIRE(place) ((void)(place))
#endif

/* >>> calls: written by tools/write_calls from the doc comments of crates/rcu_c */

/* The calls that make a full fence: rcu_end, rcu_turn, rcu_arrive, rcu_seat_quiesce,
 * rcu_seat_quiesce_since, rcu_seat_renew, rcu_seat_wake, rcu_seat_take, rcu_seat_poll,
 * rcu_links_tend, rcu_defer_run, rcu_drive, rcu_drive_for, rcu_seat_pin, rcu_seat_repin,
 * rcu_barrier_wait. */

/* ---- opening and closing */

/* Opens an engine of 1 to 4,096 processors at number 0. Processor 0 alone is online, no callback is
 * queued, and no seat is dealt. No grace period begins at `max_number`, a multiple of 4 from 4 to
 * 2^62. Needs: `rcu` is closed.
 * The identity is one that no other engine of the process has: an engine takes no seat of another
 * one (26), and compares identities for that. rcu_open makes it, of a counter and the place of
 * that. A program in another language makes its own.
 * Faults: 17 for no processor or more than 4,096; 19 if `max_number` is no such number; 16.
 * Laws in crates/rcu_c/src/: dealt_seats_are_of_their_engine (laws.rt#L48),
 * seats_stay_of_their_engine (laws.rt#L73), returned_seats_are_dealt_again (laws.rt#L61). */
uint32_t rcu_open_as(uint32_t cpus, uint64_t max_number, rcu_identity_t identity, rcu_t *rcu);

/* Closes an engine, and frees all that it has; values that are still queued are not handed out.
 * Seats that are open go on, and are closed in turn. If `rcu` is not an open engine, it does
 * nothing. Needs: `rcu` is under the caller's lock. */
void rcu_close(rcu_t *rcu);

/* Deals the seat of a processor; each has one. The seat of processor 0 is online at first, any
 * other offline; one that was returned is as it was then. Processor 0 is awaited like any other: if
 * no thread reads on it, make its seat idle once. A seat takes its memory when it is dealt for the
 * first time. Needs: `rcu` is under the caller's lock, and `seat` is closed.
 * Faults: 1 if there is no such processor; 25 if its seat is dealt; 16.
 * Laws in crates/rcu_c/src/: dealt_seats_are_of_their_engine (laws.rt#L48),
 * seats_stay_of_their_engine (laws.rt#L73), returned_seats_are_dealt_again (laws.rt#L61). */
uint32_t rcu_seat_open(rcu_t *rcu, uint32_t cpu, rcu_seat_t *seat);

/* Returns whether rcu_seat_open can deal the seat of the processor: there is such a processor, and
 * its seat is not dealt. False if `rcu` is not an open engine. Needs: `rcu` is under the caller's
 * lock.
 * Law in crates/rcu_c/src/: what_is_not_open_says_no (laws.rt#L106). */
bool rcu_has_seat(rcu_t *rcu, uint32_t cpu);

/* Returns a seat to its engine, which can deal it again, and closes it: for a thread that ends. Its
 * processor stays as it is: depart first, or make processor 0 idle. Else each grace period waits
 * until another thread has the seat. Needs: `rcu` is under the caller's lock, and `seat` is in no
 * other call.
 * Fault 26: the seat is of another engine.
 * Laws in crates/rcu_c/src/: dealt_seats_are_of_their_engine (laws.rt#L48),
 * seats_stay_of_their_engine (laws.rt#L73), returned_seats_are_dealt_again (laws.rt#L61). */
uint32_t rcu_seat_return(rcu_t *rcu, rcu_seat_t *seat);

/* Closes a seat, which its engine does not deal again: for when the engine goes. Its processor
 * stays as it is: one that is online is awaited by each grace period that begins, for good. If
 * `seat` is not an open seat, it does nothing. */
void rcu_seat_close(rcu_seat_t *seat);

/* ---- grace periods: `rcu` is under the caller's lock */

/* Begins a grace period: stores its number, and then looks at each processor. It awaits those that
 * are online, are not idle, and did not pass a quiescent state in between. Writes the number, and
 * how many it awaits.
 * Of each section one of two holds: all of it comes before what follows the end of this grace
 * period, or it sees what came before this call.
 * Faults: 8 if one runs; 11 if the number is the last one.
 * Laws in crates/rcu_c/src/: dealt_seats_are_of_their_engine (laws.rt#L48),
 * seats_stay_of_their_engine (laws.rt#L73), returned_seats_are_dealt_again (laws.rt#L61),
 * calls_are_steps_of_a_run (laws.rt#L141), waiting_for_a_barrier_is_a_run (laws.rt#L221),
 * a_run_goes_on_from_the_end_of_another (laws.rt#L210), no_callback_runs_twice (laws.rt#L229),
 * no_callback_is_lost (laws.rt#L238), barrier_covers_earlier_callbacks (laws.rt#L250),
 * a_barrier_waited_for_covers_earlier_callbacks (laws.rt#L263), no_callback_runs_early
 * (laws.rt#L285). */
uint32_t rcu_begin(rcu_t *rcu, uint64_t *number, uint32_t *awaited);

/* Ends the grace period. Writes the new number.
 * All that a thread stored before an rcu_seat_poll that found the number below the new one is seen
 * by what follows this call: so a waiter that stores a request to be woken, and then polls, is
 * found. The same holds of rcu_seat_take and rcu_seat_quiesce. Unfenced, it is sure to be seen by
 * sequentially consistent loads alone.
 * Faults: 9 if none runs; 10 if a processor is awaited.
 * Fence: behind.
 * Laws in crates/rcu_c/src/: dealt_seats_are_of_their_engine (laws.rt#L48),
 * seats_stay_of_their_engine (laws.rt#L73), returned_seats_are_dealt_again (laws.rt#L61). */
uint32_t rcu_end_unfenced(rcu_t *rcu, uint64_t *number);
static inline uint32_t rcu_end(rcu_t *rcu, uint64_t *number) {
    uint32_t result = rcu_end_unfenced(rcu, number);
    rcu_fence();
    return result;
}

/* Ends the grace period if no processor is awaited; begins one if none runs and a tended callback
 * waits for it. Writes what it did.
 * It orders what rcu_begin or rcu_end orders.
 * Fault 11: one would begin, and the number is the last one.
 * Fence: behind.
 * Laws in crates/rcu_c/src/: dealt_seats_are_of_their_engine (laws.rt#L48),
 * seats_stay_of_their_engine (laws.rt#L73), returned_seats_are_dealt_again (laws.rt#L61). */
uint32_t rcu_turn_unfenced(rcu_t *rcu, rcu_turn_t *turn);
static inline uint32_t rcu_turn(rcu_t *rcu, rcu_turn_t *turn) {
    uint32_t result = rcu_turn_unfenced(rcu, turn);
    rcu_fence();
    return result;
}

/* Collects from the processor: if it passed a quiescent state in the grace period, or is offline or
 * idle, it is no longer awaited. Writes an rcu_collected.
 * If it finds the quiescent state, the departure or the idleness, all that the thread did before
 * that comes before what follows this call. The same holds if a begin finds it.
 * A processor that was idle at the begin and woke since is found "not yet", and is not awaited:
 * rcu_awaits says whether one is awaited.
 * Fault 1: there is no such processor.
 * Laws in crates/rcu_c/src/: dealt_seats_are_of_their_engine (laws.rt#L48),
 * seats_stay_of_their_engine (laws.rt#L73), returned_seats_are_dealt_again (laws.rt#L61),
 * calls_are_steps_of_a_run (laws.rt#L141), waiting_for_a_barrier_is_a_run (laws.rt#L221),
 * a_run_goes_on_from_the_end_of_another (laws.rt#L210), no_callback_runs_twice (laws.rt#L229),
 * no_callback_is_lost (laws.rt#L238), barrier_covers_earlier_callbacks (laws.rt#L250),
 * a_barrier_waited_for_covers_earlier_callbacks (laws.rt#L263), no_callback_runs_early
 * (laws.rt#L285). */
uint32_t rcu_collect(rcu_t *rcu, uint32_t cpu, uint32_t *found);

/* ---- processors that come and go: `rcu` is under the caller's lock, and `seat` is in no other
 * call */

/* Brings the seat's processor online.
 * A section may open once it returns. A grace period that begins later awaits the processor. Of one
 * that runs already the section sees what came before its begin, and what a thread did before it
 * took a cookie that is done at its end. Unfenced, what came before an rcu_seat_take is sure to be
 * seen by sequentially consistent loads alone.
 * Faults: 26 if the seat is of another engine; 3 if the processor is online.
 * Fence: behind.
 * Laws in crates/rcu_c/src/: dealt_seats_are_of_their_engine (laws.rt#L48),
 * seats_stay_of_their_engine (laws.rt#L73), returned_seats_are_dealt_again (laws.rt#L61). */
uint32_t rcu_arrive_unfenced(rcu_t *rcu, rcu_seat_t *seat);
static inline uint32_t rcu_arrive(rcu_t *rcu, rcu_seat_t *seat) {
    uint32_t result = rcu_arrive_unfenced(rcu, seat);
    rcu_fence();
    return result;
}

/* Takes the seat's processor offline, and moves its callbacks to processor 0, at a step for each.
 * Writes how many.
 * All that the thread did before comes before what follows the collection or the begin that finds
 * it offline.
 * Faults: 26 if the seat is of another engine; 12 for processor 0; 4 if a section is open; 2 if it
 * was offline and has no callback; 16. At 2 no call sees a change. At 16 the processor is offline,
 * and its callbacks stay: the same call again moves them.
 * Laws in crates/rcu_c/src/: dealt_seats_are_of_their_engine (laws.rt#L48),
 * seats_stay_of_their_engine (laws.rt#L73), returned_seats_are_dealt_again (laws.rt#L61),
 * calls_are_steps_of_a_run (laws.rt#L141), waiting_for_a_barrier_is_a_run (laws.rt#L221),
 * a_run_goes_on_from_the_end_of_another (laws.rt#L210), no_callback_runs_twice (laws.rt#L229),
 * no_callback_is_lost (laws.rt#L238), barrier_covers_earlier_callbacks (laws.rt#L250),
 * a_barrier_waited_for_covers_earlier_callbacks (laws.rt#L263), no_callback_runs_early
 * (laws.rt#L285), a_seat_can_tell_of_itself (progress.rt#L89),
 * a_word_is_the_one_that_the_seat_stored (progress.rt#L115), quiet_processors_end_a_grace_period
 * (progress.rt#L126), handed_out_callbacks_finish_a_barrier (progress.rt#L221). */
uint32_t rcu_depart(rcu_t *rcu, rcu_seat_t *seat, uint64_t *moved);

/* ---- queries of an engine: `rcu` is under the caller's lock. On a handle that is not an open
 * engine they return 0 or false, unless the note says otherwise. */

/* Returns how many processors the engine has.
 * Law in crates/rcu_c/src/: what_is_not_open_says_no (laws.rt#L106). */
uint32_t rcu_cpus(rcu_t *rcu);

/* Returns the grace-period number: 4 for each grace period that ended, and 1 more while one runs.
 * Law in crates/rcu_c/src/: what_is_not_open_says_no (laws.rt#L106). */
uint64_t rcu_number(rcu_t *rcu);

/* Returns whether a grace period runs. */
bool rcu_running(rcu_t *rcu);

/* Returns whether the engine has the processor as online. False if there is no such processor. */
bool rcu_online(rcu_t *rcu, uint32_t cpu);

/* Returns whether the running grace period awaits the processor. False if there is no such
 * processor. */
bool rcu_awaits(rcu_t *rcu, uint32_t cpu);

/* Returns how many processors the running grace period awaits. */
uint32_t rcu_awaited(rcu_t *rcu);

/* Takes a cookie: the number at which a grace period that begins from now on has ended. It requests
 * no grace period: begin one (rcu_begin, or rcu_turn if a tended callback waits). Returns 2^64 - 1,
 * which is never done, if `rcu` is not an open engine.
 * Laws in crates/rcu_c/src/: what_is_not_open_says_no (laws.rt#L106),
 * sections_end_before_what_waits_for_them (laws.rt#L121). */
uint64_t rcu_take(rcu_t *rcu);

/* Returns whether a cookie is done: the number has reached it, so each section that was open when
 * it was taken has ended. For a number that no snapshot returned, the result means no more than
 * that the number has reached it. False if `rcu` is not an open engine.
 * If it returns true, of each section one of two holds: all of it comes before what follows this
 * call, or it sees what the thread that took the cookie did before it took it.
 * Law in crates/rcu_c/src/: sections_end_before_what_waits_for_them (laws.rt#L121). */
bool rcu_poll(rcu_t *rcu, uint64_t cookie);

/* ---- callbacks, which are values of 64 bits: `rcu` is under the caller's lock */

/* Queues a value on an online processor. Writes how many were queued since opening. A list keeps
 * the room that it ever had, until rcu_shrink or rcu_close.
 * Of each section one of two holds: all of it comes before what follows the rcu_run that hands the
 * value out, or it sees what the thread did before this call.
 * Faults: 1 if there is no such processor; 2 if it is not online; 15 if 2^62 were queued; 16.
 * Laws in crates/rcu_c/src/: sections_end_before_what_waits_for_them (laws.rt#L121),
 * calls_are_steps_of_a_run (laws.rt#L141), waiting_for_a_barrier_is_a_run (laws.rt#L221),
 * a_run_goes_on_from_the_end_of_another (laws.rt#L210), no_callback_runs_twice (laws.rt#L229),
 * no_callback_is_lost (laws.rt#L238), barrier_covers_earlier_callbacks (laws.rt#L250),
 * a_barrier_waited_for_covers_earlier_callbacks (laws.rt#L263), no_callback_runs_early
 * (laws.rt#L285). */
uint32_t rcu_queue(rcu_t *rcu, uint32_t cpu, uint64_t value, uint64_t *place);

/* Sets what the processor's callbacks wait for, and which are done. Call it after queueing, so that
 * a turn begins a grace period for them, and after its end. Writes how many are done and how many
 * wait.
 * Fault 1: there is no such processor.
 * Laws in crates/rcu_c/src/: calls_are_steps_of_a_run (laws.rt#L141),
 * waiting_for_a_barrier_is_a_run (laws.rt#L221), a_run_goes_on_from_the_end_of_another
 * (laws.rt#L210), no_callback_runs_twice (laws.rt#L229), no_callback_is_lost (laws.rt#L238),
 * barrier_covers_earlier_callbacks (laws.rt#L250), a_barrier_waited_for_covers_earlier_callbacks
 * (laws.rt#L263), no_callback_runs_early (laws.rt#L285), ended_grace_periods_are_counted
 * (progress.rt#L158), two_tends_and_two_grace_periods_finish_callbacks (progress.rt#L170),
 * four_calls_finish_a_list (progress.rt#L200). */
uint32_t rcu_tend(rcu_t *rcu, uint32_t cpu, uint64_t *done, uint64_t *waiting);

/* Hands out done callbacks of the processor, in order, `room` at most: writes their values from
 * `values` on, and how many they are; the rest of the room stays. A full grace period has passed
 * since each was queued, and none is handed out again. Takes no memory.
 * Fault 1: there is no such processor.
 * Laws in crates/rcu_c/src/: sections_end_before_what_waits_for_them (laws.rt#L121),
 * calls_are_steps_of_a_run (laws.rt#L141), waiting_for_a_barrier_is_a_run (laws.rt#L221),
 * a_run_goes_on_from_the_end_of_another (laws.rt#L210), no_callback_runs_twice (laws.rt#L229),
 * no_callback_is_lost (laws.rt#L238), barrier_covers_earlier_callbacks (laws.rt#L250),
 * a_barrier_waited_for_covers_earlier_callbacks (laws.rt#L263), no_callback_runs_early
 * (laws.rt#L285), ended_grace_periods_are_counted (progress.rt#L158),
 * two_tends_and_two_grace_periods_finish_callbacks (progress.rt#L170), four_calls_finish_a_list
 * (progress.rt#L200), the_fourth_wait_for_a_barrier_writes_0 (progress.rt#L237),
 * handed_out_callbacks_finish_a_barrier (progress.rt#L221). */
uint32_t rcu_run(rcu_t *rcu, uint32_t cpu, uint64_t *values, size_t room, uint64_t *count);

/* Frees the memory that the processor's list does not need, at a step for each item that stays.
 * Writes for how many items, callbacks and markers, it then has room: for none if it is empty.
 * Fault 1: there is no such processor. */
uint32_t rcu_shrink(rcu_t *rcu, uint32_t cpu, uint64_t *room);

/* ---- the barrier over callbacks: `rcu` is under the caller's lock */

/* Begins a barrier.
 * Fault 13: one runs.
 * Laws in crates/rcu_c/src/: calls_are_steps_of_a_run (laws.rt#L141),
 * waiting_for_a_barrier_is_a_run (laws.rt#L221), a_run_goes_on_from_the_end_of_another
 * (laws.rt#L210), no_callback_runs_twice (laws.rt#L229), no_callback_is_lost (laws.rt#L238),
 * barrier_covers_earlier_callbacks (laws.rt#L250), a_barrier_waited_for_covers_earlier_callbacks
 * (laws.rt#L263), no_callback_runs_early (laws.rt#L285), handed_out_callbacks_finish_a_barrier
 * (progress.rt#L221). */
uint32_t rcu_barrier_begin(rcu_t *rcu);

/* Has the barrier visit a processor; it has to visit each, also those offline. Writes an
 * rcu_visited.
 * Faults: 1 if there is no such processor; 14 if none runs; 16, only if it would mark.
 * Laws in crates/rcu_c/src/: calls_are_steps_of_a_run (laws.rt#L141),
 * waiting_for_a_barrier_is_a_run (laws.rt#L221), a_run_goes_on_from_the_end_of_another
 * (laws.rt#L210), no_callback_runs_twice (laws.rt#L229), no_callback_is_lost (laws.rt#L238),
 * barrier_covers_earlier_callbacks (laws.rt#L250), a_barrier_waited_for_covers_earlier_callbacks
 * (laws.rt#L263), no_callback_runs_early (laws.rt#L285), handed_out_callbacks_finish_a_barrier
 * (progress.rt#L221). */
uint32_t rcu_barrier_visit(rcu_t *rcu, uint32_t cpu, uint32_t *did);

/* Tests the barrier. Writes how many markers and unvisited processors are left; at 0 it is over,
 * and each callback that was queued before it began was handed out.
 * Handed out is not processed: what is done with a value comes before what follows this call if it
 * is done under the lock under which rcu_run handed the value out. Else the caller counts what was
 * processed, and waits for that too.
 * Fault 14: none runs.
 * Laws in crates/rcu_c/src/: calls_are_steps_of_a_run (laws.rt#L141),
 * waiting_for_a_barrier_is_a_run (laws.rt#L221), a_run_goes_on_from_the_end_of_another
 * (laws.rt#L210), no_callback_runs_twice (laws.rt#L229), no_callback_is_lost (laws.rt#L238),
 * barrier_covers_earlier_callbacks (laws.rt#L250), a_barrier_waited_for_covers_earlier_callbacks
 * (laws.rt#L263), no_callback_runs_early (laws.rt#L285), handed_out_callbacks_finish_a_barrier
 * (progress.rt#L221). */
uint32_t rcu_barrier_test(rcu_t *rcu, uint64_t *left);

/* ---- a thread by its seat, with no lock, beside all calls on other handles. No call here waits or
 * takes memory. */

/* Returns the seat's processor, or 2^32 - 1, which is none, if `seat` is not an open seat.
 * Law in crates/rcu_c/src/: what_is_not_open_says_no (laws.rt#L106). */
uint32_t rcu_seat_cpu(rcu_seat_t *seat);

/* Returns how deep the read sections of the seat nest: 0 if none is open, or if `seat` is not an
 * open seat.
 * Law in crates/rcu_c/src/: what_is_not_open_says_no (laws.rt#L106). */
uint32_t rcu_seat_depth(rcu_seat_t *seat);

/* Returns whether the seat's processor is online, awake or idle. False if `seat` is not an open
 * seat. */
bool rcu_seat_is_online(rcu_seat_t *seat);

/* Returns whether the seat's processor is idle. False if `seat` is not an open seat. */
bool rcu_seat_is_idle(rcu_seat_t *seat);

/* Opens a read section by one load, or nests one deeper in the open one by none.
 * Faults: 2 if the processor is offline; 23 if it is idle; 6 if the depth is 65,535.
 * Laws in crates/rcu_c/src/: dealt_seats_are_of_their_engine (laws.rt#L48),
 * seats_stay_of_their_engine (laws.rt#L73), returned_seats_are_dealt_again (laws.rt#L61). */
uint32_t rcu_seat_enter(rcu_seat_t *seat);

/* Leaves the innermost section. One load closes the outermost one.
 * Neither this nor rcu_seat_enter orders what the thread stores: what a section did comes before
 * the next quiescent state or departure.
 * Fault 5: no section is open. */
uint32_t rcu_seat_exit(rcu_seat_t *seat);

/* Passes a quiescent state, by one load and one store: from here on the thread uses nothing that it
 * read before. Writes the number that it saw.
 * All that the thread did before comes before what follows the collection or the begin that finds
 * this call. The sections that follow see what came before a begin whose number it saw, and what a
 * thread did before it took a cookie that such a grace period makes done. A full fence precedes the
 * load, so the number tests a cookie as rcu_seat_poll does. Unfenced the last does not hold, and
 * what came before an rcu_seat_take is sure to be seen by sequentially consistent loads alone.
 * Faults: 2 if the processor is offline; 23 if it is idle; 4 if a section is open.
 * Fence: before and behind.
 * Laws in crates/rcu_c/src/: a_seat_can_tell_of_itself (progress.rt#L89),
 * a_word_is_the_one_that_the_seat_stored (progress.rt#L115), quiet_processors_end_a_grace_period
 * (progress.rt#L126). */
uint32_t rcu_seat_quiesce_unfenced(rcu_seat_t *seat, uint64_t *number);
static inline uint32_t rcu_seat_quiesce(rcu_seat_t *seat, uint64_t *number) {
    rcu_fence();
    uint32_t result = rcu_seat_quiesce_unfenced(seat, number);
    rcu_fence();
    return result;
}

/* Passes a quiescent state by a load alone, if the last one still counts: if the number is the one
 * that the seat's last rcu_seat_quiesce, rcu_seat_wake, rcu_arrive or call of this saw, it stores
 * nothing. No grace period began or ended since, so the earlier report still counts. Else it does
 * what rcu_seat_quiesce does. Writes the number that it saw.
 * `number` has what the seat's last rcu_seat_quiesce, rcu_seat_wake or call of this wrote, or 0. If
 * that is still the number, this call executes no fence: the call that wrote it executed the fence,
 * or no grace period has begun yet. The sections that follow see the same as after
 * rcu_seat_quiesce. No fence precedes the load: its number tests no cookie for a thread that stored
 * a request to be woken. Unfenced, they are sure to see what came before an rcu_seat_take by
 * sequentially consistent loads alone.
 * Faults: 2 if the processor is offline; 23 if it is idle; 4 if a section is open.
 * Fence: behind if `number` changed. */
uint32_t rcu_seat_quiesce_since_unfenced(rcu_seat_t *seat, uint64_t *number);
static inline uint32_t rcu_seat_quiesce_since(rcu_seat_t *seat, uint64_t *number) {
    uint64_t last = *number;
    uint32_t result = rcu_seat_quiesce_since_unfenced(seat, number);
    if (*number != last) rcu_fence();
    return result;
}

/* Renews the open section: closes it, passes a quiescent state, and opens the next one, by two
 * loads. For a thread that reads all the time: it keeps one section open, and makes this call
 * between two looks at the data. From here on it uses nothing that it read before. Writes the
 * number of the quiescent state.
 * If the number is the one of the seat's last quiescent state, wake or renewal, it stores nothing.
 * `number` is as in rcu_seat_quiesce_since, and so are the order and the fence. The section that
 * follows is one of those that "follow".
 * Faults: 2 if the processor is offline; 23 if it is idle; 5 if no section is open; 4 if the open
 * one nests.
 * Fence: behind if `number` changed. */
uint32_t rcu_seat_renew_unfenced(rcu_seat_t *seat, uint64_t *number);
static inline uint32_t rcu_seat_renew(rcu_seat_t *seat, uint64_t *number) {
    uint64_t last = *number;
    uint32_t result = rcu_seat_renew_unfenced(seat, number);
    if (*number != last) rcu_fence();
    return result;
}

/* Makes the processor idle by one store, until it wakes or departs: it opens no section, and no
 * grace period waits for it. It stays online, and its callbacks stay. For a thread that is about to
 * block.
 * All that the thread did before comes before what follows the collection or the begin that finds
 * it idle.
 * Faults: 2 if the processor is offline; 23 if it is idle; 4 if a section is open.
 * Laws in crates/rcu_c/src/: a_seat_can_tell_of_itself (progress.rt#L89),
 * a_word_is_the_one_that_the_seat_stored (progress.rt#L115), quiet_processors_end_a_grace_period
 * (progress.rt#L126). */
uint32_t rcu_seat_idle(rcu_seat_t *seat);

/* Wakes the processor, by one load and one store. Writes the number that it saw.
 * A section may open once it returns. A grace period that begins later awaits the processor. Of one
 * that found it idle, or whose number it saw, the section sees what came before its begin, and what
 * a thread did before it took a cookie that is done at its end. Unfenced, what came before an
 * rcu_seat_take is sure to be seen by sequentially consistent loads alone. No fence precedes the
 * load: a thread that stored a request to be woken polls by rcu_seat_poll, and not by this number.
 * Faults: 2 if the processor is offline; 24 if it is awake.
 * Fence: behind. */
uint32_t rcu_seat_wake_unfenced(rcu_seat_t *seat, uint64_t *number);
static inline uint32_t rcu_seat_wake(rcu_seat_t *seat, uint64_t *number) {
    uint32_t result = rcu_seat_wake_unfenced(seat, number);
    rcu_fence();
    return result;
}

/* Takes a cookie, as rcu_take, at the number that one load sees, which no later load is below. In a
 * section or not, online or not. Returns 2^64 - 1, which is never done, if `seat` is not an open
 * seat.
 * A full fence lies between what the thread did before, as an unlink, and that load. Unfenced, a
 * section may still reach unlinked data after the cookie is done.
 * Fence: before.
 * Laws in crates/rcu_c/src/: dealt_seats_are_of_their_engine (laws.rt#L48),
 * seats_stay_of_their_engine (laws.rt#L73), returned_seats_are_dealt_again (laws.rt#L61). */
uint64_t rcu_seat_take_unfenced(rcu_seat_t *seat);
static inline uint64_t rcu_seat_take(rcu_seat_t *seat) {
    rcu_fence();
    return rcu_seat_take_unfenced(seat);
}

/* Returns whether a cookie is done, as rcu_poll, at the number that one load sees, which no later
 * load is below. In a section or not, online or not. False if `seat` is not an open seat.
 * If it returns false, all that the thread stored before it is seen by what follows the rcu_end,
 * the rcu_turn or the rcu_seat_poll that makes or finds the cookie done. Unfenced it is not: a
 * thread that stores a request to be woken, polls, and sleeps may sleep for good.
 * Fence: before, and behind if it returns true. */
bool rcu_seat_poll_unfenced(rcu_seat_t *seat, uint64_t cookie);
static inline bool rcu_seat_poll(rcu_seat_t *seat, uint64_t cookie) {
    rcu_fence();
    bool result = rcu_seat_poll_unfenced(seat, cookie);
    if (result) rcu_fence();
    return result;
}

/* ---- links in nodes of the caller's own, deferred by a seat alone, as the values are. Each is a
 * number here, its address, which no call follows: rcu_defer_link and rcu_defer_take write and read
 * what links one to the next. The nodes stay the caller's if a seat or an engine closes. */

/* Defers a link, behind all others; rcu_defer_link is built on it. Writes the link before it, or 0
 * if none is left.
 * Fault 15: 2^62 were deferred. */
uint32_t rcu_links_push(rcu_seat_t *seat, uint64_t link, uint64_t *last);

/* Returns the first link if it is known to be done, without a load of the number. Else 0, and if
 * `seat` is not an open seat. */
uint64_t rcu_links_ready(rcu_seat_t *seat);

/* Returns the first link that is done, after one load of the number: those that were deferred since
 * the last load wait from now on. 0 if none is done, or if `seat` is not an open seat.
 * Fence: before. */
uint64_t rcu_links_tend_unfenced(rcu_seat_t *seat);
static inline uint64_t rcu_links_tend(rcu_seat_t *seat) {
    rcu_fence();
    return rcu_links_tend_unfenced(seat);
}

/* Takes the first link out, if it is done: `next` is the first one from now on. Returns whether it
 * was done; false if `seat` is not an open seat. */
bool rcu_links_pop(rcu_seat_t *seat, uint64_t next);

/* ---- deferral by a thread's seat alone, with no lock, beside all calls on other handles: of
 * values of 64 bits, in order. In a section or not, online or not.
 * They belong to the seat: they stay if its processor departs, and if the seat is returned, for the
 * next thread that has it. rcu_seat_close and rcu_close forget those that were not handed out. No
 * call here requests a grace period: the driver gets the cookie of rcu_defer_cookie, for
 * rcu_drive_for. */

/* Defers a value, behind those that the seat has, without a load of the number or a fence. The
 * values keep the room that they ever had, until rcu_defer_shrink or rcu_seat_close.
 * Of each section one of two holds: all of it comes before what follows the rcu_defer_run that
 * hands the value out, or it sees what the thread did before the first rcu_defer_run after this
 * call.
 * Faults: 15 if 2^62 were deferred; 16. */
uint32_t rcu_defer(rcu_seat_t *seat, uint64_t value);

/* Hands out deferred values that are done, in order, `room` at most, after one load of the number:
 * those that were deferred before an earlier call of this function, since which a full grace period
 * has passed. Writes them from `values` on, and how many they are; the rest of the room stays. The
 * others wait from now on for a grace period that begins later. Takes no memory.
 * A full fence precedes the load. Unfenced, a section may still reach unlinked data after its value
 * is handed out.
 * Fence: before. */
uint32_t rcu_defer_run_unfenced(rcu_seat_t *seat, uint64_t *values, size_t room, uint64_t *count);
static inline uint32_t rcu_defer_run(rcu_seat_t *seat, uint64_t *values, size_t room,
                                     uint64_t *count) {
    rcu_fence();
    return rcu_defer_run_unfenced(seat, values, room, count);
}

/* Returns how many values and links were deferred and not handed out. 0 if `seat` is not an open
 * seat. */
uint64_t rcu_defer_count(rcu_seat_t *seat);

/* Returns the cookie at which all can be handed out that was deferred before the seat's last look,
 * by rcu_defer_run at values and by rcu_defer_take at links. Returns 1, which is always done, if
 * none of it waits, or if `seat` is not an open seat. */
uint64_t rcu_defer_cookie(rcu_seat_t *seat);

/* Frees the memory that the values do not need, at a step for each that stays. Writes for how many
 * values the seat then has room: for none if it has none. */
uint32_t rcu_defer_shrink(rcu_seat_t *seat, uint64_t *room);

/* ---- calls of the driver, the thread that makes grace periods: `rcu` is under the caller's
 * lock */

/* One step of driving. While a grace period runs it collects from each processor that is awaited;
 * if none runs it begins one if a tended callback or an rcu_start_poll waits for it. Then it ends
 * one that awaits no processor. Writes what it did. It costs a load for each processor that is
 * awaited, and at a begin a load for each processor.
 * The driver calls this again and again, and lets other threads run in between while it awaits
 * someone. It orders what rcu_begin, rcu_collect and rcu_end order.
 * Fault 11: one would begin, and the number is the last one.
 * Fence: behind.
 * Laws in crates/rcu_c/src/: a_drive_ends_a_quiet_grace_period (progress.rt#L47),
 * ended_grace_periods_are_counted (progress.rt#L158),
 * two_tends_and_two_grace_periods_finish_callbacks (progress.rt#L170), four_calls_finish_a_list
 * (progress.rt#L200), quiet_processors_end_a_grace_period (progress.rt#L126). */
uint32_t rcu_drive_unfenced(rcu_t *rcu, rcu_turn_t *turn);
static inline uint32_t rcu_drive(rcu_t *rcu, rcu_turn_t *turn) {
    uint32_t result = rcu_drive_unfenced(rcu, turn);
    rcu_fence();
    return result;
}

/* One step of driving for a cookie, as rcu_drive: if no grace period runs it begins one unless the
 * cookie is done. It asks for no callback, and for no other cookie. Called until the cookie is done
 * it makes one grace period, or two if one runs already.
 * It orders what rcu_drive orders.
 * Fault 11: one would begin, and the number is the last one.
 * Fence: behind. */
uint32_t rcu_drive_for_unfenced(rcu_t *rcu, uint64_t cookie, rcu_turn_t *turn);
static inline uint32_t rcu_drive_for(rcu_t *rcu, uint64_t cookie, rcu_turn_t *turn) {
    uint32_t result = rcu_drive_for_unfenced(rcu, cookie, turn);
    rcu_fence();
    return result;
}

/* Collects from each processor that is awaited, as rcu_collect from one. Writes how many still are:
 * 0 if no grace period runs. */
uint32_t rcu_collect_all(rcu_t *rcu, uint32_t *left);

/* Lists the awaited processors, in order, `room` at most: writes them from `cpus` on, and how many
 * they are; the rest of the room stays. It costs a step for each, and one more for every 64
 * others. */
uint32_t rcu_awaited_list(rcu_t *rcu, uint32_t *cpus, size_t room, uint32_t *count);

/* Takes a cookie, as rcu_take, and requests it: from now on rcu_turn and rcu_drive begin a grace
 * period for it. Returns 2^64 - 1, which is never done, if `rcu` is not an open engine. */
uint64_t rcu_start_poll(rcu_t *rcu);

/* ---- a thread that may block at any time, by its seat: it is idle but in its sections */

/* Opens a read section, or nests one deeper in the open one. An idle processor wakes first, by one
 * exchange, without a load of the number: no rcu_seat_wake is needed.
 * It passes no quiescent state: a grace period that begins before the section ends awaits the
 * processor until it unpins. Of one that found it idle, or at whose number the section began, the
 * section sees what came before its begin, and what a thread did before it took a cookie that is
 * done at its end. Unfenced, what came before an rcu_seat_take is sure to be seen by sequentially
 * consistent loads alone: if all readers load by such, the unfenced form is enough, and so it is
 * for an inner section.
 * Faults: 2 if the processor is offline; 6 if the depth is 65,535.
 * Fence: behind. */
uint32_t rcu_seat_pin_unfenced(rcu_seat_t *seat);
static inline uint32_t rcu_seat_pin(rcu_seat_t *seat) {
    uint32_t result = rcu_seat_pin_unfenced(seat);
    rcu_fence();
    return result;
}

/* Leaves the innermost section. If it was the outermost one, the processor is idle from then on, as
 * by rcu_seat_idle, even if it was awake before the section.
 * All that the thread did before comes before what follows the collection or the begin that finds
 * it idle.
 * Faults: 2 if the processor is offline; 5 if no section is open. */
uint32_t rcu_seat_unpin(rcu_seat_t *seat);

/* Renews the section that a pin opened, as rcu_seat_renew: no grace period that began before waits
 * for it any more. From here on the thread uses nothing that the section read before. Writes the
 * number of the quiescent state.
 * `number` is as in rcu_seat_renew, and 0 after a pin; so are the order and the fence.
 * Faults: 2 if the processor is offline; 5 if no section is open; 4 if the open one nests.
 * Fence: behind if `number` changed. */
uint32_t rcu_seat_repin_unfenced(rcu_seat_t *seat, uint64_t *number);
static inline uint32_t rcu_seat_repin(rcu_seat_t *seat, uint64_t *number) {
    uint64_t last = *number;
    uint32_t result = rcu_seat_repin_unfenced(seat, number);
    if (*number != last) rcu_fence();
    return result;
}

/* ---- the version */

/* Returns the version of the library, as `RCU_VERSION` is that of its header. A program over the
 * shared object may compare the two. */
uint32_t rcu_version(void);

/* ---- requests for grace periods. A thread requests by its seat, with no lock, beside all calls on
 * other handles: in a section or not, online or not. The driver reads the greatest request, under
 * the caller's lock, and drives for it (rcu_drive_for).
 * No request is slept through: a thread that makes the greatest request while the driver says that
 * it sleeps, and has not found a request as great, learns that it has to wake the driver. */

/* Requests the grace period of a cookie: if that is greater than each that was requested before,
 * rcu_requested_gp finds it from then on. Writes 1 if it is, and the driver says that it sleeps:
 * then the caller wakes it, by means of the program's own. Else 0. It orders no other memory
 * access, unlike a snapshot. A request cannot be taken back: for a cookie that no snapshot
 * returned, such as 2^64 - 1, the driver makes grace periods without end. */
uint32_t rcu_seat_request_gp(rcu_seat_t *seat, uint64_t cookie, uint32_t *wakes);

/* Says whether the driver sleeps from now on, and then writes the greatest cookie that was
 * requested: 1, which is done at any number, if none was. The next step is rcu_drive_for of it; or,
 * if rcu_poll says that it is done, to sleep until a thread wakes the caller, which lets go of the
 * lock and sleeps in one step, as a condition variable does. */
uint32_t rcu_requested_gp(rcu_t *rcu, bool sleeps, uint64_t *cookie);

/* ---- waiting for a barrier, if the caller is the driver: `rcu` is under the caller's lock */

/* One step of waiting for a barrier, for the driver: it begins a barrier if none runs, visits each
 * processor, tends each list, and takes a step of driving, as rcu_drive. Then it tests the barrier,
 * and writes how many markers and unvisited processors are left. At 0 it is over, and each callback
 * that was queued before it began was handed out. It costs some steps a processor.
 * If a barrier runs already it joins that one, which covers nothing that was queued since that
 * began. So if others may wait, or a wait gave up, call rcu_barrier_begin first; if it is refused
 * (13) wait until the one that runs is over, and begin again.
 * Call it until it writes 0 or returns a fault. In between hand out by rcu_run of each processor,
 * and let other threads run. It orders what rcu_drive orders.
 * Faults: 16 if a list has no room for a marker; 11 if a grace period would begin, and the number
 * is the last one. After either fault the barrier keeps its progress, and the same call continues
 * it.
 * Fence: behind.
 * Laws in crates/rcu_c/src/: calls_are_steps_of_a_run (laws.rt#L141),
 * waiting_for_a_barrier_is_a_run (laws.rt#L221), a_run_goes_on_from_the_end_of_another
 * (laws.rt#L210), no_callback_runs_twice (laws.rt#L229), no_callback_is_lost (laws.rt#L238),
 * barrier_covers_earlier_callbacks (laws.rt#L250), a_barrier_waited_for_covers_earlier_callbacks
 * (laws.rt#L263), no_callback_runs_early (laws.rt#L285), the_fourth_wait_for_a_barrier_writes_0
 * (progress.rt#L237). */
uint32_t rcu_barrier_wait_unfenced(rcu_t *rcu, uint64_t *left);
static inline uint32_t rcu_barrier_wait(rcu_t *rcu, uint64_t *left) {
    uint32_t result = rcu_barrier_wait_unfenced(rcu, left);
    rcu_fence();
    return result;
}

/* ---- sleeping until a processor is quiet. The driver says once for which one it sleeps, and then
 * looks at it once more; the processor's thread gets quiet, idle or offline, and then looks whether
 * the driver sleeps for it. All four steps are sequentially consistent, so one of the two sees the
 * other. So no quiescent state is slept through: no proof says that, but `bindings/model/sleep.py`
 * tries it, by these steps in this order. */

/* Says that the driver sleeps for the first processor that is awaited, and then collects from each
 * that is, as rcu_collect_all. Writes 1 if that first one is awaited still: then the caller sleeps,
 * by means of the program's own, until a thread has to wake it (rcu_seat_should_wake_driver). It
 * lets go of the lock and sleeps in one step, as a condition variable does. Else writes 0. Writes
 * how many are awaited still; if none is, it says that it sleeps for none. Until then call it
 * again, also if the caller woke by chance.
 * Laws in crates/rcu_c/src/: calls_are_steps_of_a_run (laws.rt#L141),
 * waiting_for_a_barrier_is_a_run (laws.rt#L221), a_run_goes_on_from_the_end_of_another
 * (laws.rt#L210), no_callback_runs_twice (laws.rt#L229), no_callback_is_lost (laws.rt#L238),
 * barrier_covers_earlier_callbacks (laws.rt#L250), a_barrier_waited_for_covers_earlier_callbacks
 * (laws.rt#L263), no_callback_runs_early (laws.rt#L285). */
uint32_t rcu_driver_prepare_wait(rcu_t *rcu, uint32_t *sleeps, uint32_t *left);

/* Looks whether the driver sleeps for the seat's processor. A thread looks so after each call by
 * which its processor got quiet, idle or offline. After rcu_seat_quiesce_since and rcu_seat_renew
 * it need not where the number is as it was, or is a multiple of 4, at which no grace period runs.
 * Writes 1 if the caller has to wake the driver, under the lock. Else 0. It costs a load. */
uint32_t rcu_seat_should_wake_driver(rcu_seat_t *seat, uint32_t *wakes);

/* <<< */

/* ---- links in the caller's own nodes */

/* A link in a node of the caller's, by which a thread defers the node. `next` is the seat's while the
 * node is deferred. `run` is the caller's word, as what frees the node: no call reads or writes it. */
typedef struct rcu_link {
    struct rcu_link *next;
    void (*run)(struct rcu_link *link);
} rcu_link_t;

/* Defers a link, behind those that the seat has: with no look at the number, no fence and no
 * memory. The node is there, and no other call has the link, until rcu_defer_take returns it. 15.
 * Of each section one of two holds: all of it comes before what follows the rcu_defer_take that
 * returns the link, or it sees what the thread did before the first look after this call. */
static inline uint32_t rcu_defer_link(rcu_seat_t *seat, rcu_link_t *link) {
    uint64_t last;
    uint32_t fault = rcu_links_push(seat, (uintptr_t)link, &last);
    if (fault) return fault;
    link->next = 0;
    if (last) ((rcu_link_t *)(uintptr_t)last)->next = link;
    return 0;
}

/* Takes the first link out, if it is done: a full grace period has passed since it was deferred.
 * Returns null if it is not done, or if `seat` is not an open seat. Looks at the number only if none
 * is known to be done: then those that were deferred since the last look wait from now on. A full
 * fence precedes the look. */
static inline rcu_link_t *rcu_defer_take(rcu_seat_t *seat) {
    uint64_t first = rcu_links_ready(seat);
    if (!first) first = rcu_links_tend(seat);
    if (!first) return 0;
    rcu_link_t *link = (rcu_link_t *)(uintptr_t)first;
    rcu_links_pop(seat, (uintptr_t)link->next);
    return link;
}

/* ---- how long a driver looks before it sleeps */

/* How many times a driver collects from the awaited processors before it prepares to wait
 * (rcu_driver_prepare_wait), with a pause between: most sections have ended by then. The layer of
 * bindings/urcu and the crate for Rust do so. */
#define RCU_LOOKS_BEFORE_WAIT 20

/* ---- opening, with an identity of its own making */

/* An identity that no other engine of the process has. */
static inline rcu_identity_t rcu_new_identity(void) {
#ifdef __cplusplus
    static std::atomic<std::uint64_t> opened(0);
    rcu_identity_t identity = {reinterpret_cast<std::uintptr_t>(&opened), opened.fetch_add(1)};
#else
    static _Atomic uint64_t opened;
    rcu_identity_t identity = {(uintptr_t)&opened, atomic_fetch_add(&opened, 1)};
#endif
    return identity;
}

/* Opens an engine as rcu_open_as, under an identity that no other engine of the process has. */
static inline uint32_t rcu_open(uint32_t cpus, uint64_t max_number, rcu_t *rcu) {
    return rcu_open_as(cpus, max_number, rcu_new_identity(), rcu);
}

/* ---- names of 0.2.0, which go in 0.4.0 */

__attribute__((deprecated("use rcu_seat_request_gp")))
static inline uint32_t rcu_seat_want(rcu_seat_t *seat, uint64_t cookie, uint32_t *wakes) {
    return rcu_seat_request_gp(seat, cookie, wakes);
}

__attribute__((deprecated("use rcu_requested_gp")))
static inline uint32_t rcu_wanted(rcu_t *rcu, bool sleeps, uint64_t *cookie) {
    return rcu_requested_gp(rcu, sleeps, cookie);
}

__attribute__((deprecated("use rcu_driver_prepare_wait")))
static inline uint32_t rcu_may_sleep(rcu_t *rcu, uint32_t *sleeps, uint32_t *left) {
    return rcu_driver_prepare_wait(rcu, sleeps, left);
}

__attribute__((deprecated("use rcu_seat_should_wake_driver")))
static inline uint32_t rcu_seat_wakes(rcu_seat_t *seat, uint32_t *wakes) {
    return rcu_seat_should_wake_driver(seat, wakes);
}

#ifdef __cplusplus
}
#endif
#endif
