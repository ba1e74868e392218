/* Replicas of one engine on several machines. For programs in C (C11) and C++ (C++17).
 *
 * The caller's duties, the faults and the returns are as in rcu.h. Each replica is a handle of its
 * own, which no lock of an engine guards.
 */
#ifndef RCU_REPLICA_H
#define RCU_REPLICA_H

#include "../rcu.h"

#ifdef __cplusplus
extern "C" {
#endif

/* >>> types: written by tools/write_calls */

/* The answer to a report. */
enum rcu_answer {
    RCU_ANSWER_TAKEN = 0,  /* the processor was awaited, and others still are */
    RCU_ANSWER_LAST = 1,   /* the processor was the only one awaited */
    RCU_ANSWER_REPEAT = 2, /* the processor is not awaited */
    RCU_ANSWER_STALE = 3   /* the report is of another grace period */
};

/* A replica's handle, for one thread at a time. Handles may pass between threads. */
typedef struct rcu_replica {
    unsigned char *at;
} rcu_replica_t;

/* <<< */

/* >>> calls: written by tools/write_calls from the doc comments of crates/rcu_c */

/* ---- replicas of one engine on several machines: each hears of reports and departures by
 * messages, and those that began alike and heard the same processors await the same ones, in
 * whatever order, however often. A replica has no seats; the cost of a call depends on its number
 * of processors. */

/* Opens a replica of 1 to 4,096 processors at number 0, which awaits no processor. No grace period
 * begins at `max_number`, a multiple of 4 from 4 to 2^62. Needs: `replica` is closed.
 * Faults: 17 for no processor or more than 4,096; 19 if `max_number` is no such number; 16. */
uint32_t rcu_replica_open(uint32_t cpus, uint64_t max_number, rcu_replica_t *replica);

/* Begins a grace period that awaits the processors whose bits are set in words of 64, the lowest
 * first; bits of processors that do not exist mean nothing. Writes its number, four for each that
 * ended and one more. It costs a step for each processor, and needs no memory.
 * Faults: 8 if one runs; 11 if the number is the last one. */
uint32_t rcu_replica_begin(rcu_replica_t *replica, const uint64_t *words, size_t length,
                           uint64_t *number);

/* Takes a processor's report of a quiescent state, with the number that it had noted. A report of
 * another number than that of the running grace period changes nothing, nor does a repeated one.
 * Writes an rcu_answer.
 * Fault 1: there is no such processor. */
uint32_t rcu_replica_report(rcu_replica_t *replica, uint32_t cpu, uint64_t number,
                            uint32_t *answer);

/* Takes a processor's departure: it is no longer awaited in the running grace period. Its message
 * has no number to compare, so pass it on only if the processor departed in this grace period.
 * Faults: 1 if there is no such processor; 12 for processor 0. */
uint32_t rcu_replica_depart(rcu_replica_t *replica, uint32_t cpu);

/* Merges the reports that another replica of the same grace period has heard: the first one then
 * awaits only the processors that both await. `other` is another handle, and stays as it is. It
 * costs a step for each processor.
 * Fault 20: number of processors, number or start set differ. */
uint32_t rcu_replica_merge(rcu_replica_t *replica, rcu_replica_t *other);

/* Lists the processors that a replica awaits, in order, `room` at most: writes them from `cpus` on,
 * and how many they are; the rest of the room stays. */
uint32_t rcu_replica_awaited(rcu_replica_t *replica, uint32_t *cpus, size_t room, uint32_t *count);

/* Ends the grace period. Writes the new number.
 * Faults: 9 if none runs; 10 if a processor is awaited. */
uint32_t rcu_replica_end(rcu_replica_t *replica, uint64_t *number);

/* Closes a replica, and frees all that it has. If `replica` is not an open replica, it does
 * nothing. */
void rcu_replica_close(rcu_replica_t *replica);

/* <<< */

#ifdef __cplusplus
}
#endif
#endif
