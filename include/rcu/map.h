/* The map of an engine, which sections read without a lock. For programs in C (C11) and C++
 * (C++17).
 *
 * The caller's duties, the faults, and what returns and fences mean are as in rcu.h.
 */
#ifndef RCU_MAP_H
#define RCU_MAP_H

#include "../rcu.h"

#ifdef __cplusplus
extern "C" {
#endif

/* >>> types: written by tools/write_calls */

/* The sizes of the map of an engine. */
typedef struct rcu_map_sizes {
    uint64_t buckets; /* how many chains the entries are in, 1 or more */
    uint64_t entries; /* how many entries there is room for at a time. One that was replaced or
                       * removed keeps its room until a grace period is over. A full map can
                       * replace: it has room for that beside these */
    uint64_t seed;    /* the seed of the hash that assigns keys to buckets: draw it at random if
                       * others choose keys */
    uint64_t words;   /* how many words an entry has, 2 or more, of which word 0 is its key. 0 means
                       * 2: a key and a value */
} rcu_map_sizes_t;

/* <<< */

/* >>> calls: written by tools/write_calls from the doc comments of crates/rcu_c */

/* The calls that make a full fence: rcu_map_wait, rcu_seat_map_wait. */

/* ---- opening and closing */

/* Opens an engine as rcu_open_as, with a map of these sizes, which is empty. Each of its seats
 * reads it. Needs: `rcu` is closed.
 * Faults: 29 if there is no bucket, an entry has one word, or there are more than 2^32 words in
 * all: an entry's and one more for each bucket, for each entry, and once for replacements; 17 for
 * no processor or more than 4,096; 19 if `max_number` is no such number; 16. */
uint32_t rcu_open_map_as(uint32_t cpus, uint64_t max_number, rcu_identity_t identity,
                         const rcu_map_sizes_t *sizes, rcu_t *rcu);

/* ---- the map of an engine, as a seat's section reads it: with no lock, beside all calls on other
 * handles. An entry that a section found stays as it is until the section ends. */

/* Looks a key up in the open section, and writes the words of its entry, or the key 0 if it finds
 * none: then the others stay. A key that is in the map from the section's beginning on is found,
 * even if its entry is replaced meanwhile; what is found was there at some moment of the section.
 * It costs two loads for each entry of the key's bucket up to there, and one for each further word.
 * If it finds an entry, all that the thread that put it in did before comes before what follows
 * this call.
 * Faults: 5 if no section is open; 32 if an entry has another number of words.
 * Laws in crates/rcu_c/src/: keys_that_stay_are_found (map_laws.rt#L25), found_keys_were_there
 * (map_laws.rt#L43), found_entries_were_there (map_laws.rt#L60), no_key_that_stays_is_passed_over
 * (map_laws.rt#L93), reads_are_between_the_moments_that_they_know (map_laws.rt#L78). */
uint32_t rcu_map_get(rcu_seat_t *seat, uint64_t key, uint64_t *entry, size_t room);

/* Goes on from a key to the entry behind it, in the open section, and writes the words of that, or
 * the key 0 if there is no further one. From the key 0 it goes to the first one. The entries are in
 * the order of their buckets, and in each of their keys; the key need not be in the map. So calls
 * from the key 0 on, each with the key that the one before wrote, write each key that is in the map
 * as long as the section lasts. It costs two loads for each entry of the key's bucket up to there,
 * one for each bucket with no further entry, and one for each further word.
 * It orders what rcu_map_get orders.
 * Faults: 5 if no section is open; 32 if an entry has another number of words.
 * Laws in crates/rcu_c/src/: keys_that_stay_are_found (map_laws.rt#L25), found_keys_were_there
 * (map_laws.rt#L43), found_entries_were_there (map_laws.rt#L60), no_key_that_stays_is_passed_over
 * (map_laws.rt#L93), reads_are_between_the_moments_that_they_know (map_laws.rt#L78). */
uint32_t rcu_map_next(rcu_seat_t *seat, uint64_t key, uint64_t *entry, size_t room);

/* ---- updates of the map of an engine: `rcu` is under the caller's lock. Sections read the map
 * meanwhile, and see the entries as they were before a call or as they are after it. */

/* Puts an entry of these words in, by one store, if none has its key, and writes the key 0. Else it
 * writes the words of the entry that has the key, and changes nothing. It costs a step for each
 * entry of the key's bucket up to there, and for each word.
 * All that the thread did before comes before what follows a section's rcu_map_get that finds the
 * entry.
 * Faults: 32 if an entry has another number of words than `entry` or `old`; 30 if the key is 0; 31
 * if no entry has the key, and the map is full or no node is free yet. It is full if it has as many
 * entries as it was opened for.
 * Laws in crates/rcu_c/src/: keys_that_stay_are_found (map_laws.rt#L25), found_keys_were_there
 * (map_laws.rt#L43), found_entries_were_there (map_laws.rt#L60), no_key_that_stays_is_passed_over
 * (map_laws.rt#L93), reads_are_between_the_moments_that_they_know (map_laws.rt#L78). */
uint32_t rcu_map_insert(rcu_t *rcu, const uint64_t *entry, size_t length, uint64_t *old,
                        size_t room);

/* Puts an entry in the place of the one that has its key, by one store, and writes that: a section
 * finds the old one or the new one. If none has the key, it writes the key 0, and changes nothing.
 * Costs and orders as rcu_map_insert.
 * Data that words of the old entry lead to may be freed when a full grace period has passed, as by
 * rcu_queue or rcu_defer_link.
 * Faults: 32 as of rcu_map_insert; 30 if the key is 0; 31 if an entry has the key, and no node is
 * free yet. One will be, also in a full map: a node that no entry has waits for its grace period.
 * Laws in crates/rcu_c/src/: keys_that_stay_are_found (map_laws.rt#L25), found_keys_were_there
 * (map_laws.rt#L43), found_entries_were_there (map_laws.rt#L60), no_key_that_stays_is_passed_over
 * (map_laws.rt#L93), reads_are_between_the_moments_that_they_know (map_laws.rt#L78). */
uint32_t rcu_map_replace(rcu_t *rcu, const uint64_t *entry, size_t length, uint64_t *old,
                         size_t room);

/* Puts an entry in, by one store: in the place of the one that has its key, as rcu_map_replace, or
 * if none has it, as rcu_map_insert. Writes the one that had it, or the key 0.
 * Faults: 32 as of rcu_map_insert; 30 if the key is 0; 31 if no node is free yet, or if the map is
 * full and no entry has the key.
 * Laws in crates/rcu_c/src/: keys_that_stay_are_found (map_laws.rt#L25), found_keys_were_there
 * (map_laws.rt#L43), found_entries_were_there (map_laws.rt#L60), no_key_that_stays_is_passed_over
 * (map_laws.rt#L93), reads_are_between_the_moments_that_they_know (map_laws.rt#L78). */
uint32_t rcu_map_put(rcu_t *rcu, const uint64_t *entry, size_t length, uint64_t *old, size_t room);

/* Takes the entry of a key out, by one store, and writes its words, or the key 0 if there is none.
 * Its node is free again once a call of rcu_map_reclaim has found it removed, and a later one finds
 * that a full grace period has passed since. Data that its words lead to may be freed when a full
 * grace period has passed.
 * Fault 32: an entry has another number of words.
 * Laws in crates/rcu_c/src/: keys_that_stay_are_found (map_laws.rt#L25), found_keys_were_there
 * (map_laws.rt#L43), found_entries_were_there (map_laws.rt#L60), no_key_that_stays_is_passed_over
 * (map_laws.rt#L93), reads_are_between_the_moments_that_they_know (map_laws.rt#L78). */
uint32_t rcu_map_remove(rcu_t *rcu, uint64_t key, uint64_t *old, size_t room);

/* Writes the words of the entry of a key as it is now, or the key 0: under the lock no change is
 * missed, as it may be by a section.
 * Fault 32: an entry has another number of words. */
uint32_t rcu_map_find(rcu_t *rcu, uint64_t key, uint64_t *entry, size_t room);

/* Returns how many entries the map has. 0 if `rcu` is not an open engine. */
uint64_t rcu_map_len(rcu_t *rcu);

/* Reclaims nodes, after one load of the number: the nodes of entries that were replaced or removed
 * wait from now on for the grace period of the cookie that this writes, and those whose grace
 * period has passed are free. No entry changes. It costs a load, and a step for each node that
 * waits from now on or is free.
 * If a put finds no node free (31): call it, drive until the cookie is done, and call it again; or
 * call rcu_map_wait.
 * Laws in crates/rcu_c/src/: keys_that_stay_are_found (map_laws.rt#L25), found_keys_were_there
 * (map_laws.rt#L43), found_entries_were_there (map_laws.rt#L60), no_key_that_stays_is_passed_over
 * (map_laws.rt#L93), reads_are_between_the_moments_that_they_know (map_laws.rt#L78). */
uint32_t rcu_map_reclaim(rcu_t *rcu, uint64_t *cookie);

/* One step of waiting for a free node, for the driver: it loads the number, as rcu_map_reclaim
 * does. If no node is free then, it takes a step of driving for the cookie of that number, as
 * rcu_drive_for does. No entry changes.
 * If a call that puts an entry in finds no node free (31): call this, and that again, until the
 * entry is in or this is refused. In between let other threads run; the caller's own processor is
 * idle or offline, or passes quiescent states. It orders what rcu_drive_for orders.
 * Faults: 31 if the map is full and a node is free, by which an entry can be replaced: there is no
 * room beside the entries before one is removed; 11 if a grace period would begin, and the number
 * is the last one. At 11 it has looked.
 * Fence: behind.
 * Laws in crates/rcu_c/src/: keys_that_stay_are_found (map_laws.rt#L25), found_keys_were_there
 * (map_laws.rt#L43), found_entries_were_there (map_laws.rt#L60), no_key_that_stays_is_passed_over
 * (map_laws.rt#L93), reads_are_between_the_moments_that_they_know (map_laws.rt#L78). */
uint32_t rcu_map_wait_unfenced(rcu_t *rcu);
static inline uint32_t rcu_map_wait(rcu_t *rcu) {
    uint32_t result = rcu_map_wait_unfenced(rcu);
    rcu_fence();
    return result;
}

/* One step of waiting for a free node, as rcu_map_wait, by the thread of a seat: in a section of
 * its own it would wait for itself, so it is refused. (A thread that has no seat calls
 * rcu_map_wait.) It orders what rcu_map_wait orders.
 * Faults: 26 if the seat is of another engine; 4 if a section is open on the seat; 31 as of
 * rcu_map_wait; 11 as of rcu_map_wait.
 * Fence: behind.
 * Laws in crates/rcu_c/src/: keys_that_stay_are_found (map_laws.rt#L25), found_keys_were_there
 * (map_laws.rt#L43), found_entries_were_there (map_laws.rt#L60), no_key_that_stays_is_passed_over
 * (map_laws.rt#L93), reads_are_between_the_moments_that_they_know (map_laws.rt#L78). */
uint32_t rcu_seat_map_wait_unfenced(rcu_t *rcu, rcu_seat_t *seat);
static inline uint32_t rcu_seat_map_wait(rcu_t *rcu, rcu_seat_t *seat) {
    uint32_t result = rcu_seat_map_wait_unfenced(rcu, seat);
    rcu_fence();
    return result;
}

/* ---- updates of the map of an engine that are made if an entry is as it was read, which another
 * thread may have changed since: `rcu` is under the caller's lock */

/* Puts an entry in the place of the one that has its key, as rcu_map_replace, if that one has the
 * words of `old`: so it is as it was read. Else (33) it writes the words of the one that has the
 * key, or the key 0 if none has it, and changes nothing. So a loop that makes the entry anew of
 * what is written loses no update of another thread.
 * Faults: 32 as of rcu_map_insert; 30 if the key is 0; 33 if the entry of the key has other words
 * than `old`, or none has the key; 31 as of rcu_map_replace.
 * Laws in crates/rcu_c/src/: keys_that_stay_are_found (map_laws.rt#L25), found_keys_were_there
 * (map_laws.rt#L43), found_entries_were_there (map_laws.rt#L60), no_key_that_stays_is_passed_over
 * (map_laws.rt#L93), reads_are_between_the_moments_that_they_know (map_laws.rt#L78). */
uint32_t rcu_map_compare_replace(rcu_t *rcu, const uint64_t *entry, size_t length, uint64_t *old,
                                 size_t room);

/* Takes the entry of a key out, as rcu_map_remove, if it has the words of `old`, which begin with
 * the key: so it is as it was read. Else (33) it writes the words of the one that has the key, or
 * the key 0 if none has it, and changes nothing.
 * Faults: 32 if an entry has another number of words; 33 if the entry of the key has other words
 * than `old`, or none has the key.
 * Laws in crates/rcu_c/src/: keys_that_stay_are_found (map_laws.rt#L25), found_keys_were_there
 * (map_laws.rt#L43), found_entries_were_there (map_laws.rt#L60), no_key_that_stays_is_passed_over
 * (map_laws.rt#L93), reads_are_between_the_moments_that_they_know (map_laws.rt#L78). */
uint32_t rcu_map_compare_remove(rcu_t *rcu, uint64_t *old, size_t room);

/* <<< */

/* ---- opening, with an identity of its own making */

/* Opens an engine with a map as rcu_open_map_as, under an identity that no other engine of the
 * process has. */
static inline uint32_t rcu_open_map(uint32_t cpus, uint64_t max_number,
                                    const rcu_map_sizes_t *sizes,
                                    rcu_t *rcu) {
    return rcu_open_map_as(cpus, max_number, rcu_new_identity(), sizes, rcu);
}

/* ---- names of 0.2.0, which go in 0.4.0 */

__attribute__((deprecated("use rcu_map_reclaim")))
static inline uint32_t rcu_map_age(rcu_t *rcu, uint64_t *cookie) {
    return rcu_map_reclaim(rcu, cookie);
}

#ifdef __cplusplus
}
#endif
#endif
