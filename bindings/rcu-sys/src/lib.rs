//! The calls of `include/rcu.h`, `rcu/map.h` and `rcu/replica.h`, as they are in C. Each is unsafe:
//! `rcu.h` says what its caller owes, and nothing checks it.

#![allow(non_camel_case_types)]
#![allow(missing_docs, clippy::undocumented_unsafe_blocks)] // the head has the reason for all

#[cfg(not(all(
    target_arch = "x86_64",
    target_os = "linux",
    target_pointer_width = "64"
)))]
compile_error!("rcu: the proved library is for Linux on x86-64 alone");

use std::sync::atomic::{fence, AtomicU64, Ordering::SeqCst};

// >>> types: written by tools/write_calls

/// An engine's handle, which lies under a lock of the caller's. Handles may pass between threads.
#[repr(C)]
pub struct rcu_t {
    pub at: *mut u8,
}

/// A seat's handle: of one processor, for one thread at a time, beside all other handles.
#[repr(C)]
pub struct rcu_seat_t {
    pub at: *mut u8,
}

/// The identity of an engine, which no other engine of the process has: its opener gives it, and
/// its seats have it too.
#[repr(C)]
#[derive(Clone, Copy, Debug, Default, PartialEq, Eq)]
pub struct rcu_identity_t {
    /// The place of the counter: no two counters have the same.
    pub place: u64,
    /// Which of the engines that this counter numbered it is.
    pub count: u64,
}

/// The result of a turn.
#[repr(C)]
#[derive(Clone, Copy, Debug, Default, PartialEq, Eq)]
pub struct rcu_turn_t {
    /// An `rcu_turned`.
    pub what: u32,
    /// How many processors are awaited, if it began one or waits; else 0.
    pub awaited: u32,
    /// The number, if a grace period began or ended; else 0.
    pub number: u64,
}

/// The sizes of the map of an engine.
#[repr(C)]
#[derive(Clone, Copy, Debug, Default, PartialEq, Eq)]
pub struct rcu_map_sizes_t {
    /// How many chains the entries are in, 1 or more.
    pub buckets: u64,
    /// How many entries there is room for at a time. One that was replaced or removed keeps its
    /// room until a grace period is over. A full map can replace: it has room for that beside
    /// these.
    pub entries: u64,
    /// The seed of the hash that assigns keys to buckets: draw it at random if others choose keys.
    pub seed: u64,
    /// How many words an entry has, 2 or more, of which word 0 is its key. 0 means 2: a key and a
    /// value.
    pub words: u64,
}

/// A replica's handle, for one thread at a time. Handles may pass between threads.
#[repr(C)]
pub struct rcu_replica_t {
    pub at: *mut u8,
}

// Why a call is refused.
/// There is no processor of this number.
pub const RCU_BAD_CPU: u32 = 1;
/// The processor is offline.
pub const RCU_OFFLINE: u32 = 2;
/// The processor is online already.
pub const RCU_ALREADY_ONLINE: u32 = 3;
/// A read section is open on the processor.
pub const RCU_IN_SECTION: u32 = 4;
/// No read section is open on the processor.
pub const RCU_NOT_OPEN: u32 = 5;
/// The read section nests 65,535 deep already.
pub const RCU_NEST_FULL: u32 = 6;
/// A grace period runs already.
pub const RCU_RUNNING: u32 = 8;
/// No grace period runs.
pub const RCU_IDLE: u32 = 9;
/// A processor is still awaited.
pub const RCU_WAITING: u32 = 10;
/// The grace-period number is the last one.
pub const RCU_EXHAUSTED: u32 = 11;
/// Processor 0 never departs.
pub const RCU_BOOT_STAYS: u32 = 12;
/// A barrier runs already.
pub const RCU_BARRIER_BUSY: u32 = 13;
/// No barrier runs.
pub const RCU_NO_BARRIER: u32 = 14;
/// As many callbacks were queued as the opening allows.
pub const RCU_CALLBACKS_FULL: u32 = 15;
/// Out of memory.
pub const RCU_NO_MEMORY: u32 = 16;
/// There is no processor, or there are more than the engine holds.
pub const RCU_TOO_MANY_CPUS: u32 = 17;
/// The last number is not a multiple of 4 from 4 to 2^62.
pub const RCU_BAD_LAST: u32 = 19;
/// Tag, start set or number of processors differ.
pub const RCU_NOT_ALIKE: u32 = 20;
/// The processor is idle.
pub const RCU_CPU_IDLE: u32 = 23;
/// The processor is not idle.
pub const RCU_NOT_IDLE: u32 = 24;
/// The seat of the processor is dealt.
pub const RCU_SEAT_DEALT: u32 = 25;
/// The seat is of another engine.
pub const RCU_OTHER_ENGINE: u32 = 26;
/// The handle is closed, or was never opened.
pub const RCU_CLOSED: u32 = 27;
/// The handle is of another kind.
pub const RCU_OTHER_KIND: u32 = 28;
/// A map can't have these sizes (buckets, words an entry, entries).
pub const RCU_BAD_SIZES: u32 = 29;
/// An entry has the key 0.
pub const RCU_BAD_KEY: u32 = 30;
/// The map has no room for an entry, or none yet.
pub const RCU_MAP_FULL: u32 = 31;
/// An entry of the map has another number of words.
pub const RCU_BAD_WORDS: u32 = 32;
/// The entry of the map is not as it was read.
pub const RCU_ENTRY_CHANGED: u32 = 33;

// The result of a collection.
/// No grace period runs.
pub const RCU_COLLECTED_IDLE: u32 = 0;
/// The processor did not pass a quiescent state in the running grace period yet.
pub const RCU_COLLECTED_NOT_YET: u32 = 1;
/// The processor was awaited, and others still are.
pub const RCU_COLLECTED_TAKEN: u32 = 2;
/// The processor was the only one awaited.
pub const RCU_COLLECTED_LAST: u32 = 3;
/// The processor is not awaited.
pub const RCU_COLLECTED_REPEAT: u32 = 4;

// The result of a visit.
/// The barrier put a marker behind the processor's list.
pub const RCU_VISIT_MARKED: u32 = 0;
/// The processor's list was empty.
pub const RCU_VISIT_EMPTY: u32 = 1;
/// The barrier had visited the processor already.
pub const RCU_VISIT_ALREADY: u32 = 2;

// The result of a turn.
/// No grace period runs, and none is needed.
pub const RCU_TURN_NOTHING: u32 = 0;
/// A grace period of this number began, and awaits this many processors.
pub const RCU_TURN_BEGUN: u32 = 1;
/// The grace period ended, and this is the number now.
pub const RCU_TURN_ENDED: u32 = 2;
/// The grace period goes on, and awaits this many processors.
pub const RCU_TURN_WAITING: u32 = 3;

// The answer to a report.
/// The processor was awaited, and others still are.
pub const RCU_ANSWER_TAKEN: u32 = 0;
/// The processor was the only one awaited.
pub const RCU_ANSWER_LAST: u32 = 1;
/// The processor is not awaited.
pub const RCU_ANSWER_REPEAT: u32 = 2;
/// The report is of another grace period.
pub const RCU_ANSWER_STALE: u32 = 3;

// <<<

/// How many times a driver collects from the awaited processors before it prepares to wait, as the
/// header has it.
pub const RCU_LOOKS_BEFORE_WAIT: u32 = 20;

/// An identity that no other engine of the process has.
pub fn rcu_new_identity() -> rcu_identity_t {
    static OPENED: AtomicU64 = AtomicU64::new(0);
    let place = &OPENED as *const AtomicU64;
    rcu_identity_t {
        place: place as u64,
        count: OPENED.fetch_add(1, SeqCst),
    }
}

/// Opens an engine as [`rcu_open_as`], under an identity that no other engine of the process has.
///
/// # Safety
/// As the header says.
pub unsafe fn rcu_open(cpus: u32, max_number: u64, rcu: *mut rcu_t) -> u32 {
    rcu_open_as(cpus, max_number, rcu_new_identity(), rcu)
}

/// Opens an engine with a map as [`rcu_open_map_as`], under an identity that no other engine of the
/// process has.
///
/// # Safety
/// As the header says.
pub unsafe fn rcu_open_map(
    cpus: u32,
    max_number: u64,
    sizes: *const rcu_map_sizes_t,
    rcu: *mut rcu_t,
) -> u32 {
    rcu_open_map_as(cpus, max_number, rcu_new_identity(), sizes, rcu)
}

// The archive makes no fence: the functions behind its calls do, as those of the header.

// >>> calls: written by tools/write_calls from the doc comments of crates/rcu_c

extern "C" {
    /// Opens an engine of 1 to 4,096 processors at number 0. Processor 0 alone is online, no
    /// callback is queued, and no seat is dealt. No grace period begins at `max_number`, a multiple
    /// of 4 from 4 to 2^62. Needs: `rcu` is closed.
    ///
    /// The identity is one that no other engine of the process has: an engine takes no seat of
    /// another one (26), and compares identities for that. `rcu_open` makes it, of a counter and
    /// the place of that. A program in another language makes its own.
    ///
    /// Faults: 17 for no processor or more than 4,096; 19 if `max_number` is no such number; 16.
    pub fn rcu_open_as(
        cpus: u32,
        max_number: u64,
        identity: rcu_identity_t,
        rcu: *mut rcu_t,
    ) -> u32;
    /// Closes an engine, and frees all that it has; values that are still queued are not handed
    /// out. Seats that are open go on, and are closed in turn. If `rcu` is not an open engine, it
    /// does nothing. Needs: `rcu` is under the caller's lock.
    pub fn rcu_close(rcu: *mut rcu_t);
    /// Deals the seat of a processor; each has one. The seat of processor 0 is online at first, any
    /// other offline; one that was returned is as it was then. Processor 0 is awaited like any
    /// other: if no thread reads on it, make its seat idle once. A seat takes its memory when it is
    /// dealt for the first time. Needs: `rcu` is under the caller's lock, and `seat` is closed.
    ///
    /// Faults: 1 if there is no such processor; 25 if its seat is dealt; 16.
    pub fn rcu_seat_open(rcu: *mut rcu_t, cpu: u32, seat: *mut rcu_seat_t) -> u32;
    /// Returns whether `rcu_seat_open` can deal the seat of the processor: there is such a
    /// processor, and its seat is not dealt. False if `rcu` is not an open engine. Needs: `rcu` is
    /// under the caller's lock.
    pub fn rcu_has_seat(rcu: *mut rcu_t, cpu: u32) -> bool;
    /// Returns a seat to its engine, which can deal it again, and closes it: for a thread that
    /// ends. Its processor stays as it is: depart first, or make processor 0 idle. Else each grace
    /// period waits until another thread has the seat. Needs: `rcu` is under the caller's lock, and
    /// `seat` is in no other call.
    ///
    /// Fault 26: the seat is of another engine.
    pub fn rcu_seat_return(rcu: *mut rcu_t, seat: *mut rcu_seat_t) -> u32;
    /// Closes a seat, which its engine does not deal again: for when the engine goes. Its processor
    /// stays as it is: one that is online is awaited by each grace period that begins, for good. If
    /// `seat` is not an open seat, it does nothing.
    pub fn rcu_seat_close(seat: *mut rcu_seat_t);
    /// Begins a grace period: stores its number, and then looks at each processor. It awaits those
    /// that are online, are not idle, and did not pass a quiescent state in between. Writes the
    /// number, and how many it awaits.
    ///
    /// Of each section one of two holds: all of it comes before what follows the end of this grace
    /// period, or it sees what came before this call.
    ///
    /// Faults: 8 if one runs; 11 if the number is the last one.
    pub fn rcu_begin(rcu: *mut rcu_t, number: *mut u64, awaited: *mut u32) -> u32;
    /// Ends the grace period. Writes the new number.
    ///
    /// All that a thread stored before an `rcu_seat_poll` that found the number below the new one
    /// is seen by what follows this call: so a waiter that stores a request to be woken, and then
    /// polls, is found. The same holds of `rcu_seat_take` and `rcu_seat_quiesce`. Unfenced, it is
    /// sure to be seen by sequentially consistent loads alone.
    ///
    /// Faults: 9 if none runs; 10 if a processor is awaited.
    ///
    /// Fence: behind.
    pub fn rcu_end_unfenced(rcu: *mut rcu_t, number: *mut u64) -> u32;
    /// Ends the grace period if no processor is awaited; begins one if none runs and a tended
    /// callback waits for it. Writes what it did.
    ///
    /// It orders what `rcu_begin` or `rcu_end` orders.
    ///
    /// Fault 11: one would begin, and the number is the last one.
    ///
    /// Fence: behind.
    pub fn rcu_turn_unfenced(rcu: *mut rcu_t, turn: *mut rcu_turn_t) -> u32;
    /// Collects from the processor: if it passed a quiescent state in the grace period, or is
    /// offline or idle, it is no longer awaited. Writes an `rcu_collected`.
    ///
    /// If it finds the quiescent state, the departure or the idleness, all that the thread did
    /// before that comes before what follows this call. The same holds if a begin finds it.
    ///
    /// A processor that was idle at the begin and woke since is found "not yet", and is not
    /// awaited: `rcu_awaits` says whether one is awaited.
    ///
    /// Fault 1: there is no such processor.
    pub fn rcu_collect(rcu: *mut rcu_t, cpu: u32, found: *mut u32) -> u32;
    /// Brings the seat's processor online.
    ///
    /// A section may open once it returns. A grace period that begins later awaits the processor.
    /// Of one that runs already the section sees what came before its begin, and what a thread did
    /// before it took a cookie that is done at its end. Unfenced, what came before an
    /// `rcu_seat_take` is sure to be seen by sequentially consistent loads alone.
    ///
    /// Faults: 26 if the seat is of another engine; 3 if the processor is online.
    ///
    /// Fence: behind.
    pub fn rcu_arrive_unfenced(rcu: *mut rcu_t, seat: *mut rcu_seat_t) -> u32;
    /// Takes the seat's processor offline, and moves its callbacks to processor 0, at a step for
    /// each. Writes how many.
    ///
    /// All that the thread did before comes before what follows the collection or the begin that
    /// finds it offline.
    ///
    /// Faults: 26 if the seat is of another engine; 12 for processor 0; 4 if a section is open; 2
    /// if it was offline and has no callback; 16. At 2 no call sees a change. At 16 the processor
    /// is offline, and its callbacks stay: the same call again moves them.
    pub fn rcu_depart(rcu: *mut rcu_t, seat: *mut rcu_seat_t, moved: *mut u64) -> u32;
    /// Returns how many processors the engine has.
    pub fn rcu_cpus(rcu: *mut rcu_t) -> u32;
    /// Returns the grace-period number: 4 for each grace period that ended, and 1 more while one
    /// runs.
    pub fn rcu_number(rcu: *mut rcu_t) -> u64;
    /// Returns whether a grace period runs.
    pub fn rcu_running(rcu: *mut rcu_t) -> bool;
    /// Returns whether the engine has the processor as online. False if there is no such processor.
    pub fn rcu_online(rcu: *mut rcu_t, cpu: u32) -> bool;
    /// Returns whether the running grace period awaits the processor. False if there is no such
    /// processor.
    pub fn rcu_awaits(rcu: *mut rcu_t, cpu: u32) -> bool;
    /// Returns how many processors the running grace period awaits.
    pub fn rcu_awaited(rcu: *mut rcu_t) -> u32;
    /// Takes a cookie: the number at which a grace period that begins from now on has ended. It
    /// requests no grace period: begin one (`rcu_begin`, or `rcu_turn` if a tended callback waits).
    /// Returns 2^64 - 1, which is never done, if `rcu` is not an open engine.
    pub fn rcu_take(rcu: *mut rcu_t) -> u64;
    /// Returns whether a cookie is done: the number has reached it, so each section that was open
    /// when it was taken has ended. For a number that no snapshot returned, the result means no
    /// more than that the number has reached it. False if `rcu` is not an open engine.
    ///
    /// If it returns true, of each section one of two holds: all of it comes before what follows
    /// this call, or it sees what the thread that took the cookie did before it took it.
    pub fn rcu_poll(rcu: *mut rcu_t, cookie: u64) -> bool;
    /// Queues a value on an online processor. Writes how many were queued since opening. A list
    /// keeps the room that it ever had, until `rcu_shrink` or `rcu_close`.
    ///
    /// Of each section one of two holds: all of it comes before what follows the `rcu_run` that
    /// hands the value out, or it sees what the thread did before this call.
    ///
    /// Faults: 1 if there is no such processor; 2 if it is not online; 15 if 2^62 were queued; 16.
    pub fn rcu_queue(rcu: *mut rcu_t, cpu: u32, value: u64, place: *mut u64) -> u32;
    /// Sets what the processor's callbacks wait for, and which are done. Call it after queueing, so
    /// that a turn begins a grace period for them, and after its end. Writes how many are done and
    /// how many wait.
    ///
    /// Fault 1: there is no such processor.
    pub fn rcu_tend(rcu: *mut rcu_t, cpu: u32, done: *mut u64, waiting: *mut u64) -> u32;
    /// Hands out done callbacks of the processor, in order, `room` at most: writes their values
    /// from `values` on, and how many they are; the rest of the room stays. A full grace period has
    /// passed since each was queued, and none is handed out again. Takes no memory.
    ///
    /// Fault 1: there is no such processor.
    pub fn rcu_run(
        rcu: *mut rcu_t,
        cpu: u32,
        values: *mut u64,
        room: usize,
        count: *mut u64,
    ) -> u32;
    /// Frees the memory that the processor's list does not need, at a step for each item that
    /// stays. Writes for how many items, callbacks and markers, it then has room: for none if it is
    /// empty.
    ///
    /// Fault 1: there is no such processor.
    pub fn rcu_shrink(rcu: *mut rcu_t, cpu: u32, room: *mut u64) -> u32;
    /// Begins a barrier.
    ///
    /// Fault 13: one runs.
    pub fn rcu_barrier_begin(rcu: *mut rcu_t) -> u32;
    /// Has the barrier visit a processor; it has to visit each, also those offline. Writes an
    /// `rcu_visited`.
    ///
    /// Faults: 1 if there is no such processor; 14 if none runs; 16, only if it would mark.
    pub fn rcu_barrier_visit(rcu: *mut rcu_t, cpu: u32, did: *mut u32) -> u32;
    /// Tests the barrier. Writes how many markers and unvisited processors are left; at 0 it is
    /// over, and each callback that was queued before it began was handed out.
    ///
    /// Handed out is not processed: what is done with a value comes before what follows this call
    /// if it is done under the lock under which `rcu_run` handed the value out. Else the caller
    /// counts what was processed, and waits for that too.
    ///
    /// Fault 14: none runs.
    pub fn rcu_barrier_test(rcu: *mut rcu_t, left: *mut u64) -> u32;
    /// Returns the seat's processor, or 2^32 - 1, which is none, if `seat` is not an open seat.
    pub fn rcu_seat_cpu(seat: *mut rcu_seat_t) -> u32;
    /// Returns how deep the read sections of the seat nest: 0 if none is open, or if `seat` is not
    /// an open seat.
    pub fn rcu_seat_depth(seat: *mut rcu_seat_t) -> u32;
    /// Returns whether the seat's processor is online, awake or idle. False if `seat` is not an
    /// open seat.
    pub fn rcu_seat_is_online(seat: *mut rcu_seat_t) -> bool;
    /// Returns whether the seat's processor is idle. False if `seat` is not an open seat.
    pub fn rcu_seat_is_idle(seat: *mut rcu_seat_t) -> bool;
    /// Opens a read section by one load, or nests one deeper in the open one by none.
    ///
    /// Faults: 2 if the processor is offline; 23 if it is idle; 6 if the depth is 65,535.
    pub fn rcu_seat_enter(seat: *mut rcu_seat_t) -> u32;
    /// Leaves the innermost section. One load closes the outermost one.
    ///
    /// Neither this nor `rcu_seat_enter` orders what the thread stores: what a section did comes
    /// before the next quiescent state or departure.
    ///
    /// Fault 5: no section is open.
    pub fn rcu_seat_exit(seat: *mut rcu_seat_t) -> u32;
    /// Passes a quiescent state, by one load and one store: from here on the thread uses nothing
    /// that it read before. Writes the number that it saw.
    ///
    /// All that the thread did before comes before what follows the collection or the begin that
    /// finds this call. The sections that follow see what came before a begin whose number it saw,
    /// and what a thread did before it took a cookie that such a grace period makes done. A full
    /// fence precedes the load, so the number tests a cookie as `rcu_seat_poll` does. Unfenced the
    /// last does not hold, and what came before an `rcu_seat_take` is sure to be seen by
    /// sequentially consistent loads alone.
    ///
    /// Faults: 2 if the processor is offline; 23 if it is idle; 4 if a section is open.
    ///
    /// Fence: before and behind.
    pub fn rcu_seat_quiesce_unfenced(seat: *mut rcu_seat_t, number: *mut u64) -> u32;
    /// Passes a quiescent state by a load alone, if the last one still counts: if the number is the
    /// one that the seat's last `rcu_seat_quiesce`, `rcu_seat_wake`, `rcu_arrive` or call of this
    /// saw, it stores nothing. No grace period began or ended since, so the earlier report still
    /// counts. Else it does what `rcu_seat_quiesce` does. Writes the number that it saw.
    ///
    /// `number` has what the seat's last `rcu_seat_quiesce`, `rcu_seat_wake` or call of this wrote,
    /// or 0. If that is still the number, this call executes no fence: the call that wrote it
    /// executed the fence, or no grace period has begun yet. The sections that follow see the same
    /// as after `rcu_seat_quiesce`. No fence precedes the load: its number tests no cookie for a
    /// thread that stored a request to be woken. Unfenced, they are sure to see what came before an
    /// `rcu_seat_take` by sequentially consistent loads alone.
    ///
    /// Faults: 2 if the processor is offline; 23 if it is idle; 4 if a section is open.
    ///
    /// Fence: behind if `number` changed.
    pub fn rcu_seat_quiesce_since_unfenced(seat: *mut rcu_seat_t, number: *mut u64) -> u32;
    /// Renews the open section: closes it, passes a quiescent state, and opens the next one, by two
    /// loads. For a thread that reads all the time: it keeps one section open, and makes this call
    /// between two looks at the data. From here on it uses nothing that it read before. Writes the
    /// number of the quiescent state.
    ///
    /// If the number is the one of the seat's last quiescent state, wake or renewal, it stores
    /// nothing. `number` is as in `rcu_seat_quiesce_since`, and so are the order and the fence. The
    /// section that follows is one of those that "follow".
    ///
    /// Faults: 2 if the processor is offline; 23 if it is idle; 5 if no section is open; 4 if the
    /// open one nests.
    ///
    /// Fence: behind if `number` changed.
    pub fn rcu_seat_renew_unfenced(seat: *mut rcu_seat_t, number: *mut u64) -> u32;
    /// Makes the processor idle by one store, until it wakes or departs: it opens no section, and
    /// no grace period waits for it. It stays online, and its callbacks stay. For a thread that is
    /// about to block.
    ///
    /// All that the thread did before comes before what follows the collection or the begin that
    /// finds it idle.
    ///
    /// Faults: 2 if the processor is offline; 23 if it is idle; 4 if a section is open.
    pub fn rcu_seat_idle(seat: *mut rcu_seat_t) -> u32;
    /// Wakes the processor, by one load and one store. Writes the number that it saw.
    ///
    /// A section may open once it returns. A grace period that begins later awaits the processor.
    /// Of one that found it idle, or whose number it saw, the section sees what came before its
    /// begin, and what a thread did before it took a cookie that is done at its end. Unfenced, what
    /// came before an `rcu_seat_take` is sure to be seen by sequentially consistent loads alone. No
    /// fence precedes the load: a thread that stored a request to be woken polls by
    /// `rcu_seat_poll`, and not by this number.
    ///
    /// Faults: 2 if the processor is offline; 24 if it is awake.
    ///
    /// Fence: behind.
    pub fn rcu_seat_wake_unfenced(seat: *mut rcu_seat_t, number: *mut u64) -> u32;
    /// Takes a cookie, as `rcu_take`, at the number that one load sees, which no later load is
    /// below. In a section or not, online or not. Returns 2^64 - 1, which is never done, if `seat`
    /// is not an open seat.
    ///
    /// A full fence lies between what the thread did before, as an unlink, and that load. Unfenced,
    /// a section may still reach unlinked data after the cookie is done.
    ///
    /// Fence: before.
    pub fn rcu_seat_take_unfenced(seat: *mut rcu_seat_t) -> u64;
    /// Returns whether a cookie is done, as `rcu_poll`, at the number that one load sees, which no
    /// later load is below. In a section or not, online or not. False if `seat` is not an open
    /// seat.
    ///
    /// If it returns false, all that the thread stored before it is seen by what follows the
    /// `rcu_end`, the `rcu_turn` or the `rcu_seat_poll` that makes or finds the cookie done.
    /// Unfenced it is not: a thread that stores a request to be woken, polls, and sleeps may sleep
    /// for good.
    ///
    /// Fence: before, and behind if it returns true.
    pub fn rcu_seat_poll_unfenced(seat: *mut rcu_seat_t, cookie: u64) -> bool;
    /// Defers a link, behind all others; `rcu_defer_link` is built on it. Writes the link before
    /// it, or 0 if none is left.
    ///
    /// Fault 15: 2^62 were deferred.
    pub fn rcu_links_push(seat: *mut rcu_seat_t, link: u64, last: *mut u64) -> u32;
    /// Returns the first link if it is known to be done, without a load of the number. Else 0, and
    /// if `seat` is not an open seat.
    pub fn rcu_links_ready(seat: *mut rcu_seat_t) -> u64;
    /// Returns the first link that is done, after one load of the number: those that were deferred
    /// since the last load wait from now on. 0 if none is done, or if `seat` is not an open seat.
    ///
    /// Fence: before.
    pub fn rcu_links_tend_unfenced(seat: *mut rcu_seat_t) -> u64;
    /// Takes the first link out, if it is done: `next` is the first one from now on. Returns
    /// whether it was done; false if `seat` is not an open seat.
    pub fn rcu_links_pop(seat: *mut rcu_seat_t, next: u64) -> bool;
    /// Defers a value, behind those that the seat has, without a load of the number or a fence. The
    /// values keep the room that they ever had, until `rcu_defer_shrink` or `rcu_seat_close`.
    ///
    /// Of each section one of two holds: all of it comes before what follows the `rcu_defer_run`
    /// that hands the value out, or it sees what the thread did before the first `rcu_defer_run`
    /// after this call.
    ///
    /// Faults: 15 if 2^62 were deferred; 16.
    pub fn rcu_defer(seat: *mut rcu_seat_t, value: u64) -> u32;
    /// Hands out deferred values that are done, in order, `room` at most, after one load of the
    /// number: those that were deferred before an earlier call of this function, since which a full
    /// grace period has passed. Writes them from `values` on, and how many they are; the rest of
    /// the room stays. The others wait from now on for a grace period that begins later. Takes no
    /// memory.
    ///
    /// A full fence precedes the load. Unfenced, a section may still reach unlinked data after its
    /// value is handed out.
    ///
    /// Fence: before.
    pub fn rcu_defer_run_unfenced(
        seat: *mut rcu_seat_t,
        values: *mut u64,
        room: usize,
        count: *mut u64,
    ) -> u32;
    /// Returns how many values and links were deferred and not handed out. 0 if `seat` is not an
    /// open seat.
    pub fn rcu_defer_count(seat: *mut rcu_seat_t) -> u64;
    /// Returns the cookie at which all can be handed out that was deferred before the seat's last
    /// look, by `rcu_defer_run` at values and by `rcu_defer_take` at links. Returns 1, which is
    /// always done, if none of it waits, or if `seat` is not an open seat.
    pub fn rcu_defer_cookie(seat: *mut rcu_seat_t) -> u64;
    /// Frees the memory that the values do not need, at a step for each that stays. Writes for how
    /// many values the seat then has room: for none if it has none.
    pub fn rcu_defer_shrink(seat: *mut rcu_seat_t, room: *mut u64) -> u32;
    /// One step of driving. While a grace period runs it collects from each processor that is
    /// awaited; if none runs it begins one if a tended callback or an `rcu_start_poll` waits for
    /// it. Then it ends one that awaits no processor. Writes what it did. It costs a load for each
    /// processor that is awaited, and at a begin a load for each processor.
    ///
    /// The driver calls this again and again, and lets other threads run in between while it awaits
    /// someone. It orders what `rcu_begin`, `rcu_collect` and `rcu_end` order.
    ///
    /// Fault 11: one would begin, and the number is the last one.
    ///
    /// Fence: behind.
    pub fn rcu_drive_unfenced(rcu: *mut rcu_t, turn: *mut rcu_turn_t) -> u32;
    /// One step of driving for a cookie, as `rcu_drive`: if no grace period runs it begins one
    /// unless the cookie is done. It asks for no callback, and for no other cookie. Called until
    /// the cookie is done it makes one grace period, or two if one runs already.
    ///
    /// It orders what `rcu_drive` orders.
    ///
    /// Fault 11: one would begin, and the number is the last one.
    ///
    /// Fence: behind.
    pub fn rcu_drive_for_unfenced(rcu: *mut rcu_t, cookie: u64, turn: *mut rcu_turn_t) -> u32;
    /// Collects from each processor that is awaited, as `rcu_collect` from one. Writes how many
    /// still are: 0 if no grace period runs.
    pub fn rcu_collect_all(rcu: *mut rcu_t, left: *mut u32) -> u32;
    /// Lists the awaited processors, in order, `room` at most: writes them from `cpus` on, and how
    /// many they are; the rest of the room stays. It costs a step for each, and one more for every
    /// 64 others.
    pub fn rcu_awaited_list(rcu: *mut rcu_t, cpus: *mut u32, room: usize, count: *mut u32) -> u32;
    /// Takes a cookie, as `rcu_take`, and requests it: from now on `rcu_turn` and `rcu_drive` begin
    /// a grace period for it. Returns 2^64 - 1, which is never done, if `rcu` is not an open
    /// engine.
    pub fn rcu_start_poll(rcu: *mut rcu_t) -> u64;
    /// Opens a read section, or nests one deeper in the open one. An idle processor wakes first, by
    /// one exchange, without a load of the number: no `rcu_seat_wake` is needed.
    ///
    /// It passes no quiescent state: a grace period that begins before the section ends awaits the
    /// processor until it unpins. Of one that found it idle, or at whose number the section began,
    /// the section sees what came before its begin, and what a thread did before it took a cookie
    /// that is done at its end. Unfenced, what came before an `rcu_seat_take` is sure to be seen by
    /// sequentially consistent loads alone: if all readers load by such, the unfenced form is
    /// enough, and so it is for an inner section.
    ///
    /// Faults: 2 if the processor is offline; 6 if the depth is 65,535.
    ///
    /// Fence: behind.
    pub fn rcu_seat_pin_unfenced(seat: *mut rcu_seat_t) -> u32;
    /// Leaves the innermost section. If it was the outermost one, the processor is idle from then
    /// on, as by `rcu_seat_idle`, even if it was awake before the section.
    ///
    /// All that the thread did before comes before what follows the collection or the begin that
    /// finds it idle.
    ///
    /// Faults: 2 if the processor is offline; 5 if no section is open.
    pub fn rcu_seat_unpin(seat: *mut rcu_seat_t) -> u32;
    /// Renews the section that a pin opened, as `rcu_seat_renew`: no grace period that began before
    /// waits for it any more. From here on the thread uses nothing that the section read before.
    /// Writes the number of the quiescent state.
    ///
    /// `number` is as in `rcu_seat_renew`, and 0 after a pin; so are the order and the fence.
    ///
    /// Faults: 2 if the processor is offline; 5 if no section is open; 4 if the open one nests.
    ///
    /// Fence: behind if `number` changed.
    pub fn rcu_seat_repin_unfenced(seat: *mut rcu_seat_t, number: *mut u64) -> u32;
    /// Returns the version of the library, as `RCU_VERSION` is that of its header. A program over
    /// the shared object may compare the two.
    pub fn rcu_version() -> u32;
    /// Requests the grace period of a cookie: if that is greater than each that was requested
    /// before, `rcu_requested_gp` finds it from then on. Writes 1 if it is, and the driver says
    /// that it sleeps: then the caller wakes it, by means of the program's own. Else 0. It orders
    /// no other memory access, unlike a snapshot. A request cannot be taken back: for a cookie that
    /// no snapshot returned, such as 2^64 - 1, the driver makes grace periods without end.
    pub fn rcu_seat_request_gp(seat: *mut rcu_seat_t, cookie: u64, wakes: *mut u32) -> u32;
    /// Says whether the driver sleeps from now on, and then writes the greatest cookie that was
    /// requested: 1, which is done at any number, if none was. The next step is `rcu_drive_for` of
    /// it; or, if `rcu_poll` says that it is done, to sleep until a thread wakes the caller, which
    /// lets go of the lock and sleeps in one step, as a condition variable does.
    pub fn rcu_requested_gp(rcu: *mut rcu_t, sleeps: bool, cookie: *mut u64) -> u32;
    /// One step of waiting for a barrier, for the driver: it begins a barrier if none runs, visits
    /// each processor, tends each list, and takes a step of driving, as `rcu_drive`. Then it tests
    /// the barrier, and writes how many markers and unvisited processors are left. At 0 it is over,
    /// and each callback that was queued before it began was handed out. It costs some steps a
    /// processor.
    ///
    /// If a barrier runs already it joins that one, which covers nothing that was queued since that
    /// began. So if others may wait, or a wait gave up, call `rcu_barrier_begin` first; if it is
    /// refused (13) wait until the one that runs is over, and begin again.
    ///
    /// Call it until it writes 0 or returns a fault. In between hand out by `rcu_run` of each
    /// processor, and let other threads run. It orders what `rcu_drive` orders.
    ///
    /// Faults: 16 if a list has no room for a marker; 11 if a grace period would begin, and the
    /// number is the last one. After either fault the barrier keeps its progress, and the same call
    /// continues it.
    ///
    /// Fence: behind.
    pub fn rcu_barrier_wait_unfenced(rcu: *mut rcu_t, left: *mut u64) -> u32;
    /// Says that the driver sleeps for the first processor that is awaited, and then collects from
    /// each that is, as `rcu_collect_all`. Writes 1 if that first one is awaited still: then the
    /// caller sleeps, by means of the program's own, until a thread has to wake it
    /// (`rcu_seat_should_wake_driver`). It lets go of the lock and sleeps in one step, as a
    /// condition variable does. Else writes 0. Writes how many are awaited still; if none is, it
    /// says that it sleeps for none. Until then call it again, also if the caller woke by chance.
    pub fn rcu_driver_prepare_wait(rcu: *mut rcu_t, sleeps: *mut u32, left: *mut u32) -> u32;
    /// Looks whether the driver sleeps for the seat's processor. A thread looks so after each call
    /// by which its processor got quiet, idle or offline. After `rcu_seat_quiesce_since` and
    /// `rcu_seat_renew` it need not where the number is as it was, or is a multiple of 4, at which
    /// no grace period runs. Writes 1 if the caller has to wake the driver, under the lock. Else 0.
    /// It costs a load.
    pub fn rcu_seat_should_wake_driver(seat: *mut rcu_seat_t, wakes: *mut u32) -> u32;
    /// Opens an engine as `rcu_open_as`, with a map of these sizes, which is empty. Each of its
    /// seats reads it. Needs: `rcu` is closed.
    ///
    /// Faults: 29 if there is no bucket, an entry has one word, or there are more than 2^32 words
    /// in all: an entry's and one more for each bucket, for each entry, and once for replacements;
    /// 17 for no processor or more than 4,096; 19 if `max_number` is no such number; 16.
    pub fn rcu_open_map_as(
        cpus: u32,
        max_number: u64,
        identity: rcu_identity_t,
        sizes: *const rcu_map_sizes_t,
        rcu: *mut rcu_t,
    ) -> u32;
    /// Looks a key up in the open section, and writes the words of its entry, or the key 0 if it
    /// finds none: then the others stay. A key that is in the map from the section's beginning on
    /// is found, even if its entry is replaced meanwhile; what is found was there at some moment of
    /// the section. It costs two loads for each entry of the key's bucket up to there, and one for
    /// each further word.
    ///
    /// If it finds an entry, all that the thread that put it in did before comes before what
    /// follows this call.
    ///
    /// Faults: 5 if no section is open; 32 if an entry has another number of words.
    pub fn rcu_map_get(seat: *mut rcu_seat_t, key: u64, entry: *mut u64, room: usize) -> u32;
    /// Goes on from a key to the entry behind it, in the open section, and writes the words of
    /// that, or the key 0 if there is no further one. From the key 0 it goes to the first one. The
    /// entries are in the order of their buckets, and in each of their keys; the key need not be in
    /// the map. So calls from the key 0 on, each with the key that the one before wrote, write each
    /// key that is in the map as long as the section lasts. It costs two loads for each entry of
    /// the key's bucket up to there, one for each bucket with no further entry, and one for each
    /// further word.
    ///
    /// It orders what `rcu_map_get` orders.
    ///
    /// Faults: 5 if no section is open; 32 if an entry has another number of words.
    pub fn rcu_map_next(seat: *mut rcu_seat_t, key: u64, entry: *mut u64, room: usize) -> u32;
    /// Puts an entry of these words in, by one store, if none has its key, and writes the key 0.
    /// Else it writes the words of the entry that has the key, and changes nothing. It costs a step
    /// for each entry of the key's bucket up to there, and for each word.
    ///
    /// All that the thread did before comes before what follows a section's `rcu_map_get` that
    /// finds the entry.
    ///
    /// Faults: 32 if an entry has another number of words than `entry` or `old`; 30 if the key is
    /// 0; 31 if no entry has the key, and the map is full or no node is free yet. It is full if it
    /// has as many entries as it was opened for.
    pub fn rcu_map_insert(
        rcu: *mut rcu_t,
        entry: *const u64,
        length: usize,
        old: *mut u64,
        room: usize,
    ) -> u32;
    /// Puts an entry in the place of the one that has its key, by one store, and writes that: a
    /// section finds the old one or the new one. If none has the key, it writes the key 0, and
    /// changes nothing. Costs and orders as `rcu_map_insert`.
    ///
    /// Data that words of the old entry lead to may be freed when a full grace period has passed,
    /// as by `rcu_queue` or `rcu_defer_link`.
    ///
    /// Faults: 32 as of `rcu_map_insert`; 30 if the key is 0; 31 if an entry has the key, and no
    /// node is free yet. One will be, also in a full map: a node that no entry has waits for its
    /// grace period.
    pub fn rcu_map_replace(
        rcu: *mut rcu_t,
        entry: *const u64,
        length: usize,
        old: *mut u64,
        room: usize,
    ) -> u32;
    /// Puts an entry in, by one store: in the place of the one that has its key, as
    /// `rcu_map_replace`, or if none has it, as `rcu_map_insert`. Writes the one that had it, or
    /// the key 0.
    ///
    /// Faults: 32 as of `rcu_map_insert`; 30 if the key is 0; 31 if no node is free yet, or if the
    /// map is full and no entry has the key.
    pub fn rcu_map_put(
        rcu: *mut rcu_t,
        entry: *const u64,
        length: usize,
        old: *mut u64,
        room: usize,
    ) -> u32;
    /// Takes the entry of a key out, by one store, and writes its words, or the key 0 if there is
    /// none. Its node is free again once a call of `rcu_map_reclaim` has found it removed, and a
    /// later one finds that a full grace period has passed since. Data that its words lead to may
    /// be freed when a full grace period has passed.
    ///
    /// Fault 32: an entry has another number of words.
    pub fn rcu_map_remove(rcu: *mut rcu_t, key: u64, old: *mut u64, room: usize) -> u32;
    /// Writes the words of the entry of a key as it is now, or the key 0: under the lock no change
    /// is missed, as it may be by a section.
    ///
    /// Fault 32: an entry has another number of words.
    pub fn rcu_map_find(rcu: *mut rcu_t, key: u64, entry: *mut u64, room: usize) -> u32;
    /// Returns how many entries the map has. 0 if `rcu` is not an open engine.
    pub fn rcu_map_len(rcu: *mut rcu_t) -> u64;
    /// Reclaims nodes, after one load of the number: the nodes of entries that were replaced or
    /// removed wait from now on for the grace period of the cookie that this writes, and those
    /// whose grace period has passed are free. No entry changes. It costs a load, and a step for
    /// each node that waits from now on or is free.
    ///
    /// If a put finds no node free (31): call it, drive until the cookie is done, and call it
    /// again; or call `rcu_map_wait`.
    pub fn rcu_map_reclaim(rcu: *mut rcu_t, cookie: *mut u64) -> u32;
    /// One step of waiting for a free node, for the driver: it loads the number, as
    /// `rcu_map_reclaim` does. If no node is free then, it takes a step of driving for the cookie
    /// of that number, as `rcu_drive_for` does. No entry changes.
    ///
    /// If a call that puts an entry in finds no node free (31): call this, and that again, until
    /// the entry is in or this is refused. In between let other threads run; the caller's own
    /// processor is idle or offline, or passes quiescent states. It orders what `rcu_drive_for`
    /// orders.
    ///
    /// Faults: 31 if the map is full and a node is free, by which an entry can be replaced: there
    /// is no room beside the entries before one is removed; 11 if a grace period would begin, and
    /// the number is the last one. At 11 it has looked.
    ///
    /// Fence: behind.
    pub fn rcu_map_wait_unfenced(rcu: *mut rcu_t) -> u32;
    /// One step of waiting for a free node, as `rcu_map_wait`, by the thread of a seat: in a
    /// section of its own it would wait for itself, so it is refused. (A thread that has no seat
    /// calls `rcu_map_wait`.) It orders what `rcu_map_wait` orders.
    ///
    /// Faults: 26 if the seat is of another engine; 4 if a section is open on the seat; 31 as of
    /// `rcu_map_wait`; 11 as of `rcu_map_wait`.
    ///
    /// Fence: behind.
    pub fn rcu_seat_map_wait_unfenced(rcu: *mut rcu_t, seat: *mut rcu_seat_t) -> u32;
    /// Puts an entry in the place of the one that has its key, as `rcu_map_replace`, if that one
    /// has the words of `old`: so it is as it was read. Else (33) it writes the words of the one
    /// that has the key, or the key 0 if none has it, and changes nothing. So a loop that makes the
    /// entry anew of what is written loses no update of another thread.
    ///
    /// Faults: 32 as of `rcu_map_insert`; 30 if the key is 0; 33 if the entry of the key has other
    /// words than `old`, or none has the key; 31 as of `rcu_map_replace`.
    pub fn rcu_map_compare_replace(
        rcu: *mut rcu_t,
        entry: *const u64,
        length: usize,
        old: *mut u64,
        room: usize,
    ) -> u32;
    /// Takes the entry of a key out, as `rcu_map_remove`, if it has the words of `old`, which begin
    /// with the key: so it is as it was read. Else (33) it writes the words of the one that has the
    /// key, or the key 0 if none has it, and changes nothing.
    ///
    /// Faults: 32 if an entry has another number of words; 33 if the entry of the key has other
    /// words than `old`, or none has the key.
    pub fn rcu_map_compare_remove(rcu: *mut rcu_t, old: *mut u64, room: usize) -> u32;
    /// Opens a replica of 1 to 4,096 processors at number 0, which awaits no processor. No grace
    /// period begins at `max_number`, a multiple of 4 from 4 to 2^62. Needs: `replica` is closed.
    ///
    /// Faults: 17 for no processor or more than 4,096; 19 if `max_number` is no such number; 16.
    pub fn rcu_replica_open(cpus: u32, max_number: u64, replica: *mut rcu_replica_t) -> u32;
    /// Begins a grace period that awaits the processors whose bits are set in words of 64, the
    /// lowest first; bits of processors that do not exist mean nothing. Writes its number, four for
    /// each that ended and one more. It costs a step for each processor, and needs no memory.
    ///
    /// Faults: 8 if one runs; 11 if the number is the last one.
    pub fn rcu_replica_begin(
        replica: *mut rcu_replica_t,
        words: *const u64,
        length: usize,
        number: *mut u64,
    ) -> u32;
    /// Takes a processor's report of a quiescent state, with the number that it had noted. A report
    /// of another number than that of the running grace period changes nothing, nor does a repeated
    /// one. Writes an `rcu_answer`.
    ///
    /// Fault 1: there is no such processor.
    pub fn rcu_replica_report(
        replica: *mut rcu_replica_t,
        cpu: u32,
        number: u64,
        answer: *mut u32,
    ) -> u32;
    /// Takes a processor's departure: it is no longer awaited in the running grace period. Its
    /// message has no number to compare, so pass it on only if the processor departed in this grace
    /// period.
    ///
    /// Faults: 1 if there is no such processor; 12 for processor 0.
    pub fn rcu_replica_depart(replica: *mut rcu_replica_t, cpu: u32) -> u32;
    /// Merges the reports that another replica of the same grace period has heard: the first one
    /// then awaits only the processors that both await. `other` is another handle, and stays as it
    /// is. It costs a step for each processor.
    ///
    /// Fault 20: number of processors, number or start set differ.
    pub fn rcu_replica_merge(replica: *mut rcu_replica_t, other: *mut rcu_replica_t) -> u32;
    /// Lists the processors that a replica awaits, in order, `room` at most: writes them from
    /// `cpus` on, and how many they are; the rest of the room stays.
    pub fn rcu_replica_awaited(
        replica: *mut rcu_replica_t,
        cpus: *mut u32,
        room: usize,
        count: *mut u32,
    ) -> u32;
    /// Ends the grace period. Writes the new number.
    ///
    /// Faults: 9 if none runs; 10 if a processor is awaited.
    pub fn rcu_replica_end(replica: *mut rcu_replica_t, number: *mut u64) -> u32;
    /// Closes a replica, and frees all that it has. If `replica` is not an open replica, it does
    /// nothing.
    pub fn rcu_replica_close(replica: *mut rcu_replica_t);
}

/// Ends the grace period. Writes the new number.
///
/// All that a thread stored before an `rcu_seat_poll` that found the number below the new one is
/// seen by what follows this call: so a waiter that stores a request to be woken, and then polls,
/// is found. The same holds of `rcu_seat_take` and `rcu_seat_quiesce`. Unfenced, it is sure to be
/// seen by sequentially consistent loads alone.
///
/// Faults: 9 if none runs; 10 if a processor is awaited.
///
/// Fence: behind.
///
/// # Safety
///
/// As the header says.
pub unsafe fn rcu_end(rcu: *mut rcu_t, number: *mut u64) -> u32 {
    let result = rcu_end_unfenced(rcu, number);
    fence(SeqCst);
    result
}

/// Ends the grace period if no processor is awaited; begins one if none runs and a tended callback
/// waits for it. Writes what it did.
///
/// It orders what `rcu_begin` or `rcu_end` orders.
///
/// Fault 11: one would begin, and the number is the last one.
///
/// Fence: behind.
///
/// # Safety
///
/// As the header says.
pub unsafe fn rcu_turn(rcu: *mut rcu_t, turn: *mut rcu_turn_t) -> u32 {
    let result = rcu_turn_unfenced(rcu, turn);
    fence(SeqCst);
    result
}

/// Brings the seat's processor online.
///
/// A section may open once it returns. A grace period that begins later awaits the processor. Of
/// one that runs already the section sees what came before its begin, and what a thread did before
/// it took a cookie that is done at its end. Unfenced, what came before an `rcu_seat_take` is sure
/// to be seen by sequentially consistent loads alone.
///
/// Faults: 26 if the seat is of another engine; 3 if the processor is online.
///
/// Fence: behind.
///
/// # Safety
///
/// As the header says.
pub unsafe fn rcu_arrive(rcu: *mut rcu_t, seat: *mut rcu_seat_t) -> u32 {
    let result = rcu_arrive_unfenced(rcu, seat);
    fence(SeqCst);
    result
}

/// Passes a quiescent state, by one load and one store: from here on the thread uses nothing that
/// it read before. Writes the number that it saw.
///
/// All that the thread did before comes before what follows the collection or the begin that finds
/// this call. The sections that follow see what came before a begin whose number it saw, and what a
/// thread did before it took a cookie that such a grace period makes done. A full fence precedes
/// the load, so the number tests a cookie as `rcu_seat_poll` does. Unfenced the last does not hold,
/// and what came before an `rcu_seat_take` is sure to be seen by sequentially consistent loads
/// alone.
///
/// Faults: 2 if the processor is offline; 23 if it is idle; 4 if a section is open.
///
/// Fence: before and behind.
///
/// # Safety
///
/// As the header says.
pub unsafe fn rcu_seat_quiesce(seat: *mut rcu_seat_t, number: *mut u64) -> u32 {
    fence(SeqCst);
    let result = rcu_seat_quiesce_unfenced(seat, number);
    fence(SeqCst);
    result
}

/// Passes a quiescent state by a load alone, if the last one still counts: if the number is the one
/// that the seat's last `rcu_seat_quiesce`, `rcu_seat_wake`, `rcu_arrive` or call of this saw, it
/// stores nothing. No grace period began or ended since, so the earlier report still counts. Else
/// it does what `rcu_seat_quiesce` does. Writes the number that it saw.
///
/// `number` has what the seat's last `rcu_seat_quiesce`, `rcu_seat_wake` or call of this wrote, or
/// 0. If that is still the number, this call executes no fence: the call that wrote it executed the
/// fence, or no grace period has begun yet. The sections that follow see the same as after
/// `rcu_seat_quiesce`. No fence precedes the load: its number tests no cookie for a thread that
/// stored a request to be woken. Unfenced, they are sure to see what came before an `rcu_seat_take`
/// by sequentially consistent loads alone.
///
/// Faults: 2 if the processor is offline; 23 if it is idle; 4 if a section is open.
///
/// Fence: behind if `number` changed.
///
/// # Safety
///
/// As the header says.
pub unsafe fn rcu_seat_quiesce_since(seat: *mut rcu_seat_t, number: *mut u64) -> u32 {
    let last = *number;
    let result = rcu_seat_quiesce_since_unfenced(seat, number);
    if *number != last {
        fence(SeqCst);
    }
    result
}

/// Renews the open section: closes it, passes a quiescent state, and opens the next one, by two
/// loads. For a thread that reads all the time: it keeps one section open, and makes this call
/// between two looks at the data. From here on it uses nothing that it read before. Writes the
/// number of the quiescent state.
///
/// If the number is the one of the seat's last quiescent state, wake or renewal, it stores nothing.
/// `number` is as in `rcu_seat_quiesce_since`, and so are the order and the fence. The section that
/// follows is one of those that "follow".
///
/// Faults: 2 if the processor is offline; 23 if it is idle; 5 if no section is open; 4 if the open
/// one nests.
///
/// Fence: behind if `number` changed.
///
/// # Safety
///
/// As the header says.
pub unsafe fn rcu_seat_renew(seat: *mut rcu_seat_t, number: *mut u64) -> u32 {
    let last = *number;
    let result = rcu_seat_renew_unfenced(seat, number);
    if *number != last {
        fence(SeqCst);
    }
    result
}

/// Wakes the processor, by one load and one store. Writes the number that it saw.
///
/// A section may open once it returns. A grace period that begins later awaits the processor. Of
/// one that found it idle, or whose number it saw, the section sees what came before its begin, and
/// what a thread did before it took a cookie that is done at its end. Unfenced, what came before an
/// `rcu_seat_take` is sure to be seen by sequentially consistent loads alone. No fence precedes the
/// load: a thread that stored a request to be woken polls by `rcu_seat_poll`, and not by this
/// number.
///
/// Faults: 2 if the processor is offline; 24 if it is awake.
///
/// Fence: behind.
///
/// # Safety
///
/// As the header says.
pub unsafe fn rcu_seat_wake(seat: *mut rcu_seat_t, number: *mut u64) -> u32 {
    let result = rcu_seat_wake_unfenced(seat, number);
    fence(SeqCst);
    result
}

/// Takes a cookie, as `rcu_take`, at the number that one load sees, which no later load is below.
/// In a section or not, online or not. Returns 2^64 - 1, which is never done, if `seat` is not an
/// open seat.
///
/// A full fence lies between what the thread did before, as an unlink, and that load. Unfenced, a
/// section may still reach unlinked data after the cookie is done.
///
/// Fence: before.
///
/// # Safety
///
/// As the header says.
pub unsafe fn rcu_seat_take(seat: *mut rcu_seat_t) -> u64 {
    fence(SeqCst);
    rcu_seat_take_unfenced(seat)
}

/// Returns whether a cookie is done, as `rcu_poll`, at the number that one load sees, which no
/// later load is below. In a section or not, online or not. False if `seat` is not an open seat.
///
/// If it returns false, all that the thread stored before it is seen by what follows the `rcu_end`,
/// the `rcu_turn` or the `rcu_seat_poll` that makes or finds the cookie done. Unfenced it is not: a
/// thread that stores a request to be woken, polls, and sleeps may sleep for good.
///
/// Fence: before, and behind if it returns true.
///
/// # Safety
///
/// As the header says.
pub unsafe fn rcu_seat_poll(seat: *mut rcu_seat_t, cookie: u64) -> bool {
    fence(SeqCst);
    let result = rcu_seat_poll_unfenced(seat, cookie);
    if result {
        fence(SeqCst);
    }
    result
}

/// Returns the first link that is done, after one load of the number: those that were deferred
/// since the last load wait from now on. 0 if none is done, or if `seat` is not an open seat.
///
/// Fence: before.
///
/// # Safety
///
/// As the header says.
pub unsafe fn rcu_links_tend(seat: *mut rcu_seat_t) -> u64 {
    fence(SeqCst);
    rcu_links_tend_unfenced(seat)
}

/// Hands out deferred values that are done, in order, `room` at most, after one load of the number:
/// those that were deferred before an earlier call of this function, since which a full grace
/// period has passed. Writes them from `values` on, and how many they are; the rest of the room
/// stays. The others wait from now on for a grace period that begins later. Takes no memory.
///
/// A full fence precedes the load. Unfenced, a section may still reach unlinked data after its
/// value is handed out.
///
/// Fence: before.
///
/// # Safety
///
/// As the header says.
pub unsafe fn rcu_defer_run(
    seat: *mut rcu_seat_t,
    values: *mut u64,
    room: usize,
    count: *mut u64,
) -> u32 {
    fence(SeqCst);
    rcu_defer_run_unfenced(seat, values, room, count)
}

/// One step of driving. While a grace period runs it collects from each processor that is awaited;
/// if none runs it begins one if a tended callback or an `rcu_start_poll` waits for it. Then it
/// ends one that awaits no processor. Writes what it did. It costs a load for each processor that
/// is awaited, and at a begin a load for each processor.
///
/// The driver calls this again and again, and lets other threads run in between while it awaits
/// someone. It orders what `rcu_begin`, `rcu_collect` and `rcu_end` order.
///
/// Fault 11: one would begin, and the number is the last one.
///
/// Fence: behind.
///
/// # Safety
///
/// As the header says.
pub unsafe fn rcu_drive(rcu: *mut rcu_t, turn: *mut rcu_turn_t) -> u32 {
    let result = rcu_drive_unfenced(rcu, turn);
    fence(SeqCst);
    result
}

/// One step of driving for a cookie, as `rcu_drive`: if no grace period runs it begins one unless
/// the cookie is done. It asks for no callback, and for no other cookie. Called until the cookie is
/// done it makes one grace period, or two if one runs already.
///
/// It orders what `rcu_drive` orders.
///
/// Fault 11: one would begin, and the number is the last one.
///
/// Fence: behind.
///
/// # Safety
///
/// As the header says.
pub unsafe fn rcu_drive_for(rcu: *mut rcu_t, cookie: u64, turn: *mut rcu_turn_t) -> u32 {
    let result = rcu_drive_for_unfenced(rcu, cookie, turn);
    fence(SeqCst);
    result
}

/// Opens a read section, or nests one deeper in the open one. An idle processor wakes first, by one
/// exchange, without a load of the number: no `rcu_seat_wake` is needed.
///
/// It passes no quiescent state: a grace period that begins before the section ends awaits the
/// processor until it unpins. Of one that found it idle, or at whose number the section began, the
/// section sees what came before its begin, and what a thread did before it took a cookie that is
/// done at its end. Unfenced, what came before an `rcu_seat_take` is sure to be seen by
/// sequentially consistent loads alone: if all readers load by such, the unfenced form is enough,
/// and so it is for an inner section.
///
/// Faults: 2 if the processor is offline; 6 if the depth is 65,535.
///
/// Fence: behind.
///
/// # Safety
///
/// As the header says.
pub unsafe fn rcu_seat_pin(seat: *mut rcu_seat_t) -> u32 {
    let result = rcu_seat_pin_unfenced(seat);
    fence(SeqCst);
    result
}

/// Renews the section that a pin opened, as `rcu_seat_renew`: no grace period that began before
/// waits for it any more. From here on the thread uses nothing that the section read before. Writes
/// the number of the quiescent state.
///
/// `number` is as in `rcu_seat_renew`, and 0 after a pin; so are the order and the fence.
///
/// Faults: 2 if the processor is offline; 5 if no section is open; 4 if the open one nests.
///
/// Fence: behind if `number` changed.
///
/// # Safety
///
/// As the header says.
pub unsafe fn rcu_seat_repin(seat: *mut rcu_seat_t, number: *mut u64) -> u32 {
    let last = *number;
    let result = rcu_seat_repin_unfenced(seat, number);
    if *number != last {
        fence(SeqCst);
    }
    result
}

/// One step of waiting for a barrier, for the driver: it begins a barrier if none runs, visits each
/// processor, tends each list, and takes a step of driving, as `rcu_drive`. Then it tests the
/// barrier, and writes how many markers and unvisited processors are left. At 0 it is over, and
/// each callback that was queued before it began was handed out. It costs some steps a processor.
///
/// If a barrier runs already it joins that one, which covers nothing that was queued since that
/// began. So if others may wait, or a wait gave up, call `rcu_barrier_begin` first; if it is
/// refused (13) wait until the one that runs is over, and begin again.
///
/// Call it until it writes 0 or returns a fault. In between hand out by `rcu_run` of each
/// processor, and let other threads run. It orders what `rcu_drive` orders.
///
/// Faults: 16 if a list has no room for a marker; 11 if a grace period would begin, and the number
/// is the last one. After either fault the barrier keeps its progress, and the same call continues
/// it.
///
/// Fence: behind.
///
/// # Safety
///
/// As the header says.
pub unsafe fn rcu_barrier_wait(rcu: *mut rcu_t, left: *mut u64) -> u32 {
    let result = rcu_barrier_wait_unfenced(rcu, left);
    fence(SeqCst);
    result
}

/// One step of waiting for a free node, for the driver: it loads the number, as `rcu_map_reclaim`
/// does. If no node is free then, it takes a step of driving for the cookie of that number, as
/// `rcu_drive_for` does. No entry changes.
///
/// If a call that puts an entry in finds no node free (31): call this, and that again, until the
/// entry is in or this is refused. In between let other threads run; the caller's own processor is
/// idle or offline, or passes quiescent states. It orders what `rcu_drive_for` orders.
///
/// Faults: 31 if the map is full and a node is free, by which an entry can be replaced: there is no
/// room beside the entries before one is removed; 11 if a grace period would begin, and the number
/// is the last one. At 11 it has looked.
///
/// Fence: behind.
///
/// # Safety
///
/// As the header says.
pub unsafe fn rcu_map_wait(rcu: *mut rcu_t) -> u32 {
    let result = rcu_map_wait_unfenced(rcu);
    fence(SeqCst);
    result
}

/// One step of waiting for a free node, as `rcu_map_wait`, by the thread of a seat: in a section of
/// its own it would wait for itself, so it is refused. (A thread that has no seat calls
/// `rcu_map_wait`.) It orders what `rcu_map_wait` orders.
///
/// Faults: 26 if the seat is of another engine; 4 if a section is open on the seat; 31 as of
/// `rcu_map_wait`; 11 as of `rcu_map_wait`.
///
/// Fence: behind.
///
/// # Safety
///
/// As the header says.
pub unsafe fn rcu_seat_map_wait(rcu: *mut rcu_t, seat: *mut rcu_seat_t) -> u32 {
    let result = rcu_seat_map_wait_unfenced(rcu, seat);
    fence(SeqCst);
    result
}

// <<<
