//! Threads that come and go, and more of them than there are seats: what a slot has is whole as
//! long as a guard is there, and is dropped once. (With RCU_EPOCH_SEATS=2 at the build nearly all
//! of these threads share a seat.)

#[path = "../../rust/tests/common/mod.rs"]
mod common;
#[path = "common/flush.rs"]
mod flush;

use common::{none_alive, Counted};
use crossbeam_epoch::{self as epoch, Atomic, Collector, Guard, LocalHandle, Owned};
use flush::flush_until;
use std::panic::{catch_unwind, AssertUnwindSafe};
use std::sync::atomic::{AtomicBool, AtomicUsize, Ordering::AcqRel, Ordering::Acquire};
use std::sync::atomic::{Ordering::Relaxed, Ordering::SeqCst};
use std::sync::{Arc, Barrier};
use std::thread::{self, ScopedJoinHandle};

/// A slot whose data is seen to be whole.
struct Slot {
    at: Atomic<Counted>,
    alive: Arc<AtomicUsize>,
}

impl Slot {
    fn new() -> Slot {
        let alive = none_alive();
        Slot {
            at: Atomic::new(Counted::new(0, &alive)),
            alive,
        }
    }

    fn load<'g>(&self, guard: &'g Guard) -> &'g Counted {
        let seen = unsafe { self.at.load(Acquire, guard).deref() };
        assert_eq!(seen.twice, 2 * seen.value);
        seen
    }

    fn replace(&self, value: u64, guard: &Guard) {
        let new = Owned::new(Counted::new(value, &self.alive));
        let old = self.at.swap(new, AcqRel, guard);
        unsafe { guard.defer_destroy(old) };
    }
}

impl Drop for Slot {
    fn drop(&mut self) {
        drop(unsafe { std::mem::take(&mut self.at).into_owned() });
    }
}

/// Joins them one by one. (The thread sanitizer does not see that a scope waits for its threads.)
fn join(threads: Vec<ScopedJoinHandle<'_, ()>>) {
    threads.into_iter().for_each(|it| it.join().unwrap());
}

/// A round of a thread: it reads twice in a section, and replaces at times.
fn read_and_replace(slot: &Slot, handle: &LocalHandle, me: u64, round: u64) {
    let mut guard = handle.pin();
    let seen = slot.load(&guard);
    if (round + me) % 3 == 0 {
        slot.replace(round, &guard);
    }
    assert_eq!(seen.twice, 2 * seen.value);
    match round % 64 {
        7 => guard.repin(),
        9 => guard.repin_after(thread::yield_now),
        11 => guard.flush(),
        13 => drop(handle.pin()),
        _ => {}
    }
    slot.load(&guard);
}

fn run_threads(collector: &Collector, threads: u64, rounds: u64) {
    let slot = Slot::new();
    let start = Barrier::new(threads as usize);
    thread::scope(|scope| {
        let all = (0..threads).map(|me| {
            let (slot, start) = (&slot, &start);
            scope.spawn(move || {
                let handle = collector.register();
                start.wait();
                for round in 0..rounds {
                    read_and_replace(slot, &handle, me, round);
                }
            })
        });
        join(all.collect());
    });
    flush_until(&slot.alive, 1, &collector.register());
}

#[test]
fn few_threads() {
    run_threads(&Collector::new(), 4, 50_000);
}

#[test]
fn more_threads_than_seats() {
    run_threads(&Collector::new(), 160, 400);
}

#[test]
fn threads_come_and_go() {
    let collector = Collector::new();
    for _ in 0..60 {
        run_threads(&collector, 8, 40);
    }
}

/// One thread pins without end, and another one drives a grace period for each replacement.
#[test]
fn a_thread_pins_while_another_drives() {
    let (slot, over) = (Slot::new(), AtomicBool::new(false));
    let collector = Collector::new();
    thread::scope(|scope| {
        let reader = scope.spawn(|| {
            let handle = collector.register();
            while !over.load(SeqCst) {
                for _ in 0..1000 {
                    slot.load(&handle.pin());
                }
            }
        });
        let handle = collector.register();
        for round in 0..100_000 {
            let guard = &handle.pin();
            slot.replace(round, guard);
            guard.flush();
        }
        over.store(true, SeqCst);
        flush_until(&slot.alive, 1, &handle);
        join(vec![reader]);
    });
}

/// One thread pins itself anew without end, and nothing that it reads is dropped meanwhile.
#[test]
fn a_thread_repins_while_others_replace() {
    let (slot, over) = (Slot::new(), AtomicBool::new(false));
    let (collector, pinned) = (Collector::new(), Barrier::new(2));
    thread::scope(|scope| {
        let reader = scope.spawn(|| {
            let mut guard = collector.register().pin();
            pinned.wait();
            while !over.load(SeqCst) {
                let seen = slot.load(&guard);
                for _ in 0..20 {
                    assert_eq!(seen.twice, 2 * seen.value);
                }
                guard.repin();
            }
        });
        let handle = collector.register();
        pinned.wait();
        for round in 0..20_000 {
            slot.replace(round, &handle.pin());
        }
        let flush = AssertUnwindSafe(|| flush_until(&slot.alive, 1, &handle));
        let freed = catch_unwind(flush); // by the repins of the other one
        over.store(true, SeqCst);
        join(vec![reader]);
        assert!(freed.is_ok());
    });
}

/// A collector may get the engine of one that went. What the other deferred is done by then, and
/// none of its threads is waited for.
#[test]
fn collectors_come_and_go() {
    let follow = || {
        for round in 0..500 {
            let (collector, alive) = (Collector::new(), none_alive());
            let (held, handle) = (collector.register().pin(), collector.register());
            for _ in 0..100 {
                let guard = &handle.pin();
                let it = Owned::new(Counted::new(round, &alive)).into_shared(guard);
                unsafe { guard.defer_destroy(it) };
            }
            assert_eq!(alive.load(SeqCst), 100); // none before the one that is held
            drop(held);
            if round % 2 == 0 {
                flush_until(&alive, 0, &handle);
            }
            drop((collector, handle));
            assert_eq!(alive.load(SeqCst), 0);
        }
    };
    thread::scope(|scope| join((0..4).map(|_| scope.spawn(follow)).collect()));
}

#[test]
fn threads_come_and_go_in_the_collector_of_the_process() {
    let alive = none_alive();
    for round in 0..300 {
        thread::scope(|scope| {
            let ends = scope.spawn(|| {
                let guard = &epoch::pin();
                let it = Owned::new(Counted::new(round, &alive)).into_shared(guard);
                unsafe { guard.defer_destroy(it) };
            });
            join(vec![ends]);
        });
    }
    flush_until(&alive, 0, &epoch::default_collector().register());
}

#[test]
fn a_pinned_thread_holds_up_what_it_may_read() {
    let (pinned, done) = (Barrier::new(2), Barrier::new(2));
    let (collector, slot) = (Collector::new(), Slot::new());
    thread::scope(|scope| {
        let reader = scope.spawn(|| {
            let guard = collector.register().pin(); // the handle goes first
            let seen = slot.load(&guard);
            pinned.wait();
            done.wait();
            assert_eq!(seen.twice, 2 * seen.value);
        });
        pinned.wait();
        let handle = collector.register();
        slot.replace(1, &handle.pin());
        for _ in 0..10_000 {
            handle.pin().flush();
        }
        let alive = slot.alive.load(SeqCst);
        done.wait();
        join(vec![reader]);
        assert_eq!(alive, 2);
        flush_until(&slot.alive, 1, &handle);
    });
}

/// Each of two threads stores, pins itself, and loads what the other one stores: one of them sees
/// it. No page of crossbeam-epoch says that a pin is a full fence; crossbeam-deque relies on it.
#[test]
fn a_pin_is_a_full_fence() {
    const ROUNDS: usize = 100_000;
    let collector = Collector::new();
    let row = || -> Vec<AtomicUsize> { (0..ROUNDS).map(|_| AtomicUsize::new(0)).collect() };
    let (words, seen) = ([row(), row()], [row(), row()]);
    let at = [AtomicUsize::new(0), AtomicUsize::new(0)];
    thread::scope(|scope| {
        let both = [0, 1].map(|me| {
            let (collector, words, seen, at) = (&collector, &words, &seen, &at);
            scope.spawn(move || {
                let handle = collector.register();
                for round in 0..ROUNDS {
                    at[me].store(round, SeqCst);
                    let mut looks = 0;
                    while at[1 - me].load(SeqCst) < round {
                        looks += 1;
                        if looks % 1000 == 0 {
                            thread::yield_now();
                        }
                    }
                    words[me][round].store(1, Relaxed);
                    let guard = handle.pin();
                    let found = words[1 - me][round].load(Relaxed);
                    drop(guard);
                    seen[me][round].store(found, Relaxed);
                }
                at[me].store(ROUNDS, SeqCst);
            })
        });
        join(both.into());
    });
    for (one, other) in seen[0].iter().zip(&seen[1]) {
        assert!(one.load(Relaxed) + other.load(Relaxed) > 0);
    }
}
