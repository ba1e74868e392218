// What is timed, over the crate that whoever includes this names `epoch`.

use crate::clock;
use epoch::{Atomic, Collector, LocalHandle, Owned};
use nodes::{Pile, Queue, Stack};
use std::sync::atomic::{AtomicBool, AtomicUsize, Ordering};
use std::sync::Barrier;
use std::thread;

const STEPS: u64 = 400_000;

/// Nanoseconds a step, in the mean of so many threads that work at the same time.
fn on_threads(threads: u64, steps: u64, work: impl Fn(&LocalHandle, u64) + Sync) -> f64 {
    let (collector, start) = (Collector::new(), Barrier::new(threads as usize));
    let spent = thread::scope(|scope| {
        let all: Vec<_> = (0..threads)
            .map(|_| {
                scope.spawn(|| {
                    let handle = collector.register();
                    drop(handle.pin());
                    start.wait();
                    let begun = clock::of_thread();
                    work(&handle, steps / threads);
                    clock::of_thread() - begun
                })
            })
            .collect();
        all.into_iter().map(|it| it.join().unwrap()).sum::<f64>()
    });
    spent / steps as f64
}

pub fn pin_and_unpin(threads: u64) -> f64 {
    on_threads(threads, 10 * STEPS, |handle, steps| {
        (0..steps).for_each(|_| drop(handle.pin()));
    })
}

/// In the collector of the process.
pub fn pin_by_default(threads: u64) -> f64 {
    on_threads(threads, 10 * STEPS, |_, steps| {
        (0..steps).for_each(|_| drop(epoch::pin()));
    })
}

pub fn pin_nested_by_default(threads: u64) -> f64 {
    on_threads(threads, 10 * STEPS, |_, steps| {
        let _outer = epoch::pin();
        (0..steps).for_each(|_| drop(epoch::pin()));
    })
}

pub fn pin_nested(threads: u64) -> f64 {
    on_threads(threads, 10 * STEPS, |handle, steps| {
        let _outer = handle.pin();
        (0..steps).for_each(|_| drop(handle.pin()));
    })
}

pub fn repin(threads: u64) -> f64 {
    on_threads(threads, 10 * STEPS, |handle, steps| {
        let mut guard = handle.pin();
        (0..steps).for_each(|_| guard.repin());
    })
}

pub fn read_beside_updater(threads: u64) -> f64 {
    let (slot, over) = (Atomic::new(7u64), AtomicBool::new(false));
    let (collector, start) = (Collector::new(), Barrier::new(threads as usize));
    let steps = 4 * STEPS / threads;
    let spent = thread::scope(|scope| {
        let updater = scope.spawn(|| {
            let handle = collector.register();
            start.wait();
            while !over.load(Ordering::Relaxed) {
                let guard = &handle.pin();
                let old = slot.swap(Owned::new(7), Ordering::AcqRel, guard);
                unsafe { guard.defer_destroy(old) };
            }
        });
        let readers: Vec<_> = (1..threads)
            .map(|_| {
                scope.spawn(|| {
                    let handle = collector.register();
                    start.wait();
                    let begun = clock::of_thread();
                    for _ in 0..steps {
                        let guard = &handle.pin();
                        let seen = slot.load(Ordering::Acquire, guard);
                        assert_eq!(unsafe { *seen.deref() }, 7);
                    }
                    clock::of_thread() - begun
                })
            })
            .collect();
        let spent: f64 = readers.into_iter().map(|it| it.join().unwrap()).sum();
        over.store(true, Ordering::Relaxed);
        updater.join().unwrap();
        spent
    });
    drop(unsafe { slot.into_owned() });
    spent / (steps * (threads - 1)) as f64
}

pub fn defer_nothing(threads: u64) -> f64 {
    on_threads(threads, 4 * STEPS, |handle, steps| {
        (0..steps).for_each(|_| handle.pin().defer(|| ()));
    })
}

pub fn flush_nothing(threads: u64) -> f64 {
    on_threads(threads, 4 * STEPS, |handle, steps| {
        (0..steps).for_each(|_| handle.pin().flush());
    })
}

pub fn defer_destroy(threads: u64) -> f64 {
    on_threads(threads, 2 * STEPS, |handle, steps| {
        for _ in 0..steps {
            let guard = &handle.pin();
            let it = Owned::new([0u64; 8]).into_shared(guard);
            unsafe { guard.defer_destroy(it) };
        }
    })
}

fn push_and_pop(pile: impl Pile, threads: u64) -> f64 {
    on_threads(threads, STEPS, |handle, steps| {
        for value in 0..steps {
            pile.push(value, &handle.pin());
            pile.pop(&handle.pin());
        }
    })
}

pub fn stack(threads: u64) -> f64 {
    push_and_pop(Stack::new(), threads)
}

pub fn queue(threads: u64) -> f64 {
    push_and_pop(Queue::new(), threads)
}

pub fn new_collector(_: u64) -> f64 {
    const TIMES: u64 = 2000;
    let begun = clock::of_thread();
    for _ in 0..TIMES {
        drop(Collector::new().register().pin());
    }
    (clock::of_thread() - begun) / TIMES as f64
}

/// The same, and none goes before the last was made.
pub fn many_collectors(_: u64) -> f64 {
    const TIMES: u64 = 500;
    let begun = clock::of_thread();
    let handles = (0..TIMES).map(|_| Collector::new().register());
    let all: Vec<_> = handles.inspect(|it| drop(it.pin())).collect();
    drop(all);
    (clock::of_thread() - begun) / TIMES as f64
}

pub fn new_handle(_: u64) -> f64 {
    const TIMES: u64 = 20_000;
    let collector = Collector::new();
    let begun = clock::of_thread();
    for _ in 0..TIMES {
        drop(collector.register().pin());
    }
    (clock::of_thread() - begun) / TIMES as f64
}

static ALIVE: AtomicUsize = AtomicUsize::new(0);

struct Counted(#[allow(dead_code)] [u64; 7]);

impl Drop for Counted {
    fn drop(&mut self) {
        ALIVE.fetch_sub(1, Ordering::Relaxed);
    }
}

fn defer_one(handle: &LocalHandle) {
    ALIVE.fetch_add(1, Ordering::Relaxed);
    let guard = &handle.pin();
    let it = Owned::new(Counted([0; 7])).into_shared(guard);
    unsafe { guard.defer_destroy(it) };
}

/// How many objects are alive at most, where one thread pins and defers in a loop.
pub fn most_kept() -> usize {
    let handle = Collector::new().register();
    let most = (0..STEPS).map(|_| {
        defer_one(&handle);
        ALIVE.load(Ordering::Relaxed)
    });
    most.max().unwrap()
}

/// Bytes for each of the objects that a pinned thread holds up.
pub fn memory_of_a_stall() -> f64 {
    const OBJECTS: u64 = 1_000_000;
    let collector = Collector::new();
    let (held, handle) = (collector.register().pin(), collector.register());
    let before = clock::memory();
    (0..OBJECTS).for_each(|_| defer_one(&handle));
    let grown = clock::memory() - before;
    drop(held);
    grown / OBJECTS as f64
}
