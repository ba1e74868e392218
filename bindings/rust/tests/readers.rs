//! Threads that read, data that is dropped by what is deferred, and how all of it ends.

mod common;

use common::{none_alive, Counted};
use rcu::{Engine, Error, Reader, Shared};
use std::mem;
use std::panic::{catch_unwind, AssertUnwindSafe};
use std::sync::atomic::{AtomicBool, Ordering::SeqCst};
use std::sync::{Arc, Barrier};
use std::thread;
use std::time::Duration;

/// An engine and a slot are for all threads; a reader is for any.
const _: fn() = || {
    fn may_be_shared<T: Send + Sync>() {}
    fn may_be_sent<T: Send>() {}
    may_be_shared::<Engine>();
    may_be_shared::<Shared<u64>>();
    may_be_sent::<Reader>();
};

#[test]
fn all_that_is_replaced_is_dropped_and_none_too_early() {
    const READERS: u32 = 3;
    const UPDATES: u64 = 20_000;
    let alive = none_alive();
    let engine = Engine::new().unwrap();
    let shared = Shared::new(&engine, Counted::new(0, &alive));
    let (over, begun) = (AtomicBool::new(false), Barrier::new(READERS as usize + 1));
    thread::scope(|scope| {
        for _ in 0..READERS {
            scope.spawn(|| {
                let mut reader = engine.reader().unwrap();
                begun.wait();
                while !over.load(SeqCst) {
                    let guard = reader.enter();
                    let seen = shared.load(&guard);
                    assert_eq!(seen.twice, 2 * seen.value);
                    drop(guard);
                    reader.quiesce();
                }
            });
        }
        let driver = scope.spawn(|| engine.drive());
        begun.wait();
        for value in 1..=UPDATES {
            shared.replace(&engine, Counted::new(value, &alive));
        }
        engine.barrier();
        assert_eq!(alive.load(SeqCst), 1);
        over.store(true, SeqCst);
        engine.stop();
        driver.join().unwrap();
    });
    drop(shared);
    assert_eq!(alive.load(SeqCst), 0);
}

#[test]
fn readers_come_and_go() {
    let engine = Engine::with_limit(4).unwrap();
    let shared = Shared::new(&engine, 7);
    thread::scope(|scope| {
        for _ in 0..4 {
            scope.spawn(|| {
                for _ in 0..500 {
                    let mut reader = engine.reader().unwrap();
                    assert_eq!(*shared.load(&reader.enter()), 7);
                    reader.while_idle(thread::yield_now);
                    assert_eq!(*shared.load(&reader.enter()), 7);
                }
            });
        }
        for _ in 0..500 {
            shared.replace(&engine, 7);
            engine.run_deferred();
        }
    });
    let all: Vec<_> = (0..4).map(|_| engine.reader().unwrap()).collect();
    assert_eq!(engine.reader().err(), Some(Error::AllTaken));
    drop(all);
    assert!(engine.reader().is_ok());
}

#[test]
fn a_section_is_waited_for() {
    let alive = none_alive();
    let engine = Engine::new().unwrap();
    let shared = Shared::new(&engine, Counted::new(1, &alive));
    let mut reader = engine.reader().unwrap();
    let guard = reader.enter();
    let (outer, kept) = (shared.load(&guard), shared.load_arc(&guard));
    let inner = reader.enter();
    shared.replace(&engine, Counted::new(2, &alive));
    let own = engine.clone();
    let waiter = thread::spawn(move || own.run_deferred());
    thread::sleep(Duration::from_millis(20));
    assert!(!waiter.is_finished());
    assert_eq!((outer.twice, shared.load(&inner).twice), (2, 4));
    drop(inner);
    drop(guard);
    reader.quiesce();
    assert_eq!(waiter.join().unwrap(), 1);
    assert_eq!(kept.twice, 2);
    assert_eq!(alive.load(SeqCst), 2);
    let other = Shared::of(&engine, Arc::clone(&kept));
    shared.replace_by(&engine, kept);
    reader.while_idle(|| engine.barrier());
    assert_eq!(alive.load(SeqCst), 1);
    drop(other);
    assert_eq!(shared.load(&reader.enter()).twice, 2);
}

#[test]
fn a_forgotten_guard_holds_its_section_open_until_the_reader_is_used_anew() {
    let alive = none_alive();
    let engine = Engine::new().unwrap();
    let shared = Shared::new(&engine, Counted::new(1, &alive));
    let mut reader = engine.reader().unwrap();
    mem::forget(reader.enter());
    mem::forget(reader.enter());
    shared.replace(&engine, Counted::new(2, &alive));
    thread::scope(|scope| {
        let waiter = scope.spawn(|| engine.run_deferred());
        thread::sleep(Duration::from_millis(20));
        assert!(!waiter.is_finished());
        assert_eq!(alive.load(SeqCst), 2);
        reader.quiesce();
        waiter.join().unwrap();
    });
    assert_eq!(alive.load(SeqCst), 1);
    mem::forget(reader.enter());
    drop(reader);
    engine.synchronize();
    let mut reader = engine.reader().unwrap();
    mem::forget(reader.enter());
    reader.synchronize();
    assert_eq!(shared.load(&reader.enter()).twice, 4);
}

#[test]
fn a_forgotten_reader_leaks_and_frees_nothing() {
    let alive = none_alive();
    let engine = Engine::new().unwrap();
    let shared = Shared::new(&engine, Counted::new(1, &alive));
    let reader = Box::leak(Box::new(engine.reader().unwrap()));
    let guard = Box::leak(Box::new(reader.enter()));
    shared.replace(&engine, Counted::new(2, &alive));
    drop(engine);
    assert_eq!(alive.load(SeqCst), 2);
    assert_eq!(shared.load(guard).twice, 4);
}

#[test]
fn the_engine_outlives_its_readers_and_does_what_is_deferred() {
    let alive = none_alive();
    let engine = Engine::new().unwrap();
    let shared = Shared::new(&engine, Counted::new(1, &alive));
    let reader = engine.reader().unwrap();
    let guard = reader.enter();
    let seen = shared.load(&guard);
    shared.replace(&engine, Counted::new(2, &alive));
    let late = Counted::new(3, &alive);
    engine.defer(move || drop(late));
    drop(engine);
    assert_eq!((seen.twice, alive.load(SeqCst)), (2, 3));
    drop(guard);
    drop(reader); // the last owner
    assert_eq!(alive.load(SeqCst), 1);
    drop(shared);
    assert_eq!(alive.load(SeqCst), 0);
}

#[test]
fn what_is_deferred_may_call_all_but_a_barrier() {
    let engine = Engine::new().unwrap();
    let shared = Arc::new(Shared::new(&engine, 1));
    let done = none_alive();
    let (own, slot, count) = (engine.clone(), Arc::clone(&shared), Arc::clone(&done));
    engine.defer(move || {
        let mut reader = own.reader().unwrap();
        assert_eq!(*slot.load(&reader.enter()), 1);
        slot.replace(&own, 2);
        reader.synchronize();
        drop(reader);
        own.run_deferred();
        let counted = Arc::clone(&count);
        own.defer(move || {
            counted.fetch_add(1, SeqCst);
        });
        count.fetch_add(1, SeqCst);
    });
    assert_eq!(engine.run_deferred(), 1);
    assert_eq!(done.load(SeqCst), 1);
    engine.barrier();
    assert_eq!(done.load(SeqCst), 2);
}

#[test]
fn several_threads_wait_and_drive() {
    let engine = Engine::new().unwrap();
    let done = none_alive();
    thread::scope(|scope| {
        let drivers: Vec<_> = (0..2).map(|_| scope.spawn(|| engine.drive())).collect();
        let updaters: Vec<_> = (0..3)
            .map(|_| {
                scope.spawn(|| {
                    for _ in 0..300 {
                        let counted = Arc::clone(&done);
                        engine.defer(move || {
                            counted.fetch_add(1, SeqCst);
                        });
                        engine.synchronize();
                    }
                    engine.barrier();
                    assert!(done.load(SeqCst) >= 300);
                })
            })
            .collect();
        updaters.into_iter().for_each(|it| it.join().unwrap());
        assert_eq!(done.load(SeqCst), 900);
        engine.stop();
        drivers.into_iter().for_each(|it| it.join().unwrap());
    });
}

#[test]
fn a_thread_that_panics_leaves_its_sections() {
    let engine = Engine::new().unwrap();
    let mut reader = engine.reader().unwrap();
    let panics = catch_unwind(AssertUnwindSafe(|| {
        let _guard = reader.enter();
        panic!("in a section");
    }));
    assert!(panics.is_err());
    let panics = catch_unwind(AssertUnwindSafe(|| {
        reader.while_idle(|| panic!("while idle"))
    }));
    assert!(panics.is_err());
    drop(reader.enter());
    reader.synchronize();
}

#[test]
fn engines_are_told_apart() {
    let (one, other) = (Engine::new().unwrap(), Engine::new().unwrap());
    let shared = Shared::new(&one, 1);
    let reader = other.reader().unwrap();
    let guard = reader.enter();
    assert!(catch_unwind(AssertUnwindSafe(|| *shared.load(&guard))).is_err());
    assert!(catch_unwind(AssertUnwindSafe(|| shared.load_arc(&guard))).is_err());
    assert!(catch_unwind(AssertUnwindSafe(|| shared.replace(&other, 2))).is_err());
    assert_eq!(*shared.load(&one.reader().unwrap().enter()), 1);
}

#[test]
fn an_engine_has_1_to_4095_readers() {
    assert_eq!(Engine::with_limit(0).err(), Some(Error::BadCount));
    assert_eq!(Engine::with_limit(4096).err(), Some(Error::BadCount));
    assert_eq!(Engine::with_limit(u32::MAX).err(), Some(Error::BadCount));
    for (engine, most) in [(Engine::with_limit(4095), 4095), (Engine::new(), 1023)] {
        let engine = engine.unwrap();
        let all: Vec<_> = (0..most).map(|_| engine.reader().unwrap()).collect();
        assert_eq!(engine.reader().err(), Some(Error::AllTaken));
        drop(all);
        engine.synchronize();
    }
}
