//! Slots: what was there is returned, compared, and made with no engine.

mod common;

use common::{none_alive, Counted};
use rcu::{Engine, Shared};
use std::panic::{catch_unwind, AssertUnwindSafe};
use std::sync::atomic::Ordering::SeqCst;
use std::sync::Arc;
use std::thread;

#[test]
fn what_was_there_is_returned_and_dropped_with_its_last_owner() {
    let alive = none_alive();
    let engine = Engine::new().unwrap();
    let shared = Shared::new(&engine, Counted::new(1, &alive));
    let mut reader = engine.reader().unwrap();
    let guard = reader.enter();
    let seen = shared.load(&guard);
    let old = shared.swap(&engine, Arc::new(Counted::new(2, &alive)));
    assert_eq!((old.value, alive.load(SeqCst)), (1, 2));
    drop(old); // the section reads it still
    assert_eq!((seen.twice, alive.load(SeqCst)), (2, 2));
    drop(guard);
    let old = shared.swap(&engine, Arc::new(Counted::new(3, &alive)));
    reader.while_idle(|| engine.run_deferred());
    assert_eq!((old.twice, alive.load(SeqCst)), (4, 2));
    drop(old);
    assert_eq!(alive.load(SeqCst), 1);
}

#[test]
fn a_slot_changes_only_where_it_has_what_was_compared() {
    let alive = none_alive();
    let engine = Engine::new().unwrap();
    let shared = Shared::new(&engine, Counted::new(1, &alive));
    let reader = engine.reader().unwrap();
    let guard = reader.enter();
    let first = shared.load(&guard);
    let equal = Counted::new(1, &alive); // and not the same
    let new = Arc::new(Counted::new(2, &alive));
    let refused = shared.compare_exchange(&engine, &equal, Arc::clone(&new));
    assert!(refused.is_err_and(|it| Arc::ptr_eq(&it, &new)));
    assert_eq!(shared.load(&guard).value, 1);
    let old = shared.compare_exchange(&engine, first, new).unwrap();
    assert_eq!((old.value, shared.load(&guard).value), (1, 2));
    drop(old); // the section reads it still
    let late = Arc::new(Counted::new(3, &alive));
    assert!(shared.compare_exchange(&engine, first, late).is_err());
    assert_eq!((first.twice, alive.load(SeqCst)), (2, 3));
}

#[test]
fn threads_count_by_comparing() {
    const THREADS: u64 = 4;
    const ROUNDS: u64 = 2000;
    let alive = none_alive();
    let engine = Engine::new().unwrap();
    let shared = Shared::new(&engine, Counted::new(0, &alive));
    thread::scope(|scope| {
        for _ in 0..THREADS {
            scope.spawn(|| {
                let mut reader = engine.reader().unwrap();
                for _ in 0..ROUNDS {
                    while !reader.read(|guard| {
                        let seen = shared.load(guard);
                        let new = Arc::new(Counted::new(seen.value + 1, &alive));
                        shared.compare_exchange(&engine, seen, new).is_ok()
                    }) {}
                }
            });
        }
    });
    let reader = engine.reader().unwrap();
    assert_eq!(shared.load(&reader.enter()).value, THREADS * ROUNDS);
    drop(reader);
    engine.barrier();
    assert_eq!(alive.load(SeqCst), 1);
}

#[derive(Default)]
struct Settings {
    limit: Shared<u64>,
    name: Shared<String>,
}

#[test]
fn a_slot_with_no_engine_is_for_the_first_that_uses_it() {
    let (one, other) = (Engine::new().unwrap(), Engine::new().unwrap());
    let settings = Settings::default();
    settings.name.replace(&one, String::from("one"));
    let reader = other.reader().unwrap();
    assert_eq!(*settings.limit.load(&reader.enter()), 0);
    let read = || settings.name.load(&reader.enter()).len();
    assert!(catch_unwind(AssertUnwindSafe(read)).is_err());
    let replace = || settings.limit.replace(&one, 1);
    assert!(catch_unwind(AssertUnwindSafe(replace)).is_err());
    let swap = || drop(settings.limit.swap(&one, Arc::new(1)));
    assert!(catch_unwind(AssertUnwindSafe(swap)).is_err());
    let compare = || {
        settings
            .limit
            .compare_exchange(&one, &0, Arc::new(1))
            .is_ok()
    };
    assert!(catch_unwind(AssertUnwindSafe(compare)).is_err());
    let kept = Arc::new(7);
    let shared = Shared::from(Arc::clone(&kept));
    assert!(Arc::ptr_eq(&shared.load_arc(&reader.enter()), &kept));
    assert_eq!(*Shared::from(8).load(&reader.enter()), 8);
}

#[test]
fn a_read_ends_its_section_also_where_it_panics() {
    let engine = Engine::new().unwrap();
    let shared = Shared::new(&engine, 7);
    let mut reader = engine.reader().unwrap();
    assert_eq!(reader.read(|guard| *shared.load(guard)), 7);
    engine.defer(|| ());
    let read = || reader.read(|_| panic!("on purpose"));
    assert!(catch_unwind(AssertUnwindSafe(read)).is_err());
    thread::scope(|scope| {
        let waiter = scope.spawn(|| engine.run_deferred());
        while !waiter.is_finished() {
            reader.read(|guard| *shared.load(guard));
        }
        assert_eq!(waiter.join().unwrap(), 1);
    });
}
