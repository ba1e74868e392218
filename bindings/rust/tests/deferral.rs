//! What is deferred is done by those who defer, where no thread drives: now and then, and bounded.

mod common;

use common::{none_alive, Counted};
use rcu::{Engine, Shared};
use std::cell::Cell;
use std::sync::atomic::{AtomicBool, AtomicUsize, Ordering::SeqCst};
use std::sync::{Arc, Barrier, Mutex};
use std::thread;

/// More than is kept at any time where no section is long.
const KEPT: usize = 64;

#[test]
fn what_is_replaced_with_nobody_who_drives_stays_bounded() {
    const MEBIBYTE: usize = 1 << 20;
    let alive = none_alive();
    let engine = Engine::new().unwrap();
    let new = |round| (Counted::new(round, &alive), vec![1u8; MEBIBYTE]);
    let shared = Shared::new(&engine, new(0));
    for round in 1..=2000 {
        shared.replace(&engine, new(round));
        assert!(alive.load(SeqCst) <= KEPT);
    }
    drop(engine);
    assert_eq!(alive.load(SeqCst), 1);
}

#[test]
fn it_stays_bounded_beside_readers_that_pass_quiescent_states() {
    let alive = none_alive();
    let engine = Engine::new().unwrap();
    let shared = Shared::new(&engine, Counted::new(0, &alive));
    let mut reader = engine.reader().unwrap();
    let mut asleep = engine.reader().unwrap();
    asleep.while_idle(|| {
        for round in 1..=10_000 {
            let twice = reader.read(|guard| shared.load(guard).twice);
            assert_eq!(twice, 2 * (round - 1));
            shared.replace(&engine, Counted::new(round, &alive));
            assert!(alive.load(SeqCst) <= KEPT);
        }
    });
}

#[test]
fn what_a_section_may_read_is_kept_and_the_rest_done_once_it_ended() {
    let alive = none_alive();
    let engine = Engine::new().unwrap();
    let shared = Shared::new(&engine, Counted::new(1, &alive));
    let mut reader = engine.reader().unwrap();
    let guard = reader.enter();
    let seen = shared.load(&guard);
    for round in 0..1000 {
        shared.replace(&engine, Counted::new(round, &alive));
    }
    assert_eq!((seen.twice, alive.load(SeqCst)), (2, 1001));
    drop(guard);
    reader.quiesce();
    let mut rounds = 0;
    while alive.load(SeqCst) > KEPT {
        shared.replace(&engine, Counted::new(0, &alive));
        reader.quiesce();
        rounds += 1;
        assert!(rounds < 1000, "what is due is not caught up with");
    }
}

thread_local! {
    static DEFERS: Cell<bool> = const { Cell::new(false) };
}

#[test]
fn where_a_thread_drives_no_other_one_does_any_of_it() {
    let engine = Engine::new().unwrap();
    let (drives, done) = (Arc::new(Barrier::new(2)), none_alive());
    thread::scope(|scope| {
        let driver = scope.spawn(|| engine.drive());
        let first = Arc::clone(&drives);
        engine.defer(move || {
            first.wait();
        });
        drives.wait();
        DEFERS.set(true);
        for _ in 0..1000 {
            let done = Arc::clone(&done);
            engine.defer(move || {
                done.fetch_add(usize::from(!DEFERS.get()), SeqCst);
            });
        }
        DEFERS.set(false);
        engine.barrier();
        engine.stop();
        driver.join().unwrap();
    });
    assert_eq!(done.load(SeqCst), 1000);
}

#[test]
fn what_is_deferred_under_a_lock_of_the_program_may_be_done_there() {
    let engine = Engine::new().unwrap();
    let table: Mutex<Vec<Shared<u64>>> = Mutex::default();
    let dropped = none_alive();
    for round in 0..1000 {
        let mut table = table.lock().unwrap();
        table.push(Shared::new(&engine, round));
        let dropped = Arc::clone(&dropped);
        engine.defer(move || {
            dropped.fetch_add(1, SeqCst);
        });
    }
    assert!(dropped.load(SeqCst) >= 1000 - KEPT);
}

thread_local! {
    static DEPTH: Cell<usize> = const { Cell::new(0) };
}

/// A callback that defers two more, so often.
fn defer_down(engine: &Engine, left: usize, deepest: &Arc<AtomicUsize>) {
    let (own, seen) = (engine.clone(), Arc::clone(deepest));
    engine.defer(move || {
        DEPTH.set(DEPTH.get() + 1);
        seen.fetch_max(DEPTH.get(), SeqCst);
        if left > 0 {
            defer_down(&own, left - 1, &seen);
            defer_down(&own, left - 1, &seen);
        }
        DEPTH.set(DEPTH.get() - 1);
    });
}

#[test]
fn callbacks_that_defer_do_not_nest() {
    let deepest = none_alive();
    let engine = Engine::new().unwrap();
    defer_down(&engine, 10, &deepest);
    while engine.run_deferred() > 0 {}
    assert_eq!(deepest.load(SeqCst), 1);
}

#[test]
fn several_threads_replace_and_none_drives() {
    const THREADS: u64 = 3;
    let alive = none_alive();
    let engine = Engine::new().unwrap();
    let shared = Shared::new(&engine, Counted::new(0, &alive));
    let over = AtomicBool::new(false);
    thread::scope(|scope| {
        let own = (&engine, &shared, &alive);
        let updaters: Vec<_> = (0..THREADS)
            .map(|me| {
                scope.spawn(move || {
                    let (engine, shared, alive) = own;
                    let mut reader = engine.reader().unwrap();
                    for round in 0..10_000 {
                        shared.replace(engine, Counted::new(me + round, alive));
                        let seen = |it: &Counted| (it.value, it.twice);
                        let (value, twice) = reader.read(|guard| seen(shared.load(guard)));
                        assert_eq!(twice, 2 * value);
                    }
                })
            })
            .collect();
        let waiter = scope.spawn(|| {
            while !over.load(SeqCst) {
                engine.synchronize();
                engine.barrier();
            }
        });
        updaters.into_iter().for_each(|it| it.join().unwrap());
        over.store(true, SeqCst);
        waiter.join().unwrap();
    });
    engine.barrier();
    assert_eq!(alive.load(SeqCst), 1);
}
