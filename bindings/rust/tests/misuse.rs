//! What safe code may do that it should not: nothing of it reads data that was dropped.

mod common;

use common::{none_alive, Counted};
use rcu::{Engine, Guard, Reader, Shared};
use std::env;
use std::mem;
use std::panic::{catch_unwind, AssertUnwindSafe};
use std::process::Command;
use std::sync::atomic::Ordering::SeqCst;
use std::sync::{mpsc, Arc};
use std::thread;
use std::time::Duration;

const NEST: usize = 65_535;

/// Whether the closure waits, as long as what it waits for stays.
fn waits<T: Send>(work: impl FnOnce() -> T + Send, end: impl FnOnce()) -> bool {
    thread::scope(|scope| {
        let waiter = scope.spawn(work);
        thread::sleep(Duration::from_millis(20));
        let waits = !waiter.is_finished();
        end();
        waiter.join().unwrap();
        waits
    })
}

#[test]
fn the_outer_guard_is_dropped_before_the_inner_one() {
    let alive = none_alive();
    let engine = Engine::new().unwrap();
    let shared = Shared::new(&engine, Counted::new(1, &alive));
    let mut reader = engine.reader().unwrap();
    let outer = reader.enter();
    let inner = reader.enter();
    let seen = shared.load(&inner);
    drop(outer);
    let own = engine.clone();
    shared.replace(&engine, Counted::new(2, &alive));
    let waiter = thread::spawn(move || own.run_deferred());
    thread::sleep(Duration::from_millis(20));
    assert!(!waiter.is_finished());
    assert_eq!((seen.twice, alive.load(SeqCst)), (2, 2));
    drop(inner);
    reader.quiesce();
    assert_eq!(waiter.join().unwrap(), 1);
    assert_eq!(alive.load(SeqCst), 1);
}

#[test]
fn guards_are_swapped() {
    let alive = none_alive();
    let engine = Engine::new().unwrap();
    let shared = Shared::new(&engine, Counted::new(1, &alive));
    let (one, other) = (engine.reader().unwrap(), engine.reader().unwrap());
    let (mut first, mut second) = (one.enter(), other.enter());
    mem::swap(&mut first, &mut second);
    drop(first); // that of `other`
    let seen = shared.load(&second);
    let own = engine.clone();
    shared.replace(&engine, Counted::new(2, &alive));
    let waiter = thread::spawn(move || own.run_deferred());
    thread::sleep(Duration::from_millis(20));
    assert_eq!((seen.twice, alive.load(SeqCst)), (2, 2));
    drop(second);
    drop((one, other));
    assert_eq!(waiter.join().unwrap(), 1);
}

#[test]
fn a_reader_with_a_forgotten_guard_goes_to_another_thread() {
    let alive = none_alive();
    let engine = Engine::new().unwrap();
    let shared = Shared::new(&engine, Counted::new(1, &alive));
    let reader = engine.reader().unwrap();
    mem::forget(reader.enter());
    shared.replace(&engine, Counted::new(2, &alive));
    let (give, take) = mpsc::channel::<Reader>();
    let other = thread::spawn(move || {
        let mut reader = take.recv().unwrap();
        drop(reader.enter());
        reader.quiesce();
    });
    assert!(waits(
        || engine.run_deferred(),
        || give.send(reader).unwrap()
    ));
    other.join().unwrap();
    assert_eq!(alive.load(SeqCst), 1);
}

#[test]
fn a_leaked_guard_keeps_its_reader_and_what_it_saw() {
    let alive = none_alive();
    let engine = Engine::new().unwrap();
    let shared = Shared::new(&engine, Counted::new(1, &alive));
    let reader: &'static Reader = Box::leak(Box::new(engine.reader().unwrap()));
    let guard: &'static Guard<'static> = Box::leak(Box::new(reader.enter()));
    let seen = shared.load(guard);
    shared.replace(&engine, Counted::new(2, &alive));
    drop(engine);
    assert_eq!((seen.twice, alive.load(SeqCst)), (2, 2));
}

#[test]
fn readers_of_two_engines_are_swapped() {
    let alive = none_alive();
    let (here, there) = (Engine::new().unwrap(), Engine::new().unwrap());
    let shared = Shared::new(&here, Counted::new(1, &alive));
    let (mut one, mut other) = (here.reader().unwrap(), there.reader().unwrap());
    mem::forget(one.enter());
    mem::swap(&mut one, &mut other);
    let load = || shared.load(&one.enter()).twice;
    assert!(catch_unwind(AssertUnwindSafe(load)).is_err());
    shared.replace(&here, Counted::new(2, &alive));
    there.defer(|| ());
    assert!(waits(|| here.run_deferred(), || other.quiesce()));
    one.quiesce();
    drop(one);
    assert_eq!(there.run_deferred(), 1);
    assert_eq!(
        (shared.load(&other.enter()).twice, alive.load(SeqCst)),
        (4, 1)
    );
}

#[test]
fn the_last_owner_is_a_reader_of_another_thread() {
    let alive = none_alive();
    let engine = Engine::new().unwrap();
    let shared = Arc::new(Shared::new(&engine, Counted::new(1, &alive)));
    let reader = engine.reader().unwrap();
    mem::forget(reader.enter());
    shared.replace(&engine, Counted::new(2, &alive));
    drop(engine);
    let slot = Arc::clone(&shared);
    let twice = thread::spawn(move || slot.load_arc(&reader.enter()).twice);
    assert_eq!(twice.join().unwrap(), 4);
    assert_eq!(alive.load(SeqCst), 1);
    drop(shared);
    assert_eq!(alive.load(SeqCst), 0);
}

/// Data whose drop defers once more, so many times.
struct Again(u32, Engine, Arc<Counted>);

impl Drop for Again {
    fn drop(&mut self) {
        if self.0 > 0 {
            let (engine, counted) = (self.1.clone(), Arc::clone(&self.2));
            let next = Arc::new(Again(self.0 - 1, engine, counted));
            self.1.defer_drop(next);
        }
    }
}

#[test]
fn data_defers_at_its_drop() {
    let alive = none_alive();
    let engine = Engine::new().unwrap();
    let counted = Arc::new(Counted::new(1, &alive));
    engine.defer_drop(Arc::new(Again(3, engine.clone(), counted)));
    for _ in 0..4 {
        assert_eq!((engine.run_deferred(), alive.load(SeqCst) <= 1), (1, true));
    }
    assert_eq!((engine.run_deferred(), alive.load(SeqCst)), (0, 0));
}

#[test]
fn a_callback_defers_and_its_slot_goes_as_the_engine_does() {
    let alive = none_alive();
    let engine = Engine::new().unwrap();
    let shared = Shared::new(&engine, Counted::new(1, &alive));
    shared.replace(&engine, Counted::new(2, &alive));
    engine.defer(move || drop(shared));
    drop(engine);
    assert_eq!(alive.load(SeqCst), 0);
}

#[test]
fn data_is_kept_beyond_its_section_and_its_engine() {
    let alive = none_alive();
    let engine = Engine::new().unwrap();
    let shared = Shared::new(&engine, Counted::new(1, &alive));
    let mut reader = engine.reader().unwrap();
    let kept = shared.load_arc(&reader.enter());
    shared.replace(&engine, Counted::new(2, &alive));
    assert_eq!(reader.while_idle(|| engine.run_deferred()), 1);
    drop((reader, engine, shared));
    assert_eq!((kept.twice, alive.load(SeqCst)), (2, 1));
}

#[test]
fn data_may_have_no_size() {
    let engine = Engine::new().unwrap();
    let shared = Shared::new(&engine, ());
    let mut reader = engine.reader().unwrap();
    let kept = shared.load_arc(&reader.enter());
    shared.replace(&engine, ());
    assert_eq!(reader.while_idle(|| engine.run_deferred()), 1);
    assert_eq!(Arc::strong_count(&kept), 1);
}

#[test]
fn sections_nest_so_deep_and_no_deeper() {
    let engine = Engine::new().unwrap();
    let mut reader = engine.reader().unwrap();
    let mut guards: Vec<_> = (0..NEST).map(|_| reader.enter()).collect();
    assert!(catch_unwind(AssertUnwindSafe(|| drop(reader.enter()))).is_err());
    guards.pop();
    drop(reader.enter());
    guards.into_iter().for_each(mem::forget);
    reader.synchronize();
}

/// What the test below runs in a process of its own.
fn panic_in(what: &str) {
    struct Bad;
    impl Drop for Bad {
        fn drop(&mut self) {
            panic!("at a drop");
        }
    }
    let engine = Engine::new().unwrap();
    match what {
        "callback" => engine.defer(|| panic!("in a callback")),
        _ => engine.defer_drop(Arc::new(Bad)),
    }
    let run = || match what {
        "end" => drop(engine),
        _ => drop(engine.run_deferred()),
    };
    let _ = catch_unwind(AssertUnwindSafe(run));
}

#[test]
fn what_is_deferred_panics() {
    if let Ok(what) = env::var("RCU_PANICS") {
        panic_in(&what);
        println!("went on");
    }
}

#[test]
fn what_is_deferred_ends_the_process_where_it_panics() {
    for what in ["callback", "drop", "end"] {
        let ran = Command::new(env::current_exe().unwrap())
            .args(["what_is_deferred_panics", "--exact", "--nocapture"])
            .env("RCU_PANICS", what)
            .output()
            .unwrap();
        assert!(!ran.status.success());
        let told = String::from_utf8_lossy(&ran.stderr);
        assert!(told.contains("what was deferred panicked"), "{told}");
        assert!(!String::from_utf8_lossy(&ran.stdout).contains("went on"));
    }
}
