//! What users of crossbeam-epoch count on, and what stands in README.md beside.

#[path = "../../rust/tests/common/mod.rs"]
mod common;
#[path = "common/flush.rs"]
mod flush;

use common::{none_alive, Counted};
use crossbeam_epoch::{self as epoch, Atomic, Collector, Guard, LocalHandle, Owned, Shared};
use flush::flush_until;
use std::cell::{Cell, RefCell};
use std::mem::MaybeUninit;
use std::panic::{catch_unwind, AssertUnwindSafe};
use std::sync::atomic::{AtomicUsize, Ordering::Relaxed, Ordering::SeqCst};
use std::sync::{Arc, Barrier};
use std::thread;

/// What README.md says that a thread which sleeps unpinned keeps of what it deferred, at most.
const KEPT: usize = 1_087;

/// Defers the drop of something new.
fn defer_one(alive: &Arc<AtomicUsize>, guard: &Guard) {
    let it = Owned::new(Counted::new(1, alive)).into_shared(guard);
    unsafe { guard.defer_destroy(it) };
}

/// Whether the closure panics.
fn panics<T>(call: impl FnOnce() -> T) -> bool {
    catch_unwind(AssertUnwindSafe(call)).is_err()
}

#[test]
fn a_thread_that_sleeps_unpinned_holds_up_nothing() {
    let (pinned, done) = (Barrier::new(2), Barrier::new(2));
    let collector = Collector::new();
    thread::scope(|scope| {
        let sleeper = scope.spawn(|| {
            let handle = collector.register();
            drop(handle.pin());
            pinned.wait();
            done.wait();
        });
        pinned.wait();
        let (alive, handle) = (none_alive(), collector.register());
        defer_one(&alive, &handle.pin());
        let hangs = panics(|| flush_until(&alive, 0, &handle));
        done.wait();
        sleeper.join().unwrap(); // (seen by the thread sanitizer)
        assert!(!hangs);
    });
}

#[test]
fn a_thread_that_sleeps_keeps_so_much_and_no_more() {
    let (deferred, done) = (Barrier::new(2), Barrier::new(2));
    let (collector, alive) = (Collector::new(), none_alive());
    let held = collector.register().pin(); // so that all of it waits
    thread::scope(|scope| {
        let sleeper = scope.spawn(|| {
            let handle = collector.register();
            for _ in 0..20_000 {
                defer_one(&alive, &handle.pin());
            }
            deferred.wait();
            done.wait();
        });
        deferred.wait();
        drop(held);
        let hangs = panics(|| flush_until(&alive, KEPT, &collector.register()));
        done.wait();
        sleeper.join().unwrap();
        assert!(!hangs);
    });
    flush_until(&alive, 0, &collector.register());
}

#[test]
fn a_loop_that_defers_keeps_little() {
    let (collector, alive) = (Collector::new(), none_alive());
    let handle = collector.register();
    for _ in 0..100_000 {
        defer_one(&alive, &handle.pin());
        assert!(alive.load(SeqCst) <= KEPT);
    }
}

struct PinsAtItsEnd(&'static str);

impl Drop for PinsAtItsEnd {
    fn drop(&mut self) {
        let guard = epoch::pin();
        let nested = epoch::pin();
        guard.defer(|| ENDS.fetch_add(1, SeqCst));
        assert!(
            nested.collector() == Some(epoch::default_collector()),
            "{}",
            self.0
        );
    }
}

static ENDS: AtomicUsize = AtomicUsize::new(0);

thread_local! {
    static EARLIER: PinsAtItsEnd = const { PinsAtItsEnd("made before the handle") };
    static LATER: PinsAtItsEnd = const { PinsAtItsEnd("made behind the handle") };
    static KEEPS: RefCell<Option<Guard>> = const { RefCell::new(None) };
}

#[test]
fn destructors_of_a_threads_data_pin() {
    for round in 0..200 {
        let ended = thread::spawn(move || {
            EARLIER.with(|_| ());
            if round % 2 == 0 {
                drop(epoch::pin());
            }
            LATER.with(|_| ());
            if round % 3 == 0 {
                KEEPS.set(Some(epoch::pin())); // a guard that goes with the thread
            }
        });
        ended.join().unwrap();
    }
    let handle = epoch::default_collector().register();
    for _ in 0..1_000_000 {
        handle.pin().flush();
        if ENDS.load(SeqCst) == 400 {
            return;
        }
    }
    panic!("only {} of 400", ENDS.load(SeqCst));
}

#[test]
fn guards_nest_and_go_in_any_order() {
    let (collector, alive) = (Collector::new(), none_alive());
    let handle = collector.register();
    let outer = handle.pin();
    let (mut inner, third) = (handle.pin(), handle.pin());
    drop(outer);
    let it = Owned::new(Counted::new(1, &alive)).into_shared(&third);
    let seen = unsafe { it.deref() };
    let other = collector.register();
    unsafe { other.pin().defer_destroy(it) };
    let flush = || (0..1000).for_each(|_| other.pin().flush());
    flush();
    assert_eq!((seen.twice, alive.load(SeqCst)), (2, 1));
    inner.repin(); // it is not the only one
    inner.repin_after(flush);
    assert_eq!((seen.twice, alive.load(SeqCst)), (2, 1));
    drop(inner);
    assert!(handle.is_pinned());
    flush();
    assert_eq!((seen.twice, alive.load(SeqCst)), (2, 1));
    drop(third);
    assert!(!handle.is_pinned());
    flush_until(&alive, 0, &other);
}

/// While one handle is pinned, all others pin, unpin and flush: what it saw is kept.
fn each_holds_up_for_itself(collector: &Collector, handles: &[LocalHandle]) {
    for (me, handle) in handles.iter().enumerate() {
        let (alive, guard) = (none_alive(), handle.pin());
        let it = Owned::new(Counted::new(1, &alive)).into_shared(&guard);
        let other = collector.register();
        unsafe { other.pin().defer_destroy(it) };
        for _ in 0..10 {
            handles.iter().for_each(|it| drop(it.pin()));
            other.pin().flush();
        }
        assert_eq!(alive.load(SeqCst), 1, "{me} of {}", handles.len());
        drop(guard);
        flush_until(&alive, 0, &other);
    }
}

#[test]
fn each_handle_holds_up_for_itself() {
    let collector = Collector::new();
    let register = |count| -> Vec<_> { (0..count).map(|_| collector.register()).collect() };
    drop(register(4)); // their seats are given to the next
    each_holds_up_for_itself(&collector, &register(4));
    let all = register(150); // more than there are seats
    each_holds_up_for_itself(&collector, &all[all.len() - 20..]);
}

#[test]
fn an_unprotected_guard_defers_nothing() {
    let alive = none_alive();
    let guard = unsafe { epoch::unprotected() };
    let slot = Atomic::new(Counted::new(1, &alive));
    unsafe { guard.defer_destroy(slot.load(Relaxed, guard)) };
    assert_eq!(alive.load(SeqCst), 0);
    let called = Cell::new(false);
    unsafe { guard.defer_unchecked(|| called.set(true)) };
    guard.flush();
    assert!(called.get() && guard.collector().is_none());
}

/// What changed in the releases 0.9.19 to 0.9.21.
#[test]
fn the_calls_are_those_of_the_version() {
    const NOWHERE: Shared<'static, u64> = Shared::null();
    let (guard, slot) = (&epoch::pin(), Atomic::<u64>::null());
    assert_eq!(format!("{slot:p} {NOWHERE:p}"), "0x0 0x0");
    let it = Owned::new(1u64).with_tag(3).into_shared(guard);
    assert_eq!(format!("{it:p}"), format!("{:p}", it.as_raw()));
    slot.store(it, SeqCst);
    let before = slot.fetch_update(SeqCst, SeqCst, guard, |it| Some(it.with_tag(5)));
    assert_eq!((before, slot.load(SeqCst, guard).tag()), (Ok(it), 5));
    let row = Owned::<[MaybeUninit<u64>]>::init(2).into_shared(guard);
    unsafe { guard.defer_destroy(row) };
    drop(unsafe { slot.into_owned() });
}

#[test]
fn collectors_are_apart() {
    let (one, other) = (Collector::new(), Collector::new());
    let held = one.register().pin();
    let (here, there) = (none_alive(), none_alive());
    defer_one(&here, &held);
    let handle = other.register();
    defer_one(&there, &handle.pin());
    flush_until(&there, 0, &handle);
    assert_eq!(here.load(SeqCst), 1);
    assert!(!epoch::is_pinned() && held.collector() == Some(&one));
    drop(held);
    flush_until(&here, 0, &one.register());
}

#[test]
fn what_is_deferred_is_done_once_as_the_collector_goes() {
    let (collector, alive) = (Collector::new(), none_alive());
    let handle = collector.register();
    for _ in 0..1000 {
        defer_one(&alive, &handle.pin());
    }
    let guard = handle.pin();
    drop((collector, handle));
    assert!(alive.load(SeqCst) > 0);
    drop(guard); // the last owner
    assert_eq!(alive.load(SeqCst), 0);
}

#[test]
fn functions_pin_and_defer() {
    static DONE: AtomicUsize = AtomicUsize::new(0);
    fn down(collector: &Collector, left: usize) {
        let handle = collector.register();
        let own = collector.clone();
        handle.pin().defer(move || {
            DONE.fetch_add(1, SeqCst);
            let inner = own.register();
            let mut guard = inner.pin();
            guard.repin();
            guard.flush();
            drop(guard);
            if left > 0 {
                down(&own, left - 1);
            }
        });
        epoch::pin().defer(|| epoch::pin().flush());
    }
    let collector = Collector::new();
    down(&collector, 100);
    let handle = collector.register();
    while DONE.load(SeqCst) < 101 {
        handle.pin().flush();
    }
}

/// Defers so many functions, of which each tenth panics, and all count.
fn defer_some(handle: &LocalHandle, count: usize, done: &Arc<AtomicUsize>) {
    for number in 0..count {
        let done = Arc::clone(done);
        handle.pin().defer(move || {
            done.fetch_add(1, SeqCst);
            assert!(number % 10 > 0, "on purpose");
        });
    }
}

#[test]
fn a_function_panics_and_those_behind_it_are_called_later() {
    const COUNT: usize = 500;
    let (collector, done) = (Collector::new(), none_alive());
    let handle = collector.register();
    let held = collector.register().pin();
    defer_some(&handle, COUNT, &done);
    drop(held);
    let seen = (0..10_000)
        .filter(|_| panics(|| handle.pin().flush()))
        .count();
    assert_eq!((seen, handle.is_pinned()), (COUNT / 10, false));
    assert_eq!(done.load(SeqCst), COUNT); // each of them once
}

#[test]
fn a_function_panics_as_the_collector_goes() {
    let (collector, done) = (Collector::new(), none_alive());
    let handle = collector.register();
    let held = collector.register().pin();
    let count = Arc::clone(&done);
    handle.pin().defer(move || {
        count.fetch_add(1, SeqCst);
        panic!("on purpose");
    });
    for _ in 0..200 {
        let count = Arc::clone(&done);
        handle.pin().defer(move || count.fetch_add(1, SeqCst));
    }
    drop((collector, handle));
    assert!(panics(|| drop(held)));
    assert_eq!(done.load(SeqCst), 201);
}

#[test]
fn a_thread_that_panics_is_unpinned() {
    let collector = Collector::new();
    let handle = collector.register();
    assert!(panics(|| {
        let _guard = handle.pin();
        panic!("on purpose");
    }));
    assert!(!handle.is_pinned());
    assert!(panics(|| handle.pin().repin_after(|| panic!("on purpose"))));
    assert!(!handle.is_pinned());
}
