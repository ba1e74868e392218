//! What a caller gives that does not fit, and what is at the edge of what fits.

#[path = "../../rust/tests/common/mod.rs"]
mod common;
#[path = "common/flush.rs"]
mod flush;

use common::{none_alive, Counted};
use crossbeam_epoch::{self as epoch, Atomic, Collector, Owned, Shared};
use flush::flush_until;
use std::mem::{self, MaybeUninit};
use std::panic::{catch_unwind, UnwindSafe};
use std::ptr;
use std::sync::atomic::{AtomicUsize, Ordering::Acquire, Ordering::SeqCst};
use std::sync::Arc;
use std::thread;

/// What the call panics with.
fn said(call: impl FnOnce() + UnwindSafe) -> String {
    let panic = catch_unwind(call).unwrap_err();
    let text = panic.downcast_ref::<String>();
    text.map_or_else(
        || panic.downcast_ref::<&str>().unwrap().to_string(),
        String::clone,
    )
}

#[test]
fn a_pointer_that_is_not_aligned_is_refused() {
    let odd = 9 as *mut u64;
    for told in [
        said(move || assert!(Shared::from(odd.cast_const()).is_null())),
        said(move || mem::forget(unsafe { Owned::from_raw(odd) })),
    ] {
        assert!(told.contains("unaligned pointer"), "{told}");
    }
}

#[test]
fn a_slice_that_is_longer_than_memory_is_refused() {
    for items in [usize::MAX, usize::MAX / 8, isize::MAX as usize / 8] {
        let told = said(move || drop(Owned::<[MaybeUninit<u64>]>::init(items)));
        assert!(told.contains("longer than memory"), "{told}");
    }
    assert_eq!(Owned::<[MaybeUninit<u64>]>::init(0).len(), 0);
}

#[test]
fn a_tag_that_does_not_fit_is_cut_off() {
    let guard = unsafe { epoch::unprotected() };
    let whole = Owned::new(7u64).with_tag(usize::MAX);
    assert_eq!((*whole, whole.tag()), (7, 7));
    let none = Owned::new(7u8).with_tag(usize::MAX);
    assert_eq!((*none, none.tag()), (7, 0));
    let slot = Atomic::new(7u64);
    let before = slot.fetch_or(usize::MAX, SeqCst, guard);
    let behind = slot.load(Acquire, guard);
    assert_eq!((before.tag(), behind.tag()), (0, 7));
    assert_eq!(unsafe { behind.deref() }, &7);
    drop(unsafe { slot.into_owned() });
}

#[test]
fn nothing_is_at_null() {
    let slot = Atomic::<u64>::null();
    let seen = slot.load(Acquire, unsafe { epoch::unprotected() });
    assert!(seen.is_null() && seen.with_tag(7).is_null());
    assert!(unsafe { seen.with_tag(7).as_ref() }.is_none());
    assert!(unsafe { slot.try_into_owned() }.is_none());
}

#[repr(align(256))]
struct Aligned(u8);

/// Functions that lie in a bag, and such as lie in a box; objects of no size and of a great
/// alignment.
#[test]
fn functions_and_objects_of_each_size() {
    let (handle, left) = (Collector::new().register(), none_alive());
    left.store(1002, SeqCst);
    let called = |count: usize, left: &Arc<AtomicUsize>| left.fetch_sub(count, SeqCst);
    let [one, two, three] = [(); 3].map(|_| Arc::clone(&left));
    let (small, large, aligned) = ([1u8; 1], [1usize; 1000], Aligned(1));
    let guard = handle.pin();
    guard.defer(move || called(small.len(), &one));
    guard.defer(move || called(large.iter().sum(), &two));
    guard.defer(move || {
        let all = &aligned;
        assert_eq!(ptr::from_ref(all) as usize % 256, 0);
        called(all.0.into(), &three)
    });
    let nothing = Owned::new(()).into_shared(&guard);
    let great = Owned::new(Aligned(1)).into_shared(&guard);
    assert_eq!(great.as_raw() as usize % 256, 0);
    assert_eq!(great.with_tag(usize::MAX).tag(), 255);
    unsafe {
        guard.defer_destroy(nothing);
        guard.defer_destroy(great);
    }
    assert_eq!(left.load(SeqCst), 1002);
    drop(guard);
    flush_until(&left, 0, &handle);
}

#[test]
fn many_guards_nest() {
    let handle = Collector::new().register();
    let all: Vec<_> = (0..1_000_000).map(|_| handle.pin()).collect();
    drop(all);
    assert!(!handle.is_pinned());
}

/// A guard that is forgotten keeps its thread pinned: what others defer stays, and they go on.
#[test]
fn a_guard_is_forgotten() {
    let (collector, alive) = (Collector::new(), none_alive());
    let handle = collector.register();
    let defer = || {
        let guard = &handle.pin();
        let it = Owned::new(Counted::new(1, &alive)).into_shared(guard);
        unsafe { guard.defer_destroy(it) };
    };
    defer();
    flush_until(&alive, 0, &handle);
    let forgets = collector.clone();
    thread::spawn(move || mem::forget(forgets.register().pin()))
        .join()
        .unwrap();
    for _ in 0..1000 {
        defer();
        handle.pin().flush();
    }
    assert_eq!(alive.load(SeqCst), 1000);
}
