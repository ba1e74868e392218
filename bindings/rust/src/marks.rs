//! Which threads have sections open: so that none waits for its own.
//!
//! A mark is stored and read by one thread, of the number that it has: a guard stays with its
//! thread. What other threads store there is another number, or none. So no order is needed.

use std::cell::Cell;
use std::sync::atomic::{AtomicU64, Ordering::Relaxed};

thread_local! {
    /// The number of this thread, and 0 before it has one.
    static NUMBER: Cell<u64> = const { Cell::new(0) };
}

/// The thread that has a section of a reader open: its number, or 0. Each is on a cache line of its
/// own, as its reader writes it at each section.
#[repr(align(64))]
#[derive(Default)]
pub(crate) struct Mark(AtomicU64);

/// A number that no other thread has.
#[inline]
fn here() -> u64 {
    let number = NUMBER.get();
    if number > 0 {
        return number;
    }
    first_number()
}

#[cold]
fn first_number() -> u64 {
    static LAST: AtomicU64 = AtomicU64::new(0);
    let number = LAST.fetch_add(1, Relaxed) + 1;
    NUMBER.set(number);
    number
}

impl Mark {
    /// This thread opened a section.
    #[inline]
    pub(crate) fn set(&self) {
        self.0.store(here(), Relaxed);
    }

    /// No section is open any more.
    #[inline]
    pub(crate) fn clear(&self) {
        self.0.store(0, Relaxed);
    }

    /// Whether this thread has one open. (That of a guard which is forgotten counts, until its
    /// reader is quiet, idle or dropped.)
    pub(crate) fn is_own(&self) -> bool {
        self.0.load(Relaxed) == here()
    }
}
