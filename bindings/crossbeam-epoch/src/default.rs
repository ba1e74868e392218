//! The collector of the process. A thread registers as it pins itself for the first time.

use crate::collector::{Collector, LocalHandle};
use crate::guard::Guard;
use crate::local::Local;
use std::cell::Cell;
use std::ptr::null;
use std::sync::OnceLock;

/// The thread's handle. The next thread may have its seat as the thread ends.
struct Own(LocalHandle);

thread_local! {
    /// What the handle points to, as long as it is there: to be looked at quickly.
    static LOCAL: Cell<*const Local> = const { Cell::new(null()) };
    static OWN: Own = Own(default_collector().register());
}

impl Drop for Own {
    fn drop(&mut self) {
        LOCAL.set(null());
    }
}

/// The collector of the process.
///
/// ```
/// use crossbeam_epoch as epoch;
///
/// assert_eq!(epoch::pin().collector(), Some(epoch::default_collector()));
/// ```
pub fn default_collector() -> &'static Collector {
    static COLLECTOR: OnceLock<Collector> = OnceLock::new();
    COLLECTOR.get_or_init(Collector::of_process)
}

#[inline]
fn with<R>(call: impl Fn(&Local) -> R) -> R {
    // SAFETY: the thread's handle keeps it.
    match unsafe { LOCAL.get().as_ref() } {
        Some(local) => call(local),
        None => with_slowly(call),
    }
}

/// Registers the thread. One that ends, and has no handle any more, has one for this call alone.
#[cold]
fn with_slowly<R>(call: impl Fn(&Local) -> R) -> R {
    // SAFETY: a handle keeps what it points to.
    let of = |handle: &LocalHandle| call(unsafe { &*handle.local });
    let own = OWN.try_with(|own| {
        LOCAL.set(own.0.local);
        of(&own.0)
    });
    own.unwrap_or_else(|_| of(&default_collector().register()))
}

/// Pins the thread in the collector of the process. It may be called in each thread at any time,
/// also in a destructor of a thread's local data.
///
/// ```
/// use crossbeam_epoch as epoch;
///
/// let guard = epoch::pin();
/// assert!(epoch::is_pinned());
/// # drop(guard);
/// ```
#[inline]
pub fn pin() -> Guard {
    with(Local::pin)
}

/// Whether a guard of this thread is there, in the collector of the process.
///
/// ```
/// assert!(!crossbeam_epoch::is_pinned());
/// ```
#[inline]
pub fn is_pinned() -> bool {
    with(Local::is_pinned)
}
