//! A collector and its handles.

use crate::driver::PROCESS_SEATS;
use crate::guard::Guard;
use crate::local::Local;
use crate::pool::Lent;
use std::fmt;
use std::sync::Arc;

/// An engine, and what was deferred under it. Clones are the same collector. What is deferred still
/// is done as the last of its clones, handles and guards goes.
///
/// ```
/// use crossbeam_epoch::Collector;
///
/// let collector = Collector::new();
/// let handle = collector.register();
/// drop(collector); // the handle keeps it
/// handle.pin().defer(|| println!("at the end"));
/// ```
#[derive(Clone)]
pub struct Collector {
    pub(crate) global: Arc<Lent>,
}

impl Collector {
    /// A new collector.
    ///
    /// # Panics
    /// Where memory is out.
    ///
    /// ```
    /// let (one, other) = (crossbeam_epoch::Collector::new(), crossbeam_epoch::Collector::new());
    /// assert!(one != other && one == one.clone());
    /// ```
    pub fn new() -> Self {
        Collector {
            global: Arc::new(Lent::new()),
        }
    }

    /// The collector of the process.
    pub(crate) fn of_process() -> Self {
        Collector {
            global: Arc::new(Lent::with_seats(PROCESS_SEATS)),
        }
    }

    /// A handle for the calling thread.
    ///
    /// ```
    /// let handle = crossbeam_epoch::Collector::new().register();
    /// assert!(!handle.is_pinned());
    /// ```
    pub fn register(&self) -> LocalHandle {
        Local::register(self)
    }
}

impl Default for Collector {
    fn default() -> Self {
        Collector::new()
    }
}

impl fmt::Debug for Collector {
    fn fmt(&self, to: &mut fmt::Formatter<'_>) -> fmt::Result {
        to.pad("Collector { .. }")
    }
}

impl PartialEq for Collector {
    fn eq(&self, other: &Collector) -> bool {
        Arc::ptr_eq(&self.global, &other.global)
    }
}

impl Eq for Collector {}

/// What a thread pins itself by. Guards may outlive it.
///
/// ```
/// let guard = crossbeam_epoch::Collector::new().register().pin();
/// guard.flush();
/// ```
///
/// ```compile_fail,E0277
/// let handle = crossbeam_epoch::Collector::new().register();
/// std::thread::spawn(move || drop(handle.pin())); // a handle of another thread
/// ```
pub struct LocalHandle {
    pub(crate) local: *const Local,
}

impl LocalHandle {
    #[inline]
    fn local(&self) -> &Local {
        // SAFETY: it is there as long as a handle or a guard is.
        unsafe { &*self.local }
    }

    /// Pins the thread.
    ///
    /// ```
    /// let handle = crossbeam_epoch::Collector::new().register();
    /// let guard = handle.pin();
    /// assert!(handle.is_pinned());
    /// # drop(guard);
    /// ```
    #[inline]
    pub fn pin(&self) -> Guard {
        self.local().pin()
    }

    /// Whether a guard of this handle is there.
    ///
    /// ```
    /// let handle = crossbeam_epoch::Collector::new().register();
    /// drop(handle.pin());
    /// assert!(!handle.is_pinned());
    /// ```
    #[inline]
    pub fn is_pinned(&self) -> bool {
        self.local().is_pinned()
    }

    /// The handle's collector.
    ///
    /// ```
    /// let collector = crossbeam_epoch::Collector::new();
    /// assert_eq!(collector.register().collector(), &collector);
    /// ```
    #[inline]
    pub fn collector(&self) -> &Collector {
        self.local().collector()
    }
}

impl Drop for LocalHandle {
    fn drop(&mut self) {
        if self.local().drop_handle() {
            // SAFETY: this was the last handle, and no guard is there.
            unsafe { Local::finish(self.local) };
        }
    }
}

impl fmt::Debug for LocalHandle {
    fn fmt(&self, to: &mut fmt::Formatter<'_>) -> fmt::Result {
        to.pad("LocalHandle { .. }")
    }
}
