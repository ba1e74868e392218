//! A guard, as long as which its thread is pinned.

use crate::collector::Collector;
use crate::garbage::Deferred;
use crate::local::Local;
use crate::pointable::Pointable;
use crate::shared::Shared;
use std::fmt;
use std::mem;
use std::ptr::null;

/// While a guard is there, what its thread reads is not freed. Guards nest.
///
/// ```
/// use crossbeam_epoch::{self as epoch, Atomic, Owned};
/// use std::sync::atomic::Ordering::{AcqRel, Acquire};
///
/// let name = Atomic::new("old");
/// let guard = &epoch::pin();
/// let seen = name.load(Acquire, guard);
/// let old = name.swap(Owned::new("new"), AcqRel, guard);
/// unsafe { guard.defer_destroy(old) };
/// assert_eq!(unsafe { seen.as_ref() }, Some(&"old"));
/// # drop(unsafe { name.into_owned() });
/// ```
///
/// ```compile_fail,E0277
/// let guard = crossbeam_epoch::pin();
/// std::thread::spawn(move || drop(guard)); // a guard of another thread
/// ```
///
/// ```compile_fail,E0505
/// use crossbeam_epoch::{self as epoch, Atomic};
///
/// let slot = Atomic::new(7);
/// let guard = epoch::pin();
/// let seen = slot.load(std::sync::atomic::Ordering::Acquire, &guard);
/// drop(guard);
/// println!("{seen:?}"); // it outlives the guard
/// ```
pub struct Guard {
    /// Null where it guards nothing.
    pub(crate) local: *const Local,
}

impl Guard {
    #[inline]
    fn local(&self) -> Option<&Local> {
        // SAFETY: it is there as long as a handle or a guard is.
        unsafe { self.local.as_ref() }
    }

    /// Calls a function at some time after all threads that are pinned now were unpinned; at once,
    /// where this guard is [`unprotected`]. Any thread may call it that pins, defers or flushes.
    /// Where it panics, that thread does; what was deferred with it is called later.
    ///
    /// ```
    /// crossbeam_epoch::pin().defer(|| println!("nobody is pinned from before"));
    /// ```
    pub fn defer<F, R>(&self, f: F)
    where
        F: FnOnce() -> R,
        F: Send + 'static,
    {
        // SAFETY: it is sent, and borrows nothing.
        unsafe { self.defer_unchecked(f) };
    }

    /// As [`Guard::defer`], of any function.
    ///
    /// # Safety
    /// It borrows nothing that may be gone when it is called, and another thread may call it.
    ///
    /// ```
    /// use crossbeam_epoch::{self as epoch, Owned};
    ///
    /// let guard = &epoch::pin();
    /// let shared = Owned::new(7).into_shared(guard);
    /// unsafe { guard.defer_unchecked(move || drop(shared.into_owned())) };
    /// ```
    pub unsafe fn defer_unchecked<F, R>(&self, f: F)
    where
        F: FnOnce() -> R,
    {
        match self.local() {
            Some(local) => local.defer(Deferred::new(move || drop(f()))),
            None => drop(f()),
        }
    }

    /// Drops and frees an object at some time after all threads that are pinned now were unpinned;
    /// at once, where this guard is [`unprotected`].
    ///
    /// # Safety
    /// No thread that is pinned later can come to the object, and another thread may drop it.
    ///
    /// ```
    /// use crossbeam_epoch::{self as epoch, Atomic, Shared};
    /// use std::sync::atomic::Ordering::AcqRel;
    ///
    /// let slot = Atomic::new(7);
    /// let guard = &epoch::pin();
    /// let old = slot.swap(Shared::null(), AcqRel, guard); // nobody comes to it any more
    /// unsafe { guard.defer_destroy(old) };
    /// ```
    pub unsafe fn defer_destroy<T: ?Sized + Pointable>(&self, ptr: Shared<'_, T>) {
        // SAFETY: the caller says that nobody comes to the object when it is called.
        unsafe { self.defer_unchecked(move || ptr.into_owned()) };
    }

    /// Gives what this thread deferred to all threads, does what may be done, and makes a step of
    /// the engine. It does nothing where this guard is [`unprotected`].
    ///
    /// ```
    /// use crossbeam_epoch as epoch;
    ///
    /// let guard = epoch::pin();
    /// guard.defer(|| println!("sooner"));
    /// guard.flush();
    /// ```
    pub fn flush(&self) {
        if let Some(local) = self.local() {
            local.flush();
        }
    }

    /// Unpins the thread and pins it again, where this is its only guard.
    ///
    /// ```
    /// let mut guard = crossbeam_epoch::pin();
    /// for _ in 0..1000 {
    ///     guard.repin(); // so that it holds up nobody
    /// }
    /// ```
    #[inline]
    pub fn repin(&mut self) {
        if let Some(local) = self.local() {
            local.repin();
        }
    }

    /// Calls a function, and unpins the thread meanwhile where this is its only guard.
    ///
    /// ```
    /// use std::thread;
    ///
    /// let mut guard = crossbeam_epoch::pin();
    /// guard.repin_after(thread::yield_now);
    /// ```
    pub fn repin_after<F, R>(&mut self, f: F) -> R
    where
        F: FnOnce() -> R,
    {
        /// Pins the thread again, also where the function panics.
        struct Unpinned<'a>(&'a Local);
        impl Drop for Unpinned<'_> {
            fn drop(&mut self) {
                mem::forget(self.0.pin());
                let _ = self.0.drop_handle();
            }
        }
        let _unpinned = self.local().map(|local| {
            // Not for the last time: it would be gone.
            local.add_handle();
            let _ = local.unpin();
            Unpinned(local)
        });
        f()
    }

    /// The guard's collector. None where this guard is [`unprotected`].
    ///
    /// ```
    /// use crossbeam_epoch as epoch;
    ///
    /// assert!(epoch::pin().collector().is_some());
    /// assert!(unsafe { epoch::unprotected() }.collector().is_none());
    /// ```
    pub fn collector(&self) -> Option<&Collector> {
        self.local().map(Local::collector)
    }
}

impl Drop for Guard {
    #[inline]
    fn drop(&mut self) {
        if self.local().is_some_and(Local::unpin) {
            // SAFETY: this was the last guard, and no handle is there.
            unsafe { Local::finish(self.local) };
        }
    }
}

impl fmt::Debug for Guard {
    fn fmt(&self, to: &mut fmt::Formatter<'_>) -> fmt::Result {
        to.pad("Guard { .. }")
    }
}

/// A guard that guards nothing, and defers nothing.
///
/// # Safety
/// What is loaded by it is changed by no other thread meanwhile.
///
/// ```
/// use crossbeam_epoch::{self as epoch, Atomic};
/// use std::sync::atomic::Ordering::Relaxed;
///
/// let slot = Atomic::new(7); // of this thread alone
/// let guard = unsafe { epoch::unprotected() };
/// assert_eq!(unsafe { slot.load(Relaxed, guard).as_ref() }, Some(&7));
/// unsafe { guard.defer_destroy(slot.load(Relaxed, guard)) }; // at once
/// ```
#[inline]
pub unsafe fn unprotected() -> &'static Guard {
    struct Shareable(Guard);
    // SAFETY: it has no handle.
    unsafe impl Sync for Shareable {}
    static UNPROTECTED: Shareable = Shareable(Guard { local: null() });
    &UNPROTECTED.0
}
