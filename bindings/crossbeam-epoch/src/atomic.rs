//! A pointer that threads share.

use crate::exchange::CompareExchangeError;
#[allow(deprecated)]
use crate::exchange::{CompareAndSetError, CompareAndSetOrdering};
use crate::guard::Guard;
use crate::owned::Owned;
use crate::pointable::{Pointable, Pointer};
use crate::shared::Shared;
use crate::word::{parts, show, tag_bits};
use std::fmt;
use std::marker::PhantomData;
use std::sync::atomic::{AtomicUsize, Ordering};

/// A pointer that threads share. It does not own what it points to: [`Atomic::into_owned`] does.
///
/// ```
/// use crossbeam_epoch::{self as epoch, Atomic};
/// use std::sync::atomic::Ordering::Acquire;
///
/// let slot = Atomic::new("name");
/// let guard = &epoch::pin();
/// assert_eq!(unsafe { slot.load(Acquire, guard).as_ref() }, Some(&"name"));
/// drop(unsafe { slot.into_owned() });
/// ```
pub struct Atomic<T: ?Sized + Pointable> {
    word: AtomicUsize,
    points: PhantomData<*mut T>,
}

// SAFETY: a thread gets an object through it to read, and one may get it to own.
unsafe impl<T: ?Sized + Pointable + Send + Sync> Send for Atomic<T> {}
// SAFETY: as above.
unsafe impl<T: ?Sized + Pointable + Send + Sync> Sync for Atomic<T> {}

impl<T> Atomic<T> {
    /// A pointer to a new object.
    ///
    /// ```
    /// let slot = crossbeam_epoch::Atomic::new(7);
    /// assert_eq!(*unsafe { slot.into_owned() }, 7);
    /// ```
    pub fn new(init: T) -> Atomic<T> {
        Atomic::init(init)
    }
}

impl<T: ?Sized + Pointable> Atomic<T> {
    /// A pointer to a new object, of what its type makes it of: a slice of its length.
    ///
    /// ```
    /// use crossbeam_epoch::Atomic;
    /// use std::mem::MaybeUninit;
    ///
    /// let slot = Atomic::<[MaybeUninit<u8>]>::init(5);
    /// assert_eq!(unsafe { slot.into_owned() }.len(), 5);
    /// ```
    pub fn init(init: T::Init) -> Atomic<T> {
        Atomic::from(Owned::init(init))
    }

    const fn of(word: usize) -> Atomic<T> {
        Atomic {
            word: AtomicUsize::new(word),
            points: PhantomData,
        }
    }

    /// A pointer to nothing.
    ///
    /// ```
    /// static NOTHING: crossbeam_epoch::Atomic<u64> = crossbeam_epoch::Atomic::null();
    /// ```
    pub const fn null() -> Atomic<T> {
        Atomic::of(0)
    }

    /// Loads the pointer.
    ///
    /// ```
    /// use crossbeam_epoch::{self as epoch, Atomic};
    /// use std::sync::atomic::Ordering::Acquire;
    ///
    /// let slot = Atomic::<u64>::null();
    /// assert!(slot.load(Acquire, &epoch::pin()).is_null());
    /// ```
    pub fn load<'g>(&self, ord: Ordering, _: &'g Guard) -> Shared<'g, T> {
        Shared::of(self.word.load(ord))
    }

    /// Loads the pointer, in the order of what depends on it. (It is an acquire here.)
    ///
    /// ```
    /// use crossbeam_epoch::{self as epoch, Atomic};
    ///
    /// assert!(Atomic::<u64>::null().load_consume(&epoch::pin()).is_null());
    /// ```
    pub fn load_consume<'g>(&self, guard: &'g Guard) -> Shared<'g, T> {
        self.load(Ordering::Acquire, guard)
    }

    /// Stores a pointer.
    ///
    /// ```
    /// use crossbeam_epoch::{Atomic, Owned, Shared};
    /// use std::sync::atomic::Ordering::Release;
    ///
    /// let slot = Atomic::null();
    /// slot.store(Owned::new(7), Release);
    /// # drop(unsafe { slot.into_owned() });
    /// # let slot = Atomic::<u64>::null();
    /// slot.store(Shared::null(), Release);
    /// ```
    pub fn store<P: Pointer<T>>(&self, new: P, ord: Ordering) {
        self.word.store(new.into_usize(), ord);
    }

    /// Stores a pointer, and returns the one that was there.
    ///
    /// ```
    /// use crossbeam_epoch::{self as epoch, Atomic, Shared};
    /// use std::sync::atomic::Ordering::AcqRel;
    ///
    /// let slot = Atomic::new(7);
    /// let guard = &epoch::pin();
    /// let old = slot.swap(Shared::null(), AcqRel, guard);
    /// unsafe { guard.defer_destroy(old) };
    /// ```
    pub fn swap<'g, P: Pointer<T>>(&self, new: P, ord: Ordering, _: &'g Guard) -> Shared<'g, T> {
        Shared::of(self.word.swap(new.into_usize(), ord))
    }

    /// Stores a pointer where `current` is there, address and tag. Returns what was stored.
    ///
    /// # Errors
    /// What was there, and the pointer that was to be stored.
    ///
    /// ```
    /// use crossbeam_epoch::{self as epoch, Atomic, Owned};
    /// use std::sync::atomic::Ordering::{AcqRel, Acquire};
    ///
    /// let slot = Atomic::new(1);
    /// let guard = &epoch::pin();
    /// let seen = slot.load(Acquire, guard);
    /// assert!(slot.compare_exchange(seen, Owned::new(2), AcqRel, Acquire, guard).is_ok());
    /// unsafe { guard.defer_destroy(seen) };
    /// assert!(slot.compare_exchange(seen, Owned::new(3), AcqRel, Acquire, guard).is_err());
    /// # drop(unsafe { slot.into_owned() });
    /// ```
    pub fn compare_exchange<'g, P>(
        &self,
        current: Shared<'_, T>,
        new: P,
        success: Ordering,
        failure: Ordering,
        _: &'g Guard,
    ) -> Result<Shared<'g, T>, CompareExchangeError<'g, T, P>>
    where
        P: Pointer<T>,
    {
        let (old, new) = (current.into_usize(), new.into_usize());
        answer(new, self.word.compare_exchange(old, new, success, failure))
    }

    /// As [`Atomic::compare_exchange`]; it may find the right pointer, and not store.
    ///
    /// # Errors
    /// As there.
    ///
    /// ```
    /// use crossbeam_epoch::{self as epoch, Atomic, Owned, Shared};
    /// use std::sync::atomic::Ordering::{AcqRel, Acquire};
    ///
    /// let slot = Atomic::null();
    /// let (guard, mut new) = (&epoch::pin(), Owned::new(7));
    /// while let Err(error) =
    ///     slot.compare_exchange_weak(Shared::null(), new, AcqRel, Acquire, guard)
    /// {
    ///     new = error.new;
    /// }
    /// # drop(unsafe { slot.into_owned() });
    /// ```
    pub fn compare_exchange_weak<'g, P>(
        &self,
        current: Shared<'_, T>,
        new: P,
        success: Ordering,
        failure: Ordering,
        _: &'g Guard,
    ) -> Result<Shared<'g, T>, CompareExchangeError<'g, T, P>>
    where
        P: Pointer<T>,
    {
        let (old, new) = (current.into_usize(), new.into_usize());
        let found = self.word.compare_exchange_weak(old, new, success, failure);
        answer(new, found)
    }

    /// Stores what `func` makes of the pointer, until no other thread came between. Returns what
    /// was there.
    ///
    /// # Errors
    /// What was there, where `func` makes nothing of it. Then nothing is stored.
    ///
    /// ```
    /// use crossbeam_epoch::{self as epoch, Atomic};
    /// use std::sync::atomic::Ordering::SeqCst;
    ///
    /// let slot = Atomic::<u64>::null();
    /// let guard = &epoch::pin();
    /// let marked = slot.fetch_update(SeqCst, SeqCst, guard, |it| Some(it.with_tag(1)));
    /// assert!(marked.is_ok());
    /// assert_eq!(slot.load(SeqCst, guard).tag(), 1);
    /// assert!(slot.fetch_update(SeqCst, SeqCst, guard, |_| None).is_err());
    /// ```
    pub fn fetch_update<'g, F>(
        &self,
        set_order: Ordering,
        fail_order: Ordering,
        guard: &'g Guard,
        mut func: F,
    ) -> Result<Shared<'g, T>, Shared<'g, T>>
    where
        F: FnMut(Shared<'g, T>) -> Option<Shared<'g, T>>,
    {
        let mut found = self.load(fail_order, guard);
        while let Some(next) = func(found) {
            match self.compare_exchange_weak(found, next, set_order, fail_order, guard) {
                Ok(_) => return Ok(found),
                Err(other) => found = other.current,
            }
        }
        Err(found)
    }

    /// The old name of [`Atomic::compare_exchange`].
    ///
    /// # Errors
    /// As there.
    ///
    /// ```
    /// #![allow(deprecated)]
    /// use crossbeam_epoch::{self as epoch, Atomic, Owned, Shared};
    /// use std::sync::atomic::Ordering::SeqCst;
    ///
    /// let slot = Atomic::null();
    /// let guard = &epoch::pin();
    /// assert!(slot.compare_and_set(Shared::null(), Owned::new(7), SeqCst, guard).is_ok());
    /// # drop(unsafe { slot.into_owned() });
    /// ```
    #[allow(deprecated)]
    #[deprecated(note = "use `compare_exchange`")]
    pub fn compare_and_set<'g, O, P>(
        &self,
        current: Shared<'_, T>,
        new: P,
        ord: O,
        guard: &'g Guard,
    ) -> Result<Shared<'g, T>, CompareAndSetError<'g, T, P>>
    where
        O: CompareAndSetOrdering,
        P: Pointer<T>,
    {
        self.compare_exchange(current, new, ord.success(), ord.failure(), guard)
    }

    /// The old name of [`Atomic::compare_exchange_weak`].
    ///
    /// # Errors
    /// As there.
    ///
    /// ```
    /// #![allow(deprecated)]
    /// use crossbeam_epoch::{self as epoch, Atomic, Shared};
    /// use std::sync::atomic::Ordering::SeqCst;
    ///
    /// let slot = Atomic::<u64>::null();
    /// let (guard, marked) = (&epoch::pin(), Shared::null().with_tag(1));
    /// while slot.compare_and_set_weak(Shared::null(), marked, SeqCst, guard).is_err() {}
    /// ```
    #[allow(deprecated)]
    #[deprecated(note = "use `compare_exchange_weak`")]
    pub fn compare_and_set_weak<'g, O, P>(
        &self,
        current: Shared<'_, T>,
        new: P,
        ord: O,
        guard: &'g Guard,
    ) -> Result<Shared<'g, T>, CompareAndSetError<'g, T, P>>
    where
        O: CompareAndSetOrdering,
        P: Pointer<T>,
    {
        self.compare_exchange_weak(current, new, ord.success(), ord.failure(), guard)
    }

    /// The tag becomes its "and" with `val`. Returns what was there.
    ///
    /// ```
    /// use crossbeam_epoch::{self as epoch, Atomic, Shared};
    /// use std::sync::atomic::Ordering::SeqCst;
    ///
    /// let slot = Atomic::<u64>::from(Shared::null().with_tag(6));
    /// let guard = &epoch::pin();
    /// assert_eq!(slot.fetch_and(3, SeqCst, guard).tag(), 6);
    /// assert_eq!(slot.load(SeqCst, guard).tag(), 2);
    /// ```
    pub fn fetch_and<'g>(&self, val: usize, ord: Ordering, _: &'g Guard) -> Shared<'g, T> {
        Shared::of(self.word.fetch_and(val | !tag_bits::<T>(), ord))
    }

    /// The tag becomes its "or" with `val`. Returns what was there.
    ///
    /// ```
    /// use crossbeam_epoch::{self as epoch, Atomic, Shared};
    /// use std::sync::atomic::Ordering::SeqCst;
    ///
    /// let slot = Atomic::<u64>::from(Shared::null().with_tag(6));
    /// let guard = &epoch::pin();
    /// assert_eq!(slot.fetch_or(3, SeqCst, guard).tag(), 6);
    /// assert_eq!(slot.load(SeqCst, guard).tag(), 7);
    /// ```
    pub fn fetch_or<'g>(&self, val: usize, ord: Ordering, _: &'g Guard) -> Shared<'g, T> {
        Shared::of(self.word.fetch_or(val & tag_bits::<T>(), ord))
    }

    /// The tag becomes its "exclusive or" with `val`. Returns what was there.
    ///
    /// ```
    /// use crossbeam_epoch::{self as epoch, Atomic, Shared};
    /// use std::sync::atomic::Ordering::SeqCst;
    ///
    /// let slot = Atomic::<u64>::from(Shared::null().with_tag(6));
    /// let guard = &epoch::pin();
    /// assert_eq!(slot.fetch_xor(3, SeqCst, guard).tag(), 6);
    /// assert_eq!(slot.load(SeqCst, guard).tag(), 5);
    /// ```
    pub fn fetch_xor<'g>(&self, val: usize, ord: Ordering, _: &'g Guard) -> Shared<'g, T> {
        Shared::of(self.word.fetch_xor(val & tag_bits::<T>(), ord))
    }

    /// The object, to be owned.
    ///
    /// # Safety
    /// The pointer is not null, and no other thread can come to the object.
    ///
    /// ```
    /// let slot = crossbeam_epoch::Atomic::new(7);
    /// assert_eq!(*unsafe { slot.into_owned() }, 7);
    /// ```
    pub unsafe fn into_owned(self) -> Owned<T> {
        // SAFETY: the caller says that nobody else has the object.
        unsafe { Owned::from_usize(self.word.into_inner()) }
    }

    /// The object, to be owned, where the pointer is not null.
    ///
    /// # Safety
    /// No other thread can come to the object.
    ///
    /// ```
    /// use crossbeam_epoch::Atomic;
    ///
    /// assert!(unsafe { Atomic::<u64>::null().try_into_owned() }.is_none());
    /// ```
    pub unsafe fn try_into_owned(self) -> Option<Owned<T>> {
        // SAFETY: as above.
        unsafe { Shared::<T>::of(self.word.into_inner()).try_into_owned() }
    }
}

fn answer<'g, T: ?Sized + Pointable, P: Pointer<T>>(
    new: usize,
    found: Result<usize, usize>,
) -> Result<Shared<'g, T>, CompareExchangeError<'g, T, P>> {
    match found {
        Ok(_) => Ok(Shared::of(new)),
        Err(current) => Err(CompareExchangeError {
            current: Shared::of(current),
            // SAFETY: the word is `new`'s, which was not stored.
            new: unsafe { P::from_usize(new) },
        }),
    }
}

impl<T: ?Sized + Pointable> fmt::Debug for Atomic<T> {
    fn fmt(&self, to: &mut fmt::Formatter<'_>) -> fmt::Result {
        show::<T>("Atomic", self.word.load(Ordering::SeqCst), to)
    }
}

impl<T: ?Sized + Pointable> fmt::Pointer for Atomic<T> {
    fn fmt(&self, to: &mut fmt::Formatter<'_>) -> fmt::Result {
        let (address, _) = parts::<T>(self.word.load(Ordering::SeqCst));
        fmt::Pointer::fmt(&(address as *const ()), to)
    }
}

/// The same pointer once more, by a load of order relaxed.
impl<T: ?Sized + Pointable> Clone for Atomic<T> {
    fn clone(&self) -> Self {
        Atomic::of(self.word.load(Ordering::Relaxed))
    }
}

impl<T: ?Sized + Pointable> Default for Atomic<T> {
    fn default() -> Self {
        Atomic::null()
    }
}

impl<T: ?Sized + Pointable> From<Owned<T>> for Atomic<T> {
    fn from(owned: Owned<T>) -> Self {
        Atomic::of(owned.into_usize())
    }
}

impl<T> From<Box<T>> for Atomic<T> {
    fn from(boxed: Box<T>) -> Self {
        Atomic::from(Owned::from(boxed))
    }
}

impl<T> From<T> for Atomic<T> {
    fn from(data: T) -> Self {
        Atomic::new(data)
    }
}

impl<'g, T: ?Sized + Pointable> From<Shared<'g, T>> for Atomic<T> {
    fn from(shared: Shared<'g, T>) -> Self {
        Atomic::of(shared.into_usize())
    }
}

impl<T> From<*const T> for Atomic<T> {
    fn from(raw: *const T) -> Self {
        Atomic::of(raw as usize)
    }
}
