//! A pointer to an object that others read too.

use crate::owned::Owned;
use crate::pointable::{Pointable, Pointer};
use crate::word::{assert_aligned, parts, show, tagged};
use std::cmp;
use std::fmt;
use std::marker::PhantomData;

/// A pointer to an object that others read too, for as long as a guard is there.
///
/// ```
/// use crossbeam_epoch::{self as epoch, Atomic};
/// use std::sync::atomic::Ordering::Acquire;
///
/// let slot = Atomic::new(7);
/// let guard = &epoch::pin();
/// let shared = slot.load(Acquire, guard);
/// assert_eq!(unsafe { shared.as_ref() }, Some(&7));
/// # drop(unsafe { slot.into_owned() });
/// ```
pub struct Shared<'g, T: 'g + ?Sized + Pointable> {
    word: usize,
    points: PhantomData<(&'g (), *const T)>,
}

impl<T: ?Sized + Pointable> Clone for Shared<'_, T> {
    fn clone(&self) -> Self {
        *self
    }
}

impl<T: ?Sized + Pointable> Copy for Shared<'_, T> {}

impl<T: ?Sized + Pointable> Pointer<T> for Shared<'_, T> {
    fn into_usize(self) -> usize {
        self.word
    }

    unsafe fn from_usize(data: usize) -> Self {
        Shared::of(data)
    }
}

impl<T> Shared<'_, T> {
    /// The address, without the tag.
    ///
    /// ```
    /// use crossbeam_epoch::Shared;
    ///
    /// let seven = 7u64;
    /// let shared = Shared::from(&seven as *const u64).with_tag(1);
    /// assert_eq!(shared.as_raw(), &seven as *const u64);
    /// ```
    pub fn as_raw(&self) -> *const T {
        parts::<T>(self.word).0 as *const T
    }
}

impl<'g, T: ?Sized + Pointable> Shared<'g, T> {
    pub(crate) const fn of(word: usize) -> Shared<'g, T> {
        Shared {
            word,
            points: PhantomData,
        }
    }

    /// A pointer to nothing.
    ///
    /// ```
    /// assert!(crossbeam_epoch::Shared::<u64>::null().is_null());
    /// ```
    pub const fn null() -> Shared<'g, T> {
        Shared::of(0)
    }

    /// Whether it points to nothing, whatever its tag.
    ///
    /// ```
    /// assert!(crossbeam_epoch::Shared::<u64>::null().with_tag(1).is_null());
    /// ```
    pub fn is_null(&self) -> bool {
        parts::<T>(self.word).0 == 0
    }

    /// The object.
    ///
    /// # Safety
    /// The pointer is not null, the object is there, and nobody changes it meanwhile. What made it
    /// comes before the load of the pointer.
    ///
    /// ```
    /// use crossbeam_epoch::{self as epoch, Owned};
    ///
    /// let guard = &epoch::pin();
    /// let shared = Owned::new(7).into_shared(guard);
    /// assert_eq!(unsafe { shared.deref() }, &7);
    /// # drop(unsafe { shared.into_owned() });
    /// ```
    pub unsafe fn deref(&self) -> &'g T {
        // SAFETY: the caller says that the object is there, and not changed.
        unsafe { T::deref(parts::<T>(self.word).0) }
    }

    /// The object, to be changed.
    ///
    /// # Safety
    /// As [`Shared::deref`], and nobody else has the object.
    ///
    /// ```
    /// use crossbeam_epoch::{self as epoch, Owned};
    ///
    /// let guard = &epoch::pin();
    /// let mut shared = Owned::new(7).into_shared(guard);
    /// *unsafe { shared.deref_mut() } += 1;
    /// assert_eq!(*unsafe { shared.into_owned() }, 8);
    /// ```
    pub unsafe fn deref_mut(&mut self) -> &'g mut T {
        // SAFETY: the caller says that nobody else has the object.
        unsafe { T::deref_mut(parts::<T>(self.word).0) }
    }

    /// The object, where the pointer is not null.
    ///
    /// # Safety
    /// As [`Shared::deref`], where it is not null.
    ///
    /// ```
    /// assert_eq!(unsafe { crossbeam_epoch::Shared::<u64>::null().as_ref() }, None);
    /// ```
    pub unsafe fn as_ref(&self) -> Option<&'g T> {
        // SAFETY: as `deref`, where it is not null.
        (!self.is_null()).then(|| unsafe { self.deref() })
    }

    /// The object, to be owned.
    ///
    /// # Safety
    /// The pointer is not null, and nobody can come to the object any more.
    ///
    /// ```
    /// use crossbeam_epoch::{self as epoch, Owned};
    ///
    /// let guard = &epoch::pin();
    /// let shared = Owned::new(7).into_shared(guard).with_tag(1);
    /// assert_eq!(unsafe { shared.into_owned() }.tag(), 1);
    /// ```
    pub unsafe fn into_owned(self) -> Owned<T> {
        debug_assert!(!self.is_null(), "an owned pointer is not null");
        // SAFETY: the caller says that nobody else has the object.
        unsafe { Owned::from_usize(self.word) }
    }

    /// The object, to be owned, where the pointer is not null.
    ///
    /// # Safety
    /// Nobody can come to the object any more.
    ///
    /// ```
    /// use crossbeam_epoch::Shared;
    ///
    /// assert!(unsafe { Shared::<u64>::null().try_into_owned() }.is_none());
    /// ```
    pub unsafe fn try_into_owned(self) -> Option<Owned<T>> {
        // SAFETY: as `into_owned`, where it is not null.
        (!self.is_null()).then(|| unsafe { self.into_owned() })
    }

    /// The tag.
    ///
    /// ```
    /// assert_eq!(crossbeam_epoch::Shared::<u64>::null().tag(), 0);
    /// ```
    pub fn tag(&self) -> usize {
        parts::<T>(self.word).1
    }

    /// The same with another tag; what does not fit is cut off.
    ///
    /// ```
    /// assert_eq!(crossbeam_epoch::Shared::<u64>::null().with_tag(5).tag(), 5);
    /// ```
    pub fn with_tag(&self, tag: usize) -> Shared<'g, T> {
        Shared::of(tagged::<T>(self.word, tag))
    }
}

impl<T> From<*const T> for Shared<'_, T> {
    /// # Panics
    /// Where the pointer is not aligned.
    fn from(raw: *const T) -> Self {
        assert_aligned::<T>(raw as usize);
        Shared::of(raw as usize)
    }
}

impl<'g, T: ?Sized + Pointable> PartialEq<Shared<'g, T>> for Shared<'g, T> {
    fn eq(&self, other: &Self) -> bool {
        self.word == other.word
    }
}

impl<T: ?Sized + Pointable> Eq for Shared<'_, T> {}

impl<'g, T: ?Sized + Pointable> PartialOrd<Shared<'g, T>> for Shared<'g, T> {
    fn partial_cmp(&self, other: &Self) -> Option<cmp::Ordering> {
        Some(self.cmp(other))
    }
}

impl<T: ?Sized + Pointable> Ord for Shared<'_, T> {
    fn cmp(&self, other: &Self) -> cmp::Ordering {
        self.word.cmp(&other.word)
    }
}

impl<T: ?Sized + Pointable> fmt::Debug for Shared<'_, T> {
    fn fmt(&self, to: &mut fmt::Formatter<'_>) -> fmt::Result {
        show::<T>("Shared", self.word, to)
    }
}

impl<T: ?Sized + Pointable> fmt::Pointer for Shared<'_, T> {
    fn fmt(&self, to: &mut fmt::Formatter<'_>) -> fmt::Result {
        fmt::Pointer::fmt(&(parts::<T>(self.word).0 as *const ()), to)
    }
}

impl<T: ?Sized + Pointable> Default for Shared<'_, T> {
    fn default() -> Self {
        Shared::null()
    }
}
