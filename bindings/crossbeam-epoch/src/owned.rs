//! An object on the heap with one owner.

use crate::guard::Guard;
use crate::pointable::{Pointable, Pointer};
use crate::shared::Shared;
use crate::word::{assert_aligned, parts, show, tagged};
use std::borrow::{Borrow, BorrowMut};
use std::fmt;
use std::marker::PhantomData;
use std::mem::ManuallyDrop;
use std::ops::{Deref, DerefMut};

/// An object on the heap with one owner, and a tag.
///
/// ```
/// use crossbeam_epoch::Owned;
///
/// let mut owned = Owned::new(1u64);
/// *owned += 1;
/// assert_eq!(*owned, 2);
/// ```
pub struct Owned<T: ?Sized + Pointable> {
    word: usize,
    owns: PhantomData<Box<T>>,
}

impl<T: ?Sized + Pointable> Pointer<T> for Owned<T> {
    fn into_usize(self) -> usize {
        ManuallyDrop::new(self).word
    }

    unsafe fn from_usize(data: usize) -> Self {
        debug_assert!(data != 0, "an owned pointer is not null");
        Owned {
            word: data,
            owns: PhantomData,
        }
    }
}

impl<T> Owned<T> {
    /// A new object.
    ///
    /// ```
    /// assert_eq!(*crossbeam_epoch::Owned::new(7), 7);
    /// ```
    pub fn new(init: T) -> Owned<T> {
        Owned::init(init)
    }

    /// The owner of what a box had.
    ///
    /// # Safety
    /// The pointer is from `Box::into_raw` or the like, and is used no more.
    ///
    /// # Panics
    /// Where the pointer is not aligned.
    ///
    /// ```
    /// let raw = Box::into_raw(Box::new(7));
    /// assert_eq!(*unsafe { crossbeam_epoch::Owned::from_raw(raw) }, 7);
    /// ```
    pub unsafe fn from_raw(raw: *mut T) -> Owned<T> {
        assert_aligned::<T>(raw as usize);
        // SAFETY: the caller says that it is a box's, and nobody else's.
        unsafe { Owned::from_usize(raw as usize) }
    }

    /// The object as a box. The tag is lost.
    ///
    /// ```
    /// let boxed: Box<u64> = crossbeam_epoch::Owned::new(7).with_tag(1).into_box();
    /// assert_eq!(*boxed, 7);
    /// ```
    pub fn into_box(self) -> Box<T> {
        let (address, _) = parts::<T>(self.into_usize());
        // SAFETY: the address is of a box, whose owner this was.
        unsafe { Box::from_raw(address as *mut T) }
    }
}

impl<T: ?Sized + Pointable> Owned<T> {
    /// A new object, of what its type makes it of: a slice of its length.
    ///
    /// ```
    /// use crossbeam_epoch::Owned;
    /// use std::mem::MaybeUninit;
    ///
    /// assert_eq!(Owned::<[MaybeUninit<u8>]>::init(5).len(), 5);
    /// ```
    pub fn init(init: T::Init) -> Owned<T> {
        // SAFETY: the word is a new one.
        unsafe { Owned::from_usize(T::init(init)) }
    }

    /// The pointer for others to read. The object is owned by nobody.
    ///
    /// ```
    /// use crossbeam_epoch::{self as epoch, Owned};
    ///
    /// let guard = &epoch::pin();
    /// let shared = Owned::new(7).into_shared(guard);
    /// assert_eq!(*unsafe { shared.into_owned() }, 7);
    /// ```
    pub fn into_shared<'g>(self, _: &'g Guard) -> Shared<'g, T> {
        Shared::of(self.into_usize())
    }

    /// The tag.
    ///
    /// ```
    /// assert_eq!(crossbeam_epoch::Owned::new(7u64).tag(), 0);
    /// ```
    pub fn tag(&self) -> usize {
        parts::<T>(self.word).1
    }

    /// The same with another tag; what does not fit is cut off.
    ///
    /// ```
    /// let owned = crossbeam_epoch::Owned::new(7u64);
    /// assert_eq!(owned.with_tag(8 + 5).tag(), 5);
    /// ```
    pub fn with_tag(self, tag: usize) -> Owned<T> {
        // SAFETY: the word is this one's, but for the tag.
        unsafe { Owned::from_usize(tagged::<T>(self.into_usize(), tag)) }
    }
}

impl<T: ?Sized + Pointable> Drop for Owned<T> {
    fn drop(&mut self) {
        // SAFETY: it is the only owner.
        unsafe { T::drop(parts::<T>(self.word).0) };
    }
}

impl<T: ?Sized + Pointable> fmt::Debug for Owned<T> {
    fn fmt(&self, to: &mut fmt::Formatter<'_>) -> fmt::Result {
        show::<T>("Owned", self.word, to)
    }
}

impl<T: Clone> Clone for Owned<T> {
    fn clone(&self) -> Self {
        Owned::new((**self).clone()).with_tag(self.tag())
    }
}

impl<T: ?Sized + Pointable> Deref for Owned<T> {
    type Target = T;

    fn deref(&self) -> &T {
        // SAFETY: it is there as long as its owner.
        unsafe { T::deref(parts::<T>(self.word).0) }
    }
}

impl<T: ?Sized + Pointable> DerefMut for Owned<T> {
    fn deref_mut(&mut self) -> &mut T {
        // SAFETY: it is there as long as its owner, which is borrowed alone.
        unsafe { T::deref_mut(parts::<T>(self.word).0) }
    }
}

impl<T> From<T> for Owned<T> {
    fn from(data: T) -> Self {
        Owned::new(data)
    }
}

impl<T> From<Box<T>> for Owned<T> {
    fn from(boxed: Box<T>) -> Self {
        // SAFETY: the pointer is of a box.
        unsafe { Owned::from_raw(Box::into_raw(boxed)) }
    }
}

impl<T: ?Sized + Pointable> Borrow<T> for Owned<T> {
    fn borrow(&self) -> &T {
        self
    }
}

impl<T: ?Sized + Pointable> BorrowMut<T> for Owned<T> {
    fn borrow_mut(&mut self) -> &mut T {
        self
    }
}

impl<T: ?Sized + Pointable> AsRef<T> for Owned<T> {
    fn as_ref(&self) -> &T {
        self
    }
}

impl<T: ?Sized + Pointable> AsMut<T> for Owned<T> {
    fn as_mut(&mut self) -> &mut T {
        self
    }
}
