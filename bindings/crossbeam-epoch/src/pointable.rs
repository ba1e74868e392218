//! What one word may point to, and the kinds of pointers that are such a word.

use std::alloc::{alloc, dealloc, handle_alloc_error, Layout};
use std::mem::{align_of, MaybeUninit};
use std::ptr;
use std::slice;

/// What an [`Atomic`](crate::Atomic), an [`Owned`](crate::Owned) and a [`Shared`](crate::Shared)
/// may point to, by one word: each type of a known size, and slices that have their length with
/// them.
///
/// ```
/// use crossbeam_epoch::{Owned, Pointable};
/// use std::mem::MaybeUninit;
///
/// assert_eq!(<u64 as Pointable>::ALIGN, 8);
/// let mut row = Owned::<[MaybeUninit<u64>]>::init(3); // of three items, not made yet
/// row[1].write(7);
/// assert_eq!((row.len(), unsafe { row[1].assume_init() }), (3, 7));
/// ```
pub trait Pointable {
    /// The alignment of what the word points to: it bounds the tags.
    const ALIGN: usize;

    /// What a new object is made of.
    type Init;

    /// Makes an object on the heap, and returns its word.
    ///
    /// # Safety
    /// The word is a multiple of `ALIGN`.
    unsafe fn init(init: Self::Init) -> usize;

    /// The object of a word.
    ///
    /// # Safety
    /// The word is from `init`, was not dropped, and nobody has the object to change.
    unsafe fn deref<'a>(ptr: usize) -> &'a Self;

    /// The object of a word, to be changed.
    ///
    /// # Safety
    /// The word is from `init`, was not dropped, and nobody else has the object.
    unsafe fn deref_mut<'a>(ptr: usize) -> &'a mut Self;

    /// Drops the object of a word, and frees its room.
    ///
    /// # Safety
    /// The word is from `init`, was not dropped, and nobody has the object.
    unsafe fn drop(ptr: usize);
}

// SAFETY of the blocks below: a word of `init` is the address of a box, and their callers say the
// rest.
impl<T> Pointable for T {
    const ALIGN: usize = align_of::<T>();
    type Init = T;

    unsafe fn init(init: T) -> usize {
        Box::into_raw(Box::new(init)) as usize
    }

    unsafe fn deref<'a>(ptr: usize) -> &'a T {
        // SAFETY: as above.
        unsafe { &*(ptr as *const T) }
    }

    unsafe fn deref_mut<'a>(ptr: usize) -> &'a mut T {
        // SAFETY: as above.
        unsafe { &mut *(ptr as *mut T) }
    }

    unsafe fn drop(ptr: usize) {
        // SAFETY: as above.
        drop(unsafe { Box::from_raw(ptr as *mut T) });
    }
}

/// The head of a slice on the heap; its items stand behind it.
#[repr(C)]
struct Row<T> {
    items: usize,
    first: [MaybeUninit<T>; 0],
}

impl<T> Row<T> {
    fn layout(items: usize) -> Layout {
        Layout::array::<MaybeUninit<T>>(items)
            .and_then(|behind| Layout::new::<Row<T>>().extend(behind))
            .expect("the slice is longer than memory")
            .0
            .pad_to_align()
    }

    /// # Safety
    /// The row is there.
    unsafe fn start(row: *mut Row<T>) -> *mut MaybeUninit<T> {
        // SAFETY: the row is there.
        unsafe { ptr::addr_of_mut!((*row).first).cast() }
    }
}

/// A slice with its length in front, so that one word points to it.
// SAFETY of the blocks below: a word of `init` is the address of a row, and their callers say the
// rest.
impl<T> Pointable for [MaybeUninit<T>] {
    const ALIGN: usize = align_of::<Row<T>>();
    type Init = usize;

    unsafe fn init(items: usize) -> usize {
        let layout = Row::<T>::layout(items);
        // SAFETY: the layout has the length at least.
        let row = unsafe { alloc(layout) }.cast::<Row<T>>();
        if row.is_null() {
            handle_alloc_error(layout);
        }
        // SAFETY: the room is a row's.
        unsafe { ptr::addr_of_mut!((*row).items).write(items) };
        row as usize
    }

    unsafe fn deref<'a>(ptr: usize) -> &'a [MaybeUninit<T>] {
        let row = ptr as *mut Row<T>;
        // SAFETY: as above.
        unsafe { slice::from_raw_parts(Row::start(row), (*row).items) }
    }

    unsafe fn deref_mut<'a>(ptr: usize) -> &'a mut [MaybeUninit<T>] {
        let row = ptr as *mut Row<T>;
        // SAFETY: as above.
        unsafe { slice::from_raw_parts_mut(Row::start(row), (*row).items) }
    }

    unsafe fn drop(ptr: usize) {
        let row = ptr as *mut Row<T>;
        // SAFETY: as above.
        unsafe { dealloc(row.cast(), Row::<T>::layout((*row).items)) };
    }
}

/// A word that an [`Atomic`](crate::Atomic) takes: an [`Owned`](crate::Owned) or a
/// [`Shared`](crate::Shared).
///
/// ```
/// use crossbeam_epoch::{Owned, Pointer};
///
/// let word = Owned::new(7u64).with_tag(1).into_usize();
/// assert_eq!(word % 8, 1);
/// let owned = unsafe { Owned::<u64>::from_usize(word) };
/// assert_eq!((*owned, owned.tag()), (7, 1));
/// ```
pub trait Pointer<T: ?Sized + Pointable> {
    /// The word, address and tag.
    fn into_usize(self) -> usize;

    /// The pointer of a word.
    ///
    /// # Safety
    /// The word is from `into_usize` of the same kind, and was not used for another pointer.
    unsafe fn from_usize(data: usize) -> Self;
}
