//! A word: an address, and a tag in the bits that its alignment leaves free.

use crate::pointable::Pointable;
use std::fmt;

/// The bits of a word that a tag may have.
pub(crate) const fn tag_bits<T: ?Sized + Pointable>() -> usize {
    T::ALIGN - 1
}

/// The address of a word, and its tag.
pub(crate) fn parts<T: ?Sized + Pointable>(word: usize) -> (usize, usize) {
    (word & !tag_bits::<T>(), word & tag_bits::<T>())
}

/// The word with another tag; what does not fit is cut off.
pub(crate) fn tagged<T: ?Sized + Pointable>(word: usize, tag: usize) -> usize {
    parts::<T>(word).0 | parts::<T>(tag).1
}

pub(crate) fn assert_aligned<T: ?Sized + Pointable>(address: usize) {
    assert_eq!(parts::<T>(address).1, 0, "unaligned pointer");
}

pub(crate) fn show<T: ?Sized + Pointable>(
    kind: &str,
    word: usize,
    to: &mut fmt::Formatter<'_>,
) -> fmt::Result {
    let (raw, tag) = parts::<T>(word);
    to.debug_struct(kind)
        .field("raw", &raw)
        .field("tag", &tag)
        .finish()
}
