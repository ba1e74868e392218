//! What a compare-and-exchange returns, and the orders of its old form.

use crate::pointable::{Pointable, Pointer};
use crate::shared::Shared;
use std::fmt;
use std::sync::atomic::Ordering;

/// A compare-and-exchange found another pointer.
///
/// ```
/// use crossbeam_epoch::{self as epoch, Atomic, Owned, Shared};
/// use std::sync::atomic::Ordering::SeqCst;
///
/// let slot = Atomic::new(1);
/// let guard = &epoch::pin();
/// let refused = slot.compare_exchange(Shared::null(), Owned::new(2), SeqCst, SeqCst, guard);
/// let error = refused.unwrap_err();
/// assert_eq!(unsafe { error.current.as_ref() }, Some(&1));
/// assert_eq!(*error.new, 2); // it is the caller's still
/// # drop(unsafe { slot.into_owned() });
/// ```
pub struct CompareExchangeError<'g, T: ?Sized + Pointable, P: Pointer<T>> {
    /// What was there.
    pub current: Shared<'g, T>,
    /// What was to be stored.
    pub new: P,
}

impl<T, P: Pointer<T> + fmt::Debug> fmt::Debug for CompareExchangeError<'_, T, P> {
    fn fmt(&self, to: &mut fmt::Formatter<'_>) -> fmt::Result {
        to.debug_struct("CompareExchangeError")
            .field("current", &self.current)
            .field("new", &self.new)
            .finish()
    }
}

/// The old name of [`CompareExchangeError`].
///
/// ```
/// #![allow(deprecated)]
/// use crossbeam_epoch::{CompareAndSetError, Shared};
///
/// let new = Shared::<u64>::null();
/// let refused: CompareAndSetError<'_, u64, Shared<'_, u64>> =
///     crossbeam_epoch::CompareExchangeError { current: new, new };
/// assert_eq!(refused.current, refused.new);
/// ```
#[deprecated(note = "use `CompareExchangeError`")]
pub type CompareAndSetError<'g, T, P> = CompareExchangeError<'g, T, P>;

/// One or two orders of a compare-and-set.
///
/// ```
/// #![allow(deprecated)]
/// use crossbeam_epoch::CompareAndSetOrdering;
/// use std::sync::atomic::Ordering::{AcqRel, Acquire};
///
/// assert_eq!((AcqRel.success(), AcqRel.failure()), (AcqRel, Acquire));
/// ```
#[deprecated(note = "for `compare_and_set` and `compare_and_set_weak` alone")]
pub trait CompareAndSetOrdering {
    /// The order where it stores.
    fn success(&self) -> Ordering;
    /// The order where it does not.
    fn failure(&self) -> Ordering;
}

#[allow(deprecated)]
impl CompareAndSetOrdering for Ordering {
    fn success(&self) -> Ordering {
        *self
    }

    fn failure(&self) -> Ordering {
        match self {
            Ordering::Relaxed | Ordering::Release => Ordering::Relaxed,
            Ordering::Acquire | Ordering::AcqRel => Ordering::Acquire,
            _ => Ordering::SeqCst,
        }
    }
}

#[allow(deprecated)]
impl CompareAndSetOrdering for (Ordering, Ordering) {
    fn success(&self) -> Ordering {
        self.0
    }

    fn failure(&self) -> Ordering {
        self.1
    }
}
