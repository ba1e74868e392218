//! A lock for which threads queue.
//!
//! If all of them slept for it, each release would wake one, and what the lock has would change its
//! cache at each release. So the first one looks at the lock, with pauses, and the others sleep for
//! a second lock. This is safe code over std's `Mutex`, and what orders threads is that one alone.

use std::hint::spin_loop;
use std::sync::{LockResult, Mutex, MutexGuard, PoisonError, TryLockError};

/// How often the first one looks before it sleeps: for half a millisecond.
const LOOKS: u32 = 50;

/// The most steps of a pause between two looks: some 10 microseconds.
const LONGEST: u32 = 1024;

pub(crate) struct Line<T> {
    data: Mutex<T>,
    /// The first thread in line has it.
    first: Mutex<()>,
}

impl<T> Line<T> {
    pub(crate) fn new(data: T) -> Line<T> {
        Line {
            data: Mutex::new(data),
            first: Mutex::new(()),
        }
    }

    fn try_lock(&self) -> Option<LockResult<MutexGuard<'_, T>>> {
        match self.data.try_lock() {
            Ok(guard) => Some(Ok(guard)),
            Err(TryLockError::Poisoned(error)) => Some(Err(error)),
            Err(TryLockError::WouldBlock) => None,
        }
    }

    /// As `Mutex::lock`.
    pub(crate) fn lock(&self) -> LockResult<MutexGuard<'_, T>> {
        if let Some(locked) = self.try_lock() {
            return locked;
        }
        let _first = self.first.lock().unwrap_or_else(PoisonError::into_inner);
        let mut steps = 1;
        for _ in 0..LOOKS {
            if let Some(locked) = self.try_lock() {
                return locked;
            }
            (0..steps).for_each(|_| spin_loop());
            steps = LONGEST.min(2 * steps);
        }
        self.data.lock()
    }

    /// As `Mutex::get_mut`.
    pub(crate) fn get_mut(&mut self) -> LockResult<&mut T> {
        self.data.get_mut()
    }
}
