//! A lock: std's, which no panic poisons, with a mark for the thread sanitizer, which does not see
//! into std.

use std::ops::{Deref, DerefMut};
use std::sync::atomic::{AtomicBool, Ordering::Acquire, Ordering::Release};
use std::sync::{LockResult, Mutex, MutexGuard, TryLockError};

pub(crate) struct Lock<T> {
    inner: Mutex<T>,
    mark: AtomicBool,
}

pub(crate) struct Locked<'a, T> {
    inner: MutexGuard<'a, T>,
    mark: &'a AtomicBool,
}

impl<T> Lock<T> {
    pub(crate) const fn new(value: T) -> Lock<T> {
        Lock {
            inner: Mutex::new(value),
            mark: AtomicBool::new(false),
        }
    }

    fn locked<'a>(&'a self, inner: MutexGuard<'a, T>) -> Locked<'a, T> {
        self.mark.load(Acquire);
        Locked {
            inner,
            mark: &self.mark,
        }
    }

    pub(crate) fn lock(&self) -> Locked<'_, T> {
        self.locked(known(self.inner.lock()))
    }

    pub(crate) fn try_lock(&self) -> Option<Locked<'_, T>> {
        match self.inner.try_lock() {
            Ok(inner) => Some(self.locked(inner)),
            Err(TryLockError::Poisoned(it)) => Some(self.locked(it.into_inner())),
            Err(TryLockError::WouldBlock) => None,
        }
    }

    pub(crate) fn get_mut(&mut self) -> &mut T {
        known(self.inner.get_mut())
    }
}

/// No code of a caller's runs under a lock.
fn known<T>(result: LockResult<T>) -> T {
    result.unwrap_or_else(|it| it.into_inner())
}

impl<T> Deref for Locked<'_, T> {
    type Target = T;

    fn deref(&self) -> &T {
        &self.inner
    }
}

impl<T> DerefMut for Locked<'_, T> {
    fn deref_mut(&mut self) -> &mut T {
        &mut self.inner
    }
}

impl<T> Drop for Locked<'_, T> {
    fn drop(&mut self) {
        self.mark.store(true, Release);
    }
}
