//! Data that readers read without a lock.

use crate::engine::Engine;
use crate::reader::Guard;
use std::fmt;
use std::marker::PhantomData;
use std::sync::atomic::{AtomicPtr, Ordering::AcqRel, Ordering::Acquire};
use std::sync::{Arc, OnceLock};

/// A slot with an [`Arc`], which sections of one engine read, and anybody replaces.
///
/// One that was made with no engine ([`From`], [`Default`]) is for the first engine that reads or
/// replaces what it has.
///
/// ```
/// # fn main() -> Result<(), rcu::Error> {
/// let engine = rcu::Engine::new()?;
/// let shared = rcu::Shared::new(&engine, vec![1, 2, 3]);
/// let mut reader = engine.reader()?;
/// let kept = shared.load_arc(&reader.enter()); // beyond the section
/// shared.replace(&engine, vec![4]);
/// assert_eq!((kept.len(), shared.load(&reader.enter()).len()), (3, 1));
/// reader.while_idle(|| engine.run_deferred()); // the slot's part of the first is dropped
/// # Ok(())
/// # }
/// ```
///
/// ```compile_fail,E0505
/// let engine = rcu::Engine::new().unwrap();
/// let reader = engine.reader().unwrap();
/// let shared = rcu::Shared::new(&engine, 1);
/// let guard = reader.enter();
/// let seen = shared.load(&guard);
/// drop(guard);
/// println!("{seen}"); // it outlives the section
/// ```
///
/// ```compile_fail,E0505
/// let engine = rcu::Engine::new().unwrap();
/// let reader = engine.reader().unwrap();
/// let guard = reader.enter();
/// let shared = rcu::Shared::new(&engine, 1);
/// let seen = shared.load(&guard);
/// drop(shared);
/// println!("{seen}"); // it outlives the slot
/// ```
///
/// ```compile_fail,E0277
/// let engine = rcu::Engine::new().unwrap();
/// rcu::Shared::new(&engine, std::rc::Rc::new(1)); // of one thread alone
/// ```
///
/// ```compile_fail,E0597
/// let engine = rcu::Engine::new().unwrap();
/// let text = String::from("borrowed");
/// let shared = rcu::Shared::new(&engine, text.as_str()); // it may go before its drop is done
/// drop((shared, engine));
/// ```
pub struct Shared<T> {
    /// The engine's.
    id: OnceLock<u64>,
    /// Of an `Arc`, which the slot owns.
    at: AtomicPtr<T>,
    owns: PhantomData<Arc<T>>,
}

impl<T: Send + Sync + 'static> Shared<T> {
    /// A slot for sections of this engine. It does not keep the engine.
    pub fn new(engine: &Engine, data: T) -> Shared<T> {
        Shared::of(engine, Arc::new(data))
    }

    /// As [`Shared::new`], of data that others may own too.
    pub fn of(engine: &Engine, data: Arc<T>) -> Shared<T> {
        let shared = Shared::from(data);
        shared.must_be_of(engine.inner.id, "slot");
        shared
    }

    /// Its engine is the one of this number, from now on where it had none.
    #[inline]
    fn must_be_of(&self, id: u64, what: &str) {
        assert!(
            *self.id.get_or_init(|| id) == id,
            "the {what} is of another engine"
        );
    }

    /// What the slot has. What another thread replaces meanwhile is kept until the section ends.
    ///
    /// # Panics
    /// Where the section is of another engine.
    #[inline]
    #[must_use]
    pub fn load<'a>(&'a self, guard: &'a Guard<'_>) -> &'a T {
        // SAFETY: it is there as long as the slot and the section are borrowed.
        unsafe { &*self.at(guard) }
    }

    /// As [`Shared::load`], to be kept beyond the section.
    ///
    /// # Panics
    /// Where the section is of another engine.
    #[must_use]
    pub fn load_arc(&self, guard: &Guard<'_>) -> Arc<T> {
        let at = self.at(guard);
        // SAFETY: it came from an `Arc`, whose part stays until the section ends. (A pointer that
        // was made of a reference would not do: it is for the data alone, not for its counts.)
        unsafe {
            Arc::increment_strong_count(at);
            Arc::from_raw(at)
        }
    }

    /// What the slot has. The slot owns it until a `replace`, which defers its drop beyond the
    /// section: so it is there while both are.
    #[inline]
    fn at(&self, guard: &Guard<'_>) -> *const T {
        self.must_be_of(guard.id(), "section");
        self.at.load(Acquire)
    }

    /// Puts other data into the slot. What was there is deferred to be dropped: [`Engine::defer`]
    /// says who does so. (Where no thread drives, those do who replace and defer, now and then.)
    ///
    /// # Panics
    /// Where the engine is another one.
    pub fn replace(&self, engine: &Engine, data: T) {
        self.replace_by(engine, Arc::new(data));
    }

    /// As [`Shared::replace`], by data that others may own too.
    ///
    /// # Panics
    /// Where the engine is another one.
    pub fn replace_by(&self, engine: &Engine, data: Arc<T>) {
        self.must_be_of(engine.inner.id, "slot");
        engine.defer_drop(self.exchange(data));
    }

    /// Puts other data into the slot, and returns the slot's part of what was there: each caller
    /// defers its drop, by the slot's engine.
    pub(crate) fn exchange(&self, data: Arc<T>) -> Arc<T> {
        let new = Arc::into_raw(data).cast_mut();
        // SAFETY: the slot's part.
        unsafe { Arc::from_raw(self.at.swap(new, AcqRel)) }
    }

    /// As [`Shared::replace_by`], and returns what was there. The caller has a part of it; the
    /// slot's own part is deferred to be dropped.
    ///
    /// # Panics
    /// Where the engine is another one.
    ///
    /// ```
    /// use std::sync::Arc;
    ///
    /// # fn main() -> Result<(), rcu::Error> {
    /// let engine = rcu::Engine::new()?;
    /// let count = rcu::Shared::new(&engine, 1);
    /// assert_eq!(*count.swap(&engine, Arc::new(2)), 1);
    /// # Ok(())
    /// # }
    /// ```
    #[must_use = "`replace_by` returns nothing"]
    pub fn swap(&self, engine: &Engine, data: Arc<T>) -> Arc<T> {
        self.must_be_of(engine.inner.id, "slot");
        let old = self.exchange(data);
        engine.defer_drop(Arc::clone(&old));
        old
    }

    /// As [`Shared::swap`], where the slot has `current` still: that one, and not one that is equal
    /// to it. As long as `current` is borrowed, no other data has its place.
    ///
    /// # Errors
    /// The new data, where the slot has other data.
    ///
    /// # Panics
    /// Where the engine is another one.
    ///
    /// ```
    /// use std::sync::Arc;
    ///
    /// # fn main() -> Result<(), rcu::Error> {
    /// let engine = rcu::Engine::new()?;
    /// let count = rcu::Shared::new(&engine, 1);
    /// let reader = engine.reader()?;
    /// loop {
    ///     let guard = reader.enter(); // two threads may count so
    ///     let seen = count.load(&guard);
    ///     if count.compare_exchange(&engine, seen, Arc::new(seen + 1)).is_ok() {
    ///         break;
    ///     }
    /// }
    /// assert_eq!(*count.load(&reader.enter()), 2);
    /// # Ok(())
    /// # }
    /// ```
    pub fn compare_exchange(
        &self,
        engine: &Engine,
        current: &T,
        new: Arc<T>,
    ) -> Result<Arc<T>, Arc<T>> {
        self.must_be_of(engine.inner.id, "slot");
        let current = (&raw const *current).cast_mut();
        let new = Arc::into_raw(new).cast_mut();
        match self.at.compare_exchange(current, new, AcqRel, Acquire) {
            Ok(old) => {
                // SAFETY: the slot's part, of which one more is made before it goes over to the
                // engine. (The pointer is the slot's own, and not the one that was compared.)
                let old = unsafe { Arc::from_raw(old.cast_const()) };
                engine.defer_drop(Arc::clone(&old));
                Ok(old)
            }
            // SAFETY: the part that was to be stored, and was not.
            Err(_) => Err(unsafe { Arc::from_raw(new.cast_const()) }),
        }
    }
}

impl<T: Send + Sync + 'static> From<Arc<T>> for Shared<T> {
    fn from(data: Arc<T>) -> Shared<T> {
        Shared {
            id: OnceLock::new(),
            at: AtomicPtr::new(Arc::into_raw(data).cast_mut()),
            owns: PhantomData,
        }
    }
}

impl<T: Send + Sync + 'static> From<T> for Shared<T> {
    fn from(data: T) -> Shared<T> {
        Shared::from(Arc::new(data))
    }
}

impl<T: Default + Send + Sync + 'static> Default for Shared<T> {
    fn default() -> Shared<T> {
        Shared::from(T::default())
    }
}

/// No reference to what the slot has is there any more: each borrows the slot.
impl<T> Drop for Shared<T> {
    fn drop(&mut self) {
        // SAFETY: the slot's part.
        drop(unsafe { Arc::from_raw(*self.at.get_mut()) });
    }
}

impl<T> fmt::Debug for Shared<T> {
    fn fmt(&self, to: &mut fmt::Formatter<'_>) -> fmt::Result {
        to.debug_struct("Shared").finish_non_exhaustive()
    }
}
