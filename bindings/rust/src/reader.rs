//! A thread that reads, and its sections.

use crate::engine::Engine;
use crate::error::Error;
use crate::handles::SeatHandle;
use crate::inner::Inner;
use crate::marks::Mark;
use std::fmt;
use std::mem::ManuallyDrop;
use std::sync::Arc;

/// A reader has a processor of the engine, for one thread at a time: it may be sent to another
/// thread, but not be used by two. Dropped, it gives the processor back.
///
/// It passes quiescent states ([`Reader::quiesce`]), or is idle or dropped, or no section's end is
/// ever heard of: what is deferred then waits for good. The same holds of a reader that is
/// forgotten. [`Reader::read`] passes one behind each section.
///
/// ```
/// # fn main() -> Result<(), rcu::Error> {
/// let engine = rcu::Engine::new()?;
/// let shared = rcu::Shared::new(&engine, 7);
/// let mut reader = engine.reader()?;
/// for _ in 0..3 {
///     assert_eq!(reader.read(|guard| *shared.load(guard)), 7);
/// }
/// let guard = reader.enter(); // the same in steps
/// assert_eq!(*shared.load(&guard), 7);
/// drop(guard);
/// reader.quiesce();
/// # Ok(())
/// # }
/// ```
///
/// ```compile_fail,E0277
/// let engine = rcu::Engine::new().unwrap();
/// let reader = engine.reader().unwrap();
/// std::thread::scope(|scope| {
///     scope.spawn(|| drop(reader.enter())); // a reader of two threads
/// });
/// drop(reader.enter());
/// ```
///
/// ```compile_fail,E0502
/// let engine = rcu::Engine::new().unwrap();
/// let mut reader = engine.reader().unwrap();
/// let guard = reader.enter();
/// reader.quiesce(); // in a section
/// drop(guard);
/// ```
///
/// ```compile_fail,E0502
/// let engine = rcu::Engine::new().unwrap();
/// let mut reader = engine.reader().unwrap();
/// let guard = reader.enter();
/// reader.while_idle(|| drop(guard)); // in a section
/// ```
///
/// ```compile_fail,E0502
/// let engine = rcu::Engine::new().unwrap();
/// let mut reader = engine.reader().unwrap();
/// reader.while_idle(|| drop(reader.enter())); // a section of an idle reader
/// ```
#[must_use]
pub struct Reader {
    inner: Arc<Inner>,
    seat: ManuallyDrop<SeatHandle>,
    /// Which thread has a section of this reader open.
    mark: Arc<Mark>,
}

/// An open section, which ends as the guard is dropped. The section of a guard that is forgotten
/// ends at the reader's next quiescent state, idleness or drop. Sections nest.
///
/// ```
/// # fn main() -> Result<(), rcu::Error> {
/// let engine = rcu::Engine::new()?;
/// let shared = rcu::Shared::new(&engine, String::from("old"));
/// let reader = engine.reader()?;
/// let guard = reader.enter();
/// let seen = shared.load(&guard);
/// shared.replace(&engine, String::from("new"));
/// assert_eq!(seen, "old"); // as long as the section is open
/// # Ok(())
/// # }
/// ```
///
/// ```compile_fail,E0277
/// let engine = rcu::Engine::new().unwrap();
/// let reader = engine.reader().unwrap();
/// let guard = reader.enter();
/// std::thread::scope(|scope| {
///     scope.spawn(move || drop(guard)); // a guard of another thread
/// });
/// ```
///
/// ```compile_fail,E0505
/// let engine = rcu::Engine::new().unwrap();
/// let reader = engine.reader().unwrap();
/// let guard = reader.enter();
/// drop(reader); // in a section
/// drop(guard);
/// ```
#[must_use = "the section ends where the guard is dropped"]
pub struct Guard<'reader> {
    reader: &'reader Reader,
}

/// Passes a quiescent state at its drop, also where its thread panics.
struct Quiet<'reader>(&'reader mut Reader);

/// Wakes the reader at its drop, also where its thread panics.
struct Awake<'reader>(&'reader Reader);

impl Reader {
    pub(crate) fn of(inner: &Arc<Inner>) -> Result<Reader, Error> {
        let (seat, mark) = inner.seat()?;
        Ok(Reader {
            inner: Arc::clone(inner),
            seat: ManuallyDrop::new(seat),
            mark,
        })
    }

    /// Opens a section, also in one that is open.
    ///
    /// # Panics
    /// Where 65,535 are open.
    #[inline]
    pub fn enter(&self) -> Guard<'_> {
        self.seat.enter();
        self.mark.set();
        Guard { reader: self }
    }

    /// Calls the closure in a section, and passes a quiescent state behind it, also where the
    /// closure panics.
    ///
    /// # Panics
    /// Where the closure does.
    ///
    /// ```
    /// # fn main() -> Result<(), rcu::Error> {
    /// let engine = rcu::Engine::new()?;
    /// let name = rcu::Shared::new(&engine, String::from("old"));
    /// let mut reader = engine.reader()?;
    /// assert_eq!(reader.read(|guard| name.load(guard).len()), 3);
    /// # Ok(())
    /// # }
    /// ```
    ///
    /// ```compile_fail
    /// let engine = rcu::Engine::new().unwrap();
    /// let name = rcu::Shared::new(&engine, String::from("old"));
    /// let mut reader = engine.reader().unwrap();
    /// let seen = reader.read(|guard| name.load(guard)); // it outlives the section
    /// ```
    #[inline]
    pub fn read<R>(&mut self, read: impl FnOnce(&Guard<'_>) -> R) -> R {
        let quiet = Quiet(self);
        let guard = quiet.0.enter();
        read(&guard)
    }

    /// Passes a quiescent state: a load, and, where a grace period began or ended since the last
    /// one, a store and a fence. It takes no lock, but for a moment to wake a thread that sleeps
    /// until this reader is quiet.
    #[inline]
    pub fn quiesce(&mut self) {
        self.leave_sections();
        if self.seat.quiesce_since() {
            self.inner.was_quiet(&self.seat);
        }
    }

    /// Calls what may block. Meanwhile the reader is idle, and no grace period waits for it.
    ///
    /// ```
    /// # fn main() -> Result<(), rcu::Error> {
    /// let engine = rcu::Engine::new()?;
    /// let mut reader = engine.reader()?;
    /// engine.defer(|| println!("no section is open any more"));
    /// assert_eq!(reader.while_idle(|| engine.run_deferred()), 1);
    /// # Ok(())
    /// # }
    /// ```
    pub fn while_idle<R>(&mut self, block: impl FnOnce() -> R) -> R {
        self.leave_sections();
        self.seat.idle();
        self.inner.was_quiet(&self.seat);
        let _awake = Awake(self);
        block()
    }

    /// Waits until each section that is open now has ended; this reader has none.
    pub fn synchronize(&mut self) {
        let engine = Engine {
            inner: Arc::clone(&self.inner),
        };
        self.while_idle(|| engine.synchronize());
    }

    /// Ends the sections that are open. They are of forgotten guards: no guard borrows the reader.
    #[inline]
    fn leave_sections(&mut self) {
        if self.seat.is_in_section() {
            while self.seat.is_in_section() {
                self.seat.exit();
            }
            self.mark.clear();
        }
    }
}

impl Drop for Reader {
    fn drop(&mut self) {
        self.quiesce();
        // SAFETY: the seat is used no more.
        let seat = unsafe { ManuallyDrop::take(&mut self.seat) };
        self.inner.give_back(seat, Arc::clone(&self.mark));
    }
}

impl Drop for Quiet<'_> {
    #[inline]
    fn drop(&mut self) {
        self.0.quiesce();
    }
}

impl Drop for Awake<'_> {
    fn drop(&mut self) {
        self.0.seat.wake();
    }
}

impl Guard<'_> {
    pub(crate) fn id(&self) -> u64 {
        self.reader.inner.id
    }

    /// The seat of its reader, whose section is open.
    pub(crate) fn seat(&self) -> &SeatHandle {
        &self.reader.seat
    }
}

impl Drop for Guard<'_> {
    #[inline]
    fn drop(&mut self) {
        self.reader.seat.exit();
        if !self.reader.seat.is_in_section() {
            self.reader.mark.clear();
        }
    }
}

impl fmt::Debug for Reader {
    fn fmt(&self, to: &mut fmt::Formatter<'_>) -> fmt::Result {
        to.debug_struct("Reader").finish_non_exhaustive()
    }
}

impl fmt::Debug for Guard<'_> {
    fn fmt(&self, to: &mut fmt::Formatter<'_>) -> fmt::Result {
        to.debug_struct("Guard").finish_non_exhaustive()
    }
}
