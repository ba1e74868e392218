//! An engine, for all threads.

use crate::deferred::Deferred;
use crate::error::Error;
use crate::inner::Inner;
use crate::map::{Map, MapSizes};
use crate::reader::Reader;
use crate::words::{Key, Value, Words};
use std::fmt;
use std::sync::Arc;

/// How many readers an engine has at most, if its opener does not say: it takes some 600 KiB.
const READERS: u32 = 1023;
/// How many it may have. The library has 4,096 processors, and 0 is nobody's.
const MOST: u32 = 4095;

/// An engine, for all its readers. Clones are the same engine. It goes when the last clone, the last
/// map and the last reader are gone; then what is deferred is done first.
///
/// ```
/// use std::thread;
///
/// # fn main() -> Result<(), rcu::Error> {
/// let engine = rcu::Engine::new()?;
/// let own = engine.clone();
/// let driver = thread::spawn(move || own.drive()); // does what is deferred
/// engine.defer(|| println!("no section is open any more"));
/// engine.barrier(); // it is done
/// engine.stop();
/// driver.join().unwrap();
/// # Ok(())
/// # }
/// ```
#[derive(Clone)]
#[must_use]
pub struct Engine {
    pub(crate) inner: Arc<Inner>,
}

impl fmt::Debug for Engine {
    fn fmt(&self, to: &mut fmt::Formatter<'_>) -> fmt::Result {
        to.debug_struct("Engine").finish_non_exhaustive()
    }
}

impl Engine {
    /// An engine, for up to 1,023 readers at a time.
    ///
    /// # Errors
    /// [`Error::NoMemory`] if memory is out.
    ///
    /// ```
    /// # fn main() -> Result<(), rcu::Error> {
    /// let engine = rcu::Engine::new()?;
    /// let readers = [engine.reader()?, engine.reader()?];
    /// # Ok(())
    /// # }
    /// ```
    pub fn new() -> Result<Engine, Error> {
        Engine::with_limit(READERS)
    }

    /// An engine as [`Engine::new`], for up to `readers` readers at a time, from 1 to 4,095. The
    /// lower the limit is, the less memory it takes, and the less time its grace periods take.
    ///
    /// # Errors
    /// [`Error::BadCount`] for another number, [`Error::NoMemory`] if memory is out.
    ///
    /// ```
    /// assert!(rcu::Engine::with_limit(8).is_ok());
    /// assert_eq!(rcu::Engine::with_limit(0).unwrap_err(), rcu::Error::BadCount);
    /// ```
    pub fn with_limit(readers: u32) -> Result<Engine, Error> {
        Engine::open(readers, None)
    }

    /// An engine as [`Engine::new`], with a map, which its readers read without a lock.
    ///
    /// # Errors
    /// [`Error::BadSizes`], and [`Error::NoMemory`] if memory is out.
    ///
    /// ```
    /// use rcu::{Engine, MapSizes};
    ///
    /// # fn main() -> Result<(), rcu::Error> {
    /// let sizes = MapSizes { buckets: 64, entries: 200, seed: 1 };
    /// let (engine, squares) = Engine::with_map::<u32, u64>(sizes)?;
    /// assert_eq!(squares.put(3, 9), Ok(None));
    /// let mut reader = engine.reader()?;
    /// assert_eq!(reader.read(|guard| squares.get(guard, 3)), Some(9));
    /// # Ok(())
    /// # }
    /// ```
    pub fn with_map<K: Key, V: Value>(sizes: MapSizes) -> Result<(Engine, Map<K, V>), Error> {
        Engine::with_map_and_limit(sizes, READERS)
    }

    /// An engine as [`Engine::with_map`], for up to `readers` readers, as [`Engine::with_limit`].
    ///
    /// # Errors
    /// [`Error::BadCount`], [`Error::BadSizes`], and [`Error::NoMemory`] if memory is out.
    ///
    /// ```
    /// use rcu::{Engine, MapSizes};
    ///
    /// # fn main() -> Result<(), rcu::Error> {
    /// let sizes = MapSizes { buckets: 64, entries: 200, seed: 1 };
    /// let (engine, map) = Engine::with_map_and_limit::<u32, u64>(sizes, 8)?;
    /// # Ok(())
    /// # }
    /// ```
    pub fn with_map_and_limit<K: Key, V: Value>(
        sizes: MapSizes,
        readers: u32,
    ) -> Result<(Engine, Map<K, V>), Error> {
        let engine = Engine::open(readers, Some((sizes, V::Words::COUNT)))?;
        let map = Map::of(&engine.inner);
        Ok((engine, map))
    }

    fn open(readers: u32, map: Option<(MapSizes, usize)>) -> Result<Engine, Error> {
        if !(1..=MOST).contains(&readers) {
            return Err(Error::BadCount);
        }
        let inner = Arc::new(Inner::open(readers, map)?);
        Ok(Engine { inner })
    }

    /// A reader, for this thread or another one. It takes the engine's lock for a moment.
    ///
    /// # Errors
    /// [`Error::AllTaken`] if the engine has as many readers as its limit,
    /// [`Error::NoMemory`] if memory is out.
    ///
    /// ```
    /// # fn main() -> Result<(), rcu::Error> {
    /// let engine = rcu::Engine::with_limit(1)?;
    /// let reader = engine.reader()?;
    /// assert_eq!(engine.reader().unwrap_err(), rcu::Error::AllTaken);
    /// drop(reader);
    /// assert!(engine.reader().is_ok());
    /// # Ok(())
    /// # }
    /// ```
    pub fn reader(&self) -> Result<Reader, Error> {
        Reader::of(&self.inner)
    }

    /// Waits until each section that is open now has ended.
    ///
    /// A thread that has a section open, or a reader that is not idle, waits for itself for ever:
    /// it calls [`Reader::synchronize`].
    ///
    /// ```
    /// # fn main() -> Result<(), rcu::Error> {
    /// let engine = rcu::Engine::new()?;
    /// let reader = engine.reader()?;
    /// drop(reader.enter());
    /// drop(reader);
    /// engine.synchronize(); // that section has ended
    /// # Ok(())
    /// # }
    /// ```
    pub fn synchronize(&self) {
        self.inner.synchronize();
    }

    /// Calls the callback once each section that is open now has ended. Who calls it:
    ///
    /// - a thread in [`Engine::drive`], where there is one;
    /// - else whoever calls this, or replaces what a [`Shared`](crate::Shared) has: at each 16th
    ///   such call it moves the engine on, waiting for nobody, and does 64 of what is due at most;
    /// - whoever calls [`Engine::run_deferred`] or [`Engine::barrier`], or drops the engine's last
    ///   owner. No reader does by what it reads.
    ///
    /// So a callback may run in a section of the thread that defers, and under that one's locks:
    /// where no thread drives, it takes none of these, and waits for no grace period. It waits for
    /// itself by [`Engine::barrier`]. One that panics ends the process. One that owns a clone of
    /// its engine keeps it, until it is called.
    ///
    /// ```
    /// # fn main() -> Result<(), rcu::Error> {
    /// let engine = rcu::Engine::new()?;
    /// engine.defer(|| println!("no section is open any more"));
    /// assert_eq!(engine.run_deferred(), 1);
    /// # Ok(())
    /// # }
    /// ```
    pub fn defer(&self, callback: impl FnOnce() + Send + 'static) {
        self.inner.defer(Deferred::Run(Box::new(callback)));
    }

    /// Drops the data once each section that is open now has ended, as [`Engine::defer`].
    ///
    /// ```
    /// use std::sync::Arc;
    ///
    /// # fn main() -> Result<(), rcu::Error> {
    /// let engine = rcu::Engine::new()?;
    /// let data = Arc::new(7);
    /// engine.defer_drop(Arc::clone(&data));
    /// assert_eq!(engine.run_deferred(), 1);
    /// assert_eq!(Arc::strong_count(&data), 1);
    /// # Ok(())
    /// # }
    /// ```
    pub fn defer_drop<T: Send + Sync + 'static>(&self, data: Arc<T>) {
        self.inner.defer(Deferred::Drop(data));
    }

    /// Waits for all that is deferred by now, and does it. Returns how many there were. Who waits
    /// for itself: as at [`Engine::synchronize`].
    pub fn run_deferred(&self) -> usize {
        self.inner.run_deferred()
    }

    /// Does what is deferred, and sleeps meanwhile, until [`Engine::stop`] is called and nothing is
    /// left: for a thread of its own. No thread that defers does any of it meanwhile.
    pub fn drive(&self) {
        let inner = &*self.inner;
        let mut locked = inner.lock();
        locked.drivers += 1;
        loop {
            while locked.queue.is_empty() && !locked.stopped {
                locked = inner.sleep(&inner.queued, locked);
            }
            if locked.queue.is_empty() {
                locked.drivers -= 1;
                return;
            }
            drop(locked);
            inner.run_deferred();
            locked = inner.lock();
        }
    }

    /// Lets [`Engine::drive`] return, in all threads and for good.
    pub fn stop(&self) {
        self.inner.lock().stopped = true;
        self.inner.queued.notify_all();
    }

    /// Waits until all that was deferred before is done, by this thread or another one. Who waits
    /// for itself: as at [`Engine::synchronize`].
    pub fn barrier(&self) {
        let inner = &*self.inner;
        let upto = inner.lock().queue.queued();
        while !inner.lock().queue.is_performed(upto) {
            if self.run_deferred() > 0 {
                continue;
            }
            let mut locked = inner.lock();
            while locked.queue.is_empty() && !locked.queue.is_performed(upto) {
                locked = inner.sleep(&inner.ended, locked);
            }
        }
    }
}
