//! The map of an engine.

use crate::error::{Full, NotPut};
use crate::handles::SeatHandle;
use crate::inner::Inner;
use crate::reader::Guard;
use crate::updates::How;
use crate::words::{Key, Value};
use std::fmt;
use std::iter::FusedIterator;
use std::marker::PhantomData;
use std::sync::Arc;

/// How large a map is. It takes its memory as it is opened.
#[derive(Clone, Copy, Debug, PartialEq, Eq)]
pub struct MapSizes {
    /// How many chains the entries are in, 1 or more. A look goes along one of them.
    pub buckets: usize,
    /// How many entries there is room for. One that was replaced or removed keeps its room until a
    /// grace period is over: the more room there is, the less an update waits.
    pub entries: usize,
    /// What decides which bucket a key is in: draw it at random where others choose the keys.
    pub seed: u64,
}

/// The map of an engine, made by [`Engine::with_map`](crate::Engine::with_map). Sections read it
/// without a lock, and see each entry as it was before an update or as it is after it. Clones are
/// the same map; each keeps the engine.
///
/// A key is a word, a number say, and a value is one or several ([`Key`], [`Value`]).
///
/// Updates take the engine's lock for a moment. An entry that is put in, or replaces another one,
/// needs free room. Where none is free, but some will be, [`Map::insert`], [`Map::replace`] and
/// [`Map::put`] make a grace period, or wait for one. A thread that has a section open is refused
/// ([`NotPut::InSection`]), since it would wait for itself. So would one that has a reader which is
/// not idle: it waits for ever, and calls them in [`Reader::while_idle`]. [`Map::try_insert`],
/// [`Map::try_replace`] and [`Map::try_put`] wait for nobody.
///
/// [`Reader::while_idle`]: crate::Reader::while_idle
///
/// ```
/// use rcu::{Engine, MapSizes};
/// use std::thread;
///
/// # fn main() -> Result<(), Box<dyn std::error::Error>> {
/// let sizes = MapSizes { buckets: 64, entries: 200, seed: 1 };
/// let (engine, ports) = Engine::with_map::<u32, u16>(sizes)?;
/// ports.insert(7, 80)?;
/// let mut reader = engine.reader()?;
/// thread::scope(|scope| {
///     scope.spawn(|| {
///         let port = reader.read(|guard| ports.get(guard, 7));
///         assert!(port == Some(80) || port == Some(8080));
///     });
///     assert_eq!(ports.replace(7, 8080), Ok(Some(80)));
/// });
/// # Ok(())
/// # }
/// ```
pub struct Map<K, V> {
    inner: Arc<Inner>,
    kinds: PhantomData<fn(K) -> V>,
}

/// The entries of a map, as a section finds them.
#[must_use = "it does nothing unless it is iterated over"]
pub struct Entries<'a, K, V> {
    seat: &'a SeatHandle,
    /// The key of the last entry: 0 before the first one, and none at the end.
    last: Option<u64>,
    kinds: PhantomData<fn() -> (K, V)>,
}

impl<K: Key, V: Value> Map<K, V> {
    /// The only one of this engine, and its clones: so each word in it is of these types.
    pub(crate) fn of(inner: &Arc<Inner>) -> Map<K, V> {
        Map {
            inner: Arc::clone(inner),
            kinds: PhantomData,
        }
    }

    /// The seat of the section.
    #[inline]
    fn seat<'a>(&self, guard: &'a Guard<'_>) -> &'a SeatHandle {
        assert!(
            self.inner.id == guard.id(),
            "the section is of another engine"
        );
        guard.seat()
    }

    /// The value of a key, as the section finds it: one that it had at some moment of the section.
    /// A key that is in the map from the section's beginning on is found, also where its value is
    /// replaced meanwhile.
    ///
    /// # Panics
    /// Where the section is of another engine.
    ///
    /// ```
    /// # use rcu::{Engine, MapSizes};
    /// # fn main() -> Result<(), Box<dyn std::error::Error>> {
    /// # let sizes = MapSizes { buckets: 1, entries: 2, seed: 0 };
    /// let (engine, map) = Engine::with_map(sizes)?;
    /// map.insert('a', true)?;
    /// let reader = engine.reader()?;
    /// let guard = reader.enter();
    /// assert_eq!(map.get(&guard, 'a'), Some(true));
    /// assert_eq!(map.get(&guard, 'b'), None);
    /// # Ok(())
    /// # }
    /// ```
    #[inline]
    #[must_use]
    pub fn get(&self, guard: &Guard<'_>, key: K) -> Option<V> {
        self.seat(guard).map_get(key.to_key()).map(V::of_words)
    }

    /// The entries, in an order that hangs on the seed, each key once at most. A key that is in the
    /// map as long as the section lasts is among them. One that comes or goes meanwhile may be.
    ///
    /// # Panics
    /// Where the section is of another engine.
    ///
    /// ```
    /// # use rcu::{Engine, MapSizes};
    /// # fn main() -> Result<(), Box<dyn std::error::Error>> {
    /// # let sizes = MapSizes { buckets: 4, entries: 3, seed: 0 };
    /// let (engine, map) = Engine::with_map(sizes)?;
    /// for key in 1..=3u8 {
    ///     map.insert(key, 10 * key)?;
    /// }
    /// let mut reader = engine.reader()?;
    /// let mut all = reader.read(|guard| map.iter(guard).collect::<Vec<_>>());
    /// all.sort();
    /// assert_eq!(all, [(1, 10), (2, 20), (3, 30)]);
    /// # Ok(())
    /// # }
    /// ```
    ///
    /// ```compile_fail,E0505
    /// # use rcu::{Engine, MapSizes};
    /// # let sizes = MapSizes { buckets: 1, entries: 1, seed: 0 };
    /// let (engine, map) = Engine::with_map::<u8, u8>(sizes).unwrap();
    /// let reader = engine.reader().unwrap();
    /// let guard = reader.enter();
    /// let entries = map.iter(&guard);
    /// drop(guard);
    /// entries.count(); // it outlives the section
    /// ```
    #[inline]
    pub fn iter<'a>(&self, guard: &'a Guard<'_>) -> Entries<'a, K, V> {
        Entries {
            seat: self.seat(guard),
            last: Some(0),
            kinds: PhantomData,
        }
    }

    /// No code of a caller's runs under the lock: what a key and a value are as words is asked
    /// before.
    fn put_by(&self, how: How<V::Words>, key: K, value: V) -> Result<Option<V>, NotPut> {
        let old = self.inner.put(how, key.to_key(), value.to_words())?;
        Ok(old.map(V::of_words))
    }

    fn try_put_by(&self, how: How<V::Words>, key: K, value: V) -> Result<Option<V>, Full> {
        let old = self.inner.try_put(how, key.to_key(), value.to_words())?;
        Ok(old.map(V::of_words))
    }

    /// Puts an entry in where none has its key. Else returns the value that the key has: then
    /// nothing happened. It may wait, as [`Map`] says.
    ///
    /// # Errors
    /// [`NotPut::Full`] where no entry has the key, and there are as many as the map has room for;
    /// [`NotPut::InSection`] where it would wait, and the thread has a section open.
    pub fn insert(&self, key: K, value: V) -> Result<Option<V>, NotPut> {
        self.put_by(How::Insert, key, value)
    }

    /// Replaces the value of a key, and returns the old one. Where no entry has the key, nothing
    /// happens. It may wait, as [`Map`] says.
    ///
    /// # Errors
    /// [`NotPut::InSection`] as of [`Map::insert`]. It is never [`NotPut::Full`]: the map keeps room
    /// for a replacement.
    ///
    /// ```
    /// # use rcu::{Engine, MapSizes};
    /// # fn main() -> Result<(), Box<dyn std::error::Error>> {
    /// let sizes = MapSizes { buckets: 1, entries: 2, seed: 0 };
    /// let (_, map) = Engine::with_map::<u8, u8>(sizes)?;
    /// map.insert(1, 10)?;
    /// for value in 11..100 {
    ///     assert_eq!(map.replace(1, value), Ok(Some(value - 1)));
    /// }
    /// map.insert(2, 20)?;
    /// assert_eq!(map.replace(1, 100), Ok(Some(99))); // it is full, and replaces
    /// # Ok(())
    /// # }
    /// ```
    pub fn replace(&self, key: K, value: V) -> Result<Option<V>, NotPut> {
        self.put_by(How::Replace, key, value)
    }

    /// Puts an entry in, in the place of the one that has its key where there is one. Returns the
    /// value of that. It may wait, as [`Map`] says.
    ///
    /// # Errors
    /// As of [`Map::insert`].
    pub fn put(&self, key: K, value: V) -> Result<Option<V>, NotPut> {
        self.put_by(How::Put, key, value)
    }

    /// As [`Map::insert`], but waits for nobody: where no room is free it moves the engine on.
    ///
    /// # Errors
    /// [`Full`] where no entry has the key, and no room is free, or none yet.
    ///
    /// ```
    /// # use rcu::{Engine, Full, MapSizes};
    /// # fn main() -> Result<(), Box<dyn std::error::Error>> {
    /// # let sizes = MapSizes { buckets: 1, entries: 1, seed: 0 };
    /// let (engine, map) = Engine::with_map::<u8, u8>(sizes)?;
    /// map.insert(1, 10)?;
    /// let mut reader = engine.reader()?;
    /// let guard = reader.enter();
    /// map.replace(1, 11)?;
    /// map.remove(1);
    /// assert_eq!(map.try_insert(2, 20), Err(Full)); // the section may read what was there
    /// drop(guard);
    /// reader.quiesce();
    /// assert_eq!(map.try_insert(2, 20), Ok(None));
    /// # Ok(())
    /// # }
    /// ```
    pub fn try_insert(&self, key: K, value: V) -> Result<Option<V>, Full> {
        self.try_put_by(How::Insert, key, value)
    }

    /// As [`Map::replace`], but waits for nobody, as [`Map::try_insert`].
    ///
    /// # Errors
    /// [`Full`] where an entry has the key, and no room is free yet.
    pub fn try_replace(&self, key: K, value: V) -> Result<Option<V>, Full> {
        self.try_put_by(How::Replace, key, value)
    }

    /// As [`Map::put`], but waits for nobody, as [`Map::try_insert`].
    ///
    /// # Errors
    /// As of [`Map::try_insert`] and [`Map::try_replace`].
    pub fn try_put(&self, key: K, value: V) -> Result<Option<V>, Full> {
        self.try_put_by(How::Put, key, value)
    }

    /// Replaces the value of a key if it is `current`. Returns the value that the key had: so it was
    /// replaced where that is `current`. It may wait, as [`Map`] says.
    ///
    /// # Errors
    /// As of [`Map::replace`].
    ///
    /// ```
    /// # use rcu::{Engine, MapSizes};
    /// # fn main() -> Result<(), Box<dyn std::error::Error>> {
    /// # let sizes = MapSizes { buckets: 1, entries: 1, seed: 0 };
    /// let (engine, counts) = Engine::with_map::<char, u64>(sizes)?;
    /// counts.insert('a', 0)?;
    /// let mut reader = engine.reader()?;
    /// loop {
    ///     let seen = reader.read(|guard| counts.get(guard, 'a')).unwrap();
    ///     let next = || counts.compare_replace('a', seen, seen + 1); // two threads may count so
    ///     if reader.while_idle(next)? == Some(seen) {
    ///         break;
    ///     }
    /// }
    /// assert_eq!(counts.find('a'), Some(1));
    /// # Ok(())
    /// # }
    /// ```
    pub fn compare_replace(&self, key: K, current: V, new: V) -> Result<Option<V>, NotPut> {
        self.put_by(How::Compare(current.to_words()), key, new)
    }

    /// As [`Map::compare_replace`], but waits for nobody, as [`Map::try_insert`].
    ///
    /// # Errors
    /// As of [`Map::try_replace`].
    pub fn try_compare_replace(&self, key: K, current: V, new: V) -> Result<Option<V>, Full> {
        self.try_put_by(How::Compare(current.to_words()), key, new)
    }

    /// Takes the entry of a key out if its value is `current`. Returns the value that the key had.
    /// It waits for nobody.
    ///
    /// ```
    /// # use rcu::{Engine, MapSizes};
    /// # fn main() -> Result<(), Box<dyn std::error::Error>> {
    /// # let sizes = MapSizes { buckets: 1, entries: 1, seed: 0 };
    /// let (_, map) = Engine::with_map::<char, u64>(sizes)?;
    /// map.insert('a', 7)?;
    /// assert_eq!((map.compare_remove('a', 8), map.len()), (Some(7), 1));
    /// assert_eq!((map.compare_remove('a', 7), map.len()), (Some(7), 0));
    /// # Ok(())
    /// # }
    /// ```
    pub fn compare_remove(&self, key: K, current: V) -> Option<V> {
        let (key, current) = (key.to_key(), current.to_words());
        let old = self.inner.lock().rcu.map_compare_remove(key, current);
        old.map(V::of_words)
    }

    /// Takes the entry of a key out, and returns its value. It waits for nobody.
    pub fn remove(&self, key: K) -> Option<V> {
        let key = key.to_key();
        let old = self.inner.lock().rcu.map_remove(key);
        old.map(V::of_words)
    }

    /// The value of a key as it is now, under the lock: no update is missed.
    #[must_use]
    pub fn find(&self, key: K) -> Option<V> {
        let key = key.to_key();
        let found = self.inner.lock().rcu.map_find(key);
        found.map(V::of_words)
    }

    /// How many entries there are.
    #[must_use]
    pub fn len(&self) -> usize {
        self.inner.lock().rcu.map_len()
    }

    /// Whether there is no entry.
    #[must_use]
    pub fn is_empty(&self) -> bool {
        self.len() == 0
    }
}

impl<K, V> Clone for Map<K, V> {
    fn clone(&self) -> Map<K, V> {
        Map {
            inner: Arc::clone(&self.inner),
            kinds: PhantomData,
        }
    }
}

impl<K: Key, V: Value> Iterator for Entries<'_, K, V> {
    type Item = (K, V);

    #[inline]
    fn next(&mut self) -> Option<(K, V)> {
        let next = self.seat.map_next(self.last?);
        self.last = next.map(|(key, _)| key.get());
        next.map(|(key, value)| (K::of_key(key), V::of_words(value)))
    }
}

impl<K: Key, V: Value> FusedIterator for Entries<'_, K, V> {}

impl<K, V> fmt::Debug for Map<K, V> {
    fn fmt(&self, to: &mut fmt::Formatter<'_>) -> fmt::Result {
        to.debug_struct("Map").finish_non_exhaustive()
    }
}

impl<K, V> fmt::Debug for Entries<'_, K, V> {
    fn fmt(&self, to: &mut fmt::Formatter<'_>) -> fmt::Result {
        to.debug_struct("Entries").finish_non_exhaustive()
    }
}
