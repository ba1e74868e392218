//! A map of any keys and values that grows, over the engine's deferral.
//!
//! The map has one table of places for its pairs (`pairs.rs`), in a slot. A section loads the slot
//! once, and reads in the table that it finds. An update changes one place, or puts a larger table
//! with the same pairs into the slot; what it took out is deferred. So this rests on one proved
//! sentence: a cookie is done only once each section has ended that was open at its taking. A
//! section that found a pair, or a table, was open when that was deferred. All else here is tested,
//! and bindings/model/growth.py walks the orders of its loads and stores.

use crate::engine::Engine;
use crate::line::Line;
use crate::pairs::{Pair, Pairs, Table, View};
use crate::reader::Guard;
use crate::shared::Shared;
use std::borrow::Borrow;
use std::fmt;
use std::hash::{BuildHasher, Hash, RandomState};
use std::num::NonZeroU64;
use std::ptr;
use std::sync::atomic::{AtomicU64, AtomicUsize, Ordering::Acquire, Ordering::Release};
use std::sync::{Arc, MutexGuard, PoisonError};

/// A map of any keys and values, which grows with its entries. Sections of one engine read it
/// without a lock, and borrow what they find. What is replaced or removed is dropped once no section
/// can read it ([`Engine::defer`] says by whom). An engine may have any number of maps, and each
/// keeps its engine.
///
/// A look loads the map's table, goes along a few places of it, and compares keys of the same hash.
/// Updates take a lock of the map, and wait for no section. So a key's `Eq` and the closures that
/// this map is given must not update the same map: they would wait for themselves.
///
/// The table has 4 to 8 places for 3 entries, of 16 bytes each. An insertion for which it has no
/// room makes a table that is twice as large: it takes one pass over the old one, in which other
/// updates wait and readers go on. A table that has less to do stays as it is, until
/// [`HashMap::shrink_to_fit`] or [`HashMap::clear`].
///
/// ```
/// use rcu::{Engine, HashMap};
/// use std::thread;
///
/// # fn main() -> Result<(), rcu::Error> {
/// let engine = Engine::new()?;
/// let ages = HashMap::new(&engine);
/// ages.put("Ada".to_string(), 36);
/// let mut reader = engine.reader()?;
/// thread::scope(|scope| {
///     scope.spawn(|| {
///         let age = reader.read(|guard| ages.get(guard, "Ada").copied());
///         assert!(age == Some(36) || age == Some(37));
///     });
///     let old = ages.put("Ada".to_string(), 37);
///     assert_eq!(old.map(|pair| *pair.value()), Some(36));
/// });
/// # Ok(())
/// # }
/// ```
///
/// ```compile_fail,E0505
/// # use rcu::{Engine, HashMap};
/// let engine = Engine::new().unwrap();
/// let map = HashMap::<String, String>::new(&engine);
/// let reader = engine.reader().unwrap();
/// let guard = reader.enter();
/// let found = map.get(&guard, "key");
/// drop(guard);
/// println!("{found:?}"); // it outlives the section
/// ```
///
/// ```compile_fail,E0505
/// # use rcu::{Engine, HashMap};
/// let engine = Engine::new().unwrap();
/// let map = HashMap::<String, String>::new(&engine);
/// let reader = engine.reader().unwrap();
/// let guard = reader.enter();
/// let found = map.get(&guard, "key");
/// drop(map);
/// println!("{found:?}"); // it outlives the map
/// ```
pub struct HashMap<K, V, S = RandomState> {
    engine: Engine,
    hasher: S,
    /// The table that sections find.
    table: Shared<Table<K, V>>,
    updates: Line<Own<K, V>>,
    len: AtomicUsize,
    /// How many keys ever came.
    came: AtomicU64,
}

/// The data that the lock of the updates guards.
struct Own<K, V> {
    /// The table of the map.
    table: Arc<Table<K, V>>,
    /// How many of its places are used: where a look goes on.
    used: usize,
}

/// The pair and the table that an update took out. They are deferred after the lock is released,
/// since the engine may then run a callback that updates this map.
#[must_use]
struct Out<K, V> {
    pair: Option<Arc<Pair<K, V>>>,
    table: Option<Arc<Table<K, V>>>,
}

/// How the pair was that a key had, and what was taken out.
type Put<K, V> = (Option<Arc<Pair<K, V>>>, Out<K, V>);

impl<K, V> Own<K, V> {
    /// The table, for a thread that holds the lock.
    fn view(&self) -> View<'_, K, V> {
        // SAFETY: this is under the lock of the map.
        unsafe { self.table.view() }
    }
}

impl<K, V> HashMap<K, V>
where
    K: Eq + Hash + Send + Sync + 'static,
    V: Send + Sync + 'static,
{
    /// A map for sections of this engine, with no entry: it takes less than a KiB. Its keys are
    /// hashed with a key that is drawn at random.
    pub fn new(engine: &Engine) -> HashMap<K, V> {
        HashMap::with_hasher(engine, RandomState::new())
    }

    /// As [`HashMap::new`], with room for this many entries at first.
    ///
    /// ```
    /// # fn main() -> Result<(), rcu::Error> {
    /// let engine = rcu::Engine::new()?;
    /// let squares = rcu::HashMap::with_capacity(&engine, 1000);
    /// (0..1000u32).for_each(|root| drop(squares.put(root, root * root))); // it need not grow
    /// # Ok(())
    /// # }
    /// ```
    pub fn with_capacity(engine: &Engine, capacity: usize) -> HashMap<K, V> {
        HashMap::with_capacity_and_hasher(engine, capacity, RandomState::new())
    }
}

impl<K, V, S> HashMap<K, V, S>
where
    K: Eq + Hash + Send + Sync + 'static,
    V: Send + Sync + 'static,
    S: BuildHasher,
{
    /// As [`HashMap::new`], with this hasher.
    pub fn with_hasher(engine: &Engine, hasher: S) -> HashMap<K, V, S> {
        HashMap::with_capacity_and_hasher(engine, 0, hasher)
    }

    /// As [`HashMap::with_capacity`], with this hasher.
    pub fn with_capacity_and_hasher(
        engine: &Engine,
        capacity: usize,
        hasher: S,
    ) -> HashMap<K, V, S> {
        let table = Arc::new(Table::with_room(capacity));
        HashMap {
            engine: engine.clone(),
            hasher,
            table: Shared::of(engine, Arc::clone(&table)),
            updates: Line::new(Own { table, used: 0 }),
            len: AtomicUsize::new(0),
            came: AtomicU64::new(0),
        }
    }

    fn hash<Q: Hash + ?Sized>(&self, key: &Q) -> NonZeroU64 {
        NonZeroU64::new(self.hasher.hash_one(key)).unwrap_or(NonZeroU64::MIN)
    }

    /// The table that a section finds, as it may read it.
    fn view<'a>(&'a self, guard: &'a Guard<'_>) -> View<'a, K, V> {
        let table = self.table.load(guard);
        // SAFETY: the section found the table, and is borrowed. It is one of the map's engine.
        unsafe { table.view() }
    }

    /// The lock of the updates. A thread that panicked under it left the map as it was.
    fn lock(&self) -> MutexGuard<'_, Own<K, V>> {
        self.updates.lock().unwrap_or_else(PoisonError::into_inner)
    }

    /// The value of a key, as the section finds it: one that it had at some moment of the section.
    /// A key that is in the map as long as the section lasts is found, also while the map grows.
    ///
    /// # Panics
    /// If the section is of another engine.
    #[must_use]
    pub fn get<'a, Q: Eq + Hash + ?Sized>(&'a self, guard: &'a Guard<'_>, key: &Q) -> Option<&'a V>
    where
        K: Borrow<Q>,
    {
        let hash = self.hash(key);
        let found = self.view(guard).find(hash, |it| it.borrow() == key);
        found.map(|(_, pair)| &pair.value)
    }

    /// Returns whether the section finds an entry of the key, as [`HashMap::get`].
    ///
    /// # Panics
    /// If the section is of another engine.
    #[must_use]
    pub fn contains_key<Q: Eq + Hash + ?Sized>(&self, guard: &Guard<'_>, key: &Q) -> bool
    where
        K: Borrow<Q>,
    {
        self.get(guard, key).is_some()
    }

    /// The entries, in no order, each key once at most. A key that is in the map as long as the
    /// section lasts is among them, and none that comes after this call.
    ///
    /// # Panics
    /// If the section is of another engine.
    ///
    /// ```
    /// # fn main() -> Result<(), rcu::Error> {
    /// let engine = rcu::Engine::new()?;
    /// let squares = rcu::HashMap::new(&engine);
    /// (1..=9).for_each(|root| drop(squares.put(root, root * root)));
    /// let mut reader = engine.reader()?;
    /// let sum: i32 = reader.read(|guard| squares.iter(guard).map(|(_, square)| square).sum());
    /// assert_eq!(sum, 285);
    /// # Ok(())
    /// # }
    /// ```
    pub fn iter<'a>(&'a self, guard: &'a Guard<'_>) -> Pairs<'a, K, V> {
        let came = self.came.load(Acquire);
        self.view(guard).up_to(came)
    }

    /// Puts another table with the same pairs in the place of the map's, and returns that one.
    fn replace_table(&self, own: &mut Own<K, V>, table: Table<K, V>) -> Arc<Table<K, V>> {
        let table = Arc::new(table);
        // SAFETY: this is under the lock, and the table is replaced behind it.
        unsafe { own.table.give_to(&table) };
        own.table = Arc::clone(&table);
        own.used = self.len();
        self.table.exchange(table)
    }

    /// Makes room for one more pair. Returns the table that had none.
    fn make_room(&self, own: &mut Own<K, V>) -> Option<Arc<Table<K, V>>> {
        let is_full = own.used == own.table.room();
        is_full.then(|| self.replace_table(own, own.table.larger(self.len() + 1)))
    }

    /// Puts a pair in whose key is in the map no more than its number says.
    fn put_new(
        &self,
        own: &mut Own<K, V>,
        hash: NonZeroU64,
        mut pair: Arc<Pair<K, V>>,
    ) -> Option<Arc<Table<K, V>>> {
        let old_table = self.make_room(own);
        let number = self.came.load(Acquire) + 1;
        Pair::set_number(&mut pair, number);
        self.came.store(number, Release);
        own.used += usize::from(own.table.insert(hash, pair));
        self.len.store(self.len() + 1, Release);
        old_table
    }

    /// Puts the pair in, if that is wanted where this pair has its key, or none. Returns the pair
    /// that had the key.
    fn put_under(
        &self,
        own: &mut Own<K, V>,
        (hash, mut pair): (NonZeroU64, Arc<Pair<K, V>>),
        is_wanted: impl FnOnce(Option<&Pair<K, V>>) -> bool,
    ) -> Put<K, V> {
        let view = own.view();
        let found = view.find(hash, |key| *key == pair.key);
        let old = found.map(|(at, _)| view.part_at(at));
        let mut out = Out {
            pair: None,
            table: None,
        };
        if !is_wanted(old.as_deref()) {
            return (old, out);
        }
        match found {
            Some((at, there)) => {
                Pair::set_number(&mut pair, there.number);
                // SAFETY: this is under the lock, and what is replaced is deferred.
                out.pair = Some(unsafe { own.table.replace(at, pair) });
            }
            None => out.table = self.put_new(own, hash, pair),
        }
        (old, out)
    }

    fn put_by(
        &self,
        pair: Arc<Pair<K, V>>,
        is_wanted: impl FnOnce(Option<&Pair<K, V>>) -> bool,
    ) -> Option<Arc<Pair<K, V>>> {
        let hash = self.hash(&pair.key);
        let (old, out) = self.put_under(&mut self.lock(), (hash, pair), is_wanted);
        self.defer(out.pair);
        self.defer(out.table);
        old
    }

    /// Drops it once no section can read it. The lock is let go: what the engine does now and then
    /// may be an update of this map.
    fn defer<T: Send + Sync + 'static>(&self, out: Option<Arc<T>>) {
        if let Some(out) = out {
            self.engine.defer_drop(out);
        }
    }

    /// Puts an entry in if none has its key. Otherwise returns the one that has it: then nothing
    /// happened. (The maps of std replace it, as [`HashMap::put`] does.)
    #[must_use = "it replaces no entry: `put` does"]
    pub fn insert(&self, key: K, value: V) -> Option<Arc<Pair<K, V>>> {
        self.put_by(Pair::new(key, value), |old| old.is_none())
    }

    /// Puts an entry in the place of the one that has its key, and returns that. If none has it,
    /// nothing happens.
    pub fn replace(&self, key: K, value: V) -> Option<Arc<Pair<K, V>>> {
        self.put_by(Pair::new(key, value), |old| old.is_some())
    }

    /// Puts an entry in, in the place of the one that has its key, if there is one. Returns that.
    pub fn put(&self, key: K, value: V) -> Option<Arc<Pair<K, V>>> {
        self.put_by(Pair::new(key, value), |_| true)
    }

    /// Replaces the entry of a key if its value is `current`: that one, and not one that is equal to
    /// it. As long as that is borrowed, no other value has its place. Returns whether it did.
    ///
    /// ```
    /// # fn main() -> Result<(), rcu::Error> {
    /// let engine = rcu::Engine::new()?;
    /// let map = rcu::HashMap::new(&engine);
    /// map.put("key", "old".to_string());
    /// let reader = engine.reader()?;
    /// let guard = reader.enter();
    /// let seen = map.get(&guard, "key").unwrap();
    /// assert!(map.compare_replace("key", seen, format!("not {seen}")));
    /// assert!(!map.compare_remove("key", seen)); // it has another one by now
    /// assert_eq!(map.get(&guard, "key").unwrap(), "not old");
    /// # Ok(())
    /// # }
    /// ```
    pub fn compare_replace(&self, key: K, current: &V, value: V) -> bool {
        let is_current =
            |old: Option<&Pair<K, V>>| old.is_some_and(|it| ptr::eq(&it.value, current));
        is_current(self.put_by(Pair::new(key, value), is_current).as_deref())
    }

    /// The value of a key, as the section finds it; if it finds none, one is made and put in. If
    /// another thread puts one in meanwhile, that is the one.
    ///
    /// # Panics
    /// If the section is of another engine, or the closure panics.
    ///
    /// ```
    /// # fn main() -> Result<(), rcu::Error> {
    /// let engine = rcu::Engine::new()?;
    /// let lengths = rcu::HashMap::new(&engine);
    /// let mut reader = engine.reader()?;
    /// for _ in 0..2 {
    ///     reader.read(|guard| {
    ///         assert_eq!(*lengths.get_or_insert_with(guard, "four".to_string(), || 4), 4);
    ///     });
    /// }
    /// assert_eq!(lengths.len(), 1);
    /// # Ok(())
    /// # }
    /// ```
    pub fn get_or_insert_with<'a>(
        &'a self,
        guard: &'a Guard<'_>,
        key: K,
        make: impl FnOnce() -> V,
    ) -> &'a V {
        if let Some(value) = self.get(guard, &key) {
            return value;
        }
        let pair = Pair::new(key, make());
        let new = Arc::as_ptr(&pair);
        let there = self.put_by(pair, |old| old.is_none());
        let found = there.map_or(new, |it| Arc::as_ptr(&it));
        // SAFETY: it is in the map, or was since the section began, and the map is borrowed.
        unsafe { &(*found).value }
    }

    /// Takes the entry of a key out, and returns it.
    pub fn remove<Q: Eq + Hash + ?Sized>(&self, key: &Q) -> Option<Arc<Pair<K, V>>>
    where
        K: Borrow<Q>,
    {
        self.remove_if(key, |_| true)
    }

    /// Takes the entry of a key out if its value is `current`, as [`HashMap::compare_replace`].
    /// Returns whether it did.
    pub fn compare_remove<Q: Eq + Hash + ?Sized>(&self, key: &Q, current: &V) -> bool
    where
        K: Borrow<Q>,
    {
        self.remove_if(key, |it| ptr::eq(&it.value, current))
            .is_some()
    }

    fn remove_if<Q: Eq + Hash + ?Sized>(
        &self,
        key: &Q,
        is_wanted: impl FnOnce(&Pair<K, V>) -> bool,
    ) -> Option<Arc<Pair<K, V>>>
    where
        K: Borrow<Q>,
    {
        let hash = self.hash(key);
        let mut own = self.lock();
        let (at, pair) = own.view().find(hash, |it| it.borrow() == key)?;
        if !is_wanted(pair) {
            return None;
        }
        let pair = self.take_out(&mut own, at);
        drop(own);
        self.defer(Some(Arc::clone(&pair)));
        Some(pair)
    }

    /// Takes the pair of a place out, which its caller defers.
    fn take_out(&self, own: &mut Own<K, V>, at: usize) -> Arc<Pair<K, V>> {
        // SAFETY: this is under the lock, and each caller defers it.
        let (pair, unused) = unsafe { own.table.take_out(at) };
        own.used -= unused;
        self.len.store(self.len() - 1, Release);
        pair
    }

    /// Takes each entry out for which the closure returns false. Other updates wait meanwhile.
    ///
    /// # Panics
    /// If the closure panics. Then each entry stays.
    ///
    /// ```
    /// # fn main() -> Result<(), rcu::Error> {
    /// let engine = rcu::Engine::new()?;
    /// let squares = rcu::HashMap::new(&engine);
    /// (1..=9).for_each(|root| drop(squares.put(root, root * root)));
    /// squares.retain(|_, square| square % 2 == 1);
    /// assert_eq!(squares.len(), 5);
    /// # Ok(())
    /// # }
    /// ```
    pub fn retain(&self, mut keeps: impl FnMut(&K, &V) -> bool) {
        let mut own = self.lock();
        let view = own.view();
        let unwanted = view.pairs().filter(|(_, it)| !keeps(&it.key, &it.value));
        let places: Vec<usize> = unwanted.map(|(at, _)| at).collect();
        let out = places.into_iter().map(|at| self.take_out(&mut own, at));
        let out: Vec<_> = out.collect();
        drop(own);
        self.defer((!out.is_empty()).then(|| Arc::new(out)));
    }

    /// Takes all entries out, by one store.
    pub fn clear(&self) {
        let table = Arc::new(Table::with_room(0));
        let mut own = self.lock();
        own.table = Arc::clone(&table);
        own.used = 0;
        self.len.store(0, Release);
        // SAFETY: it was the map's, under the lock, and is deferred.
        let old = unsafe { self.table.exchange(table).whole() };
        drop(own);
        self.defer(Some(Arc::new(old)));
    }

    /// Makes room for this many further entries, so that their insertions make no larger table.
    pub fn reserve(&self, additional: usize) {
        let wanted = self.len().saturating_add(additional);
        self.resize(|own| (own.table.room() < wanted).then(|| Table::with_room(wanted)));
    }

    /// Makes the table as small as its entries allow. It costs one pass over them, in which other
    /// updates wait.
    pub fn shrink_to_fit(&self) {
        self.resize(|own| {
            let table = Table::with_room(self.len());
            (table.room() < own.table.room()).then_some(table)
        });
    }

    /// Puts the table in the place of the map's that this makes, if it makes one.
    fn resize(&self, table: impl FnOnce(&Own<K, V>) -> Option<Table<K, V>>) {
        let mut own = self.lock();
        let table = table(&own);
        let old = table.map(|it| self.replace_table(&mut own, it));
        drop(own);
        self.defer(old);
    }
}

impl<K, V, S> HashMap<K, V, S> {
    /// How many entries there are.
    #[must_use]
    pub fn len(&self) -> usize {
        self.len.load(Acquire)
    }

    /// Whether there is no entry.
    #[must_use]
    pub fn is_empty(&self) -> bool {
        self.len() == 0
    }
}

/// No section reads what the map has any more: each borrows the map.
impl<K, V, S> Drop for HashMap<K, V, S> {
    fn drop(&mut self) {
        let own = self.updates.get_mut();
        let own = own.unwrap_or_else(PoisonError::into_inner);
        // SAFETY: it is the map's, and nobody reads it any more.
        drop(unsafe { Arc::clone(&own.table).whole() });
    }
}

impl<K, V, S> fmt::Debug for HashMap<K, V, S> {
    fn fmt(&self, to: &mut fmt::Formatter<'_>) -> fmt::Result {
        to.debug_struct("HashMap").finish_non_exhaustive()
    }
}
