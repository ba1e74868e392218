//! The pairs of a hash map, and the tables in which they are.
//!
//! A table is a row of places. A pair is in the first place that was free on the way of its hash,
//! from the one that the hash leads to up to a place that was never used: there each look ends. A
//! pair stays in its place as long as the table is the map's: so who looks for a key that stays
//! finds it. An update changes the pair of one place, by one store. All updates are made under the
//! lock of the map.
//!
//! A table owns a part of each pair in it, until it gives all of them to a larger one. Then no
//! update changes it any more, and the sections that found it read on in it.

use std::fmt;
use std::iter::FusedIterator;
use std::marker::PhantomData;
use std::num::NonZeroU64;
use std::ptr::null_mut;
use std::slice;
use std::sync::atomic::{AtomicPtr, AtomicU64, Ordering::Acquire, Ordering::Relaxed};
use std::sync::atomic::{Ordering::AcqRel, Ordering::Release};
use std::sync::Arc;

/// How many places a table has at least.
const LEAST: usize = 8;

/// 2^64 by the golden ratio: it spreads hashes that differ in few bits.
const GOLDEN: u64 = 0x9e37_79b9_7f4a_7c15;

/// A key of a [`HashMap`](crate::HashMap) and its value. A pair stays as it is: an update puts
/// another one in.
pub struct Pair<K, V> {
    pub(crate) key: K,
    pub(crate) value: V,
    /// How many keys were put in before this one came, and this one. One that replaces another pair
    /// has the number of that.
    pub(crate) number: u64,
}

/// Where a pair may be.
struct Place<K, V> {
    /// The hash of the pair that is or was there last, and 0 if no look has to go on behind it.
    hash: AtomicU64,
    /// The pair, or null.
    pair: AtomicPtr<Pair<K, V>>,
    owns: PhantomData<Arc<Pair<K, V>>>,
}

/// A row of places, as many as a power of 2.
pub(crate) struct Table<K, V> {
    places: Box<[Place<K, V>]>,
}

/// A table that goes with its pairs.
pub(crate) struct Whole<K, V>(Arc<Table<K, V>>);

/// A table whose pairs may be read.
pub(crate) struct View<'a, K, V> {
    places: &'a [Place<K, V>],
}

/// The entries of a [`HashMap`](crate::HashMap), as a section finds them.
#[must_use = "it does nothing unless it is iterated over"]
pub struct Pairs<'a, K, V> {
    places: slice::Iter<'a, Place<K, V>>,
    /// The number of the last key that was put in before.
    last: u64,
}

impl<K, V> Pair<K, V> {
    pub(crate) fn new(key: K, value: V) -> Arc<Pair<K, V>> {
        let number = 0;
        Arc::new(Pair { key, value, number })
    }

    /// Gives a pair its number, which is in no map yet.
    pub(crate) fn set_number(pair: &mut Arc<Pair<K, V>>, number: u64) {
        Arc::get_mut(pair).expect("nobody else has it").number = number;
    }

    /// The key.
    pub fn key(&self) -> &K {
        &self.key
    }

    /// The value.
    pub fn value(&self) -> &V {
        &self.value
    }
}

impl<K, V> Place<K, V> {
    fn free() -> Place<K, V> {
        Place {
            hash: AtomicU64::new(0),
            pair: AtomicPtr::new(null_mut()),
            owns: PhantomData,
        }
    }

    /// The pair that is there.
    ///
    /// # Safety
    /// As of [`Table::view`].
    #[inline]
    unsafe fn pair<'a>(&self) -> Option<&'a Pair<K, V>> {
        // SAFETY: it came from an `Arc`, of which a part is there as long as the caller reads.
        unsafe { self.pair.load(Acquire).as_ref() }
    }

    fn is_used(&self) -> bool {
        self.hash.load(Relaxed) != 0
    }

    fn is_taken(&self) -> bool {
        !self.pair.load(Relaxed).is_null()
    }
}

impl<K, V> Table<K, V> {
    fn with_length(length: usize) -> Table<K, V> {
        let places = (0..length.max(LEAST)).map(|_| Place::free()).collect();
        Table { places }
    }

    /// A table with room for this many pairs or more.
    pub(crate) fn with_room(pairs: usize) -> Table<K, V> {
        Table::with_length(pairs.saturating_mul(4).div_ceil(3).next_power_of_two())
    }

    /// How many of its places are used at most: so looks are short, and each comes to an end.
    pub(crate) fn room(&self) -> usize {
        self.places.len() / 4 * 3
    }

    /// A table of twice the size, or of the same size if half of its room holds this many pairs.
    pub(crate) fn larger(&self, pairs: usize) -> Table<K, V> {
        let is_enough = pairs <= self.room() / 2;
        Table::with_length(self.places.len() << u8::from(!is_enough))
    }

    /// The pairs that are in its places.
    ///
    /// # Safety
    /// A reference from the view is used only while the section that loaded the table is open, or
    /// while the caller holds the lock of the map whose table this is.
    #[inline]
    pub(crate) unsafe fn view<'a>(&'a self) -> View<'a, K, V> {
        View {
            places: &self.places,
        }
    }

    /// The places where a pair of this hash may be, in the order of looks.
    fn way(&self, hash: NonZeroU64) -> impl Iterator<Item = usize> {
        way(self.places.len(), hash)
    }

    /// Puts a pair into a place that is free, and returns whether that was never used. No pair of
    /// its key is in the table, and there is room.
    pub(crate) fn insert(&self, hash: NonZeroU64, pair: Arc<Pair<K, V>>) -> bool {
        let mut way = self.way(hash);
        let at = way.find(|&at| !self.places[at].is_taken());
        let place = &self.places[at.expect("a table has free places")];
        let is_new = !place.is_used();
        place.hash.store(hash.get(), Release);
        place.pair.store(Arc::into_raw(pair).cast_mut(), Release);
        is_new
    }

    /// Puts a pair in the place of another one, and returns that.
    ///
    /// # Safety
    /// The table is its map's, whose lock the caller has. A pair is in this place. What is returned
    /// is not dropped before each section has ended that is open now.
    pub(crate) unsafe fn replace(&self, at: usize, pair: Arc<Pair<K, V>>) -> Arc<Pair<K, V>> {
        let new = Arc::into_raw(pair).cast_mut();
        // SAFETY: the table's part.
        unsafe { Arc::from_raw(self.places[at].pair.swap(new, AcqRel)) }
    }

    /// Takes the pair of a place out. Returns it, and how many places are used no more.
    ///
    /// # Safety
    /// As of [`Table::replace`].
    pub(crate) unsafe fn take_out(&self, at: usize) -> (Arc<Pair<K, V>>, usize) {
        // SAFETY: the table's part.
        let pair = unsafe { Arc::from_raw(self.places[at].pair.swap(null_mut(), AcqRel)) };
        (pair, self.free_up_to(at))
    }

    /// If no look goes on behind this place, none has to come to it, and to the free places before
    /// it: they are as if they were never used. Returns how many there are.
    fn free_up_to(&self, last: usize) -> usize {
        let length = self.places.len();
        if self.places[(last + 1) % length].is_used() {
            return 0;
        }
        let back = (0..length).map(|many| &self.places[(last + length - many) % length]);
        let free = back.take_while(|it| it.is_used() && !it.is_taken());
        free.inspect(|it| it.hash.store(0, Release)).count()
    }

    /// Goes with its pairs.
    ///
    /// # Safety
    /// The table was its map's, and owns its pairs: this is done once. The result is not dropped
    /// before each section has ended that may have found the table.
    pub(crate) unsafe fn whole(self: Arc<Table<K, V>>) -> Whole<K, V> {
        Whole(self)
    }

    /// Gives all pairs to an empty table, which nobody reads yet. From now on this one owns none.
    ///
    /// # Safety
    /// The table is its map's, whose lock the caller has, and is so no longer.
    pub(crate) unsafe fn give_to(&self, new: &Table<K, V>) {
        for place in &self.places {
            let pair = place.pair.load(Relaxed);
            if let (Some(hash), false) = (NonZeroU64::new(place.hash.load(Relaxed)), pair.is_null())
            {
                // SAFETY: the part of this table, which goes over to the new one.
                new.insert(hash, unsafe { Arc::from_raw(pair) });
            }
        }
    }
}

/// The places from the one that a hash leads to, round a row of this length.
#[inline]
fn way(length: usize, hash: NonZeroU64) -> impl Iterator<Item = usize> {
    let first = hash.get().wrapping_mul(GOLDEN) >> (64 - length.trailing_zeros());
    (0..length).map(move |step| (first as usize + step) & (length - 1))
}

impl<'a, K, V> View<'a, K, V> {
    /// The pair whose key is so, of those with this hash, and its place.
    #[inline]
    pub(crate) fn find(
        &self,
        hash: NonZeroU64,
        is_wanted: impl Fn(&K) -> bool,
    ) -> Option<(usize, &'a Pair<K, V>)> {
        for at in way(self.places.len(), hash) {
            let place = &self.places[at];
            let found = place.hash.load(Acquire);
            if found == 0 {
                return None;
            }
            if found == hash.get() {
                // SAFETY: as `Table::view` asks.
                let pair = unsafe { place.pair() }.filter(|it| is_wanted(&it.key));
                if pair.is_some() {
                    return pair.map(|it| (at, it));
                }
            }
        }
        None
    }

    /// A part of the pair that is in this place.
    pub(crate) fn part_at(&self, at: usize) -> Arc<Pair<K, V>> {
        let pair = self.places[at].pair.load(Acquire);
        // SAFETY: it came from an `Arc`, of which a part is there. (A pointer that was made of a
        // reference would not do: it is for the pair alone, not for its counts.)
        unsafe {
            Arc::increment_strong_count(pair);
            Arc::from_raw(pair)
        }
    }

    /// All pairs, each with its place.
    pub(crate) fn pairs(&self) -> impl Iterator<Item = (usize, &'a Pair<K, V>)> {
        // SAFETY: as `Table::view` asks.
        let pairs = self.places.iter().map(|it| unsafe { it.pair() });
        pairs.enumerate().filter_map(|(at, it)| Some((at, it?)))
    }

    /// The pairs of the keys that came up to this number.
    pub(crate) fn up_to(&self, last: u64) -> Pairs<'a, K, V> {
        Pairs {
            places: self.places.iter(),
            last,
        }
    }
}

impl<'a, K, V> Iterator for Pairs<'a, K, V> {
    type Item = (&'a K, &'a V);

    #[inline]
    fn next(&mut self) -> Option<(&'a K, &'a V)> {
        let last = self.last;
        let found = self.places.find_map(|place| {
            // SAFETY: as `Table::view` asks. (A key that came since the iteration began may have
            // been in a place before this one, and was taken out there.)
            unsafe { place.pair() }.filter(|it| it.number <= last)
        })?;
        Some((&found.key, &found.value))
    }

    fn size_hint(&self) -> (usize, Option<usize>) {
        (0, Some(self.places.len()))
    }
}

impl<K, V> FusedIterator for Pairs<'_, K, V> {}

impl<K, V> Drop for Whole<K, V> {
    fn drop(&mut self) {
        for place in &self.0.places {
            let pair = place.pair.load(Relaxed);
            if !pair.is_null() {
                // SAFETY: the table's part.
                drop(unsafe { Arc::from_raw(pair) });
            }
        }
    }
}

impl<K: fmt::Debug, V: fmt::Debug> fmt::Debug for Pair<K, V> {
    fn fmt(&self, to: &mut fmt::Formatter<'_>) -> fmt::Result {
        to.debug_tuple("Pair")
            .field(&self.key)
            .field(&self.value)
            .finish()
    }
}

impl<K, V> fmt::Debug for Pairs<'_, K, V> {
    fn fmt(&self, to: &mut fmt::Formatter<'_>) -> fmt::Result {
        to.debug_struct("Pairs").finish_non_exhaustive()
    }
}
