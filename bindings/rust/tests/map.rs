//! The map of an engine: threads that read and update it, one that is full, and all that it answers
//! beside a map of std's.

use rcu::handles::EngineHandle;
use rcu::{Engine, Error, Full, Key, Map, MapSizes, NotPut, Value, Word};
use std::collections::HashMap;
use std::fmt::Debug;
use std::mem;
use std::num::NonZeroU64;
use std::panic::{catch_unwind, AssertUnwindSafe};
use std::sync::atomic::{AtomicBool, Ordering::SeqCst};
use std::sync::Barrier;
use std::thread;
use std::time::Duration;

/// A map is for all threads, whatever it has.
const _: fn() = || {
    fn may_be_shared<T: Send + Sync>() {}
    may_be_shared::<Map<u32, u64>>();
};

fn sizes(buckets: usize, entries: usize) -> MapSizes {
    MapSizes {
        buckets,
        entries,
        seed: 7,
    }
}

/// Drawn numbers, the same in each run.
struct Draws(u64);

impl Draws {
    fn below(&mut self, end: u64) -> u64 {
        self.0 ^= self.0 << 13;
        self.0 ^= self.0 >> 7;
        self.0 ^= self.0 << 17;
        self.0 % end
    }
}

fn panics<T>(call: impl FnOnce() -> T) -> bool {
    catch_unwind(AssertUnwindSafe(call)).is_err()
}

/// A value that knows whether its words belong together.
#[derive(Clone, Copy, Debug, PartialEq)]
struct Whole(u64);

impl Value for Whole {
    type Words = [u64; 4];

    fn to_words(self) -> [u64; 4] {
        [self.0, !self.0, 3 * self.0, self.0.rotate_left(7)]
    }

    fn of_words(words: [u64; 4]) -> Whole {
        let value = Whole(words[0]);
        assert_eq!(value.to_words(), words);
        value
    }
}

#[test]
fn a_key_that_stays_is_found_and_listed_whole_while_others_come_and_go() {
    const READERS: u32 = 3;
    const STAY: u32 = 16;
    const KEYS: u32 = 48;
    const ROUNDS: u64 = 2000;
    let (engine, map) = Engine::with_map::<u32, Whole>(sizes(8, 56)).unwrap();
    for key in 0..STAY {
        map.insert(key, Whole(u64::from(key))).unwrap();
    }
    // A key's values go up, in steps of KEYS.
    let is_of = |key: u32, value: Whole| value.0 % u64::from(KEYS) == u64::from(key);
    let (over, begun) = (AtomicBool::new(false), Barrier::new(READERS as usize + 2));
    thread::scope(|scope| {
        for _ in 0..READERS {
            scope.spawn(|| {
                let mut reader = engine.reader().unwrap();
                let mut last = [0; STAY as usize];
                reader.while_idle(|| begun.wait());
                while !over.load(SeqCst) {
                    reader.read(|guard| {
                        for key in 0..STAY {
                            let value = map.get(guard, key).expect("the key stays");
                            assert!(is_of(key, value) && value.0 >= last[key as usize]);
                            last[key as usize] = value.0;
                        }
                    });
                    reader.read(|guard| {
                        let mut listed: Vec<u32> = Vec::new();
                        for (key, value) in map.iter(guard) {
                            assert!(is_of(key, value));
                            listed.push(key);
                        }
                        listed.sort();
                        assert!(listed.windows(2).all(|it| it[0] < it[1]));
                        assert!(listed.into_iter().take(STAY as usize).eq(0..STAY));
                    });
                }
            });
        }
        let updaters: Vec<_> = (0..2)
            .map(|me| {
                let (map, begun) = (map.clone(), &begun);
                scope.spawn(move || {
                    begun.wait();
                    for round in 1..=ROUNDS {
                        let value = |key: u32| Whole(round * u64::from(KEYS) + u64::from(key));
                        let stays = 2 * (round as u32 % (STAY / 2)) + me;
                        assert!(map.replace(stays, value(stays)).unwrap().is_some());
                        let comes = STAY + 2 * (round as u32 * 5 % ((KEYS - STAY) / 2)) + me;
                        let there = map.find(comes);
                        let old = match round % 3 {
                            0 => map.remove(comes),
                            1 => map.insert(comes, value(comes)).unwrap(),
                            _ => map.put(comes, value(comes)).unwrap(),
                        };
                        assert_eq!(old, there);
                    }
                })
            })
            .collect();
        updaters.into_iter().for_each(|it| it.join().unwrap());
        over.store(true, SeqCst);
    });
}

type Waits<K, V> = fn(&Map<K, V>, K, V) -> Result<Option<V>, NotPut>;
type Tries<K, V> = fn(&Map<K, V>, K, V) -> Result<Option<V>, Full>;

#[test]
fn it_answers_as_a_map_of_std_does() {
    const ROOM: usize = 20;
    let calls: [(Waits<i32, i64>, Tries<i32, i64>); 3] = [
        (Map::insert, Map::try_insert),
        (Map::replace, Map::try_replace),
        (Map::put, Map::try_put),
    ];
    for buckets in [1, 5, 64] {
        let (engine, map) = Engine::with_map(sizes(buckets, ROOM)).unwrap();
        let mut reader = engine.reader().unwrap();
        let (mut model, mut draws) = (HashMap::new(), Draws(buckets as u64));
        for round in 0..4000 {
            let (key, value) = (draws.below(30) as i32 - 15, round - 2000);
            let (there, fits) = (model.get(&key).copied(), model.len() < ROOM);
            let which = draws.below(4) as usize;
            if which < 3 {
                let wants = [there.is_none(), there.is_some(), true][which];
                let wanted = if fits || !wants || there.is_some() {
                    Ok(there)
                } else {
                    Err(NotPut::Full)
                };
                let (waits, tries) = calls[which];
                let waits = || waits(&map, key, value);
                let tries = || Ok(tries(&map, key, value)?);
                let done = if draws.below(2) == 0 {
                    reader.while_idle(waits)
                } else {
                    reader.while_idle(tries)
                };
                assert_eq!(done, wanted);
                if wants && wanted.is_ok() {
                    model.insert(key, value);
                }
            } else {
                assert_eq!(map.remove(key), model.remove(&key));
            }
            assert_eq!(map.find(key), model.get(&key).copied());
            assert_eq!((map.len(), map.is_empty()), (model.len(), model.is_empty()));
            let guard = reader.enter();
            assert_eq!(map.get(&guard, key), model.get(&key).copied());
            let mut listed: Vec<_> = map.iter(&guard).collect();
            listed.sort();
            let mut wanted: Vec<_> = model.clone().into_iter().collect();
            wanted.sort();
            assert_eq!(listed, wanted);
        }
    }
}

#[test]
fn what_a_section_may_read_keeps_its_room() {
    let (engine, map) = Engine::with_map::<u8, u8>(sizes(1, 2)).unwrap();
    assert_eq!((map.insert(1, 10), map.insert(2, 20)), (Ok(None), Ok(None)));
    for call in [Map::insert, Map::put] {
        assert_eq!(call(&map, 3, 30), Err(NotPut::Full));
    }
    for call in [Map::try_insert, Map::try_put] {
        assert_eq!(call(&map, 3, 30), Err(Full));
    }
    for call in [Map::replace, Map::put, Map::replace] {
        assert_eq!(call(&map, 1, 10), Ok(Some(10)));
    }
    for call in [Map::try_replace, Map::try_put] {
        assert_eq!(call(&map, 1, 10), Ok(Some(10)));
    }
    assert_eq!(
        (map.insert(1, 11), map.replace(3, 30)),
        (Ok(Some(10)), Ok(None))
    );
    let reader = engine.reader().unwrap();
    let guard = reader.enter();
    assert_eq!(map.remove(2), Some(20));
    assert_eq!(map.try_put(3, 30), Err(Full));
    let own = map.clone();
    let waiter = thread::spawn(move || own.put(3, 30));
    thread::sleep(Duration::from_millis(20));
    assert!(!waiter.is_finished());
    let seen = (map.get(&guard, 1), map.get(&guard, 3));
    assert_eq!(seen, (Some(10), None));
    drop(guard);
    drop(reader);
    assert_eq!(waiter.join().unwrap(), Ok(None));
    assert_eq!((map.len(), map.find(3)), (2, Some(30)));
}

/// Removes an entry, so that it needs none for another one but the time, and puts others in, until
/// it is refused.
fn uses_all_room(map: &Map<u8, u8>, call: Waits<u8, u8>) -> Option<NotPut> {
    (1..=4).find_map(|key| {
        map.remove(key);
        call(map, key + 1, key).err()
    })
}

#[test]
fn who_has_a_section_open_does_not_wait() {
    let (engine, map) = Engine::with_map::<u8, u8>(sizes(1, 1)).unwrap();
    let (elsewhere, _) = Engine::with_map::<u8, u8>(sizes(1, 1)).unwrap();
    let (mut reader, mut other) = (engine.reader().unwrap(), engine.reader().unwrap());
    let of_elsewhere = elsewhere.reader().unwrap();
    let _guard = of_elsewhere.enter();
    for call in [Map::insert, Map::put] {
        let (outer, inner) = (reader.enter(), reader.enter());
        assert_eq!(uses_all_room(&map, call), Some(NotPut::InSection));
        drop(outer);
        assert_eq!(uses_all_room(&map, call), Some(NotPut::InSection));
        drop(inner);
        let (own, waits) = (map.clone(), move |map: Map<u8, u8>| call(&map, 9, 9));
        let waiter = thread::spawn(move || waits(own));
        other.quiesce();
        assert_eq!(
            reader
                .while_idle(|| other.while_idle(|| waiter.join()))
                .unwrap(),
            Ok(None)
        );
        assert_eq!(map.remove(9), Some(9));
    }
    mem::forget(other.enter());
    assert_eq!(uses_all_room(&map, Map::put), Some(NotPut::InSection));
    let put = || other.while_idle(|| map.put(9, 9));
    assert_eq!(reader.while_idle(put), Ok(None));
}

#[test]
fn a_value_is_replaced_and_removed_where_it_is_the_current_one() {
    type Words = [u64; 2];
    let (engine, map) = Engine::with_map::<u8, Words>(sizes(1, 1)).unwrap();
    assert_eq!(map.compare_replace(1, [1, 2], [3, 4]), Ok(None));
    assert_eq!(map.insert(1, [1, 2]), Ok(None));
    for other in [[1, 3], [2, 2], [2, 1]] {
        assert_eq!(map.compare_replace(1, other, [3, 4]), Ok(Some([1, 2])));
        assert_eq!(map.try_compare_replace(1, other, [3, 4]), Ok(Some([1, 2])));
        assert_eq!(map.compare_remove(1, other), Some([1, 2]));
    }
    assert_eq!(map.find(1), Some([1, 2]));
    assert_eq!(map.compare_replace(1, [1, 2], [3, 4]), Ok(Some([1, 2])));
    assert_eq!(map.try_compare_replace(1, [3, 4], [5, 6]), Ok(Some([3, 4])));
    assert_eq!(map.compare_remove(2, [5, 6]), None);
    assert_eq!(map.compare_remove(1, [5, 6]), Some([5, 6]));
    assert_eq!((map.len(), map.compare_remove(1, [5, 6])), (0, None));
    drop(engine);
}

#[test]
fn threads_count_by_comparing() {
    const THREADS: u64 = 3;
    const EACH: u64 = 400;
    let (engine, map) = Engine::with_map::<u8, u64>(sizes(1, 1)).unwrap();
    map.insert(1, 0).unwrap();
    let count = || {
        let mut reader = engine.reader().unwrap();
        for _ in 0..EACH {
            loop {
                let seen = reader.read(|guard| map.get(guard, 1)).unwrap();
                let next = || map.compare_replace(1, seen, seen + 1);
                if reader.while_idle(next) == Ok(Some(seen)) {
                    break;
                }
            }
        }
    };
    thread::scope(|scope| {
        (0..THREADS).for_each(|_| drop(scope.spawn(count)));
    });
    assert_eq!(map.find(1), Some(THREADS * EACH));
}

#[test]
fn several_threads_wait_for_room() {
    const ROOM: usize = 4;
    let (engine, map) = Engine::with_map::<u32, usize>(sizes(2, ROOM)).unwrap();
    for round in 0..20 {
        let reader = engine.reader().unwrap();
        let guard = reader.enter();
        for key in 0..ROOM as u32 {
            let old = map.remove(key);
            assert_eq!(old, (round > 0).then(|| round - 1));
        }
        let put = |key| {
            let own = map.clone();
            thread::spawn(move || own.put(key, round))
        };
        let waiters: Vec<_> = (0..ROOM as u32).map(put).collect();
        drop(guard);
        drop(reader);
        for waiter in waiters {
            assert_eq!(waiter.join().unwrap(), Ok(None));
        }
    }
}

#[test]
fn updates_go_on_beside_deferral_and_a_driver() {
    let (engine, map) = Engine::with_map::<u32, u32>(sizes(4, 8)).unwrap();
    thread::scope(|scope| {
        let driver = scope.spawn(|| engine.drive());
        let updaters: Vec<_> = (0..3)
            .map(|me| {
                let (engine, map) = (&engine, &map);
                scope.spawn(move || {
                    for round in 0..300 {
                        let own = map.clone();
                        engine.defer(move || {
                            own.remove(10 + me);
                        });
                        assert!(map.put(me, round).is_ok());
                        if map.try_put(10 + me, round).is_err() {
                            engine.synchronize();
                        }
                    }
                })
            })
            .collect();
        updaters.into_iter().for_each(|it| it.join().unwrap());
        engine.barrier();
        engine.stop();
        driver.join().unwrap();
    });
    assert!((0..3).all(|key| map.find(key) == Some(299)));
}

#[test]
fn maps_are_told_apart() {
    let (one, map) = Engine::with_map::<u8, u8>(sizes(1, 1)).unwrap();
    let (other, _) = Engine::with_map::<u8, u8>(sizes(1, 1)).unwrap();
    map.insert(1, 10).unwrap();
    let reader = other.reader().unwrap();
    let guard = reader.enter();
    assert!(panics(|| map.get(&guard, 1)));
    assert!(panics(|| map.iter(&guard).count()));
    assert_eq!(map.get(&one.reader().unwrap().enter(), 1), Some(10));
}

#[test]
fn a_map_keeps_its_engine() {
    let (engine, map) = Engine::with_map::<u8, u8>(sizes(1, 1)).unwrap();
    let (own, reader) = (map.clone(), engine.reader().unwrap());
    drop((engine, map));
    own.insert(1, 10).unwrap();
    assert_eq!(own.get(&reader.enter(), 1), Some(10));
    drop(reader);
    assert_eq!(own.replace(1, 11), Ok(Some(10)));
    assert_eq!(own.insert(2, 20), Err(NotPut::Full));
    assert_eq!((own.remove(1), own.insert(2, 20)), (Some(11), Ok(None)));
}

#[test]
fn sizes_that_no_map_has_are_refused() {
    const ALL: usize = usize::MAX;
    let open = |readers, sizes| Engine::with_map_and_limit::<u8, u8>(sizes, readers).err();
    for (buckets, entries) in [
        (0, 8),
        (1 << 32, 0),
        (1, 1 << 32),
        (ALL, 1),
        (1, ALL),
        (ALL, ALL),
    ] {
        assert_eq!(open(1, sizes(buckets, entries)), Some(Error::BadSizes));
    }
    assert_eq!(open(0, sizes(1, 1)), Some(Error::BadCount));
    assert_eq!(open(4096, sizes(1, 1)), Some(Error::BadCount));
    let most = |entries| Engine::with_map::<u8, [u64; 1000]>(sizes(1, entries)).err();
    assert_eq!(most((1 << 32) / 1002), Some(Error::BadSizes));
    let none = Engine::with_map::<u8, [u64; 0]>(sizes(1, 1)).err();
    assert_eq!(none, Some(Error::BadSizes));
    let (engine, map) = Engine::with_map::<u8, u8>(sizes(1, 0)).unwrap();
    assert_eq!(map.put(1, 1), Err(NotPut::Full));
    assert_eq!(map.try_put(1, 1), Err(Full));
    assert_eq!((map.remove(1), map.len()), (None, 0));
    let reader = engine.reader().unwrap();
    assert_eq!(map.iter(&reader.enter()).next(), None);
}

#[test]
fn a_value_of_another_number_of_words_is_refused() {
    let mut rcu = EngineHandle::open_map(1, sizes(1, 3), 2).unwrap();
    let (key, seat) = (NonZeroU64::MIN, rcu.seat(0).unwrap());
    assert_eq!(rcu.map_put(key, [1, 2]), Ok(None));
    assert!(panics(|| rcu.map_put(key, [1])));
    assert!(panics(|| rcu.map_find::<[u64; 3]>(key)));
    assert!(panics(|| rcu.map_remove::<[u64; 1]>(key)));
    seat.enter();
    assert!(panics(|| seat.map_get::<[u64; 1]>(key)));
    assert!(panics(|| seat.map_next::<[u64; 3]>(0)));
    assert_eq!(seat.map_get(key), Some([1, 2]));
    assert_eq!(seat.map_next(0), Some((key, [1, 2])));
    seat.exit();
    assert_eq!(rcu.map_remove(key), Some([1, 2]));
    let widest = EngineHandle::open_map(1, sizes(1, 0), usize::MAX);
    assert_eq!(widest.err(), Some(Error::BadSizes));
}

/// Puts each value at each key, and reads them all.
fn keeps<K, V>(keys: &[K], values: &[V])
where
    K: Key + Debug + PartialEq,
    V: Value + Debug + PartialEq,
{
    let (engine, map) = Engine::with_map(sizes(4, keys.len() + 1)).unwrap();
    for &value in values {
        for &key in keys {
            map.put(key, value).unwrap();
            assert_eq!(map.find(key), Some(value));
        }
        let reader = engine.reader().unwrap();
        let guard = reader.enter();
        let listed: Vec<_> = map.iter(&guard).collect();
        assert_eq!(listed.len(), keys.len());
        for &key in keys {
            assert_eq!(map.get(&guard, key), Some(value));
            assert!(listed.contains(&(key, value)));
        }
    }
}

#[test]
fn keys_and_values_come_out_as_they_went_in() {
    keeps(&[0, 1, u8::MAX], &[0, u8::MAX]);
    keeps(&[0, 1, u16::MAX], &[0, u16::MAX]);
    keeps(&[0, 1, u32::MAX], &[0, u32::MAX]);
    keeps(&[i8::MIN, -1, 0, i8::MAX], &[i8::MIN, -1, 0, i8::MAX]);
    keeps(&[i16::MIN, -1, 0, i16::MAX], &[i16::MIN, -1, 0, i16::MAX]);
    keeps(&[i32::MIN, -1, 0, i32::MAX], &[i32::MIN, -1, 0, i32::MAX]);
    keeps(&[NonZeroU64::MIN, NonZeroU64::MAX], &[0, u64::MAX]);
    keeps(
        &['\0', 'a', char::MAX],
        &['\0', '\u{d7ff}', '\u{e000}', char::MAX],
    );
    keeps(&[7u8], &[i64::MIN, -1, i64::MAX]);
    keeps(&[7u8], &[0, usize::MAX]);
    keeps(&[7u8], &[isize::MIN, -1, isize::MAX]);
    keeps(&[7u8], &[true, false]);
    keeps(&[7u8], &[(1u8, -2i64), (0, i64::MAX)]);
    keeps(&[7u8, 8], &[('a', 2u8, true), ('b', 3, false)]);
    keeps(&[7u8, 8], &[(1u8, 2u16, 3u32, 4u64), (5, 6, 7, u64::MAX)]);
    keeps(
        &[7u8, 8],
        &[(1u8, 2u16, 3u32, 4u64, 5i8), (6, 7, 8, 9, -10)],
    );
    keeps(
        &[7u8],
        &[(1u8, 2u16, 3u32, 4u64, 5i8, 'f'), (6, 7, 8, 9, -10, 'g')],
    );
    keeps(&[7u8, 8], &[[1u32], [u32::MAX]]);
    keeps(&[7u8, 8], &[[1u64, 2, u64::MAX], [3, 4, 5]]);
    let long = |from: u64| std::array::from_fn::<u64, 20, _>(|at| from + at as u64);
    keeps(&[7u8, 8], &[long(1), long(100)]);
}

/// A key and a value that panic as they are told.
#[derive(Clone, Copy, Debug, PartialEq)]
struct Fragile(u64);

impl Key for Fragile {
    fn to_key(self) -> NonZeroU64 {
        NonZeroU64::new(self.0).expect("a key")
    }

    fn of_key(word: NonZeroU64) -> Fragile {
        Fragile(word.get())
    }
}

impl Word for Fragile {
    fn to_word(self) -> u64 {
        assert!(self.0 != 13, "going in");
        self.0
    }

    fn of_word(word: u64) -> Fragile {
        assert!(word != 14, "coming out");
        Fragile(word)
    }
}

#[test]
fn a_key_or_a_value_that_panics_leaves_the_map_as_it_is() {
    let (engine, map) = Engine::with_map::<Fragile, Fragile>(sizes(2, 3)).unwrap();
    let mut reader = engine.reader().unwrap();
    assert!(panics(|| map.put(Fragile(0), Fragile(1))));
    assert!(panics(|| map.put(Fragile(1), Fragile(13))));
    assert!(panics(|| map.find(Fragile(0))));
    assert_eq!(map.len(), 0);
    map.put(Fragile(1), Fragile(14)).unwrap();
    assert!(panics(|| map.find(Fragile(1))));
    assert!(panics(|| reader.read(|guard| map.get(guard, Fragile(1)))));
    assert!(panics(|| reader.read(|guard| map.iter(guard).count())));
    assert!(panics(|| map.remove(Fragile(1))));
    assert_eq!((map.len(), map.find(Fragile(1))), (0, None));
}
