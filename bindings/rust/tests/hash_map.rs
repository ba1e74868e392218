//! The hash map: keys and values that own memory, threads that read and update it, keys of one
//! hash, and all that it answers beside a map of std's. growth.rs has what it does as it grows.

mod common;

use common::{none_alive, Counted};
use rcu::{Engine, HashMap};
use std::collections::HashMap as Model;
use std::hash::{BuildHasher, BuildHasherDefault, Hash, Hasher};
use std::panic::{catch_unwind, AssertUnwindSafe};
use std::sync::atomic::{AtomicBool, Ordering::SeqCst};
use std::sync::{Arc, Barrier};
use std::thread;

/// A map is for all threads, where its keys and values are.
const _: fn() = || {
    fn may_be_shared<T: Send + Sync>() {}
    may_be_shared::<HashMap<String, Vec<String>>>();
};

/// Drawn numbers, the same in each run.
struct Draws(u64);

impl Draws {
    fn below(&mut self, end: u64) -> u64 {
        self.0 ^= self.0 << 13;
        self.0 ^= self.0 >> 7;
        self.0 ^= self.0 << 17;
        self.0 % end
    }
}

/// Hashes that nearly all keys share: the last byte that is no end of a text, of 3.
#[derive(Default)]
struct Few(u64);

impl Hasher for Few {
    fn write(&mut self, bytes: &[u8]) {
        for &byte in bytes {
            if byte < 128 {
                self.0 = u64::from(byte % 3);
            }
        }
    }

    fn finish(&self) -> u64 {
        self.0
    }
}

/// Makes a drawn update of the map and of one of std's, and compares what they return.
fn update<S: BuildHasher>(
    map: &HashMap<String, String, S>,
    model: &mut Model<String, String>,
    draws: &mut Draws,
) {
    let (key, value) = (draws.below(20).to_string(), draws.below(1000).to_string());
    let there = model.get(&key).cloned();
    let (put_key, put_value) = (key.clone(), value.clone());
    let (old, puts) = match draws.below(5) {
        0 => (map.insert(put_key, put_value), there.is_none()),
        1 => (map.replace(put_key, put_value), there.is_some()),
        2 => (map.put(put_key, put_value), true),
        3 => {
            model.remove(&key);
            (map.remove(key.as_str()), false)
        }
        _ => {
            let stays = |key: &String, value: &String| key.len() + value.len() != 4;
            map.retain(stays);
            model.retain(|key, value| stays(key, value));
            return;
        }
    };
    assert_eq!(old.map(|pair| pair.value().clone()), there);
    if puts {
        model.insert(key, value);
    }
}

/// Each answer is that of a map of std's.
fn answers_as_std<S: BuildHasher>(engine: &Engine, map: &HashMap<String, String, S>) {
    let mut reader = engine.reader().unwrap();
    let (mut model, mut draws) = (Model::new(), Draws(3));
    for _ in 0..3000 {
        reader.while_idle(|| update(map, &mut model, &mut draws));
        let guard = reader.enter();
        let key = draws.below(20).to_string();
        assert_eq!(map.get(&guard, key.as_str()), model.get(&key));
        assert_eq!(map.contains_key(&guard, &key), model.contains_key(&key));
        let mut listed: Vec<_> = map.iter(&guard).collect();
        listed.sort();
        let mut wanted: Vec<_> = model.iter().collect();
        wanted.sort();
        assert_eq!(listed, wanted);
        assert_eq!((map.len(), map.is_empty()), (model.len(), model.is_empty()));
    }
}

#[test]
fn it_answers_as_a_map_of_std_does() {
    let engine = Engine::new().unwrap();
    answers_as_std(&engine, &HashMap::new(&engine));
}

#[test]
fn keys_of_one_hash_are_told_apart() {
    let engine = Engine::new().unwrap();
    let hasher = BuildHasherDefault::<Few>::default();
    answers_as_std(&engine, &HashMap::with_hasher(&engine, hasher));
}

#[test]
fn what_it_owned_is_dropped_once() {
    let alive = none_alive();
    let of = |value| Counted::new(value, &alive);
    let engine = Engine::new().unwrap();
    let map = HashMap::<String, Counted>::new(&engine);
    let mut reader = engine.reader().unwrap();
    for key in ["a", "b", "c", "d"] {
        assert!(map.insert(key.to_string(), of(1)).is_none());
    }
    let there = map.insert("a".to_string(), of(2)).unwrap();
    assert_eq!((there.value().value, alive.load(SeqCst)), (1, 4));
    drop(there);
    let guard = reader.enter();
    let seen = map.get(&guard, "a").unwrap();
    let others = ["b", "c", "d"].map(|key| map.get(&guard, key).unwrap());
    assert!(map.replace("a".to_string(), of(3)).is_some());
    assert!(map.remove("b").is_some());
    map.retain(|key, _| key != "c");
    assert!(map.compare_remove("d", others[2]));
    assert_eq!((seen.value, seen.twice, alive.load(SeqCst)), (1, 2, 5));
    assert!(others.iter().all(|it| it.twice == 2));
    assert_eq!(map.get(&guard, "a").map(|it| it.value), Some(3));
    drop(guard);
    assert_eq!(reader.while_idle(|| engine.run_deferred()), 4);
    assert_eq!((map.len(), alive.load(SeqCst)), (1, 1));
    let kept = map.put("a".to_string(), of(4));
    drop(map);
    assert_eq!(alive.load(SeqCst), 1);
    drop((reader, engine));
    assert_eq!(alive.load(SeqCst), 1);
    drop(kept);
    assert_eq!(alive.load(SeqCst), 0);
}

#[test]
fn what_is_cleared_stays_for_readers() {
    let alive = none_alive();
    let engine = Engine::new().unwrap();
    let map = HashMap::new(&engine);
    let mut reader = engine.reader().unwrap();
    (0..100).for_each(|key| drop(map.put(key, Counted::new(key, &alive))));
    let guard = reader.enter();
    let seen = map.get(&guard, &7).unwrap();
    map.clear();
    assert!(map.put(7, Counted::new(70, &alive)).is_none());
    assert_eq!((map.len(), map.iter(&guard).count()), (1, 1));
    assert_eq!((seen.value, seen.twice, alive.load(SeqCst)), (7, 14, 101));
    drop(guard);
    reader.while_idle(|| engine.run_deferred());
    assert_eq!(alive.load(SeqCst), 1);
}

#[test]
fn pairs_of_one_hash_are_dropped_once() {
    let alive = none_alive();
    let engine = Engine::new().unwrap();
    let hasher = BuildHasherDefault::<Few>::default();
    let map = HashMap::<u8, Counted, _>::with_hasher(&engine, hasher);
    for round in 0..50 {
        for key in 0..9 {
            let old = map.put(key, Counted::new(round, &alive));
            assert_eq!(old.is_some(), round % 3 == 1);
        }
        if round % 3 == 1 {
            (0..9).for_each(|key| drop(map.remove(&key).unwrap()));
            assert!(map.is_empty());
        } else if round % 3 == 2 {
            map.retain(|_, _| false);
        }
    }
    drop(map);
    engine.run_deferred();
    assert_eq!(alive.load(SeqCst), 0);
}

#[test]
fn a_value_is_made_once_where_none_is_found() {
    let engine = Engine::new().unwrap();
    let map = HashMap::<String, usize>::new(&engine);
    let reader = engine.reader().unwrap();
    let guard = reader.enter();
    let key = || "key".to_string();
    assert_eq!(*map.get_or_insert_with(&guard, key(), || 7), 7);
    assert_eq!(
        *map.get_or_insert_with(&guard, key(), || panic!("made again")),
        7
    );
    let panics = || *map.get_or_insert_with(&guard, "other".to_string(), || panic!("as told"));
    assert!(catch_unwind(AssertUnwindSafe(panics)).is_err());
    let late = || {
        map.put("late".to_string(), 8); // while the value is made
        9
    };
    assert_eq!(*map.get_or_insert_with(&guard, "late".to_string(), late), 8);
    assert_eq!((map.len(), map.get(&guard, "key")), (2, Some(&7)));
}

#[test]
fn an_entry_is_replaced_and_removed_where_it_is_the_current_one() {
    let engine = Engine::new().unwrap();
    let map = HashMap::<u8, String>::new(&engine);
    let value = || "equal".to_string();
    (0..2).for_each(|key| assert!(map.insert(key, value()).is_none()));
    let reader = engine.reader().unwrap();
    let guard = reader.enter();
    let (one, other) = (map.get(&guard, &0).unwrap(), map.get(&guard, &1).unwrap());
    assert!(!map.compare_replace(0, other, value()));
    assert!(!map.compare_replace(2, one, value()));
    assert!(!map.compare_remove(&0, other));
    assert!(map.compare_replace(0, one, value()));
    assert!(!map.compare_replace(0, one, value()));
    assert!(!map.compare_remove(&0, one));
    assert!(map.compare_remove(&0, map.get(&guard, &0).unwrap()));
    assert!(map.compare_remove(&1, other));
    assert!(map.is_empty());
}

/// A key whose comparison panics.
#[derive(PartialEq, Eq, Debug)]
struct Comes(u8);

#[derive(Debug)]
struct Panics(Comes);

impl PartialEq for Panics {
    fn eq(&self, other: &Panics) -> bool {
        assert!(self.0 .0 < 9 && other.0 .0 < 9, "as told");
        self.0 == other.0
    }
}

impl Eq for Panics {}

impl Hash for Panics {
    fn hash<H: Hasher>(&self, to: &mut H) {
        to.write_u8(1);
    }
}

#[test]
fn who_panics_leaves_the_map_as_it_was() {
    let engine = Engine::new().unwrap();
    let map = HashMap::new(&engine);
    (0..5).for_each(|key| drop(map.put(Panics(Comes(key)), key)));
    let put = || map.put(Panics(Comes(9)), 9).is_some();
    assert!(catch_unwind(AssertUnwindSafe(put)).is_err());
    let remove = || map.remove(&Panics(Comes(9))).is_some();
    assert!(catch_unwind(AssertUnwindSafe(remove)).is_err());
    let retain = || map.retain(|key, _| key.0 .0 < 2 || panic!("as told"));
    assert!(catch_unwind(AssertUnwindSafe(retain)).is_err());
    let reader = engine.reader().unwrap();
    let guard = reader.enter();
    assert_eq!((map.len(), map.iter(&guard).count()), (5, 5));
    assert_eq!(map.get(&guard, &Panics(Comes(4))), Some(&4));
    assert!(map.put(Panics(Comes(5)), 5).is_none());
}

/// A deferred drop may update the map that deferred it.
#[test]
fn what_is_dropped_updates_the_map() {
    struct Updates(Arc<HashMap<u64, u64>>);

    impl Drop for Updates {
        fn drop(&mut self) {
            let key = self.0.len() as u64;
            drop(self.0.put(key, key));
        }
    }

    let engine = Engine::new().unwrap();
    let numbers = Arc::new(HashMap::new(&engine));
    for _ in 0..100 {
        engine.defer_drop(Arc::new(Updates(Arc::clone(&numbers))));
        drop(numbers.put(0, 0));
    }
    engine.run_deferred();
    assert_eq!(numbers.len(), 101);
}

#[test]
fn maps_of_one_engine_are_told_apart() {
    let (engine, other) = (Engine::new().unwrap(), Engine::new().unwrap());
    let (ages, names) = (HashMap::new(&engine), HashMap::new(&engine));
    ages.put("Ada", 36);
    names.put(36, "Ada");
    let (reader, stranger) = (engine.reader().unwrap(), other.reader().unwrap());
    let (guard, strange) = (reader.enter(), stranger.enter());
    assert_eq!(ages.get(&guard, "Ada"), Some(&36));
    assert_eq!(names.get(&guard, &36), Some(&"Ada"));
    let got = || ages.get(&strange, "Ada").is_some();
    assert!(catch_unwind(AssertUnwindSafe(got)).is_err());
    let listed = || ages.iter(&strange).count();
    assert!(catch_unwind(AssertUnwindSafe(listed)).is_err());
}

/// Readers find each key that stays, whole, while two threads update others beside it.
#[test]
fn a_key_that_stays_is_found_whole() {
    const READERS: u32 = 3;
    const KEYS: usize = 24;
    const ROUNDS: usize = 1500;
    let engine = Engine::new().unwrap();
    let map = HashMap::<String, String>::new(&engine);
    let value = |key: usize, round: usize| format!("{key} in {round} of {key}");
    for key in 0..KEYS {
        assert!(map.insert(key.to_string(), value(key, 0)).is_none());
    }
    let is_of = |key: &str, value: &str| {
        value.starts_with(&format!("{key} in ")) && value.ends_with(&format!(" of {key}"))
    };
    let (over, begun) = (AtomicBool::new(false), Barrier::new(READERS as usize + 2));
    thread::scope(|scope| {
        for _ in 0..READERS {
            scope.spawn(|| {
                let mut reader = engine.reader().unwrap();
                reader.while_idle(|| begun.wait());
                while !over.load(SeqCst) {
                    reader.read(|guard| {
                        for key in (0..KEYS).step_by(2).map(|key| key.to_string()) {
                            assert!(is_of(&key, map.get(guard, &key).expect("the key stays")));
                        }
                        assert!(map.iter(guard).all(|(key, value)| is_of(key, value)));
                        assert!(map.iter(guard).count() >= KEYS / 2);
                    });
                }
            });
        }
        let update = |first: usize| {
            begun.wait();
            for round in 1..=ROUNDS {
                let stays = (first + 4 * round) % KEYS;
                map.replace(stays.to_string(), value(stays, round))
                    .expect("the key stays");
                let comes = stays + 1;
                if map.remove(comes.to_string().as_str()).is_none() {
                    map.put(comes.to_string(), value(comes, round));
                }
            }
        };
        let updaters = [0, 2].map(|first| scope.spawn(move || update(first)));
        updaters.into_iter().for_each(|it| it.join().unwrap());
        over.store(true, SeqCst);
    });
}
