//! The hash map as it grows: under threads that read and update it, as a table is left for a larger
//! one in the midst of a section, and by what it takes.

mod common;

use common::{none_alive, Counted};
use rcu::{Engine, Guard, HashMap};
use std::alloc::{GlobalAlloc, Layout, System};
use std::cell::Cell;
use std::hash::{BuildHasherDefault, Hasher};
use std::sync::atomic::{AtomicBool, AtomicU64, Ordering::SeqCst};
use std::thread;

/// Counts the bytes that this thread has allocated, and did not free. Freed memory is overwritten,
/// so that a test finds a read of it.
struct Counting;

const FREED: u64 = 0xa5a5_a5a5_a5a5_a5a5;

thread_local! {
    static BYTES: Cell<isize> = const { Cell::new(0) };
}

// SAFETY: all is the system's.
unsafe impl GlobalAlloc for Counting {
    unsafe fn alloc(&self, layout: Layout) -> *mut u8 {
        let _ = BYTES.try_with(|it| it.set(it.get() + layout.size() as isize));
        // SAFETY: as the caller says.
        unsafe { System.alloc(layout) }
    }

    unsafe fn dealloc(&self, at: *mut u8, layout: Layout) {
        let _ = BYTES.try_with(|it| it.set(it.get() - layout.size() as isize));
        // SAFETY: as the caller says.
        unsafe {
            (0..layout.size() / 8).for_each(|it| at.cast::<u64>().add(it).write_volatile(FREED));
            System.dealloc(at, layout)
        }
    }
}

#[global_allocator]
static COUNTING: Counting = Counting;

/// So many entries there are at last: more where the whole is asked for.
fn many() -> u64 {
    let whole = std::env::var_os("RCU_UNPROVED").is_none();
    if whole {
        1_000_000
    } else {
        100_000
    }
}

/// Hashes by the key itself: so a test knows which places are used.
#[derive(Default)]
struct Itself(u64);

impl Hasher for Itself {
    fn write(&mut self, _bytes: &[u8]) {
        unreachable!("keys are words")
    }

    fn write_u64(&mut self, key: u64) {
        self.0 = key;
    }

    fn finish(&self) -> u64 {
        self.0
    }
}

type Words = HashMap<u64, u64, BuildHasherDefault<Itself>>;

/// The section finds these keys alone, each with its value.
fn has_all(map: &HashMap<u64, u64, impl std::hash::BuildHasher>, guard: &Guard<'_>, end: u64) {
    assert!((0..end).all(|key| map.get(guard, &key) == Some(&(2 * key))));
    assert!((end..end + 100).all(|key| map.get(guard, &key).is_none()));
    let mut listed: Vec<_> = map.iter(guard).collect();
    listed.sort();
    assert!(listed
        .into_iter()
        .map(|(key, value)| (*key, *value))
        .eq((0..end).map(|it| (it, 2 * it))));
}

#[test]
fn each_key_is_there_after_each_growth() {
    let engine = Engine::new().unwrap();
    let (keyed, words) = (
        HashMap::new(&engine),
        Words::with_hasher(&engine, Default::default()),
    );
    let reader = engine.reader().unwrap();
    for key in 0..2000 {
        assert!(keyed.insert(key, 2 * key).is_none());
        assert!(words.insert(key, 2 * key).is_none());
        if key.is_power_of_two() || key % 100 == 0 {
            has_all(&keyed, &reader.enter(), key + 1);
            has_all(&words, &reader.enter(), key + 1);
        }
    }
}

/// A section that found a table reads on in it, while larger ones take its place, and all that was in
/// it is replaced.
#[test]
fn a_section_reads_on_in_the_table_that_it_found() {
    let alive = none_alive();
    let engine = Engine::new().unwrap();
    let map = HashMap::<u64, Counted>::new(&engine);
    (0..6).for_each(|key| drop(map.put(key, Counted::new(key, &alive))));
    let mut reader = engine.reader().unwrap();
    let guard = reader.enter();
    let mut entries = map.iter(&guard);
    let first = entries.next().unwrap();
    (6..500).for_each(|key| drop(map.put(key, Counted::new(key, &alive))));
    (0..500).for_each(|key| drop(map.replace(key, Counted::new(key + 1000, &alive)).unwrap()));
    (0..500).for_each(|key| drop(map.remove(&key).unwrap()));
    map.shrink_to_fit();
    assert!(map.is_empty() && map.get(&guard, &0).is_none());
    let mut seen: Vec<_> = entries.chain([first]).collect();
    seen.sort_by_key(|it| it.0);
    assert!(seen.iter().map(|it| *it.0).eq(0..6));
    assert!(seen
        .iter()
        .all(|(key, it)| it.value == **key && it.twice == 2 * it.value));
    drop(guard);
    reader.while_idle(|| engine.run_deferred());
    assert_eq!(alive.load(SeqCst), 0);
}

/// Readers find each key that stays while a map grows to many entries, and each entry is of its key.
/// Two threads let it grow, and one takes out and puts in again.
#[test]
fn it_grows_under_threads() {
    let end = many();
    let engine = Engine::new().unwrap();
    let map = HashMap::<u64, Counted>::new(&engine);
    let (alive, over, last) = (none_alive(), AtomicBool::new(false), AtomicU64::new(16));
    let put = |key: u64| map.put(key, Counted::new(key, &alive));
    (0..16).for_each(|key| assert!(put(key).is_none()));
    let read = || {
        let (mut reader, mut at) = (engine.reader().unwrap(), 0);
        while !over.load(SeqCst) {
            let there = last.load(SeqCst);
            reader.read(|guard| {
                for _ in 0..64 {
                    at = (at + 7919) % there;
                    let found = map.get(guard, &at).expect("the key stays");
                    assert_eq!((found.value, found.twice), (at, 2 * at));
                }
                assert!(map.get(guard, &(u64::MAX - at)).is_none());
            });
        }
    };
    thread::scope(|scope| {
        (0..2).for_each(|_| drop(scope.spawn(read)));
        scope.spawn(|| {
            let mut key = u64::MAX / 4;
            while !over.load(SeqCst) {
                assert!(put(key).is_none());
                assert!(map.remove(&key).is_some());
                key += 1;
            }
        });
        let grow = || loop {
            let key = last.load(SeqCst);
            if key >= end {
                return;
            }
            drop(put(key)); // the other thread may have put it in by now
            last.fetch_max(key + 1, SeqCst);
        };
        let growing = [(); 2].map(|()| scope.spawn(grow));
        growing.into_iter().for_each(|it| it.join().unwrap());
        over.store(true, SeqCst);
    });
    let reader = engine.reader().unwrap();
    let guard = reader.enter();
    assert!((0..end).all(|key| map.get(&guard, &key).is_some_and(|it| it.value == key)));
    assert_eq!(
        (map.len() as u64, map.iter(&guard).count() as u64),
        (end, end)
    );
}

/// Threads that update the same keys lose none of their updates to a growth.
#[test]
fn no_update_is_lost() {
    const THREADS: u64 = 3;
    let end = many() / 20;
    let engine = Engine::new().unwrap();
    for _ in 0..4 {
        let map = HashMap::<u64, u64>::new(&engine);
        thread::scope(|scope| {
            for own in 0..THREADS {
                let map = &map;
                scope.spawn(move || {
                    for key in (own..end).step_by(THREADS as usize) {
                        assert!(map.insert(key, key).is_none());
                        assert_eq!(*map.replace(key, key + 1).unwrap().value(), key);
                        if key % 2 == 1 {
                            assert_eq!(*map.remove(&key).unwrap().value(), key + 1);
                        }
                    }
                });
            }
        });
        let reader = engine.reader().unwrap();
        let guard = reader.enter();
        for key in 0..end {
            assert_eq!(
                map.get(&guard, &key).copied(),
                (key % 2 == 0).then_some(key + 1)
            );
        }
        assert_eq!(map.len() as u64, end.div_ceil(2));
    }
}

/// A key that is taken out and put in again comes to another place. An iteration yields it once.
#[test]
fn an_iteration_yields_a_key_once() {
    let engine = Engine::new().unwrap();
    let reader = engine.reader().unwrap();
    for seed in 0..200 {
        let map = Words::with_capacity_and_hasher(&engine, 48, Default::default());
        let keys: Vec<u64> = (1..48).map(|it| it * (2 * seed + 1)).collect();
        keys.iter()
            .for_each(|&key| assert!(map.insert(key, 0).is_none()));
        let guard = reader.enter();
        let mut seen = vec![];
        for (&key, _) in map.iter(&guard) {
            seen.push(key);
            for _ in 0..3 {
                drop(map.remove(&key).unwrap());
                drop(map.remove(&(key + 1_000_000)));
                drop(map.put(key + 1_000_000, 0));
                drop(map.put(key, 1));
            }
        }
        let all = seen.len();
        seen.sort();
        seen.dedup();
        assert_eq!(all, seen.len());
        assert!(seen.iter().all(|it| keys.contains(it)));
        let mut stays = map
            .iter(&guard)
            .map(|it| *it.0)
            .filter(|it| keys.contains(it));
        assert!(stays.all(|key| map.contains_key(&guard, &key)));
    }
}

/// Each key that stays is among those that an iteration yields, also if its entry is replaced.
#[test]
fn an_iteration_yields_each_key_that_stays() {
    let engine = Engine::new().unwrap();
    let map = HashMap::<u64, u64>::new(&engine);
    (0..1000).for_each(|key| drop(map.put(key, 0)));
    let reader = engine.reader().unwrap();
    let guard = reader.enter();
    let mut seen = vec![];
    for (&key, _) in map.iter(&guard) {
        seen.push(key);
        if key % 10 == 0 {
            (0..1000).for_each(|key| drop(map.replace(key, 1)));
            drop(map.put(key + 1000, 0)); // once it has to grow
        }
    }
    seen.sort();
    assert!(seen.into_iter().eq(0..1000));
}

/// Keys come and go for long: the table does not grow with the map's age, and looks end.
#[test]
fn a_table_does_not_grow_with_its_age() {
    let engine = Engine::new().unwrap();
    let map = Words::with_hasher(&engine, Default::default());
    let mut reader = engine.reader().unwrap();
    let mut most = 0;
    for key in 0..200_000u64 {
        assert!(map.insert(key, 2 * key).is_none());
        if key >= 100 {
            assert!(map.remove(&(key - 100)).is_some());
            let guard = reader.enter();
            assert_eq!(map.get(&guard, &(key - 50)), Some(&(2 * (key - 50))));
            assert!(map.get(&guard, &(key - 100)).is_none());
            assert!(map.get(&guard, &(key + 1)).is_none());
        }
        if key % 1000 == 0 {
            reader.while_idle(|| engine.run_deferred());
            most = most.max(BYTES.get());
        }
    }
    assert!(most < 100_000, "{most} bytes for 100 entries");
}

/// A key whose pair comes to this place of a table of 128, if that is free.
fn key_of_place(place: u64) -> u64 {
    const GOLDEN: u64 = 0x9e37_79b9_7f4a_7c15; // as in src/pairs.rs
    let by = (0..6).fold(GOLDEN, |by, _| {
        by.wrapping_mul(2u64.wrapping_sub(GOLDEN.wrapping_mul(by)))
    });
    (place << 57).wrapping_mul(by)
}

/// Places whose pair was taken out stay used where a look may go on behind them. A table that is full
/// of them is left for one of its size.
#[test]
fn a_table_with_few_pairs_is_left_for_one_of_its_size() {
    let engine = Engine::new().unwrap();
    let map = Words::with_capacity_and_hasher(&engine, 96, Default::default());
    let first = BYTES.get();
    for round in 0..10 {
        (1..=95).for_each(|place| assert!(map.insert(key_of_place(place), place).is_none()));
        (1..95).for_each(|place| drop(map.remove(&key_of_place(place)).unwrap()));
        assert!(map.insert(key_of_place(100), 100).is_none());
        assert!(map.insert(key_of_place(110), 110).is_none());
        for place in [95, 100, 110] {
            assert!(map.remove(&key_of_place(place)).is_some());
        }
        engine.run_deferred();
        assert!(map.is_empty() && BYTES.get() - first < 1000, "{round}");
    }
}

#[test]
fn memory_follows_the_entries() {
    let engine = Engine::new().unwrap();
    drop(HashMap::<u64, u64>::new(&engine));
    let none = BYTES.get();
    let map = HashMap::<u64, u64>::new(&engine);
    let taken = || (BYTES.get() - none) as u64;
    assert!(
        taken() + (size_of_val(&map) as u64) < 1024,
        "{} bytes",
        taken()
    );
    let end = many();
    (0..end).for_each(|key| drop(map.put(key, key)));
    engine.run_deferred();
    let each = taken() as f64 / end as f64;
    println!("{each:.1} bytes an entry of two words");
    assert!((40.0..=88.0).contains(&each), "{each} bytes an entry");
    map.retain(|key, _| *key < end / 100);
    map.shrink_to_fit();
    engine.run_deferred();
    assert!(taken() < end, "{} bytes for {} entries", taken(), end / 100);
    map.clear();
    engine.run_deferred();
    assert!(taken() < 4096, "{} bytes for none", taken());
    map.reserve(1000);
    let reserved = taken();
    (0..1000).for_each(|key| drop(map.put(key, key)));
    engine.run_deferred();
    assert!(taken() - reserved < 1000 * 48, "it grew");
}
