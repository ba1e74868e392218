//! Gets and updates of std's maps under std's locks, and (with the feature `epoch`) of sorted
//! chains over crossbeam-epoch, for bench/map. With `rcu`, which bench/map does not build, it has
//! this library's hash map of Rust too. Use: PEER KIND THREADS ROUNDS. It prints a line a round:
//! the nanoseconds of an operation, and the processor's, the mean of all threads. The keys, their
//! order and their number are those of bench/map_liburcu.c. A map that grows from nothing to so
//! many entries, or has room for them at first, is measured by PEER grow ENTRIES ROUNDS, and PEER
//! room ENTRIES ROUNDS: the nanoseconds of an insertion, and of its longest one.
use std::collections::{BTreeMap, HashMap};
use std::hash::{BuildHasherDefault, Hasher};
use std::sync::atomic::{AtomicBool, Ordering::Relaxed};
use std::sync::{Barrier, Mutex, RwLock};
use std::time::Instant;

const ENTRIES: usize = 4096;
const DRAWS: usize = 16384;
const TIMES: u32 = 8; // passes over the draws on several threads
const BUCKETS: u64 = 1024;

/// A hash of one multiplication: std's own would take most of a get.
#[derive(Default)]
struct Product(u64);

impl Hasher for Product {
    fn finish(&self) -> u64 {
        self.0
    }
    fn write(&mut self, _: &[u8]) {
        unreachable!("keys are words")
    }
    fn write_u64(&mut self, key: u64) {
        let product = key.wrapping_mul(0x9e37_79b9_7f4a_7c15);
        self.0 = product ^ (product >> 32);
    }
}

type Hashed = HashMap<u64, [u64; 2], BuildHasherDefault<Product>>;
type Sorted = BTreeMap<u64, [u64; 2]>;

/// A map that threads share.
trait Shared: Sync + Default {
    /// The state of one thread.
    type Own;

    fn own(&self) -> Self::Own;
    fn get(&self, own: &mut Self::Own, key: u64) -> u64;
    fn insert(&self, key: u64);
    fn remove(&self, key: u64);
}

macro_rules! shared {
    ($map:ty, $lock:ident, $read:ident, $write:ident) => {
        impl Shared for $lock<$map> {
            type Own = ();

            fn own(&self) {}

            fn get(&self, (): &mut (), key: u64) -> u64 {
                self.$read().unwrap().get(&key).map_or(0, |words| words[0].wrapping_add(words[1]))
            }
            fn insert(&self, key: u64) {
                assert!(self.$write().unwrap().insert(key, [key, 2 * key]).is_none());
            }
            fn remove(&self, key: u64) {
                assert!(self.$write().unwrap().remove(&key).is_some());
            }
        }
    };
}

shared!(Hashed, Mutex, lock, lock);
shared!(Hashed, RwLock, read, write);
shared!(Sorted, Mutex, lock, lock);
shared!(Sorted, RwLock, read, write);

/// Buckets of chains whose keys go up. An updater has a lock, and readers have none.
#[cfg(feature = "epoch")]
mod epochs {
    use crossbeam_epoch::{self as epoch, Atomic, Guard, Owned, Shared as Pointer};
    use std::sync::Mutex;
    use std::sync::atomic::Ordering::{Acquire, Relaxed, Release};

    struct Entry {
        next: Atomic<Entry>,
        words: [u64; 2],
    }

    pub struct Chains {
        buckets: Vec<Atomic<Entry>>,
        updater: Mutex<()>,
    }

    impl Default for Chains {
        fn default() -> Self {
            let buckets = (0..super::BUCKETS).map(|_| Atomic::null()).collect();
            Chains { buckets, updater: Mutex::new(()) }
        }
    }

    impl Chains {
        /// The place that leads to the first entry whose key is no less, and that entry.
        fn find<'g>(
            &'g self,
            key: u64,
            guard: &'g Guard,
        ) -> (&'g Atomic<Entry>, Pointer<'g, Entry>) {
            let hash = key.wrapping_mul(0x9e37_79b9_7f4a_7c15) >> 40;
            let mut place = &self.buckets[(hash % super::BUCKETS) as usize];
            loop {
                let entry = place.load(Acquire, guard);
                // SAFETY: an entry is destroyed where no guard is left that may have loaded it.
                match unsafe { entry.as_ref() } {
                    Some(found) if found.words[0] < key => place = &found.next,
                    _ => return (place, entry),
                }
            }
        }
    }

    impl super::Shared for Chains {
        type Own = ();

        fn own(&self) {}

        fn get(&self, (): &mut (), key: u64) -> u64 {
            let guard = epoch::pin();
            let (_, entry) = self.find(key, &guard);
            // SAFETY: as above.
            let found = unsafe { entry.as_ref() }.filter(|found| found.words[0] == key);
            found.map_or(0, |found| found.words[0].wrapping_add(found.words[1]))
        }

        fn insert(&self, key: u64) {
            let _updater = self.updater.lock().unwrap();
            let guard = epoch::pin();
            let (place, next) = self.find(key, &guard);
            place.store(
                Owned::new(Entry { next: Atomic::from(next), words: [key, 2 * key] }),
                Release,
            );
        }

        fn remove(&self, key: u64) {
            let _updater = self.updater.lock().unwrap();
            let guard = epoch::pin();
            let (place, entry) = self.find(key, &guard);
            // SAFETY: as above; nobody comes to the entry once the place leads past it.
            unsafe {
                place.store(entry.deref().next.load(Relaxed, &guard), Release);
                guard.defer_destroy(entry);
            }
        }
    }
}

/// The hash map of the crate rcu. A thread passes a quiescent state after each 16 gets.
#[cfg(feature = "rcu")]
mod ours {
    use super::Product;
    use rcu::{Engine, HashMap, Reader};
    use std::hash::BuildHasherDefault;

    const EACH: u32 = 16;

    pub type Words = HashMap<u64, [u64; 2], BuildHasherDefault<Product>>;

    pub struct Map {
        engine: Engine,
        words: Words,
    }

    pub struct Own {
        reader: Reader,
        gets: u32,
    }

    impl Map {
        pub fn with_room(entries: usize) -> Map {
            let engine = Engine::with_limit(8).unwrap();
            let words = Words::with_capacity_and_hasher(&engine, entries, Default::default());
            Map { engine, words }
        }
    }

    impl Default for Map {
        fn default() -> Map {
            Map::with_room(0)
        }
    }

    impl super::Shared for Map {
        type Own = Own;

        fn own(&self) -> Own {
            Own { reader: self.engine.reader().unwrap(), gets: 0 }
        }

        fn get(&self, own: &mut Own, key: u64) -> u64 {
            let guard = own.reader.enter();
            let found = self.words.get(&guard, &key);
            let found = found.map_or(0, |words| words[0].wrapping_add(words[1]));
            drop(guard);
            own.gets += 1;
            if own.gets % EACH == 0 {
                own.reader.quiesce();
            }
            found
        }

        fn insert(&self, key: u64) {
            assert!(self.words.insert(key, [key, 2 * key]).is_none());
        }

        fn remove(&self, key: u64) {
            assert!(self.words.remove(&key).is_some());
        }
    }
}

#[derive(Clone, Copy, PartialEq)]
enum Kind {
    Hit,
    Miss,
    Beside,
    Update,
}

struct Draw(u64);

impl Draw {
    fn next(&mut self) -> u64 {
        self.0 = self.0.wrapping_mul(6364136223846793005).wrapping_add(1442695040888963407);
        self.0 >> 33
    }
}

/// An entry's key is even.
fn make_keys(kind: Kind) -> (Vec<u64>, Vec<u64>) {
    let keys: Vec<u64> = (0..ENTRIES as u64).map(|i| 2 * (BUCKETS + i)).collect();
    let mut draw = Draw(1);
    let odd = u64::from(kind == Kind::Miss);
    let draws = (0..DRAWS).map(|_| keys[draw.next() as usize % ENTRIES] + odd).collect();
    (keys, draws)
}

#[repr(C)]
struct TimeSpec {
    seconds: i64,
    nanoseconds: i64,
}

unsafe extern "C" {
    fn clock_gettime(clock: i32, time: *mut TimeSpec) -> i32;
}

/// The nanoseconds of the processor that this thread has used.
fn used() -> f64 {
    const THREAD_CPUTIME: i32 = 3;
    let mut time = TimeSpec { seconds: 0, nanoseconds: 0 };
    // SAFETY: Linux's call writes the time.
    assert_eq!(unsafe { clock_gettime(THREAD_CPUTIME, &mut time) }, 0);
    time.seconds as f64 * 1e9 + time.nanoseconds as f64
}

fn update<M: Shared>(map: &M, keys: &[u64]) {
    for &key in keys {
        map.remove(key);
    }
    for &key in keys {
        map.insert(key);
    }
}

/// Prints the nanoseconds of an operation, a get, or a removal and an insertion, and those of the
/// processor.
fn measure<M: Shared>(map: &M, kind: Kind, threads: usize, keys: &[u64], draws: &[u64]) {
    let times = if threads == 1 { 1 } else { TIMES };
    let over = AtomicBool::new(false);
    let start = Barrier::new(threads);
    let work = |own: &[u64]| {
        start.wait();
        let mut of_thread = map.own();
        let (begun, unused) = (Instant::now(), used());
        let mut sum = 0u64;
        for _ in 0..times {
            if kind == Kind::Update {
                update(map, own);
            } else {
                for &key in draws {
                    sum = sum.wrapping_add(map.get(&mut of_thread, key));
                }
            }
        }
        let (took, used) = (begun.elapsed().as_nanos() as f64, used() - unused);
        assert!(matches!(kind, Kind::Update | Kind::Beside) || (sum == 0) == (kind == Kind::Miss));
        let many = if kind == Kind::Update { own.len() } else { draws.len() };
        let all = threads as f64 * f64::from(times) * many as f64;
        (took / all, used / all)
    };
    std::thread::scope(|scope| {
        if kind == Kind::Beside {
            scope.spawn(|| {
                while !over.load(Relaxed) {
                    update(map, &keys[..ENTRIES / 16]);
                }
            });
        }
        let readers: Vec<_> =
            keys.chunks(ENTRIES / threads).map(|own| scope.spawn(|| work(own))).collect();
        let each: Vec<_> = readers.into_iter().map(|reader| reader.join().unwrap()).collect();
        over.store(true, Relaxed);
        let (took, used) = each.iter().fold((0.0, 0.0), |sum, one| (sum.0 + one.0, sum.1 + one.1));
        println!("{took:.3} {used:.3}");
    })
}

fn run<M: Shared>(kind: Kind, threads: usize, rounds: usize) {
    let (keys, draws) = make_keys(kind);
    let map = M::default();
    for &key in &keys {
        map.insert(key);
    }
    for _ in 0..rounds {
        measure(&map, kind, threads, &keys, &draws);
    }
}

/// Prints the nanoseconds of an insertion, and those of the longest one, of a map that this makes.
fn fill<M: Shared>(entries: u64, rounds: usize, new: impl Fn() -> M) {
    for _ in 0..rounds {
        let (map, begun, mut longest) = (new(), Instant::now(), 0);
        for key in 0..entries {
            let before = Instant::now();
            map.insert(2 * key);
            longest = longest.max(before.elapsed().as_nanos());
        }
        println!("{:.3} {longest}", begun.elapsed().as_nanos() as f64 / entries as f64);
    }
}

/// Fills maps that grow, or that have room at first.
fn run_filling(peer: &str, is_growing: bool, entries: u64, rounds: usize) {
    let room = if is_growing { 0 } else { entries as usize };
    match peer {
        "rwlock" => fill(entries, rounds, || {
            RwLock::new(Hashed::with_capacity_and_hasher(room, Default::default()))
        }),
        #[cfg(feature = "rcu")]
        "rcu" => fill(entries, rounds, || ours::Map::with_room(room)),
        _ => panic!("{peer} is not filled"),
    }
}

fn main() {
    let words: Vec<String> = std::env::args().skip(1).collect();
    let [peer, kind, threads, rounds] = &words[..] else {
        panic!("use: PEER KIND THREADS ROUNDS");
    };
    let kind = match kind.as_str() {
        "grow" | "room" => {
            let (entries, rounds) = (threads.parse().unwrap(), rounds.parse().unwrap());
            return run_filling(peer, kind == "grow", entries, rounds);
        }
        "hit" => Kind::Hit,
        "miss" => Kind::Miss,
        "beside" => Kind::Beside,
        "update" => Kind::Update,
        _ => panic!("no kind {kind}"),
    };
    let (threads, rounds) = (threads.parse().unwrap(), rounds.parse().unwrap());
    match peer.as_str() {
        "mutex" => run::<Mutex<Hashed>>(kind, threads, rounds),
        "rwlock" => run::<RwLock<Hashed>>(kind, threads, rounds),
        "sorted-mutex" => run::<Mutex<Sorted>>(kind, threads, rounds),
        "sorted-rwlock" => run::<RwLock<Sorted>>(kind, threads, rounds),
        #[cfg(feature = "epoch")]
        "epoch" => run::<epochs::Chains>(kind, threads, rounds),
        #[cfg(feature = "rcu")]
        "rcu" => run::<ours::Map>(kind, threads, rounds),
        _ => panic!("no peer {peer}"),
    }
}
