//! The engine under its lock, and how its grace periods are made.

use crate::deferred::{is_performing, Deferred, Queue};
use crate::error::Error;
use crate::handles::{EngineHandle, SeatHandle};
use crate::line::Line;
use crate::map::MapSizes;
use crate::marks::Mark;
use crate::raw::RCU_LOOKS_BEFORE_WAIT;
use std::hint::spin_loop;
use std::sync::atomic::{AtomicU64, Ordering::Relaxed};
use std::sync::{Arc, Condvar, MutexGuard};

/// Where no thread drives, whoever defers makes a step of the engine at each so many, ends so many
/// grace periods at most in it, and does so much of what is due.
const EACH: u64 = 16;
const ENDS: usize = 2;
const MOST: usize = 64;

/// No code of a caller's runs under the lock.
const PANICKED: &str = "a thread panicked under the engine's lock";

/// What lies under the lock.
pub(crate) struct Locked {
    pub(crate) rcu: EngineHandle,
    /// The seat of processor 0, which is nobody's, and idle.
    _boot: SeatHandle,
    /// Seats that readers gave back, with their marks. Their processors are offline.
    free: Vec<(SeatHandle, Arc<Mark>)>,
    /// Those of all seats that were dealt.
    marks: Vec<Arc<Mark>>,
    /// The first processor whose seat no reader had, and behind the last one.
    next: usize,
    cpus: usize,
    /// Whether a grace period runs.
    runs: bool,
    /// Whether a thread makes grace periods, and waits for them.
    pub(crate) making: bool,
    /// How many threads drive, and whether they are to return.
    pub(crate) drivers: usize,
    pub(crate) stopped: bool,
    pub(crate) queue: Queue,
}

/// What an engine's owners share. There is a reader for each seat that was dealt and is not free, and
/// each reader owns a part of this: so at the drop no reader has a seat.
pub(crate) struct Inner {
    pub(crate) id: u64,
    /// How many entries its map has room for.
    pub(crate) entries: usize,
    locked: Line<Locked>,
    quiet: Condvar,
    pub(crate) ended: Condvar,
    pub(crate) queued: Condvar,
}

impl Locked {
    /// A seat that no reader had, with its mark.
    fn new_seat(&mut self) -> Result<(SeatHandle, Arc<Mark>), Error> {
        if self.next == self.cpus {
            return Err(Error::AllTaken);
        }
        let seat = self.rcu.seat(self.next)?;
        self.next += 1;
        let mark = Arc::new(Mark::default());
        self.marks.push(Arc::clone(&mark));
        Ok((seat, mark))
    }

    /// Whether this thread has a section open, for which it would wait. It costs a load a reader.
    pub(crate) fn is_in_own_section(&self) -> bool {
        self.marks.iter().any(|it| it.is_own())
    }

    fn begin(&mut self) {
        self.rcu.begin();
        self.runs = true;
    }

    /// Looks at each processor that is awaited. Returns whether one still is.
    fn collect(&mut self) -> bool {
        self.rcu.collect_all() > 0
    }

    fn end(&mut self) {
        self.rcu.end();
        self.runs = false;
    }

    /// Goes on with the grace periods that the cookie waits for, and waits for none.
    pub(crate) fn step(&mut self, cookie: u64) {
        for _ in 0..ENDS {
            if !self.runs {
                if self.rcu.is_done(cookie) {
                    return;
                }
                self.begin();
            }
            if self.collect() {
                return;
            }
            self.end();
        }
    }
}

impl Inner {
    /// An engine, with a map of these sizes, whose values have so many words.
    pub(crate) fn open(readers: u32, map: Option<(MapSizes, usize)>) -> Result<Inner, Error> {
        static IDS: AtomicU64 = AtomicU64::new(0);
        let cpus = readers + 1;
        let mut rcu = match map {
            Some((sizes, words)) => EngineHandle::open_map(cpus, sizes, words)?,
            None => EngineHandle::open(cpus)?,
        };
        let boot = rcu.seat(0)?;
        boot.idle();
        Ok(Inner {
            id: IDS.fetch_add(1, Relaxed),
            entries: map.map_or(0, |(sizes, _)| sizes.entries),
            locked: Line::new(Locked {
                rcu,
                _boot: boot,
                free: Vec::new(),
                marks: Vec::new(),
                next: 1,
                cpus: cpus as usize,
                runs: false,
                making: false,
                drivers: 0,
                stopped: false,
                queue: Queue::default(),
            }),
            quiet: Condvar::new(),
            ended: Condvar::new(),
            queued: Condvar::new(),
        })
    }

    pub(crate) fn lock(&self) -> MutexGuard<'_, Locked> {
        self.locked.lock().expect(PANICKED)
    }

    /// Sleeps until the condition's next change.
    pub(crate) fn sleep<'a>(
        &self,
        on: &Condvar,
        locked: MutexGuard<'a, Locked>,
    ) -> MutexGuard<'a, Locked> {
        on.wait(locked).expect(PANICKED)
    }

    /// The seat got quiet or idle. The one for which a driver sleeps takes the lock for a moment,
    /// to wake it; no other one takes a lock.
    #[inline]
    pub(crate) fn was_quiet(&self, seat: &SeatHandle) {
        if seat.wakes() {
            drop(self.lock());
            self.quiet.notify_one();
        }
    }

    fn sleep_until_quiet<'a>(&self, mut locked: MutexGuard<'a, Locked>) -> MutexGuard<'a, Locked> {
        loop {
            match locked.rcu.may_sleep() {
                (_, 0) => return locked,
                (true, _) => locked = self.sleep(&self.quiet, locked),
                (false, _) => {}
            }
        }
    }

    /// Makes grace periods until the cookie is done, or sleeps while another thread makes one.
    pub(crate) fn wait_for<'a>(
        &self,
        mut locked: MutexGuard<'a, Locked>,
        cookie: u64,
    ) -> MutexGuard<'a, Locked> {
        loop {
            while locked.making {
                locked = self.sleep(&self.ended, locked);
            }
            if locked.rcu.is_done(cookie) {
                return locked;
            }
            locked.making = true;
            if !locked.runs {
                locked.begin();
            }
            let mut looks = 1;
            while locked.collect() {
                if looks % RCU_LOOKS_BEFORE_WAIT == 0 {
                    locked = self.sleep_until_quiet(locked);
                } else {
                    spin_loop();
                }
                looks += 1;
            }
            locked.end();
            locked.making = false;
            self.ended.notify_all();
        }
    }

    /// Waits until each section that is open now has ended.
    pub(crate) fn synchronize(&self) {
        let mut locked = self.lock();
        let cookie = locked.rcu.take();
        drop(self.wait_for(locked, cookie));
    }

    /// Puts it behind all that is deferred, and does now and then what is due.
    pub(crate) fn defer(&self, what: Deferred) {
        let mut locked = self.lock();
        let cookie = locked.rcu.take();
        locked.queue.push(cookie, what);
        if locked.drivers > 0 {
            self.queued.notify_one(); // a call of the system
        }
        let is_time = locked.queue.queued() % EACH == 0;
        if is_time && locked.drivers == 0 && !is_performing() {
            if !locked.making {
                locked.step(cookie);
            }
            self.perform(locked, MOST);
        }
    }

    /// Does what may be done by now, so much at most, with the lock let go. Returns how much.
    fn perform(&self, mut locked: MutexGuard<'_, Locked>, most: usize) -> usize {
        let own = &mut *locked;
        let batch = own.queue.take(most, |cookie| own.rcu.is_done(cookie));
        let count = batch.len();
        drop(locked);
        let batch = batch.perform();
        self.lock().queue.finish(batch);
        self.ended.notify_all();
        count
    }

    /// Waits for all that is deferred by now, and does it. Returns how many there were.
    pub(crate) fn run_deferred(&self) -> usize {
        let locked = self.lock();
        match locked.queue.last() {
            Some(cookie) => self.perform(self.wait_for(locked, cookie), usize::MAX),
            None => 0,
        }
    }

    /// A seat whose processor is online from now on.
    pub(crate) fn seat(&self) -> Result<(SeatHandle, Arc<Mark>), Error> {
        let mut locked = self.lock();
        let (seat, mark) = match locked.free.pop() {
            Some(it) => it,
            None => locked.new_seat()?,
        };
        locked.rcu.arrive(&seat);
        Ok((seat, mark))
    }

    /// The seat's processor departs, in no section. The next reader gets the seat.
    pub(crate) fn give_back(&self, seat: SeatHandle, mark: Arc<Mark>) {
        let mut locked = self.lock();
        locked.rcu.depart(&seat);
        if seat.wakes() {
            self.quiet.notify_one();
        }
        locked.free.push((seat, mark));
    }
}

/// Does all that is deferred, before the engine goes with its seats: no reader is there any more,
/// and nobody who could defer more.
impl Drop for Inner {
    fn drop(&mut self) {
        self.run_deferred();
    }
}

#[cfg(test)]
mod tests {
    use crate::{Engine, MapSizes, Shared};

    /// (A thread that took a lock which it has would wait for ever.)
    #[test]
    fn a_reader_takes_no_lock() {
        let sizes = MapSizes {
            buckets: 1,
            entries: 1,
            seed: 0,
        };
        let (engine, map) = Engine::with_map(sizes).unwrap();
        let shared = Shared::new(&engine, 7);
        map.insert(1, 7).unwrap();
        let mut reader = engine.reader().unwrap();
        let locked = engine.inner.lock();
        for _ in 0..100 {
            assert_eq!(*shared.load(&reader.enter()), 7);
            assert_eq!(reader.read(|guard| *shared.load(guard)), 7);
            assert_eq!(reader.read(|guard| map.get(guard, 1)), Some(7));
            assert!(map.iter(&reader.enter()).eq([(1, 7)]));
            reader.quiesce();
            reader.while_idle(|| ());
        }
        drop(locked);
    }
}
