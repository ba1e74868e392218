//! What the threads of a collector share: who drives, what they wait for, and what threads left.

use crate::driver::Driver;
use crate::garbage::{run, run_to_end, Sealed};
use crate::lock::Lock;
use crate::seat::Seat;
use std::collections::VecDeque;
use std::sync::atomic::{
    AtomicU64, AtomicUsize, Ordering::Acquire, Ordering::Relaxed, Ordering::Release,
};
use std::sync::Arc;

/// How many bags one look at what is done runs at most, of each list.
pub(crate) const RUNS: usize = 8;

/// A word with cache lines of its own.
#[repr(align(128))]
struct Apart<T>(T);

/// A seat for threads that got none of their own. It is pinned while one of them is.
pub(crate) struct OverflowSeat {
    pub(crate) seat: Seat,
    pub(crate) pinned: Lock<usize>,
}

/// (All words but the locks are hints: whoever reads an old value looks once too often, or once
/// too late. What is done is told by the engine alone.)
pub(crate) struct Global {
    /// The greatest cookie that somebody waits for.
    wanted: Apart<AtomicU64>,
    /// The number, as who ended a grace period last left it.
    ended: Apart<AtomicU64>,
    /// The overflow seat for threads that pin now.
    overflow_seat: AtomicUsize,
    pub(crate) overflow_seats: [OverflowSeat; 2],
    driver: Lock<Driver>,
    left: Lock<VecDeque<Sealed>>,
    left_count: AtomicUsize,
}

impl Global {
    pub(crate) fn new(seats: usize) -> Global {
        let (driver, overflow_seats) = Driver::open(seats);
        Global {
            wanted: Apart(AtomicU64::new(0)),
            ended: Apart(AtomicU64::new(0)),
            overflow_seat: AtomicUsize::new(0),
            overflow_seats: overflow_seats.map(|seat| OverflowSeat {
                seat,
                pinned: Lock::new(0),
            }),
            driver: Lock::new(driver),
            left: Lock::new(VecDeque::new()),
            left_count: AtomicUsize::new(0),
        }
    }

    /// How many threads have a seat of their own at most.
    pub(crate) fn seats(&mut self) -> usize {
        self.driver.get_mut().seats()
    }

    /// A seat that no other thread has. None where all are taken, or there is no memory.
    pub(crate) fn seat(&self) -> Option<Arc<Seat>> {
        self.driver.lock().seat()
    }

    pub(crate) fn give_back(&self, seat: Arc<Seat>) {
        self.driver.lock().give_back(seat);
    }

    pub(crate) fn overflow_seat(&self) -> usize {
        self.overflow_seat.load(Relaxed)
    }

    /// Where the overflow seat for threads that pin now is awaited, and the other one is not, they
    /// pin on that one from now on: so each is left by all, in turn.
    pub(crate) fn change_overflow_seat(&self, mut is_awaited: impl FnMut(&OverflowSeat) -> bool) {
        let now = self.overflow_seat();
        if is_awaited(&self.overflow_seats[now]) && !is_awaited(&self.overflow_seats[1 - now]) {
            self.overflow_seat.store(1 - now, Relaxed);
        }
    }

    /// Somebody waits for the cookie.
    pub(crate) fn want(&self, cookie: u64) {
        if self.wanted.0.load(Relaxed) < cookie {
            self.wanted.0.fetch_max(cookie, Relaxed);
        }
    }

    /// Whether nobody waits for more than this number.
    pub(crate) fn is_reached(&self, number: u64) -> bool {
        self.wanted.0.load(Relaxed) <= number
    }

    /// The grace period ends, at this number. (The engine's own calls make what came before be
    /// seen. This tells the thread sanitizer, which does not see these.)
    pub(crate) fn tell_end(&self, number: u64) {
        self.ended.0.store(number, Release);
    }

    /// What the engine said of a cookie; what came before the end of its grace period is seen.
    pub(crate) fn see(&self, is_done: bool) -> bool {
        if is_done {
            self.ended.0.load(Acquire);
        }
        is_done
    }

    /// One step of the engine, where somebody waits and nobody else makes one. `own` is the
    /// caller's seat, just pinned.
    pub(crate) fn step(&self, own: Option<&Seat>) {
        if self.is_reached(self.ended.0.load(Relaxed)) {
            return;
        }
        if let Some(mut driver) = self.driver.try_lock() {
            driver.step(self, own);
        }
    }

    /// Leaves bags to whoever looks.
    pub(crate) fn leave(&self, bags: impl Iterator<Item = Sealed>) {
        let mut left = self.left.lock();
        left.extend(bags);
        self.left_count.store(left.len(), Relaxed);
    }

    /// Leaves the rest of a bag that is done already.
    pub(crate) fn leave_first(&self, rest: Sealed) {
        let mut left = self.left.lock();
        left.push_front(rest);
        self.left_count.store(left.len(), Relaxed);
    }

    /// Runs what was left and is done.
    pub(crate) fn run_left(&self, is_done: impl Fn(u64) -> bool) {
        for _ in 0..RUNS {
            let Some(sealed) = self.next_left(&is_done) else {
                return;
            };
            run(sealed, |rest| self.leave_first(rest));
        }
    }

    fn next_left(&self, is_done: impl Fn(u64) -> bool) -> Option<Sealed> {
        if self.left_count.load(Relaxed) == 0 {
            return None;
        }
        let mut left = self.left.try_lock()?;
        let is_next = left.front().is_some_and(|it| is_done(it.cookie));
        let next = if is_next { left.pop_front() } else { None };
        self.left_count.store(left.len(), Relaxed);
        next
    }

    /// Runs all that was left. No thread is pinned, and none will be.
    pub(crate) fn run_all_left(&mut self) {
        run_to_end(self.left.get_mut());
        self.left_count.store(0, Relaxed);
    }
}
