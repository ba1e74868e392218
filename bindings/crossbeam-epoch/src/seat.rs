//! A processor of the engine, for one thread at a time, and how that thread is pinned.
//!
//! An unpinned thread may sleep for ever, so no grace period may wait for it; and to open a section
//! and wake at each pin, and to get idle at each unpin, would cost two exchanges and a fence. So the
//! seat stays awake, with a section open, and a pin and an unpin are a store each to a word of this
//! crate. Who drives a grace period claims the seats that it awaits: where the thread is unpinned it
//! leaves the section for it, and makes the seat idle; a pinned one it asks for a quiescent state.
//! The thread wakes its seat, or passes the state that was asked for, at its next pin or repin.
//!
//! `pinned` and `state` are the only words that two threads look at with no lock. The thread stores
//! `pinned`, and then looks at `state`; who drives stores `state`, and then looks at `pinned`. A
//! full fence stands between the two steps of each, so one of the two sees the other.
//! `bindings/model/claim.py` walks all states of it.

use rcu::handles::{EngineHandle, SeatHandle};
use std::sync::atomic::{
    compiler_fence, fence, AtomicU32, Ordering::AcqRel, Ordering::Acquire, Ordering::Relaxed,
    Ordering::Release, Ordering::SeqCst,
};
use std::thread::yield_now;

/// The seat is its thread's: awake, with a section open.
const AWAKE: u32 = 0;
/// It is in the hands of who drives.
const TAKEN: u32 = 1;
/// It was made idle, with no section open.
const IDLE: u32 = 2;
/// As AWAKE, and who drives asked for a quiescent state.
const ASKED: u32 = 3;

/// On cache lines of its own.
#[repr(align(128))]
pub(crate) struct Seat {
    /// 1 while its thread is pinned. Each unpin is a release, for who finds the seat quiet.
    pinned: AtomicU32,
    state: AtomicU32,
    handle: SeatHandle,
}

// SAFETY: one thread at a time makes calls on the handle, and what it did is seen by the next one.
// The seat's thread makes them between `pin` and `unpin`, which stores `pinned` by release. Who
// drives makes them where `state` is TAKEN by its own exchange and `pinned` is 0, and stores `state`
// by release behind them; `pin` returns only once it saw another state by acquire. A seat goes from
// thread to thread under the driver's lock, or is an overflow seat and used under that one's.
unsafe impl Sync for Seat {}

impl Seat {
    /// The seat of a processor: online, and idle. None where there is no memory for it.
    pub(crate) fn open(rcu: &mut EngineHandle, cpu: usize) -> Option<Seat> {
        let handle = rcu.seat(cpu).ok()?;
        rcu.arrive(&handle);
        handle.idle();
        Some(Seat {
            pinned: AtomicU32::new(0),
            state: AtomicU32::new(IDLE),
            handle,
        })
    }

    pub(crate) fn cpu(&self) -> usize {
        self.handle.cpu()
    }

    /// The thread has a section open from now on. A full fence.
    #[inline]
    pub(crate) fn pin(&self) {
        self.announce();
        if self.state.load(Acquire) != AWAKE {
            self.pin_slowly();
        }
    }

    /// An exchange is a full fence of x86-64, at less cost than a store and a fence.
    #[inline]
    fn announce(&self) {
        self.pinned.swap(1, SeqCst);
        compiler_fence(SeqCst);
    }

    #[cold]
    fn pin_slowly(&self) {
        loop {
            match self.state.load(Acquire) {
                AWAKE => return,
                IDLE => {
                    self.handle.wake();
                    self.handle.enter();
                    return self.state.store(AWAKE, Release);
                }
                // Who drives leaves the state as it is while the seat's thread is pinned.
                ASKED if self.turn(ASKED, AWAKE) => return self.pass(),
                ASKED => {}
                _ => {
                    self.unpin();
                    while self.state.load(Acquire) == TAKEN {
                        yield_now();
                    }
                    self.announce();
                }
            }
        }
    }

    fn turn(&self, from: u32, to: u32) -> bool {
        let turned = self.state.compare_exchange(from, to, AcqRel, Relaxed);
        turned.is_ok()
    }

    #[inline]
    pub(crate) fn unpin(&self) {
        self.pinned.store(0, Release);
    }

    /// Pinned: leaves the section, passes a quiescent state, also where a grace period began just
    /// now, and opens the next section.
    pub(crate) fn pass(&self) {
        self.handle.exit();
        self.pinned.store(1, Release); // for `see_unpin`
        self.handle.quiesce();
        self.handle.enter();
    }

    /// As `pass`, where a grace period waits for that. (Else none that began since the section did
    /// was driven.)
    #[inline]
    pub(crate) fn repin(&self) {
        if self.state.load(Acquire) == ASKED && self.turn(ASKED, AWAKE) {
            self.pass();
        }
    }

    /// A cookie, by the pinned thread. A full fence stands before it.
    pub(crate) fn take(&self) -> u64 {
        self.handle.take()
    }

    /// Whether a cookie is done, by the pinned thread.
    pub(crate) fn is_done(&self, cookie: u64) -> bool {
        self.handle.is_done(cookie)
    }

    /// What its thread did before its last unpin comes before what follows. (The engine's own calls
    /// see to it. This tells the thread sanitizer, which does not see these.)
    pub(crate) fn see_unpin(&self) {
        self.pinned.load(Acquire);
    }

    /// Under the driver's lock: makes those seats idle whose threads are unpinned, and asks the
    /// others for a quiescent state.
    pub(crate) fn make_idle<'a>(seats: impl Iterator<Item = &'a Seat>) {
        let taken: Vec<&Seat> = seats.filter(|seat| seat.is_taken()).collect();
        if taken.is_empty() {
            return;
        }
        fence(SeqCst);
        for seat in taken {
            if seat.pinned.load(Acquire) == 0 {
                seat.handle.exit();
                seat.handle.idle();
                seat.state.store(IDLE, Release);
            } else {
                seat.state.store(ASKED, Release);
            }
        }
    }

    /// Takes the seat of an unpinned thread; asks a pinned one.
    fn is_taken(&self) -> bool {
        let state = self.state.load(Relaxed);
        if self.pinned.load(Relaxed) == 1 {
            if state == AWAKE {
                self.turn(AWAKE, ASKED);
            }
            return false;
        }
        (state == AWAKE || state == ASKED) && self.turn(state, TAKEN)
    }
}
