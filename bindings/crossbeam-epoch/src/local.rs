//! A handle: its seat, or its place on an overflow seat, the count of its pins, and its deferred
//! calls.

use crate::collector::{Collector, LocalHandle};
use crate::garbage::{run, Bag, Deferred, Sealed, BAG};
use crate::global::{Global, RUNS};
use crate::guard::Guard;
use crate::seat::Seat;
use std::cell::{Cell, RefCell};
use std::collections::VecDeque;
use std::mem;
use std::sync::atomic::{fence, Ordering::SeqCst};
use std::sync::Arc;

/// After so many pins a thread makes a step of the engine, and looks at what is done.
const PINS: u32 = 128;
/// With so many sealed bags, or at each so many of these steps, it asks for a grace period. (To begin
/// one takes longer than a pin, by a look at each processor.)
const BAGS_WAIT: usize = 8;
const LOOKS_WAIT: u32 = 4;
/// So many sealed bags a thread keeps. It leaves the oldest of more to whoever looks.
const KEPT: usize = 16;

/// One thread has it: through its handle, and through guards, which are not sent.
pub(crate) struct Local {
    collector: Collector,
    /// None where the collector had none left.
    seat: Option<Arc<Seat>>,
    /// The overflow seat that it is pinned on.
    overflow_seat: Cell<usize>,
    guards: Cell<usize>,
    handles: Cell<usize>,
    pins: Cell<u32>,
    collects: Cell<bool>,
    bag: RefCell<Bag>,
    sealed: RefCell<VecDeque<Sealed>>,
    /// Empty bags, with their room.
    spare: RefCell<Vec<Bag>>,
}

/// Ends what a thread does with what is done, also where a closure panics.
struct Collecting<'a>(&'a Cell<bool>);

impl Drop for Collecting<'_> {
    fn drop(&mut self) {
        self.0.set(false);
    }
}

impl Local {
    pub(crate) fn register(collector: &Collector) -> LocalHandle {
        let local = Box::new(Local {
            collector: collector.clone(),
            seat: collector.global.seat(),
            overflow_seat: Cell::new(0),
            guards: Cell::new(0),
            handles: Cell::new(1),
            pins: Cell::new(0),
            collects: Cell::new(false),
            bag: RefCell::new(Bag::new()),
            sealed: RefCell::new(VecDeque::new()),
            spare: RefCell::new(Vec::new()),
        });
        LocalHandle {
            local: Box::into_raw(local),
        }
    }

    pub(crate) fn collector(&self) -> &Collector {
        &self.collector
    }

    fn global(&self) -> &Global {
        &self.collector.global
    }

    #[inline]
    pub(crate) fn is_pinned(&self) -> bool {
        self.guards.get() > 0
    }

    #[inline]
    pub(crate) fn pin(&self) -> Guard {
        let guards = self.guards.get();
        self.guards.set(guards + 1);
        if guards == 0 {
            self.pin_first();
        }
        Guard { local: self }
    }

    fn pin_first(&self) {
        self.open_section();
        if self.is_time_to_look() {
            self.pin_and_look();
        }
    }

    /// A full fence.
    #[inline]
    fn open_section(&self) {
        match &self.seat {
            Some(seat) => seat.pin(),
            None => self.pin_overflow(),
        }
    }

    #[inline]
    fn is_time_to_look(&self) -> bool {
        let pins = self.pins.get().wrapping_add(1);
        self.pins.set(pins);
        pins % PINS == 0
    }

    #[cold]
    fn pin_and_look(&self) {
        if self.seat.is_none() || self.pins.get() % (PINS * LOOKS_WAIT) == 0 {
            self.want();
        }
        self.global().step(self.seat.as_deref());
        self.unpin_if_it_panics(Local::run_done);
    }

    /// Calls what may panic, before the guard of a pin is there.
    fn unpin_if_it_panics(&self, call: impl Fn(&Local)) {
        let guard = Guard { local: self };
        call(self);
        mem::forget(guard);
    }

    /// Pins the overflow seat for threads that pin now. A full fence.
    #[cold]
    fn pin_overflow(&self) {
        let now = self.global().overflow_seat();
        let overflow_seat = &self.global().overflow_seats[now];
        let mut pinned = overflow_seat.pinned.lock();
        if *pinned == 0 {
            overflow_seat.seat.pin();
        } else {
            fence(SeqCst);
        }
        *pinned += 1;
        self.overflow_seat.set(now);
    }

    /// Whether the last guard went after the last handle: then it is to be finished.
    #[inline]
    #[must_use]
    pub(crate) fn unpin(&self) -> bool {
        let guards = self.guards.get() - 1;
        self.guards.set(guards);
        if guards > 0 {
            return false;
        }
        match &self.seat {
            Some(seat) => seat.unpin(),
            None => self.unpin_overflow(),
        }
        self.handles.get() == 0
    }

    #[cold]
    fn unpin_overflow(&self) {
        let overflow_seat = &self.global().overflow_seats[self.overflow_seat.get()];
        let mut pinned = overflow_seat.pinned.lock();
        *pinned -= 1;
        if *pinned == 0 {
            overflow_seat.seat.unpin();
        }
    }

    #[inline]
    pub(crate) fn repin(&self) {
        if self.guards.get() == 1 {
            match &self.seat {
                Some(seat) => seat.repin(),
                None => {
                    self.unpin_overflow();
                    self.pin_overflow();
                }
            }
        }
    }

    pub(crate) fn add_handle(&self) {
        self.handles.set(self.handles.get() + 1);
    }

    /// Whether the last handle went after the last guard: then it is to be finished.
    #[must_use]
    pub(crate) fn drop_handle(&self) -> bool {
        let handles = self.handles.get() - 1;
        self.handles.set(handles);
        handles == 0 && self.guards.get() == 0
    }

    /// A cookie, of a pinned thread.
    fn take(&self) -> u64 {
        match &self.seat {
            Some(seat) => seat.take(),
            None => {
                let overflow_seat = &self.global().overflow_seats[self.overflow_seat.get()];
                let _pinned = overflow_seat.pinned.lock();
                overflow_seat.seat.take()
            }
        }
    }

    /// Whether a cookie is done, of a pinned thread.
    fn is_done(&self, cookie: u64) -> bool {
        let done = match &self.seat {
            Some(seat) => seat.is_done(cookie),
            None => {
                let overflow_seat = &self.global().overflow_seats[self.overflow_seat.get()];
                let _pinned = overflow_seat.pinned.lock();
                overflow_seat.seat.is_done(cookie)
            }
        };
        self.global().see(done)
    }

    /// Of a pinned thread.
    pub(crate) fn defer(&self, deferred: Deferred) {
        let mut bag = self.bag.borrow_mut();
        bag.push_back(deferred);
        let is_full = bag.len() >= BAG;
        drop(bag);
        if is_full {
            self.seal();
            self.look();
        }
    }

    fn seal(&self) {
        if self.bag.borrow().is_empty() {
            return;
        }
        let spare = self.spare.borrow_mut().pop();
        let empty = spare.unwrap_or_else(|| Bag::with_capacity(BAG));
        let bag = self.bag.replace(empty);
        let cookie = self.take();
        let mut sealed = self.sealed.borrow_mut();
        sealed.push_back(Sealed { cookie, bag });
        if sealed.len() >= BAGS_WAIT {
            self.global().want(cookie);
        }
    }

    /// Asks for the grace period that what is sealed waits for.
    fn want(&self) {
        if let Some(last) = self.sealed.borrow().back() {
            self.global().want(last.cookie);
        }
    }

    /// What is deferred may be done by any thread from now on.
    pub(crate) fn flush(&self) {
        self.seal();
        self.want();
        self.look();
        let mut sealed = self.sealed.borrow_mut();
        if !sealed.is_empty() {
            self.global().leave(sealed.drain(..));
        }
    }

    /// Makes a step of the engine, and runs what is done. The thread is pinned.
    #[cold]
    fn look(&self) {
        self.global().step(None);
        self.run_done();
    }

    fn run_done(&self) {
        if self.collects.replace(true) {
            return;
        }
        let _collecting = Collecting(&self.collects);
        for _ in 0..RUNS {
            let Some(sealed) = self.next_done() else {
                break;
            };
            let empty = run(sealed, |rest| self.global().leave_first(rest));
            let mut spare = self.spare.borrow_mut();
            if spare.len() < BAGS_WAIT {
                spare.push(empty);
            }
        }
        self.leave_all_but(KEPT);
        self.global().run_left(|cookie| self.is_done(cookie));
    }

    fn next_done(&self) -> Option<Sealed> {
        let cookie = self.sealed.borrow().front().map(|it| it.cookie)?;
        if self.is_done(cookie) {
            self.sealed.borrow_mut().pop_front()
        } else {
            None
        }
    }

    fn leave_all_but(&self, kept: usize) {
        let mut sealed = self.sealed.borrow_mut();
        let more = sealed.len().saturating_sub(kept);
        if more > 0 {
            self.global().leave(sealed.drain(..more));
        }
    }

    /// The last handle and the last guard went: leaves what is deferred, and the seat.
    ///
    /// # Safety
    /// It is from `register`, and nobody has it any more.
    #[cold]
    pub(crate) unsafe fn finish(local: *const Local) {
        // SAFETY: it is there until the last line.
        let this = unsafe { &*local };
        this.handles.set(1);
        this.guards.set(1);
        this.open_section();
        let guard = Guard { local };
        this.seal();
        this.want();
        this.leave_all_but(0);
        drop(guard);
        if let Some(seat) = &this.seat {
            this.global().give_back(Arc::clone(seat));
        }
        // (The collector may go with it, and run what was left.)
        // SAFETY: it is the box of `register`, and `this` is used no more.
        drop(unsafe { Box::from_raw(local.cast_mut()) });
    }
}
