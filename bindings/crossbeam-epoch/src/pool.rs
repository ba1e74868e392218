//! Engines that wait for a collector. To open one takes as long as its processors are many. So one
//! whose collector went is kept for the next.

use crate::driver::SEATS;
use crate::global::Global;
use crate::lock::Lock;
use std::ops::Deref;

/// So many wait at most.
const MOST: usize = 8;

#[allow(clippy::vec_box)] // a box is moved by a word
static WAITING: Lock<Vec<Box<Global>>> = Lock::new(Vec::new());

/// An engine, and what was deferred under it, as long as a collector has it.
pub(crate) struct Lent(Option<Box<Global>>);

impl Lent {
    pub(crate) fn new() -> Lent {
        let waiting = WAITING.lock().pop();
        Lent(waiting.or_else(|| Some(Box::new(Global::new(SEATS)))))
    }

    /// One with `seats` seats, which none waits for.
    pub(crate) fn with_seats(seats: usize) -> Lent {
        Lent(Some(Box::new(Global::new(seats))))
    }
}

impl Deref for Lent {
    type Target = Global;

    fn deref(&self) -> &Global {
        self.0.as_ref().expect("only its drop takes it")
    }
}

/// No thread has a handle or a guard any more, and each gave back its seat.
impl Drop for Lent {
    fn drop(&mut self) {
        let Some(mut global) = self.0.take() else {
            return;
        };
        global.run_all_left(); // where this panics, the engine is closed
        if global.seats() != SEATS {
            return;
        }
        let mut waiting = WAITING.lock();
        if waiting.len() < MOST {
            return waiting.push(global);
        }
        drop(waiting); // to close an engine takes long
    }
}
