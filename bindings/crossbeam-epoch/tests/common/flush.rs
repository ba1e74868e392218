//! Flushes until what was deferred is done.

use crossbeam_epoch::LocalHandle;
use std::sync::atomic::{AtomicUsize, Ordering::SeqCst};
use std::thread;

/// (Many times what it takes, also where others have the processors.)
const ROUNDS: usize = 100_000;
const FLUSHES: usize = 100;

/// Flushes until so many are left.
pub fn flush_until(alive: &AtomicUsize, left: usize, handle: &LocalHandle) {
    for _ in 0..ROUNDS {
        for _ in 0..FLUSHES {
            if alive.load(SeqCst) <= left {
                return;
            }
            handle.pin().flush();
        }
        thread::yield_now();
    }
    panic!("{} are left, and not {left}", alive.load(SeqCst));
}
