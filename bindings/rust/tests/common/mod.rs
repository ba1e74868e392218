//! Data of which each test sees whether it is there.

use std::sync::atomic::{AtomicUsize, Ordering::SeqCst};
use std::sync::Arc;

/// Data that counts how many there are, and is seen to be whole.
#[derive(Debug)]
pub struct Counted {
    pub value: u64,
    pub twice: u64,
    alive: Arc<AtomicUsize>,
}

impl Counted {
    pub fn new(value: u64, alive: &Arc<AtomicUsize>) -> Counted {
        alive.fetch_add(1, SeqCst);
        Counted {
            value,
            twice: 2 * value,
            alive: Arc::clone(alive),
        }
    }
}

impl Drop for Counted {
    fn drop(&mut self) {
        self.twice = 2 * self.value + 1;
        self.alive.fetch_sub(1, SeqCst);
    }
}

pub fn none_alive() -> Arc<AtomicUsize> {
    Arc::new(AtomicUsize::new(0))
}
