//! Threads push and pop many nodes of a stack and of a queue. Each value is popped once, and all
//! that was popped is freed by the end: the address sanitizer sees to it.
//!
//! Use: nodes [HOW MANY]

use crossbeam_epoch as epoch;
use epoch::{pin, Collector};
use std::env;
use std::sync::atomic::{AtomicU64, Ordering::Relaxed};
use std::thread;

#[path = "../tests/common/nodes.rs"]
mod nodes;

use nodes::{Pile, Queue, Stack};

const THREADS: u64 = 4;

/// Adds up what is popped.
fn push_and_pop(pile: &impl Pile, count: u64) -> u64 {
    let (collector, sum) = (Collector::new(), AtomicU64::new(0));
    thread::scope(|scope| {
        for me in 0..THREADS {
            let (collector, sum) = (&collector, &sum);
            scope.spawn(move || {
                let handle = collector.register();
                for value in (me..count).step_by(THREADS as usize) {
                    pile.push(value, &handle.pin());
                    if value % 3 > 0 {
                        sum.fetch_add(pile.pop(&handle.pin()).unwrap_or(0), Relaxed);
                    }
                }
            });
        }
    });
    let handle = collector.register();
    while let Some(value) = pile.pop(&handle.pin()) {
        sum.fetch_add(value, Relaxed);
    }
    drop(collector);
    sum.into_inner()
}

fn main() {
    let count = env::args().nth(1).map_or(Ok(100_000), |it| it.parse());
    let count: u64 = count.expect("a number");
    drop(pin());
    for (what, sum) in [
        ("stack", push_and_pop(&Stack::new(), count)),
        ("queue", push_and_pop(&Queue::new(), count)),
    ] {
        assert_eq!(sum, count * (count - 1) / 2, "{what}");
        println!("{what}: {count} nodes");
    }
}
