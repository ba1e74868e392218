//! A program over crossbeam-epoch.

use crossbeam_epoch::{pin, Atomic, Owned};
use std::sync::atomic::Ordering::{Acquire, SeqCst};

fn main() {
    let shown = Atomic::new(0);
    std::thread::scope(|scope| {
        scope.spawn(|| {
            for _ in 0..1000 {
                let guard = pin();
                let number = unsafe { shown.load(Acquire, &guard).deref() };
                assert!(*number <= 1000);
            }
        });
        for value in 1..=1000 {
            let guard = pin();
            let old = shown.swap(Owned::new(value), SeqCst, &guard);
            unsafe { guard.defer_destroy(old) };
        }
    });
    let last = unsafe { shown.into_owned() };
    println!("replaced {}", *last);
}
