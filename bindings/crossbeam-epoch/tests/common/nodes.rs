//! A stack and a queue of nodes, over the crate that whoever includes this names `epoch`.

use super::epoch::{Atomic, Guard, Owned, Shared};
use std::mem::MaybeUninit;
use std::ptr;
use std::sync::atomic::Ordering::{AcqRel, Acquire, Relaxed, Release};

/// What threads push and pop.
pub trait Pile: Send + Sync {
    fn push(&self, value: u64, guard: &Guard);
    fn pop(&self, guard: &Guard) -> Option<u64>;
}

struct Item {
    value: u64,
    below: Atomic<Item>,
}

/// Treiber's stack.
pub struct Stack {
    top: Atomic<Item>,
}

impl Stack {
    pub fn new() -> Stack {
        Stack {
            top: Atomic::null(),
        }
    }
}

impl Pile for Stack {
    fn push(&self, value: u64, guard: &Guard) {
        let below = Atomic::null();
        let mut item = Owned::new(Item { value, below });
        loop {
            let top = self.top.load(Relaxed, guard);
            item.below.store(top, Relaxed);
            let pushed = self
                .top
                .compare_exchange(top, item, Release, Relaxed, guard);
            match pushed {
                Ok(_) => return,
                Err(error) => item = error.new,
            }
        }
    }

    fn pop(&self, guard: &Guard) -> Option<u64> {
        loop {
            let top = self.top.load(Acquire, guard);
            let item = unsafe { top.as_ref() }?;
            let below = item.below.load(Relaxed, guard);
            let popped = self
                .top
                .compare_exchange(top, below, AcqRel, Relaxed, guard);
            if popped.is_ok() {
                let value = item.value;
                unsafe { guard.defer_destroy(top) };
                return Some(value);
            }
        }
    }
}

struct Link {
    /// The first one has none.
    value: MaybeUninit<u64>,
    next: Atomic<Link>,
}

/// The queue of Michael and Scott. Its first link is one whose value was popped.
pub struct Queue {
    head: Atomic<Link>,
    tail: Atomic<Link>,
}

impl Queue {
    pub fn new() -> Queue {
        let first = Atomic::new(Link {
            value: MaybeUninit::uninit(),
            next: Atomic::null(),
        });
        Queue {
            head: first.clone(),
            tail: first,
        }
    }

    /// The tail falls behind no more where `link` is next to it.
    fn help(&self, tail: Shared<'_, Link>, next: Shared<'_, Link>, guard: &Guard) {
        let _ = self
            .tail
            .compare_exchange(tail, next, Release, Relaxed, guard);
    }
}

impl Pile for Queue {
    fn push(&self, value: u64, guard: &Guard) {
        let (value, next) = (MaybeUninit::new(value), Atomic::null());
        let link = Owned::new(Link { value, next }).into_shared(guard);
        loop {
            let tail = self.tail.load(Acquire, guard);
            let last = unsafe { tail.deref() };
            let next = last.next.load(Acquire, guard);
            if !next.is_null() {
                self.help(tail, next, guard);
                continue;
            }
            let linked = last
                .next
                .compare_exchange(Shared::null(), link, Release, Relaxed, guard);
            if linked.is_ok() {
                return self.help(tail, link, guard);
            }
        }
    }

    fn pop(&self, guard: &Guard) -> Option<u64> {
        loop {
            let head = self.head.load(Acquire, guard);
            let next = unsafe { head.deref() }.next.load(Acquire, guard);
            let link = unsafe { next.as_ref() }?;
            let tail = self.tail.load(Relaxed, guard);
            if ptr::eq(tail.as_raw(), head.as_raw()) {
                self.help(tail, next, guard);
            }
            let popped = self
                .head
                .compare_exchange(head, next, Release, Relaxed, guard);
            if popped.is_ok() {
                unsafe { guard.defer_destroy(head) };
                return Some(unsafe { link.value.assume_init() });
            }
        }
    }
}

impl Drop for Queue {
    fn drop(&mut self) {
        let first = std::mem::take(&mut self.head);
        drop(unsafe { first.try_into_owned() }); // all others were popped
    }
}
