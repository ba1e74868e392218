//! What is deferred, in its order.

use std::any::Any;
use std::cell::Cell;
use std::collections::VecDeque;
use std::mem;
use std::process::abort;
use std::sync::Arc;

thread_local! {
    /// Whether the thread does what is deferred just now.
    static PERFORMS: Cell<bool> = const { Cell::new(false) };
}

/// What is done once no section can come to it.
pub(crate) enum Deferred {
    Run(Box<dyn FnOnce() + Send>),
    Drop(Arc<dyn Any + Send + Sync>),
}

/// What was taken to be done, and the number of its first among all that were ever deferred.
pub(crate) struct Batch {
    first: u64,
    items: Vec<Deferred>,
}

/// What is deferred and was not taken yet, each with its cookie; and what is being done.
#[derive(Default)]
pub(crate) struct Queue {
    waiting: VecDeque<(u64, Deferred)>,
    /// How many were ever deferred.
    queued: u64,
    /// Of each batch that is being done, the number of its first.
    batches: Vec<u64>,
}

/// Ends the process where what is deferred panics: others wait for what comes behind it.
struct NoPanic;

impl Drop for NoPanic {
    fn drop(&mut self) {
        eprintln!("rcu: what was deferred panicked");
        abort();
    }
}

/// Whether this is called by what is deferred.
pub(crate) fn is_performing() -> bool {
    PERFORMS.get()
}

impl Deferred {
    fn perform(self) {
        match self {
            Deferred::Run(callback) => callback(),
            Deferred::Drop(data) => drop(data),
        }
    }
}

impl Batch {
    /// Does all of it, and returns its number. The engine's lock is let go.
    pub(crate) fn perform(self) -> u64 {
        let bomb = NoPanic;
        let outer = PERFORMS.replace(true);
        self.items.into_iter().for_each(Deferred::perform);
        PERFORMS.set(outer);
        mem::forget(bomb);
        self.first
    }

    pub(crate) fn len(&self) -> usize {
        self.items.len()
    }
}

impl Queue {
    pub(crate) fn push(&mut self, cookie: u64, what: Deferred) {
        self.waiting.push_back((cookie, what));
        self.queued += 1;
    }

    pub(crate) fn is_empty(&self) -> bool {
        self.waiting.is_empty()
    }

    /// How many were ever deferred.
    pub(crate) fn queued(&self) -> u64 {
        self.queued
    }

    /// The cookie of what was deferred last, and was not taken.
    pub(crate) fn last(&self) -> Option<u64> {
        self.waiting.back().map(|it| it.0)
    }

    /// The number, among all that were ever deferred, of the first that was not taken yet.
    fn first(&self) -> u64 {
        self.queued - self.waiting.len() as u64
    }

    /// Whether all that was deferred before this number is done.
    pub(crate) fn is_performed(&self, upto: u64) -> bool {
        self.first() >= upto && self.batches.iter().all(|&first| first >= upto)
    }

    /// Takes what may be done by now, so much at most.
    pub(crate) fn take(&mut self, most: usize, mut is_done: impl FnMut(u64) -> bool) -> Batch {
        let first = self.first();
        let mut items = Vec::new();
        while items.len() < most && self.waiting.front().is_some_and(|it| is_done(it.0)) {
            items.extend(self.waiting.pop_front().map(|it| it.1));
        }
        self.batches.push(first);
        Batch { first, items }
    }

    /// The batch of this number is done.
    pub(crate) fn finish(&mut self, batch: u64) {
        if let Some(place) = self.batches.iter().position(|&it| it == batch) {
            self.batches.swap_remove(place);
        }
    }
}
