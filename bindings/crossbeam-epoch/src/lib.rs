//! The public calls of the crate crossbeam-epoch, over the proved grace-period engine of
//! `include/rcu.h`. A program takes it in place of that crate by one line, and stays as it is:
//!
//! ```toml
//! [patch.crates-io]
//! crossbeam-epoch = { path = "PLACE/OF/THIS/CRATE" }
//! ```
//!
//! ```
//! use crossbeam_epoch::{self as epoch, Atomic, Owned};
//! use std::sync::atomic::Ordering::{AcqRel, Acquire};
//!
//! let limits = Atomic::new((10, 20));
//! let guard = &epoch::pin(); // what is loaded is there as long as the guard
//! let seen = limits.load(Acquire, guard);
//! let old = limits.swap(Owned::new((30, 40)), AcqRel, guard);
//! unsafe { guard.defer_destroy(old) }; // freed once no thread can read it
//! assert_eq!(unsafe { seen.as_ref() }, Some(&(10, 20)));
//! # drop(unsafe { limits.into_owned() });
//! ```
//!
//! While a thread is pinned, a section of the engine is open for it. What it defers gets a cookie,
//! and is done once the cookie is.
//!
//! **What is proved.** The engine: a cookie is done only where each section that was open at its
//! taking has ended.
//!
//! **What is not.** The lines of this crate, and of `rcu::handles` below it. What two threads look
//! at without a lock stands in `src/seat.rs`, and `bindings/model/claim.py` walks all states of it.

#![deny(missing_docs)]
#![deny(clippy::undocumented_unsafe_blocks, unsafe_op_in_unsafe_fn)]

#[cfg(not(all(
    target_arch = "x86_64",
    target_os = "linux",
    target_pointer_width = "64"
)))]
compile_error!("crossbeam-epoch over rcu: the proved library is for Linux on x86-64 alone");

mod atomic;
mod collector;
mod default;
mod driver;
mod exchange;
mod garbage;
mod global;
mod guard;
mod local;
mod lock;
mod owned;
mod pointable;
mod pool;
mod seat;
mod shared;
mod word;

pub use atomic::Atomic;
pub use collector::{Collector, LocalHandle};
pub use default::{default_collector, is_pinned, pin};
pub use exchange::CompareExchangeError;
#[allow(deprecated)]
pub use exchange::{CompareAndSetError, CompareAndSetOrdering};
pub use guard::{unprotected, Guard};
pub use owned::Owned;
pub use pointable::{Pointable, Pointer};
pub use shared::Shared;
