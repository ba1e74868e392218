//! Read-copy-update over the proved grace-period engine of `include/rcu.h`: readers read shared
//! data without a lock, and what is replaced is dropped once no section can come to it.
//!
//! ```
//! use rcu::{Engine, Shared};
//! use std::sync::Arc;
//! use std::thread;
//!
//! # fn main() -> Result<(), rcu::Error> {
//! let engine = Engine::new()?;
//! let limits = Arc::new(Shared::new(&engine, (10, 20)));
//!
//! let mut reader = engine.reader()?;
//! let read = Arc::clone(&limits);
//! let thread = thread::spawn(move || {
//!     for _ in 0..1000 {
//!         let (low, high) = reader.read(|guard| *read.load(guard));
//!         assert!(low < high);
//!     }
//! });
//! limits.replace(&engine, (30, 40)); // (10, 20) is deferred to be dropped
//! engine.run_deferred(); // waits for a grace period, and drops it
//! thread.join().unwrap();
//! # Ok(())
//! # }
//! ```
//!
//! Who replaces and defers does now and then what is due, and waits for nobody ([`Engine::defer`]).
//! A program with much to defer has a thread for it ([`Engine::drive`]). A [`HashMap`] has any keys
//! and values, and grows with its entries:
//!
//! ```
//! use rcu::{Engine, HashMap};
//!
//! # fn main() -> Result<(), rcu::Error> {
//! let engine = Engine::new()?;
//! let ages = HashMap::new(&engine);
//! ages.put("Ada".to_string(), 36);
//! let mut reader = engine.reader()?;
//! reader.read(|guard| assert_eq!(ages.get(guard, "Ada"), Some(&36))); // takes no lock
//! # Ok(())
//! # }
//! ```
//!
//! An engine may have a table of words too, of a fixed size, whose lookups are proved ([`Map`]).
//!
//! **What is proved.** The engine: that a cookie is done only where each section that was open at
//! its taking has ended. And its [`Map`]. The page docs/C.md of its repository says what of it holds
//! for a caller.
//!
//! **What is not.** The lines of this crate. They keep what the header asks of a caller: a seat is
//! used by one thread at a time, the engine under its lock, both go at the end. And they use the
//! engine so that no safe program reads what was dropped: a reference borrows its section, a
//! section its reader, and what is replaced is kept until a cookie that was taken afterwards is
//! done.

#![deny(missing_docs)]
#![deny(clippy::undocumented_unsafe_blocks)]

#[cfg(not(all(
    target_arch = "x86_64",
    target_os = "linux",
    target_pointer_width = "64"
)))]
compile_error!("rcu: the proved library is for Linux on x86-64 alone");

mod deferred;
mod engine;
mod error;
#[allow(clippy::undocumented_unsafe_blocks)] // its head has the reason for all
pub mod handles;
mod hash_map;
mod inner;
mod line;
mod map;
mod marks;
mod pairs;
mod reader;
#[allow(clippy::undocumented_unsafe_blocks)] // its head has the reason for all
pub mod replica;
mod shared;
mod updates;
mod words;

pub use engine::Engine;
pub use error::{Error, Full, NotPut};
pub use hash_map::HashMap;
pub use map::{Entries, Map, MapSizes};
pub use pairs::{Pair, Pairs};
pub use rcu_sys as raw;
pub use reader::{Guard, Reader};
pub use shared::Shared;
pub use words::{Key, Value, Word, Words};
