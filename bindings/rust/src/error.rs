//! Why an engine or a reader was not made, and why no entry was put in.

use std::fmt;

/// Why an engine or a reader was not made.
///
/// ```
/// use rcu::Error;
///
/// match rcu::Engine::new() {
///     Ok(engine) => assert!(engine.reader().is_ok()),
///     Err(Error::NoMemory) => println!("later, perhaps"),
///     Err(other) => panic!("{other}"), // there may be more of them some day
/// }
/// ```
#[derive(Clone, Copy, Debug, PartialEq, Eq)]
#[non_exhaustive]
pub enum Error {
    /// Out of memory.
    NoMemory,
    /// An engine has 1 to 4,095 readers.
    BadCount,
    /// As many readers are there as the engine was made for.
    AllTaken,
    /// A map has a bucket, and 2^32 words at most: for each bucket and entry those of a value, and
    /// two more.
    BadSizes,
}

/// Why a call that waits for nobody put no entry into a map: it has no room for one, or none yet.
///
/// ```
/// use rcu::{Engine, Full, MapSizes};
///
/// # fn main() -> Result<(), rcu::Error> {
/// let sizes = MapSizes { buckets: 1, entries: 1, seed: 0 };
/// let (_, map) = Engine::with_map::<u32, u32>(sizes)?;
/// assert_eq!(map.try_insert(1, 10), Ok(None));
/// assert_eq!(map.try_insert(2, 20), Err(Full));
/// # Ok(())
/// # }
/// ```
#[derive(Clone, Copy, Debug, PartialEq, Eq)]
pub struct Full;

/// Why a call that may wait put no entry into a map.
///
/// ```
/// use rcu::{Engine, MapSizes, NotPut};
///
/// # fn main() -> Result<(), rcu::Error> {
/// let sizes = MapSizes { buckets: 1, entries: 1, seed: 0 };
/// let (engine, map) = Engine::with_map::<u32, u32>(sizes)?;
/// assert_eq!(map.insert(1, 10), Ok(None));
/// assert_eq!(map.insert(2, 20), Err(NotPut::Full));
/// let reader = engine.reader()?;
/// let guard = reader.enter();
/// assert_eq!(map.replace(1, 11), Ok(Some(10))); // the section may read 10
/// assert_eq!(map.replace(1, 12), Err(NotPut::InSection)); // it would wait for the guard
/// # Ok(())
/// # }
/// ```
#[derive(Clone, Copy, Debug, PartialEq, Eq)]
pub enum NotPut {
    /// The map has no room for an entry.
    Full,
    /// The thread has a section open, for whose end it would wait.
    InSection,
}

impl From<Full> for NotPut {
    fn from(_full: Full) -> NotPut {
        NotPut::Full
    }
}

impl fmt::Display for Error {
    fn fmt(&self, to: &mut fmt::Formatter<'_>) -> fmt::Result {
        to.write_str(match self {
            Error::NoMemory => "out of memory",
            Error::BadCount => "an engine has 1 to 4,095 readers",
            Error::AllTaken => "as many readers are there as the engine was made for",
            Error::BadSizes => "a map can't have these sizes (buckets, entries, words a value)",
        })
    }
}

impl std::error::Error for Error {}

impl fmt::Display for Full {
    fn fmt(&self, to: &mut fmt::Formatter<'_>) -> fmt::Result {
        to.write_str("the map has no room for an entry")
    }
}

impl std::error::Error for Full {}

impl fmt::Display for NotPut {
    fn fmt(&self, to: &mut fmt::Formatter<'_>) -> fmt::Result {
        match self {
            NotPut::Full => Full.fmt(to),
            NotPut::InSection => to.write_str("the thread waits in a section of its own"),
        }
    }
}

impl std::error::Error for NotPut {}
