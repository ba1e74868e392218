//! Updates of the map of an engine, under its lock: where there is room, and how to wait for it.
//!
//! A full map can replace: of the nodes that have no entry at least one is free, or is once a grace
//! period is over.

use crate::error::{Full, NotPut};
use crate::inner::{Inner, Locked};
use crate::words::Words;
use std::num::NonZeroU64;

/// How an entry is put into the map.
#[derive(Clone, Copy)]
pub(crate) enum How<W> {
    /// If none has its key.
    Insert,
    /// In the place of the one that has its key.
    Replace,
    /// Either.
    Put,
    /// In the place of the one that has its key, if that has this value.
    Compare(W),
}

/// Why an entry was not put in: there is no room for it, or there may be once this cookie is done.
pub(crate) enum Refused {
    Full,
    Until(u64),
}

impl Inner {
    /// Whether an entry of this key is one too many: none has the key, and there are as many as the
    /// map has room for.
    fn is_one_too_many<W: Words>(&self, locked: &mut Locked, key: NonZeroU64) -> bool {
        locked.rcu.map_len() == self.entries && locked.rcu.map_find::<W>(key).is_none()
    }

    /// Puts an entry in so, and returns the value that its key had.
    fn put_under<W: Words>(
        &self,
        locked: &mut Locked,
        how: How<W>,
        (key, value): (NonZeroU64, W),
    ) -> Result<Option<W>, Refused> {
        let cookie = locked.rcu.map_age();
        let done = match how {
            How::Insert => locked.rcu.map_insert(key, value),
            How::Put => locked.rcu.map_put(key, value),
            How::Replace => locked.rcu.map_replace(key, value),
            How::Compare(current) => locked.rcu.map_compare_replace(key, current, value),
        };
        match done {
            Err(Full) if self.is_one_too_many::<W>(locked, key) => Err(Refused::Full),
            Err(Full) => Err(Refused::Until(cookie)),
            Ok(old) => Ok(old),
        }
    }

    /// Puts an entry into the map, and waits for nobody.
    pub(crate) fn put_once<W: Words>(
        &self,
        how: How<W>,
        key: NonZeroU64,
        value: W,
    ) -> Result<Option<W>, Refused> {
        self.put_under(&mut self.lock(), how, (key, value))
    }

    /// Makes grace periods until the cookie is done, if the thread has no section open.
    pub(crate) fn wait_until(&self, cookie: u64) -> Result<(), NotPut> {
        let locked = self.lock();
        if locked.is_in_own_section() {
            return Err(NotPut::InSection);
        }
        drop(self.wait_for(locked, cookie));
        Ok(())
    }

    /// Puts an entry into the map. If no node is free, but one will be, it waits for that.
    pub(crate) fn put<W: Words>(
        &self,
        how: How<W>,
        key: NonZeroU64,
        value: W,
    ) -> Result<Option<W>, NotPut> {
        loop {
            match self.put_once(how, key, value) {
                Ok(old) => return Ok(old),
                Err(Refused::Full) => return Err(NotPut::Full),
                Err(Refused::Until(cookie)) => self.wait_until(cookie)?,
            }
        }
    }

    /// Puts an entry into the map. If no node is free, it goes on with the grace periods, and
    /// waits for none.
    pub(crate) fn try_put<W: Words>(
        &self,
        how: How<W>,
        key: NonZeroU64,
        value: W,
    ) -> Result<Option<W>, Full> {
        let mut locked = self.lock();
        match self.put_under(&mut locked, how, (key, value)) {
            Ok(old) => return Ok(old),
            Err(Refused::Until(cookie)) if !locked.making => locked.step(cookie),
            Err(_) => return Err(Full),
        }
        self.put_under(&mut locked, how, (key, value))
            .map_err(|_| Full)
    }
}
