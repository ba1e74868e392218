//! The handles of C as values that are owned. A refused call panics, so all of it is safe to call.
//!
//! What the header asks of their caller is kept here, and this is why each call below is sound:
//! - *No open handle is opened, and no copy of one that was closed is used.* A value's handle is
//!   open from its making to its drop, which closes it, and nobody else has it.
//! - *One call at a time on each handle.* An engine's calls take `&mut`. A seat's take `&`, but the
//!   value is not `Sync`, so one thread at a time has it; and no call of C calls back.
//! - *What pointers point to is there, and nobody else's.* It is a local of the function here.
//!
//! Most programs want [`Engine`](crate::Engine). This is for libraries that make their own.
//!
//! ```
//! use rcu::handles::EngineHandle;
//!
//! # fn main() -> Result<(), rcu::Error> {
//! let mut rcu = EngineHandle::open(2)?; // processors 0 and 1
//! let (boot, seat) = (rcu.seat(0)?, rcu.seat(1)?);
//! boot.idle();
//! rcu.arrive(&seat);
//! let cookie = rcu.take();
//! rcu.begin();
//! seat.enter();
//! assert!(rcu.is_awaited(1));
//! seat.exit();
//! seat.quiesce();
//! assert!(!rcu.is_awaited(1));
//! rcu.end();
//! assert!(rcu.is_done(cookie));
//! # Ok(())
//! # }
//! ```

use crate::error::{Error, Full};
use crate::map::MapSizes;
use crate::raw;
use crate::words::Words;
use std::cell::{Cell, UnsafeCell};
use std::fmt;
use std::num::NonZeroU64;
use std::ptr::{self, null_mut};

/// What a call that puts an entry into a map returns: the value of the one that had its key.
pub type Put<W> = Result<Option<W>, Full>;

/// No grace period begins at this number, which none reaches.
const LAST: u64 = 1 << 62;

/// An open engine.
#[must_use]
pub struct EngineHandle(raw::rcu_t);

/// The seat of a processor. An engine takes no seat of another one: by the identity that it has.
#[must_use]
pub struct SeatHandle {
    raw: UnsafeCell<raw::rcu_seat_t>,
    cpu: usize,
    /// The number that the seat saw when it last got quiet, or woke.
    quiet_at: Cell<u64>,
}

// SAFETY: the header lets handles pass between threads.
unsafe impl Send for EngineHandle {}
// SAFETY: as above.
unsafe impl Send for SeatHandle {}

#[cold]
fn refused(call: &str, fault: u32) -> ! {
    panic!("{call}: fault {fault}");
}

/// A call that its caller's state does not allow to be refused.
#[inline(always)]
fn must(call: &str, fault: u32) {
    if fault != 0 {
        refused(call, fault);
    }
}

/// The words of an entry, one behind another: its key, and those of its value.
#[repr(C)]
struct Entry<W> {
    key: u64,
    value: W,
}

impl<W: Words> Entry<W> {
    const LENGTH: usize = 1 + W::COUNT;

    /// Room for one that a call writes.
    const NONE: Entry<W> = Entry {
        key: 0,
        value: W::ZEROS,
    };

    /// Where its words are. They are as many as `LENGTH`: `W` is an array of `u64`.
    #[inline]
    fn words(&mut self) -> *mut u64 {
        ptr::from_mut(self).cast()
    }

    /// The value, where a call wrote an entry.
    #[inline]
    fn value(self) -> Option<W> {
        (self.key > 0).then_some(self.value)
    }
}

/// A call of C that puts an entry into a map.
type PutCall = unsafe extern "C" fn(*mut raw::rcu_t, *const u64, usize, *mut u64, usize) -> u32;

// SAFETY of the calls here and below: as the head of the file says.
impl EngineHandle {
    /// An engine of so many processors, of which 0 is online.
    ///
    /// # Errors
    /// [`Error::BadCount`] at none or more than 4,096, [`Error::NoMemory`] where memory is out.
    pub fn open(cpus: u32) -> Result<EngineHandle, Error> {
        let mut raw = raw::rcu_t { at: null_mut() };
        match unsafe { raw::rcu_open(cpus, LAST, &mut raw) } {
            0 => Ok(EngineHandle(raw)),
            raw::RCU_TOO_MANY_CPUS => Err(Error::BadCount),
            _ => Err(Error::NoMemory),
        }
    }

    /// An engine as [`EngineHandle::open`], with a map, which is empty. A value has so many words.
    /// (One that is opened with no map has one with room for no entry.)
    ///
    /// # Errors
    /// Those too, and [`Error::BadSizes`].
    pub fn open_map(cpus: u32, sizes: MapSizes, words: usize) -> Result<EngineHandle, Error> {
        let sizes = raw::rcu_map_sizes_t {
            buckets: sizes.buckets as u64,
            entries: sizes.entries as u64,
            seed: sizes.seed,
            words: (words as u64).saturating_add(1),
        };
        let mut raw = raw::rcu_t { at: null_mut() };
        match unsafe { raw::rcu_open_map(cpus, LAST, &sizes, &mut raw) } {
            0 => Ok(EngineHandle(raw)),
            raw::RCU_BAD_SIZES => Err(Error::BadSizes),
            raw::RCU_TOO_MANY_CPUS => Err(Error::BadCount),
            _ => Err(Error::NoMemory),
        }
    }

    /// The seat of a processor, which is dealt once.
    ///
    /// # Errors
    /// [`Error::NoMemory`] where memory is out.
    ///
    /// # Panics
    /// Where there is no such processor, or its seat was dealt before. So too below: where the
    /// call of C is refused.
    pub fn seat(&mut self, cpu: usize) -> Result<SeatHandle, Error> {
        let mut raw = raw::rcu_seat_t { at: null_mut() };
        let number = u32::try_from(cpu).unwrap_or(u32::MAX);
        match unsafe { raw::rcu_seat_open(&mut self.0, number, &mut raw) } {
            raw::RCU_NO_MEMORY => return Err(Error::NoMemory),
            fault => must("seat", fault),
        }
        Ok(SeatHandle {
            raw: UnsafeCell::new(raw),
            cpu,
            quiet_at: Cell::new(0),
        })
    }

    /// The seat's processor comes online.
    pub fn arrive(&mut self, seat: &SeatHandle) {
        must("arrive", unsafe {
            raw::rcu_arrive(&mut self.0, seat.raw.get())
        });
    }

    /// The seat's processor goes offline, in no section.
    pub fn depart(&mut self, seat: &SeatHandle) {
        let mut moved = 0;
        must("depart", unsafe {
            raw::rcu_depart(&mut self.0, seat.raw.get(), &mut moved)
        });
    }

    /// A cookie, which is done once each section that is open now has ended.
    pub fn take(&mut self) -> u64 {
        unsafe { raw::rcu_take(&mut self.0) }
    }

    /// Whether a cookie is done.
    pub fn is_done(&mut self, cookie: u64) -> bool {
        unsafe { raw::rcu_poll(&mut self.0, cookie) }
    }

    /// Begins a grace period. Returns how many processors it awaits.
    pub fn begin(&mut self) -> u32 {
        let (mut number, mut awaited) = (0, 0);
        must("begin", unsafe {
            raw::rcu_begin(&mut self.0, &mut number, &mut awaited)
        });
        awaited
    }

    /// Ends the grace period, which awaits nobody. Returns the new number.
    pub fn end(&mut self) -> u64 {
        let mut number = 0;
        must("end", unsafe { raw::rcu_end(&mut self.0, &mut number) });
        number
    }

    /// Whether the grace period awaits the processor, as the engine knows by now.
    pub fn awaits(&mut self, cpu: usize) -> bool {
        unsafe { raw::rcu_awaits(&mut self.0, cpu as u32) }
    }

    /// Looks at a processor. Returns whether it is awaited still. (What a collection finds does not
    /// tell: one that woke since the begin is not awaited, and may have passed no quiescent state.)
    pub fn is_awaited(&mut self, cpu: usize) -> bool {
        let mut found = 0;
        must("collect", unsafe {
            raw::rcu_collect(&mut self.0, cpu as u32, &mut found)
        });
        self.awaits(cpu)
    }

    /// Looks at each processor that is awaited. Returns how many still are.
    pub fn collect_all(&mut self) -> u32 {
        let mut left = 0;
        must("collect", unsafe {
            raw::rcu_collect_all(&mut self.0, &mut left)
        });
        left
    }

    /// Says that who drives sleeps for the first processor that is awaited, and then looks as
    /// [`EngineHandle::collect_all`]. Returns whether that one still is, so that the caller may
    /// sleep until [`SeatHandle::wakes`] tells its thread; and how many still are.
    pub fn may_sleep(&mut self) -> (bool, u32) {
        let (mut sleeps, mut left) = (0, 0);
        must("may sleep", unsafe {
            raw::rcu_driver_prepare_wait(&mut self.0, &mut sleeps, &mut left)
        });
        (sleeps > 0, left)
    }

    /// Lists the awaited processors, in order, as many as there is room for.
    pub fn awaited<'a>(&mut self, room: &'a mut [u32]) -> &'a [u32] {
        let mut count = 0;
        must("the awaited", unsafe {
            raw::rcu_awaited_list(&mut self.0, room.as_mut_ptr(), room.len(), &mut count)
        });
        &room[..count as usize]
    }

    /// Puts an entry into the map, and returns the value of the one that had its key.
    fn map_put_by<W: Words>(&mut self, call: PutCall, key: NonZeroU64, value: W) -> Put<W> {
        let (mut old, mut entry) = (
            Entry::NONE,
            Entry {
                key: key.get(),
                value,
            },
        );
        let (length, room) = (Entry::<W>::LENGTH, Entry::<W>::LENGTH);
        match unsafe { call(&mut self.0, entry.words(), length, old.words(), room) } {
            raw::RCU_MAP_FULL => Err(Full),
            fault => {
                must("put", fault);
                Ok(old.value())
            }
        }
    }

    /// Puts an entry into the map where none has its key. Returns the value of the one that has it:
    /// then nothing else happened. Its value has as many words as those that the map was opened
    /// for. So too below.
    ///
    /// # Errors
    /// [`Full`] if no node is free, or if the map is full and no entry has the key.
    pub fn map_insert<W: Words>(&mut self, key: NonZeroU64, value: W) -> Put<W> {
        self.map_put_by(raw::rcu_map_insert, key, value)
    }

    /// Puts an entry in the place of the one that has its key, and returns the value of that. Where
    /// none has it, nothing happens.
    ///
    /// # Errors
    /// [`Full`].
    pub fn map_replace<W: Words>(&mut self, key: NonZeroU64, value: W) -> Put<W> {
        self.map_put_by(raw::rcu_map_replace, key, value)
    }

    /// Puts an entry in, in the place of the one that has its key where there is one. Returns the
    /// value of that.
    ///
    /// # Errors
    /// [`Full`].
    pub fn map_put<W: Words>(&mut self, key: NonZeroU64, value: W) -> Put<W> {
        self.map_put_by(raw::rcu_map_put, key, value)
    }

    /// Puts an entry in the place of the one that has its key, if that has the value `current`.
    /// Returns the value that the key had.
    ///
    /// # Errors
    /// [`Full`].
    pub fn map_compare_replace<W: Words>(
        &mut self,
        key: NonZeroU64,
        current: W,
        value: W,
    ) -> Put<W> {
        let key = key.get();
        let (mut entry, mut old) = (
            Entry { key, value },
            Entry {
                key,
                value: current,
            },
        );
        let (length, room) = (Entry::<W>::LENGTH, Entry::<W>::LENGTH);
        match unsafe {
            raw::rcu_map_compare_replace(&mut self.0, entry.words(), length, old.words(), room)
        } {
            raw::RCU_MAP_FULL => Err(Full),
            0 | raw::RCU_ENTRY_CHANGED => Ok(old.value()),
            fault => refused("compare_replace", fault),
        }
    }

    /// Takes the entry of a key out, if it has the value `current`. Returns the value that the key
    /// had.
    pub fn map_compare_remove<W: Words>(&mut self, key: NonZeroU64, current: W) -> Option<W> {
        let mut old = Entry {
            key: key.get(),
            value: current,
        };
        let room = Entry::<W>::LENGTH;
        match unsafe { raw::rcu_map_compare_remove(&mut self.0, old.words(), room) } {
            0 | raw::RCU_ENTRY_CHANGED => old.value(),
            fault => refused("compare_remove", fault),
        }
    }

    /// Takes the entry of a key out. Returns its value. Its node is free at the first
    /// [`EngineHandle::map_age`] where the cookie of an earlier one is done.
    pub fn map_remove<W: Words>(&mut self, key: NonZeroU64) -> Option<W> {
        let (mut old, room) = (Entry::NONE, Entry::<W>::LENGTH);
        must("remove", unsafe {
            raw::rcu_map_remove(&mut self.0, key.get(), old.words(), room)
        });
        old.value()
    }

    /// The value of a key, as it is now.
    pub fn map_find<W: Words>(&mut self, key: NonZeroU64) -> Option<W> {
        let (mut entry, room) = (Entry::NONE, Entry::<W>::LENGTH);
        must("find", unsafe {
            raw::rcu_map_find(&mut self.0, key.get(), entry.words(), room)
        });
        entry.value()
    }

    /// How many entries the map has.
    pub fn map_len(&mut self) -> usize {
        unsafe { raw::rcu_map_len(&mut self.0) as usize }
    }

    /// Frees the nodes of replaced and removed entries whose grace period is over. Returns the
    /// cookie at which the others can be freed.
    pub fn map_age(&mut self) -> u64 {
        let mut cookie = 0;
        must("reclaim", unsafe {
            raw::rcu_map_reclaim(&mut self.0, &mut cookie)
        });
        cookie
    }
}

impl Drop for EngineHandle {
    fn drop(&mut self) {
        unsafe { raw::rcu_close(&mut self.0) };
    }
}

impl SeatHandle {
    /// The seat's processor.
    #[inline]
    pub fn cpu(&self) -> usize {
        self.cpu
    }

    /// Opens a section, or nests one deeper.
    #[inline]
    pub fn enter(&self) {
        must("enter", unsafe { raw::rcu_seat_enter(self.raw.get()) });
    }

    /// Leaves the innermost section.
    #[inline]
    pub fn exit(&self) {
        must("exit", unsafe { raw::rcu_seat_exit(self.raw.get()) });
    }

    /// Whether a section is open.
    #[inline]
    pub fn is_in_section(&self) -> bool {
        unsafe { raw::rcu_seat_depth(self.raw.get()) > 0 }
    }

    /// Passes a quiescent state, with a full fence around it.
    pub fn quiesce(&self) {
        let mut number = 0;
        must("quiescent state", unsafe {
            raw::rcu_seat_quiesce(self.raw.get(), &mut number)
        });
        self.quiet_at.set(number);
    }

    /// As [`SeatHandle::quiesce`], by a load alone where no grace period began or ended since the
    /// last one. Returns whether one did and one runs, so that it may await the seat.
    #[inline]
    pub fn quiesce_since(&self) -> bool {
        let mut number = self.quiet_at.get();
        must("quiescent state", unsafe {
            raw::rcu_seat_quiesce_since(self.raw.get(), &mut number)
        });
        self.quiet_at.replace(number) != number && number % 4 != 0
    }

    /// Whether who drives sleeps until this seat is quiet: its thread asks so once it is quiet, idle
    /// or offline, and wakes who drives.
    #[inline]
    pub fn wakes(&self) -> bool {
        let mut wakes = 0;
        must("wakes", unsafe {
            raw::rcu_seat_should_wake_driver(self.raw.get(), &mut wakes)
        });
        wakes > 0
    }

    /// Gets idle: no grace period awaits the processor until it wakes.
    #[inline]
    pub fn idle(&self) {
        must("idle", unsafe { raw::rcu_seat_idle(self.raw.get()) });
    }

    /// Wakes, with a full fence behind it.
    #[inline]
    pub fn wake(&self) {
        let mut number = 0;
        must("wake", unsafe {
            raw::rcu_seat_wake(self.raw.get(), &mut number)
        });
        self.quiet_at.set(number);
    }

    /// A cookie, as [`EngineHandle::take`], without the engine. A full fence stands before it.
    #[inline]
    pub fn take(&self) -> u64 {
        unsafe { raw::rcu_seat_take(self.raw.get()) }
    }

    /// Whether a cookie is done, as [`EngineHandle::is_done`], without the engine.
    #[inline]
    pub fn is_done(&self, cookie: u64) -> bool {
        unsafe { raw::rcu_seat_poll(self.raw.get(), cookie) }
    }

    /// The value of a key in the map, as the open section finds it.
    #[inline]
    pub fn map_get<W: Words>(&self, key: NonZeroU64) -> Option<W> {
        let (mut entry, room) = (Entry::NONE, Entry::<W>::LENGTH);
        must("get", unsafe {
            raw::rcu_map_get(self.raw.get(), key.get(), entry.words(), room)
        });
        entry.value()
    }

    /// The entry behind a key in the map's order, as the open section finds it: its key and its
    /// value. 0 stands before the first one.
    #[inline]
    pub fn map_next<W: Words>(&self, key: u64) -> Option<(NonZeroU64, W)> {
        let (mut entry, room) = (Entry::NONE, Entry::<W>::LENGTH);
        must("next", unsafe {
            raw::rcu_map_next(self.raw.get(), key, entry.words(), room)
        });
        NonZeroU64::new(entry.key).map(|it| (it, entry.value))
    }
}

impl Drop for SeatHandle {
    fn drop(&mut self) {
        unsafe { raw::rcu_seat_close(self.raw.get()) };
    }
}

impl fmt::Debug for EngineHandle {
    fn fmt(&self, to: &mut fmt::Formatter<'_>) -> fmt::Result {
        to.debug_struct("EngineHandle").finish_non_exhaustive()
    }
}

impl fmt::Debug for SeatHandle {
    fn fmt(&self, to: &mut fmt::Formatter<'_>) -> fmt::Result {
        to.debug_struct("SeatHandle")
            .field("cpu", &self.cpu)
            .finish_non_exhaustive()
    }
}
