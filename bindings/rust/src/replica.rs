//! A replica of one engine on several machines, by the calls `rcu_replica_open` to
//! `rcu_replica_close`, whose contracts are proved.
//!
//! What the header asks of their caller is kept here, and this is why each call below is sound: the
//! handle is open from its making to its drop, which closes it, and nobody else has it; each call
//! takes `&mut`, so one goes at a time; and what pointers point to is a local, or lent by the
//! caller.

use crate::error::Error;
use crate::raw;
use std::fmt;
use std::ptr::null_mut;

/// No grace period begins at this number, which none reaches.
const LAST: u64 = 1 << 62;

/// Why a call of a replica is refused. It has changed nothing.
#[derive(Clone, Copy, Debug, PartialEq, Eq)]
#[non_exhaustive]
pub enum Refused {
    /// There is no processor of this number.
    BadCpu,
    /// A grace period runs.
    Running,
    /// No grace period runs.
    Idle,
    /// A processor is awaited.
    Waiting,
    /// The last number is reached.
    Exhausted,
    /// Processor 0 never departs.
    BootStays,
    /// Two replicas did not begin alike.
    NotAlike,
}

impl fmt::Display for Refused {
    fn fmt(&self, to: &mut fmt::Formatter<'_>) -> fmt::Result {
        to.write_str(match self {
            Refused::BadCpu => "there is no processor of this number",
            Refused::Running => "a grace period runs",
            Refused::Idle => "no grace period runs",
            Refused::Waiting => "a processor is awaited",
            Refused::Exhausted => "the last number is reached",
            Refused::BootStays => "processor 0 never departs",
            Refused::NotAlike => "the replicas did not begin alike",
        })
    }
}

impl std::error::Error for Refused {}

/// What a report did.
#[derive(Clone, Copy, Debug, PartialEq, Eq)]
pub enum Answer {
    /// The processor was awaited, and others still are.
    Taken,
    /// The processor was the only one awaited.
    Last,
    /// The processor is not awaited.
    Repeat,
    /// The report is of another grace period.
    Stale,
}

/// A replica: it awaits whom a grace period named at its begin, less those that it heard.
///
/// Replicas that began alike and heard the same processors await the same ones, in whatever order,
/// however often: that is proved. So their machines need no more of their messages than that each
/// comes at last.
///
/// ```
/// use rcu::replica::{Refused, Replica};
///
/// # fn main() -> Result<(), Box<dyn std::error::Error>> {
/// let (mut here, mut there) = (Replica::open(100)?, Replica::open(100)?);
/// let number = here.begin([0, 7, 99])?;
/// there.begin([0, 7, 99])?;
/// here.report(7, number)?;
/// there.report(99, number)?;
/// here.merge(&mut there)?; // it has heard what both heard
/// assert_eq!(here.awaited(), [0]);
/// assert_eq!(here.end(), Err(Refused::Waiting));
/// here.report(0, number)?;
/// here.end()?;
/// # Ok(())
/// # }
/// ```
#[must_use]
pub struct Replica {
    raw: raw::rcu_replica_t,
    cpus: u32,
    words: Vec<u64>,
}

// SAFETY: the header lets handles pass between threads.
unsafe impl Send for Replica {}

fn outcome(fault: u32) -> Result<(), Refused> {
    Err(match fault {
        0 => return Ok(()),
        raw::RCU_BAD_CPU => Refused::BadCpu,
        raw::RCU_RUNNING => Refused::Running,
        raw::RCU_IDLE => Refused::Idle,
        raw::RCU_WAITING => Refused::Waiting,
        raw::RCU_EXHAUSTED => Refused::Exhausted,
        raw::RCU_BOOT_STAYS => Refused::BootStays,
        raw::RCU_NOT_ALIKE => Refused::NotAlike,
        other => unreachable!("fault {other} of a replica"),
    })
}

// SAFETY of the calls here and below: as the head of the file says.
impl Replica {
    /// A replica of so many processors, at number 0.
    ///
    /// # Errors
    /// [`Error::BadCount`] at none or more than 4,096, [`Error::NoMemory`] where memory is out.
    pub fn open(cpus: u32) -> Result<Replica, Error> {
        let mut raw = raw::rcu_replica_t { at: null_mut() };
        match unsafe { raw::rcu_replica_open(cpus, LAST, &mut raw) } {
            0 => Ok(Replica {
                raw,
                cpus,
                words: vec![0; cpus.div_ceil(64) as usize],
            }),
            raw::RCU_TOO_MANY_CPUS => Err(Error::BadCount),
            _ => Err(Error::NoMemory),
        }
    }

    /// A grace period begins, and awaits these processors. Returns its number.
    ///
    /// # Errors
    /// [`Refused::BadCpu`], [`Refused::Running`], [`Refused::Exhausted`].
    pub fn begin(&mut self, cpus: impl IntoIterator<Item = u32>) -> Result<u64, Refused> {
        self.words.fill(0);
        for cpu in cpus {
            if cpu >= self.cpus {
                return Err(Refused::BadCpu);
            }
            self.words[cpu as usize / 64] |= 1 << (cpu % 64);
        }
        let mut number = 0;
        let (words, length) = (self.words.as_ptr(), self.words.len());
        outcome(unsafe { raw::rcu_replica_begin(&mut self.raw, words, length, &mut number) })?;
        Ok(number)
    }

    /// A processor reports a quiescent state with the number that it had noted.
    ///
    /// # Errors
    /// [`Refused::BadCpu`].
    pub fn report(&mut self, cpu: u32, number: u64) -> Result<Answer, Refused> {
        let mut answer = 0;
        outcome(unsafe { raw::rcu_replica_report(&mut self.raw, cpu, number, &mut answer) })?;
        Ok(match answer {
            raw::RCU_ANSWER_TAKEN => Answer::Taken,
            raw::RCU_ANSWER_LAST => Answer::Last,
            raw::RCU_ANSWER_REPEAT => Answer::Repeat,
            _ => Answer::Stale,
        })
    }

    /// A processor departed in the running grace period.
    ///
    /// # Errors
    /// [`Refused::BadCpu`], [`Refused::BootStays`].
    pub fn depart(&mut self, cpu: u32) -> Result<(), Refused> {
        outcome(unsafe { raw::rcu_replica_depart(&mut self.raw, cpu) })
    }

    /// Takes in what another replica of the same grace period has heard.
    ///
    /// # Errors
    /// [`Refused::NotAlike`].
    pub fn merge(&mut self, other: &mut Replica) -> Result<(), Refused> {
        outcome(unsafe { raw::rcu_replica_merge(&mut self.raw, &mut other.raw) })
    }

    /// Whom it awaits, in order.
    pub fn awaited(&mut self) -> Vec<u32> {
        let (mut cpus, mut count) = (vec![0; self.cpus as usize], 0);
        let (at, room) = (cpus.as_mut_ptr(), cpus.len());
        let fault = unsafe { raw::rcu_replica_awaited(&mut self.raw, at, room, &mut count) };
        debug_assert_eq!(fault, 0);
        cpus.truncate(count as usize);
        cpus
    }

    /// The grace period ends. Returns the new number.
    ///
    /// # Errors
    /// [`Refused::Idle`], [`Refused::Waiting`].
    pub fn end(&mut self) -> Result<u64, Refused> {
        let mut number = 0;
        outcome(unsafe { raw::rcu_replica_end(&mut self.raw, &mut number) })?;
        Ok(number)
    }
}

impl Drop for Replica {
    fn drop(&mut self) {
        unsafe { raw::rcu_replica_close(&mut self.raw) };
    }
}

impl fmt::Debug for Replica {
    fn fmt(&self, to: &mut fmt::Formatter<'_>) -> fmt::Result {
        to.debug_struct("Replica").finish_non_exhaustive()
    }
}
