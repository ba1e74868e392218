//! A collector's engine under its lock: its seats, and one step of its grace periods.

use crate::global::Global;
use crate::seat::Seat;
use rcu::handles::{EngineHandle, SeatHandle};
use std::sync::Arc;

/// How many grace periods one step ends at most.
const ENDS: usize = 2;
/// The seats of threads, of the collector of the process and of any other one. (A begin looks at a
/// word for every 64, and to open them takes memory for each.)
pub(crate) const PROCESS_SEATS: usize = seats(1021);
pub(crate) const SEATS: usize = seats(125);

/// How many seats a driver has: RCU_EPOCH_SEATS at the build, at most 4,093, or this number.
const fn seats(many: usize) -> usize {
    match option_env!("RCU_EPOCH_SEATS") {
        None => many,
        Some(digits) => match usize::from_str_radix(digits, 10) {
            Ok(seats) if seats <= 4093 => seats,
            _ => panic!("RCU_EPOCH_SEATS is a number up to 4,093"),
        },
    }
}

/// Processor 0 is nobody's. The two behind it are the overflow seats', for threads past the seats.
const OWN: usize = 3;
const FULL: &str = "out of memory";

pub(crate) struct Driver {
    rcu: EngineHandle,
    _boot: SeatHandle,
    seats: usize,
    dealt: Vec<Arc<Seat>>,
    free: Vec<Arc<Seat>>,
    /// The processors that the grace period awaits.
    awaited: Vec<u32>,
    runs: bool,
    number: u64,
}

impl Driver {
    /// A driver with `seats` seats, and those of its overflow seats.
    pub(crate) fn open(seats: usize) -> (Driver, [Seat; 2]) {
        let mut rcu = EngineHandle::open((seats + OWN) as u32).expect(FULL);
        let boot = rcu.seat(0).expect(FULL);
        boot.idle();
        let overflow_seats = [1, 2].map(|cpu| Seat::open(&mut rcu, cpu).expect(FULL));
        let driver = Driver {
            rcu,
            _boot: boot,
            seats,
            dealt: Vec::new(),
            free: Vec::new(),
            awaited: Vec::new(),
            runs: false,
            number: 0,
        };
        (driver, overflow_seats)
    }

    /// How many seats there are.
    pub(crate) fn seats(&self) -> usize {
        self.seats
    }

    /// A seat that no thread has. None if all are taken, or there is no memory.
    pub(crate) fn seat(&mut self) -> Option<Arc<Seat>> {
        if let Some(seat) = self.free.pop() {
            return Some(seat);
        }
        let place = self.dealt.len();
        if place == self.seats {
            return None;
        }
        let seat = Arc::new(Seat::open(&mut self.rcu, OWN + place)?);
        self.dealt.push(Arc::clone(&seat));
        Some(seat)
    }

    /// The next thread may have the seat.
    pub(crate) fn give_back(&mut self, seat: Arc<Seat>) {
        self.free.push(seat);
    }

    /// Goes on with the grace periods that somebody waits for, and waits for none. `own` is the
    /// caller's seat, just pinned.
    pub(crate) fn step(&mut self, global: &Global, own: Option<&Seat>) {
        for _ in 0..ENDS {
            if !self.runs {
                if global.is_reached(self.number) {
                    return;
                }
                self.begin();
            }
            if let Some(seat) = own {
                seat.pass();
            }
            if !self.is_over() {
                self.claim(global);
                if !self.is_over() {
                    let awaits = |cpu| self.awaited.contains(&(cpu as u32));
                    return global.change_overflow_seat(|it| awaits(it.seat.cpu()));
                }
            }
            self.end(global);
        }
    }

    fn begin(&mut self) {
        self.rcu.begin();
        self.runs = true;
        self.awaited.resize(self.dealt.len() + OWN, 0);
        let count = self.rcu.awaited(&mut self.awaited).len();
        self.awaited.truncate(count);
    }

    /// Looks at each processor that is awaited. Returns whether none is any more.
    fn is_over(&mut self) -> bool {
        let rcu = &mut self.rcu;
        self.awaited.retain(|&cpu| rcu.is_awaited(cpu as usize));
        self.awaited.is_empty()
    }

    /// Makes the awaited seats of unpinned threads idle, and asks the others.
    fn claim(&self, global: &Global) {
        Seat::make_idle(self.awaited.iter().map(|&cpu| match cpu as usize {
            cpu if cpu < OWN => &global.overflow_seats[cpu - 1].seat,
            cpu => &*self.dealt[cpu - OWN],
        }));
    }

    fn end(&mut self, global: &Global) {
        global
            .overflow_seats
            .iter()
            .for_each(|it| it.seat.see_unpin());
        self.dealt.iter().for_each(|it| it.see_unpin());
        global.tell_end(self.number + 4);
        self.number = self.rcu.end();
        self.runs = false;
    }
}

#[cfg(test)]
mod tests {
    use super::{Driver, PROCESS_SEATS};

    /// (1,021, where the build sets no other number. Past them threads share two.)
    #[test]
    fn each_seat_is_dealt_once() {
        let (mut driver, _overflow_seats) = Driver::open(PROCESS_SEATS);
        let mut all: Vec<_> = (0..PROCESS_SEATS).map(|_| driver.seat()).collect();
        assert!(all.iter().all(Option::is_some) && driver.seat().is_none());
        if let Some(Some(seat)) = all.pop() {
            let cpu = seat.cpu();
            driver.give_back(seat);
            assert_eq!(driver.seat().map(|seat| seat.cpu()), Some(cpu));
        }
    }
}
