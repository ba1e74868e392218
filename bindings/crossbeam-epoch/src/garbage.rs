//! What is deferred: a closure, a bag of them, and a bag with its cookie.

use std::collections::VecDeque;
use std::mem::{align_of, size_of, take, MaybeUninit};

/// How many closures a bag has at most. A cookie is taken for a whole bag.
pub(crate) const BAG: usize = 64;

type Room = MaybeUninit<[usize; 3]>;

/// A closure that is called once. It lies here where it fits, else in a box.
pub(crate) struct Deferred {
    run: unsafe fn(*mut Room),
    room: Room,
}

/// Closures, as a thread defers them.
pub(crate) type Bag = VecDeque<Deferred>;

/// A bag that may be run once its cookie is done.
pub(crate) struct Sealed {
    pub(crate) cookie: u64,
    pub(crate) bag: Bag,
}

// SAFETY: who defers a closure promises that another thread may call it.
unsafe impl Send for Sealed {}

impl Deferred {
    pub(crate) fn new<F: FnOnce()>(closure: F) -> Deferred {
        if size_of::<F>() <= size_of::<Room>() && align_of::<F>() <= align_of::<Room>() {
            Deferred::inside(closure)
        } else {
            let boxed = Box::new(closure);
            Deferred::inside(boxed)
        }
    }

    fn inside<F: FnOnce()>(closure: F) -> Deferred {
        /// # Safety
        /// The room has such a closure, which is used no more.
        unsafe fn run<F: FnOnce()>(room: *mut Room) {
            // SAFETY: as above.
            unsafe { room.cast::<F>().read()() }
        }
        let mut room = Room::uninit();
        // SAFETY: it fits, as `new` has seen; `run` reads it once, as `call` takes all.
        unsafe { room.as_mut_ptr().cast::<F>().write(closure) };
        Deferred {
            run: run::<F>,
            room,
        }
    }

    fn call(mut self) {
        // SAFETY: the room has the closure of `run`.
        unsafe { (self.run)(&mut self.room) };
    }
}

/// A bag that is run, and who gets what is left of it where a closure panics.
struct Running<L: FnMut(Sealed)> {
    sealed: Sealed,
    leave: L,
}

impl<L: FnMut(Sealed)> Drop for Running<L> {
    fn drop(&mut self) {
        if !self.sealed.bag.is_empty() {
            let (cookie, bag) = (self.sealed.cookie, take(&mut self.sealed.bag));
            (self.leave)(Sealed { cookie, bag });
        }
    }
}

/// Calls all of a bag, and returns it empty, with its room.
pub(crate) fn run(sealed: Sealed, leave: impl FnMut(Sealed)) -> Bag {
    let mut running = Running { sealed, leave };
    while let Some(deferred) = running.sealed.bag.pop_front() {
        deferred.call();
    }
    take(&mut running.sealed.bag)
}

/// Calls all of all bags. Where a closure panics, the others are called all the same.
pub(crate) fn run_to_end(bags: &mut VecDeque<Sealed>) {
    struct Rest<'a>(&'a mut VecDeque<Sealed>);
    impl Drop for Rest<'_> {
        fn drop(&mut self) {
            if !self.0.is_empty() {
                run_to_end(self.0);
            }
        }
    }
    let rest = Rest(bags);
    while let Some(sealed) = rest.0.pop_front() {
        run(sealed, |left| rest.0.push_front(left));
    }
}
