//! A ring of 64 places between one thread that pushes and one that pops. Each end keeps what it saw last of the other, and looks again
//! only where that doesn't do.
use std::cell::UnsafeCell;
use std::mem::MaybeUninit;
use std::sync::Arc;
use std::sync::atomic::{AtomicUsize, Ordering};

const PLACES: usize = 64;

/// Alone in its cache lines, since each of the two is written by another thread.
#[repr(align(128))]
struct Alone(AtomicUsize);

struct Ring<T> {
    popped: Alone,
    pushed: Alone,
    places: [UnsafeCell<MaybeUninit<T>>; PLACES],
}

// A place is touched by the pushing end while it is free, and by the popping end while it is full.
unsafe impl<T: Send> Sync for Ring<T> {}

impl<T> Drop for Ring<T> {
    fn drop(&mut self) {
        for place in *self.popped.0.get_mut()..*self.pushed.0.get_mut() {
            // Pushed and not popped.
            unsafe { self.places[place % PLACES].get_mut().assume_init_drop() };
        }
    }
}

pub struct Producer<T> {
    ring: Arc<Ring<T>>,
    pushed: usize,
    popped: usize,
}

pub struct Consumer<T> {
    ring: Arc<Ring<T>>,
    popped: usize,
    pushed: usize,
}

pub fn ring<T>() -> (Producer<T>, Consumer<T>) {
    let ring = Arc::new(Ring {
        popped: Alone(AtomicUsize::new(0)),
        pushed: Alone(AtomicUsize::new(0)),
        places: [const { UnsafeCell::new(MaybeUninit::uninit()) }; PLACES],
    });
    (Producer { ring: Arc::clone(&ring), pushed: 0, popped: 0 }, Consumer { ring, popped: 0, pushed: 0 })
}

impl<T> Producer<T> {
    /// How many places are free, at least.
    pub fn free(&mut self) -> usize {
        self.popped = self.ring.popped.0.load(Ordering::Acquire);
        PLACES - (self.pushed - self.popped)
    }

    pub fn push(&mut self, item: T) -> Result<(), T> {
        if self.pushed - self.popped == PLACES && self.free() == 0 {
            return Err(item);
        }
        // The place is free, and only this end fills places.
        unsafe { (*self.ring.places[self.pushed % PLACES].get()).write(item) };
        self.pushed += 1;
        self.ring.pushed.0.store(self.pushed, Ordering::Release);
        Ok(())
    }
}

impl<T> Consumer<T> {
    fn is_empty(&mut self) -> bool {
        if self.popped == self.pushed {
            self.pushed = self.ring.pushed.0.load(Ordering::Acquire);
        }
        self.popped == self.pushed
    }

    pub fn front(&mut self) -> Option<&T> {
        if self.is_empty() {
            return None;
        }
        // The place is full, and only this end empties places.
        Some(unsafe { (*self.ring.places[self.popped % PLACES].get()).assume_init_ref() })
    }

    pub fn pop(&mut self) -> Option<T> {
        if self.is_empty() {
            return None;
        }
        // As above.
        let item = unsafe { (*self.ring.places[self.popped % PLACES].get()).assume_init_read() };
        self.popped += 1;
        self.ring.popped.0.store(self.popped, Ordering::Release);
        Some(item)
    }
}
