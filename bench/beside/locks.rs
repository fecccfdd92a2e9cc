//! A machine of one caller, under a lock.

use super::parts::Whole;
use super::Shared;
use std::cell::UnsafeCell;
use std::hint::spin_loop;
use std::sync::atomic::{AtomicBool, AtomicU64, Ordering};
use std::sync::Mutex;
use std::thread;

pub trait Lock: Sync {
    fn new(whole: Whole) -> Self;
    fn with<T>(&self, call: impl FnOnce(&mut Whole) -> T) -> T;
}

impl Lock for Mutex<Whole> {
    fn new(whole: Whole) -> Self {
        Mutex::new(whole)
    }

    fn with<T>(&self, call: impl FnOnce(&mut Whole) -> T) -> T {
        call(&mut self.lock().unwrap())
    }
}

#[repr(align(128))]
struct Apart<T>(T);

// Waits until it is so: by the processor's hint, and every 256 times by giving the processor up, since there may be
// more threads than processors.
fn wait_until(is_so: impl Fn() -> bool) {
    loop {
        for _ in 0..256 {
            if is_so() {
                return;
            }
            spin_loop();
        }
        thread::yield_now();
    }
}

/// Whoever finds the word free takes it.
pub struct Spinlock {
    taken: Apart<AtomicBool>,
    whole: Apart<UnsafeCell<Whole>>,
}

// The machine is used by whoever took the word.
unsafe impl Sync for Spinlock {}

impl Lock for Spinlock {
    fn new(whole: Whole) -> Self {
        Spinlock { taken: Apart(AtomicBool::new(false)), whole: Apart(UnsafeCell::new(whole)) }
    }

    fn with<T>(&self, call: impl FnOnce(&mut Whole) -> T) -> T {
        while self.taken.0.swap(true, Ordering::Acquire) {
            wait_until(|| !self.taken.0.load(Ordering::Relaxed));
        }
        let answer = call(unsafe { &mut *self.whole.0.get() });
        self.taken.0.store(false, Ordering::Release);
        answer
    }
}

/// Threads are served in the order in which they came.
pub struct TicketLock {
    next: Apart<AtomicU64>,
    served: Apart<AtomicU64>,
    whole: Apart<UnsafeCell<Whole>>,
}

// The machine is used by whose ticket is served.
unsafe impl Sync for TicketLock {}

impl Lock for TicketLock {
    fn new(whole: Whole) -> Self {
        TicketLock {
            next: Apart(AtomicU64::new(0)),
            served: Apart(AtomicU64::new(0)),
            whole: Apart(UnsafeCell::new(whole)),
        }
    }

    fn with<T>(&self, call: impl FnOnce(&mut Whole) -> T) -> T {
        let ticket = self.next.0.fetch_add(1, Ordering::Relaxed);
        wait_until(|| self.served.0.load(Ordering::Acquire) == ticket);
        let answer = call(unsafe { &mut *self.whole.0.get() });
        self.served.0.store(ticket + 1, Ordering::Release);
        answer
    }
}

pub struct Locked<L>(L);

impl<L: Lock> Shared for Locked<L> {
    fn new(whole: Whole) -> Self {
        Locked(L::new(whole))
    }

    fn signal(&self, _me: u64, dev: u32, ev: u32) -> u64 {
        self.0.with(|whole| whole.signal(dev, ev).0)
    }

    fn step(&self, _me: u64) -> u64 {
        self.0.with(|whole| whole.step())
    }

    fn take(&self, _me: u64, vcpu: u8) -> Option<u32> {
        self.0.with(|whole| whole.take(vcpu))
    }

    fn save(&self, _me: u64) -> u64 {
        self.0.with(|whole| whole.save())
    }
}
