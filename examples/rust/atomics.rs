//! Atomic operations, which the compiler makes plain ones: a tenant has one thread.
//! output: 8 true Err(8) 5 [1, 2, 3] 2
//! ends: 4
#![no_std]
#![no_main]

extern crate alloc;

use alloc::{sync::Arc, vec};
use core::sync::atomic::{fence, AtomicBool, AtomicUsize, Ordering};
use tenant::println;

tenant::start!(main);

static COUNT: AtomicUsize = AtomicUsize::new(5);
static FLAG: AtomicBool = AtomicBool::new(false);

fn main() -> u8 {
    let before = COUNT.fetch_add(3, Ordering::SeqCst);
    FLAG.store(true, Ordering::Release);
    fence(Ordering::SeqCst);
    let failed = COUNT.compare_exchange(5, 9, Ordering::AcqRel, Ordering::Acquire);
    let shared = Arc::new(vec![1, 2, 3]);
    let other = Arc::clone(&shared);
    let (count, flag) = (COUNT.load(Ordering::Acquire), FLAG.load(Ordering::Acquire));
    println!(
        "{} {} {:?} {} {:?} {}",
        count,
        flag,
        failed,
        before,
        other,
        Arc::strong_count(&shared)
    );
    4
}
