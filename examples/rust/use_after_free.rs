//! A pointer that `unsafe` code keeps while its vector moves: the old chunk has another tag then.
//! ends: 129
//! cause: Use After Free, 8 bytes into a 32-byte allocation
#![no_std]
#![no_main]

extern crate alloc;

use alloc::vec::Vec;
use tenant::println;

tenant::start!(main);

fn main() -> u8 {
    let mut numbers: Vec<u64> = Vec::with_capacity(4);
    numbers.extend([10, 20, 30, 40]);
    let second: *const u64 = &numbers[1];
    println!("second {}", unsafe { second.read_volatile() });
    numbers.push(50);
    println!("second {}", unsafe { second.read_volatile() });
    0
}
