//! A panic is told on the output and ends the tenant with 101.
//! output: panicked at 'index out of bounds: the len is 3 but the index is 7', panics.rs:21:5
//! ends: 101
#![no_std]
#![no_main]

extern crate alloc;

use alloc::vec::Vec;

tenant::start!(main);

/// An index that the compiler does not know.
fn index() -> usize {
    let mut piece = [0; 1];
    7 + tenant::read(&mut piece)
}

fn main() -> u8 {
    let numbers: Vec<u8> = (1..4).collect();
    numbers[index()]
}
