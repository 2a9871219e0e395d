//! Reads records of JSON, one a line, and counts their keys: serde_json and hashbrown as they are.
//!
//! input: {"name": "pear", "price": 1.25}
//! input: {"name": "plum", "tags": ["a", "b"], "price": 2.5e-1}
//! input: {"name": "apple"
//! output: line 3: EOF while parsing an object at line 1 column 16
//! output: name 2
//! output: price 2
//! output: tags 1
//! output: {"name":"plum","price":0.25,"tags":["a","b"]}
//! output: sum 1.5
#![no_std]
#![no_main]

extern crate alloc;

use alloc::string::String;
use alloc::vec::Vec;
use hashbrown::HashMap;
use serde_json::Value;

tenant::start!(main);

/// Counts the keys of a record.
fn count(keys: &mut HashMap<String, usize, Hasher>, record: &Value) {
    if let Value::Object(object) = record {
        for key in object.keys() {
            *keys.entry(key.clone()).or_insert(0) += 1;
        }
    }
}

/// FNV-1a: a tenant has no random numbers, so each run hashes alike.
#[derive(Clone, Copy)]
struct Fnv(u64);

impl core::hash::Hasher for Fnv {
    fn finish(&self) -> u64 {
        self.0
    }

    fn write(&mut self, bytes: &[u8]) {
        for byte in bytes {
            self.0 = (self.0 ^ u64::from(*byte)).wrapping_mul(0x100_0000_01b3);
        }
    }
}

#[derive(Clone, Copy, Default)]
struct Hasher;

impl core::hash::BuildHasher for Hasher {
    type Hasher = Fnv;

    fn build_hasher(&self) -> Fnv {
        Fnv(0xcbf2_9ce4_8422_2325)
    }
}

fn main() -> u8 {
    let (input, mut keys) = (tenant::read_all(), HashMap::with_hasher(Hasher));
    let (mut last, mut sum) = (Value::Null, 0.0);
    for (at, line) in input.split(|byte| *byte == b'\n').enumerate() {
        if line.is_empty() {
            continue;
        }
        match serde_json::from_slice::<Value>(line) {
            Ok(record) => {
                count(&mut keys, &record);
                sum += record["price"].as_f64().unwrap_or(0.0);
                last = record;
            }
            Err(error) => tenant::println!("line {}: {}", at + 1, error),
        }
    }
    let mut counted: Vec<_> = keys.iter().collect();
    counted.sort();
    for (key, count) in counted {
        tenant::println!("{} {}", key, count);
    }
    tenant::println!("{}", last);
    tenant::println!("sum {}", sum);
    0
}
