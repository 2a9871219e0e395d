//! Counts the words of the input and writes the most frequent ones, and the mean of their lengths.
//! input: a tag of a granule is a tag, and the tag of a pointer is a tag too
//! output: 18 words, 9 different, mean length 2.667
//! output:    5 a
//! output:    4 tag
//! output:    2 is
//! output:    2 of
//! output: longest "pointer", memory 4096 aligned true
#![no_std]
#![no_main]

extern crate alloc;

use alloc::{borrow::ToOwned, collections::BTreeMap, string::String, vec::Vec};
use tenant::println;

tenant::start!(main);

#[repr(align(4096))]
struct Page([u8; 4096]);

fn main() -> u8 {
    let input = String::from_utf8(tenant::read_all()).expect("text in UTF-8");
    let words = || {
        input
            .split(|c: char| !c.is_alphanumeric())
            .filter(|word| !word.is_empty())
    };
    let mut counts: BTreeMap<String, usize> = BTreeMap::new();
    for word in words() {
        *counts.entry(word.to_owned()).or_insert(0) += 1;
    }
    let number = words().count();
    let mean = words().map(str::len).sum::<usize>() as f64 / number as f64;
    println!(
        "{} words, {} different, mean length {:.3}",
        number,
        counts.len(),
        mean
    );
    let mut order: Vec<_> = counts.iter().collect();
    order.sort_by_key(|&(word, &count)| (usize::MAX - count, word));
    for (word, count) in order.iter().take(4) {
        println!("{:4} {}", count, word);
    }
    let page = alloc::boxed::Box::new(Page([7; 4096]));
    let longest = words().max_by_key(|word| word.len()).unwrap_or("");
    let aligned = page.0.as_ptr() as usize % 4096 == 0;
    println!(
        "longest {:?}, memory {} aligned {}",
        longest,
        page.0.len(),
        aligned
    );
    0
}
