//! The work of the leaf crates in plain Rust, to be measured beside them. Reads lines `WORK TIMES`,
//! writes a sum for each on standard output and its time in microseconds on standard error.
mod lists;
mod ripemd160;

use lists::Ranks;
use ripemd160::digest;
use std::collections::BTreeMap;
use std::io::{BufRead, stdin};
use std::time::Instant;

/// The lists of all partitions over sixteen plain nodes.
fn lists() -> u64 {
    let nodes: Vec<u16> = (1..=16).collect();
    let ranks = Ranks::of(&nodes);
    (0..4096).map(|p| u64::from(ranks.list(p)[0].1)).sum()
}

/// A digest whose first two bytes go over all partitions.
fn record(i: u32) -> [u8; 20] {
    let mut digest = [0; 20];
    digest[..4].copy_from_slice(&i.wrapping_mul(2_654_435_761).to_le_bytes());
    digest[4..8].copy_from_slice(&i.to_le_bytes());
    digest
}

/// A map of 100,000 records with values of two bytes.
fn store() -> u64 {
    let mut map = BTreeMap::new();
    for i in 0..100_000 {
        map.insert(record(i), (0u64, 1u32, vec![b'v', i as u8]));
    }
    map.len() as u64
}

fn main() {
    let mut message = vec![b'a'; 1_000_001];
    message[0] = 3;
    for line in stdin().lock().lines() {
        let line = line.unwrap();
        let (work, times) = line.split_once(' ').unwrap();
        let start = Instant::now();
        let mut sum = 0u64;
        for _ in 0..times.parse().unwrap() {
            sum += match work {
                "digest" => u64::from(digest(std::hint::black_box(&message))[0]),
                "lists" => lists(),
                _ => store(),
            };
        }
        println!("{work} {sum}");
        eprintln!("{work} {}", start.elapsed().as_micros());
    }
}
