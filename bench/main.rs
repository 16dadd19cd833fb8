// Does a work many times, on the index or on Rust's BTreeSet, so that its instructions can be counted from outside.
//   bench STRUCTURE WORK KEYS ROUNDS
// STRUCTURE: line, tree, even or btree; WORK: look, first, after, put or strike.
use std::collections::BTreeSet;
use std::hint::black_box;
use std::ops::Bound::{Excluded, Unbounded};

unsafe extern "C" {
    safe fn torglimuz_measure(guide: u8, work: u8, keys: u32, rounds: u32) -> u64;
}

const WORKS: [&str; 5] = ["look", "first", "after", "put", "strike"];

// The key of a number, as the measured library has it.
fn key_of(number: u32, keys: u32) -> u32 {
    number.wrapping_mul(387) % keys * 2 + 2
}

#[inline(never)]
fn btree(work: usize, keys: u32, rounds: u32) -> u64 {
    let mut set: BTreeSet<u32> = (0..keys).map(|number| key_of(number, keys)).collect();
    let mut found = 0;
    for number in 0..rounds {
        let key = black_box(key_of(number, keys));
        found += match work {
            0 => u64::from(set.contains(&key)),
            1 => u64::from(*set.first().unwrap()),
            2 => u64::from(*set.range((Excluded(key), Unbounded)).next().unwrap_or(&0)),
            3 => u64::from(set.insert(key + 1)) + u64::from(set.remove(&(key + 1))),
            _ => u64::from(set.remove(&key)) + u64::from(set.insert(key)),
        };
    }
    black_box(found)
}

fn main() {
    let words: Vec<String> = std::env::args().collect();
    let work = WORKS.iter().position(|name| *name == words[2]).expect("a work");
    let (keys, rounds) = (words[3].parse().unwrap(), words[4].parse().unwrap());
    let total = match words[1].as_str() {
        "btree" => btree(work, keys, rounds),
        "line" => torglimuz_measure(0, work as u8, keys, rounds),
        "tree" => torglimuz_measure(1, work as u8, keys, rounds),
        "even" => torglimuz_measure(2, work as u8, keys, rounds),
        other => panic!("no structure {other}"),
    };
    println!("{total}");
}
