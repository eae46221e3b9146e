//! The words that the programs are called with.

use crate::vectors::{file, Case};
use std::io::Write;

/// The two numbers after a program's name, or a line of usage.
pub fn seed_and_count() -> (u64, u64) {
    let words: Vec<String> = std::env::args().collect();
    let numbers: Vec<u64> = words[1..].iter().filter_map(|w| w.parse().ok()).collect();
    match numbers[..] {
        [seed, count] if words.len() == 3 => (seed, count),
        _ => {
            eprintln!("usage: {} SEED COUNT", words[0].rsplit('/').next().unwrap_or("program"));
            std::process::exit(2);
        }
    }
}

/// Writes a sample file to standard output.
pub fn write(cases: fn(u64, u64) -> Vec<Case>) {
    let (seed, count) = seed_and_count();
    let bytes = file(&cases(seed, count));
    std::io::stdout().write_all(&bytes).expect("standard output takes the sample");
}
