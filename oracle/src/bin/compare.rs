//! Holds the port against the unchanged Rust, in one process: `compare SEED COUNT`.
//!
//! Each of COUNT inputs is put to all four calls; every answer, every refusal and every lent cell is
//! compared. Without the feature `port` the other side is the rules' words.

use oracle::compare::{differences, question, reading, shown};
use oracle::port::Port;
use oracle::random::Random;

fn other_side() -> (&'static str, Box<dyn Port>) {
    #[cfg(feature = "port")]
    return ("the port", Box::new(oracle::port::Library));
    #[cfg(not(feature = "port"))]
    return ("the rules' words", Box::new(oracle::port::Prose));
}

fn main() {
    let (seed, count) = oracle::command::seed_and_count();
    let (name, port) = other_side();
    let mut different = 0;
    let mut by_refusal = [0u64; 6];
    for case in 0..count {
        let q = question(seed, case);
        by_refusal[(reading(&q) >> 32) as usize] += 1;
        let calls = differences(port.as_ref(), &q, &mut Random::of_case(!seed, case));
        if !calls.is_empty() {
            different += 1;
            if different <= 10 {
                let read = shown(reading(&q));
                println!("case {case} ({read}, consider {}): {} differ", q.consider, calls.join(", "));
            }
        }
    }
    println!("{count} inputs against {name}, four calls each: {different} differ");
    println!("accepted {}, refused by 1 to 5: {:?}", by_refusal[0], &by_refusal[1..]);
    std::process::exit(i32::from(different > 0));
}
