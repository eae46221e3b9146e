//! Prints what a program of the port has to print for a load file on standard input:
//! `expect check`, `expect fill`, `expect points [N]`, `expect layers [N]`; or writes an example's file: `expect example NAME`.

use oracle::load_file::{decode, encode};
use oracle::{examples, refusals, rust_side, text};
use std::io::{Read, Write};

fn input() -> Vec<u8> {
    let mut bytes = Vec::new();
    std::io::stdin().read_to_end(&mut bytes).expect("standard input can be read");
    bytes
}

/// The planner's list, or the line that refuses the order.
fn plan(engine: &str, consider: u64) -> String {
    let bytes = input();
    let number = refusals::of_file(&bytes);
    if number != 0 {
        return format!("refused {number}\n");
    }
    let order = decode(&bytes).unwrap();
    match engine {
        "points" => text::list(&rust_side::plan_points(&order, consider)),
        _ => text::list(&rust_side::plan_layers(&order, consider)),
    }
}

fn example(name: &str) -> Option<Vec<u8>> {
    let order = |name: &str| match name {
        "p2" => Some(examples::p2()),
        "p3" => Some(examples::p3()),
        "p4" => Some(examples::p4(2.0)),
        "p5" => Some(examples::p5()),
        "p6" => Some(examples::p6()),
        "counted" => Some(examples::counted()),
        _ => None,
    };
    let sheet = examples::sheets().into_iter().find(|(n, _)| *n == name).map(|(_, s)| s);
    sheet.or_else(|| order(name)).map(|s| encode(&s))
}

fn main() {
    let words: Vec<String> = std::env::args().skip(1).collect();
    let words: Vec<&str> = words.iter().map(String::as_str).collect();
    let out = match words[..] {
        ["check"] => text::check(&input()).into_bytes(),
        ["fill"] => text::fill(&input()).into_bytes(),
        [engine @ ("points" | "layers")] => plan(engine, u64::MAX).into_bytes(),
        [engine @ ("points" | "layers"), n] => plan(engine, n.parse().unwrap_or(0)).into_bytes(),
        ["example", name] => example(name).unwrap_or_default(),
        _ => {
            eprintln!("usage: expect check|fill|points [N]|layers [N]|example NAME");
            std::process::exit(2);
        }
    };
    std::io::stdout().write_all(&out).expect("standard output takes the answer");
}
