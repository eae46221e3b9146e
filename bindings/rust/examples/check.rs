//! Prints the findings on load files in words. Run: cargo run --example check -- FILE..
use std::{env, error::Error, fs};

fn main() -> Result<(), Box<dyn Error>> {
    for name in env::args().skip(1) {
        for finding in waikurpeho::calls::check(&fs::read(name)?)? {
            println!("{finding}");
        }
    }
    Ok(())
}
