//! Writes every sample file into a folder: `samples FOLDER`.

use oracle::samples::ALL;
use oracle::vectors::file;

fn main() {
    let Some(folder) = std::env::args().nth(1) else {
        eprintln!("usage: samples FOLDER");
        std::process::exit(2);
    };
    for (name, cases, seed, count) in ALL {
        let bytes = file(&cases(seed, count));
        let path = std::path::Path::new(&folder).join(format!("{name}.bin"));
        std::fs::write(&path, &bytes).expect("the folder takes the samples");
        println!("{name}.bin: gen_{name} {seed} {count}, {} bytes", bytes.len());
    }
}
