//! Brings the five unchanged files in at build time.
//!
//! Each is written byte for byte into the build folder, where it becomes a module. Two of them get
//! one line more after their last: a child module may read its parent's private fields, and the
//! states to compare are private.

use std::path::{Path, PathBuf};
use std::{env, fs};

/// Each source under `d3/src`, and our file that reads its private fields, if there is one.
const SOURCES: [(&str, Option<&str>); 5] = [
    ("boundary", None),
    ("geometry", None),
    ("extreme_point", Some("points.rs")),
    ("packing_utils", Some("layers.rs")),
    ("check", None),
];

fn main() {
    let here = PathBuf::from(env::var("CARGO_MANIFEST_DIR").unwrap());
    let out = PathBuf::from(env::var("OUT_DIR").unwrap());
    println!("cargo::rerun-if-env-changed=UNESTING_SRC");
    // The sources have parts behind this feature. It stays off.
    println!("cargo::rustc-check-cfg=cfg(feature, values(\"serde\"))");

    let crates = match env::var_os("UNESTING_SRC") {
        Some(path) => here.join(path),
        None => here.join("../../shared/docs/src/crates"),
    };
    let mut modules = String::new();
    for (name, peek) in SOURCES {
        let Some(text) = read(&crates, name) else {
            return;
        };
        let module = out.join(format!("{name}.rs"));
        fs::write(&module, with_peek(text, peek, &here)).unwrap();
        modules += &format!("#[path = {:?}]\npub mod {name};\n", module);
    }
    fs::write(out.join("unchanged.rs"), modules).unwrap();
    link_port();
}

/// One source, or the line that says which is missing.
fn read(crates: &Path, name: &str) -> Option<Vec<u8>> {
    let path = crates.join("d3/src").join(format!("{name}.rs"));
    println!("cargo::rerun-if-changed={}", path.display());
    let text = fs::read(&path).ok();
    if text.is_none() {
        println!(
            "cargo::error=no source {}: set UNESTING_SRC to the folder of u-nesting that holds d3/src",
            path.display()
        );
    }
    text
}

/// The source's own bytes, and after them the module that reads its private fields.
fn with_peek(mut text: Vec<u8>, peek: Option<&str>, here: &Path) -> Vec<u8> {
    if let Some(file) = peek {
        let path = here.join("src/peek").join(file);
        text.extend(format!("\n#[path = {path:?}]\npub mod peek;\n").into_bytes());
    }
    text
}

/// With the feature `port`: the folder of the port's static library, and its name.
fn link_port() {
    println!("cargo::rerun-if-env-changed=WAIKURPEHO_LIB");
    if env::var_os("CARGO_FEATURE_PORT").is_none() {
        return;
    }
    match env::var("WAIKURPEHO_LIB") {
        Ok(folder) => {
            println!("cargo::rustc-link-search=native={folder}");
            println!("cargo::rustc-link-lib=static=waikurpeho");
            println!("cargo::rerun-if-changed={folder}/libwaikurpeho.a");
        }
        Err(_) => println!("cargo::error=feature port: set WAIKURPEHO_LIB to the folder of libwaikurpeho.a"),
    }
}
