//! Links libwaikurpeho.a from the folder that WAIKURPEHO_LIB names, else from that of tools/build_library.
use std::{env, path::Path};

fn main() {
    println!("cargo:rerun-if-env-changed=WAIKURPEHO_LIB");
    let named = env::var("WAIKURPEHO_LIB");
    let target = |part: &str| env::var(format!("CARGO_CFG_TARGET_{part}")).unwrap_or_default();
    let fits = target("ARCH") == "x86_64" && target("OS") == "linux";
    assert!(fits || named.is_ok(), "libwaikurpeho.a is for Linux on x86-64 alone, and this is built for {} on {}", target("OS"), target("ARCH"));
    let folder = named.unwrap_or_else(|_| "../../target/staticlib".into());
    let library = Path::new(&folder).join("libwaikurpeho.a");
    assert!(library.exists(), "no libwaikurpeho.a in {folder}: run tools/build_library, or set WAIKURPEHO_LIB to its folder");
    println!("cargo:rerun-if-changed={}", library.display());
    println!("cargo:rustc-link-search=native={folder}");
    println!("cargo:rustc-link-lib=static=waikurpeho");
}
