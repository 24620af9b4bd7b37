//! Links the proved CRC, as host/native builds it.
use std::env;
use std::path::Path;

fn main() {
    let here = env::var("CARGO_MANIFEST_DIR").expect("cargo says where the package is");
    let archives = Path::new(&here).join("../../target/native");
    println!("cargo::rustc-link-search=native={}", archives.display());
    println!("cargo::rustc-link-lib=static=terminal");
    println!("cargo::rerun-if-changed={}", archives.join("libterminal.a").display());
}
