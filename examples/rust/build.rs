//! Links the library that `tools/library` writes. Where it is not there yet, a program that calls it is not linked; one that has
//! the types alone is.

use std::path::Path;

fn main() {
    let root = std::env::var("CARGO_MANIFEST_DIR").expect("cargo sets the manifest's folder");
    let folder = format!("{root}/../../crates/vessel_ring/out");
    let library = format!("{folder}/libvessel_ring.a");
    println!("cargo:rerun-if-changed={library}");
    if Path::new(&library).exists() {
        println!("cargo:rustc-link-search=native={folder}");
        println!("cargo:rustc-link-lib=static=vessel_ring");
    } else {
        println!("cargo:warning=crates/vessel_ring/out/libvessel_ring.a is not there, and what calls it does not link: tools/library");
    }
}
