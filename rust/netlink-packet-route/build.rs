//! Erases the proved libraries beside this package, and their tests.

use std::env::var_os;
use std::path::PathBuf;

fn main() {
    let folder = |name| PathBuf::from(var_os(name).expect("cargo sets it"));
    let crates = folder("CARGO_MANIFEST_DIR").join("../../crates");
    for library in erase::LIBRARIES.iter().chain(&erase::TESTS) {
        let (sources, _) = erase::folder(&crates, library);
        println!("cargo::rerun-if-changed={}", sources.display());
    }
    let out = folder("OUT_DIR");
    let erased = erase::erase_all(&crates, &out).and_then(|_| erase::erase_tests(&crates, &out));
    if let Err(fault) = erased {
        println!("cargo::error={fault}");
    }
}
