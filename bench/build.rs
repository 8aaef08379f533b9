//! Proves and builds the library for C and that of the ways of reading by `rt lib`, and with the feature `peers` compiles
//! what calls libmnl and libnl. `RTFLAGS` is passed to `rt lib`.

use std::env;
use std::path::{Path, PathBuf};
use std::process::Command;

/// The words that a command prints. It must succeed.
fn run(command: &mut Command) -> String {
    let ran = command.output().unwrap_or_else(|fault| panic!("{command:?}: {fault}"));
    let text = String::from_utf8_lossy(&ran.stdout).into_owned();
    let faults = String::from_utf8_lossy(&ran.stderr);
    assert!(ran.status.success(), "{command:?}: {text}{faults}");
    text
}

/// The library of a crate in `crates`.
fn link_library(here: &Path, name: &str) {
    let library = here.join("../crates").join(name);
    let flags = env::var("RTFLAGS").unwrap_or_default();
    run(Command::new("rt").arg("lib").args(flags.split_whitespace()).current_dir(&library));
    println!("cargo::rustc-link-search=native={}", library.join("out").display());
    println!("cargo::rustc-link-lib=static={name}");
}

/// The C functions of the toolchain that both call for memory.
fn link_memory() {
    let page = PathBuf::from(run(Command::new("rt").arg("doc")).trim());
    let kit = page.parent().expect("a page in the kit");
    println!("cargo::rustc-link-search=native={}", kit.join("c").display());
    println!("cargo::rustc-link-lib=static=libc_c");
}

/// A change of any library is one of these.
fn rerun_for(crates: &Path) {
    for entry in crates.read_dir().expect("the crates") {
        for part in ["src", "specs", "proofs"] {
            let folder = entry.as_ref().expect("a crate").path().join(part);
            if folder.is_dir() {
                println!("cargo::rerun-if-changed={}", folder.display());
            }
        }
    }
}

/// `peers.c`, and the libraries that it calls.
fn link_peers(here: &Path) {
    let out = PathBuf::from(env::var("OUT_DIR").unwrap());
    let object = out.join("peers.o");
    run(Command::new("cc")
        .args(["-O2", "-c", "-I/usr/include/libnl3", "-o"])
        .args([&object, &here.join("peers.c")]));
    run(Command::new("ar").arg("crs").args([&out.join("libpeers.a"), &object]));
    println!("cargo::rustc-link-search=native={}", out.display());
    for library in ["static=peers", "mnl", "nl-route-3", "nl-3"] {
        println!("cargo::rustc-link-lib={library}");
    }
}

fn main() {
    let here = PathBuf::from(env::var("CARGO_MANIFEST_DIR").unwrap());
    println!("cargo::rerun-if-env-changed=RTFLAGS");
    println!("cargo::rerun-if-changed=peers.c");
    link_library(&here, "npr_c");
    link_library(&here, "bench_calls");
    link_memory();
    rerun_for(&here.join("../crates"));
    if env::var_os("CARGO_FEATURE_PEERS").is_some() {
        link_peers(&here);
    }
}
