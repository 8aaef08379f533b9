//! Erases the proved libraries and the one for C, which stand beside this package, and puts beside what
//! Cargo builds a file for pkg-config and the name by which the shared library is loaded.

use std::env::var_os;
use std::error::Error;
use std::fs;
use std::path::{Path, PathBuf};

const SHARED: &str = "libnetlink_packet_route.so";
/// While the first number of a version is 0, a second one may take calls away.
const SONAME: &str = concat!(
    "libnetlink_packet_route.so.",
    env!("CARGO_PKG_VERSION_MAJOR"),
    ".",
    env!("CARGO_PKG_VERSION_MINOR")
);

fn main() -> Result<(), Box<dyn Error>> {
    let folder = |name| PathBuf::from(var_os(name).expect("cargo sets it"));
    let top = folder("CARGO_MANIFEST_DIR").join("../..").canonicalize()?;
    let (crates, out) = (top.join("crates"), folder("OUT_DIR"));
    for library in erase::LIBRARIES.iter().chain(&erase::FOR_C) {
        let (sources, _) = erase::folder(&crates, library);
        println!("cargo::rerun-if-changed={}", sources.display());
    }
    erase::erase_all(&crates, &out).and_then(|_| erase::erase_for_c(&crates, &out))?;
    println!("cargo::rustc-cdylib-link-arg=-Wl,-soname,{SONAME}");
    println!("cargo::rerun-if-changed={}", top.join("c").display());
    // OUT_DIR is build/NAME/out of the folder in which the libraries stand
    let built = out.ancestors().nth(3).ok_or("Cargo's folder is another")?;
    describe(&top.join("c"), built)
}

/// Writes what a C compiler asks for into the folder of the libraries; the header stays where it stands.
fn describe(header: &Path, built: &Path) -> Result<(), Box<dyn Error>> {
    let text = fs::read_to_string(header.join("netlink_packet_route.h"))?;
    let version = text
        .lines()
        .find_map(|line| line.strip_prefix("#define NPR_VERSION "))
        .ok_or("the header has no version")?;
    let form = fs::read_to_string(header.join("netlink_packet_route.pc.in"))?;
    let told = form
        .replace("@VERSION@", version.trim_matches('"'))
        .replace("${prefix}/include", &header.to_string_lossy())
        .replace("${prefix}/lib", &built.to_string_lossy())
        .replace("prefix=@PREFIX@\n", "");
    fs::write(built.join("netlink_packet_route.pc"), told)?;
    let link = built.join(SONAME);
    if !link.is_symlink() {
        std::os::unix::fs::symlink(SHARED, link)?;
    }
    Ok(())
}
