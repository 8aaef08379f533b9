//! Turns libraries of proved Rattle into the modules of one Rust crate. Contracts are cut out and
//! become comments, and what Rust spells otherwise is rewritten, on tokens. Each line keeps its
//! number. What no rule knows is a fault with its file and line.
//!
//! `kind` has the written list of what is done, and `audit` finds out by itself what was done.
#![forbid(unsafe_code)]

pub mod audit;
mod edit;
mod exported;
mod fault;
mod hints;
mod kind;
mod own_tests;
mod rules;
mod serialized;
mod source;
mod token;
mod upstream;

pub use edit::Tally;
pub use fault::Fault;
pub use rules::{Erased, erase};
use std::fs;
use std::path::{Path, PathBuf};

/// The libraries, each before those that stand on it.
pub const LIBRARIES: [&str; 25] = [
    "npr_base",
    "npr_names",
    "netlink_packet_core",
    "npr_route_values",
    "npr_srh",
    "npr_encapsulation",
    "npr_address",
    "npr_rule",
    "npr_neighbour",
    "npr_link_statistics",
    "npr_link_bridge",
    "npr_link_devices",
    "npr_link_functions",
    "npr_link_tunnels",
    "npr_link",
    "npr_route",
    "npr_namespace",
    "npr_nexthop",
    "npr_stats",
    "npr_tc_values",
    "npr_tc_qdiscs",
    "npr_tc_actions",
    "npr_tc_filters",
    "npr_tc",
    "netlink_packet_route",
];

/// The library for C, which stands on all of them.
pub const FOR_C: [&str; 1] = ["npr_c"];

/// The crates of their tests, likewise, and the program whose messages they ask about.
pub const TESTS: [&str; 8] = [
    "npr_testing",
    "template",
    "message_tests",
    "value_tests",
    "text_tests",
    "link_tests",
    "tc_tests",
    own_tests::MAKER,
];

/// Erases the libraries of a folder into another, with a file `modules.rs` that names them, and
/// fails where the audit counts otherwise. Answers how often each kind of edit was made.
pub fn erase_all(crates: &Path, out: &Path) -> Result<Tally, Fault> {
    erase_some(crates, out, &LIBRARIES, "modules.rs")
}

/// The same of the crates of tests, with a file `tests.rs`.
pub fn erase_tests(crates: &Path, out: &Path) -> Result<Tally, Fault> {
    erase_some(crates, out, &TESTS, "tests.rs")
}

/// The same of the library for C, with a file `c.rs`, and a file `exported.rs` with its calls as C takes them.
pub fn erase_for_c(crates: &Path, out: &Path) -> Result<Tally, Fault> {
    let tally = erase_some(crates, out, &FOR_C, "c.rs")?;
    let mut calls = String::new();
    for library in &FOR_C {
        calls += &exported::calls(crates, library)?;
    }
    write(&out.join("exported.rs"), &calls)?;
    Ok(tally)
}

fn erase_some(crates: &Path, out: &Path, some: &[&str], list: &str) -> Result<Tally, Fault> {
    let mut tally = Tally::new();
    for library in some {
        for (kind, count) in erase_library(crates, out, library)? {
            *tally.entry(kind).or_default() += count;
        }
    }
    let modules: String = some.iter().map(|name| format!("mod {name};\n")).collect();
    write(&out.join(list), &modules)?;
    audit::audit(crates, out, some, &tally)?;
    Ok(tally)
}

/// The folder of a library's text, and how its files end: tests stand beside the crates, as Rust.
pub fn folder(crates: &Path, library: &str) -> (PathBuf, &'static str) {
    let tests = crates.join("../tests").join(library).join("src");
    match tests.is_dir() {
        true => (tests, "rs"),
        false => (crates.join(library).join("src"), "rt"),
    }
}

/// The files of a library in order, but that of its laws, which are functions that do nothing, tests of
/// programs, and what of the maker makes no messages.
pub fn sources(crates: &Path, library: &str) -> Result<Vec<PathBuf>, Fault> {
    let (folder, wanted) = folder(crates, library);
    let entries = fs::read_dir(&folder).map_err(|e| unread(&folder, e))?;
    let mut found = Vec::new();
    for entry in entries {
        let path = entry.map_err(|e| unread(&folder, e))?.path();
        if path.extension().is_none_or(|end| end != wanted) {
            return Err(Fault::new(&path.to_string_lossy(), 0, "no file of Rattle"));
        }
        found.push(path);
    }
    let stem = |path: &PathBuf| path.file_stem().unwrap_or_default().to_owned();
    let is_of = |path: &PathBuf, names: &[&str]| names.iter().any(|name| stem(path) == *name);
    found.retain(|path| match library {
        own_tests::MAKER => is_of(path, &own_tests::OF_MAKER),
        _ if TESTS.contains(&library) => !is_of(path, &own_tests::OF_PROGRAMS),
        _ => !is_of(path, &["laws"]),
    });
    found.sort();
    Ok(found)
}

/// Where a file of a library goes.
pub fn target(out: &Path, library: &str, source: &Path) -> PathBuf {
    let name = source.file_stem().unwrap_or_default();
    let name = if name == "lib" { "mod".as_ref() } else { name };
    out.join(library).join(name).with_extension("rs")
}

/// The text of a file.
pub fn read(path: &Path) -> Result<String, Fault> {
    fs::read_to_string(path).map_err(|e| unread(path, e))
}

fn erase_library(crates: &Path, out: &Path, library: &str) -> Result<Tally, Fault> {
    let (mut tally, mut root, mut uses) = (Tally::new(), None, String::new());
    let folder = out.join(library);
    fs::create_dir_all(&folder).map_err(|e| unread(&folder, e))?;
    if library == own_tests::MAKER {
        let modules = own_tests::OF_MAKER.map(|name| format!("pub mod {name};\n"));
        root = Some((folder.join("mod.rs"), modules.concat()));
    }
    for path in sources(crates, library)? {
        let (shown, target, text) = (
            path.to_string_lossy(),
            target(out, library, &path),
            read(&path)?,
        );
        let erased = erase(&shown, library, &text)?;
        for (kind, count) in erased.tally {
            *tally.entry(kind).or_default() += count;
        }
        let module = path.file_stem().unwrap_or_default().to_string_lossy();
        for name in erased.macros {
            uses += &format!("pub(crate) use {module}::{name};\n");
            *tally.entry("use of a macro in lib").or_default() += 1;
        }
        match target.ends_with("mod.rs") {
            true => root = Some((target, erased.text)),
            false => write(&target, &erased.text)?,
        }
    }
    let (target, text) = root.ok_or_else(|| Fault::new(library, 0, "it has no lib.rt"))?;
    write(&target, &(text + &uses))?;
    Ok(tally)
}

fn write(path: &Path, text: &str) -> Result<(), Fault> {
    fs::write(path, text).map_err(|e| unread(path, e))
}

fn unread(path: &Path, error: std::io::Error) -> Fault {
    Fault::new(&path.to_string_lossy(), 0, error.to_string())
}
