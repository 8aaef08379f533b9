//! Erases the proved libraries, and changes what upstream types otherwise: each change is a row. For upstream's own tests, whose
//! folder the variable UPSTREAM names, it finds them too.

use std::env::var_os;
use std::fs;
use std::path::{Path, PathBuf};

/// What stands in place of a file.
const FILES: [(&str, &str); 2] = [
    (
        "npr_base/default_nla.rs",
        "pub use crate::default_nla::*;\n",
    ),
    ("npr_link/peer.rs", "pub use crate::peer::*;\n"),
];

/// In a file, what, and what stands there then.
const CHANGES: [(&str, &str, &str); 35] = [
    // what is written by hand names these
    (
        "npr_link/mod.rs",
        "\nmod header;",
        "\npub(crate) mod header;",
    ),
    (
        "npr_link/mod.rs",
        "\nmod peer_attribute;",
        "\npub(crate) mod peer_attribute;",
    ),
    ("npr_tc/mod.rs", "\nmod option;", "\npub(crate) mod option;"),
    (
        "npr_tc_actions/mod.rs",
        "\nmod action_option;",
        "\npub(crate) mod action_option;",
    ),
    // what is asked of a link is a list of names
    (
        "npr_link/attribute.rs",
        "    ExtMask(LinkExtentMask),",
        "    ExtMask(Vec<LinkExtentMask>),",
    ),
    (
        "npr_link/attribute.rs",
        "            29 ExtMask(LinkExtentMask flags le32);\n",
        "\n",
    ),
    (
        "npr_link/attribute.rs",
        "kind_rows(self;\n",
        "kind_rows(self; LinkAttribute::ExtMask(_) => crate::extent_mask::IFLA_EXT_MASK,\n",
    ),
    (
        "npr_link/attribute.rs",
        "len_rows(self;\n",
        "len_rows(self; LinkAttribute::ExtMask(_) => 4,\n",
    ),
    (
        "npr_link/attribute.rs",
        "write_rows(self, out;\n",
        "write_rows(self, out; LinkAttribute::ExtMask(x) => crate::extent_mask::write(x, out),\n",
    ),
    (
        "npr_link/attribute.rs",
        "flat_rows(place, alloc, item)",
        "flat_rows(place, alloc, item; crate::extent_mask::IFLA_EXT_MASK => crate::extent_mask::put(place, item),)",
    ),
    (
        "npr_link/attribute.rs",
        "form_rows(number;\n",
        "form_rows(number; crate::extent_mask::IFLA_EXT_MASK => Form::Little32,\n",
    ),
    (
        "npr_link/attribute.rs",
        "clone_rows(self, alloc;\n",
        "clone_rows(self, alloc; LinkAttribute::ExtMask(x) => Ok(LinkAttribute::ExtMask(x.clone())),\n",
    ),
    (
        "netlink_packet_route/request.rs",
        "LinkAttribute::ExtMask(mask)",
        "LinkAttribute::ExtMask(vec![mask])",
    ),
    // identifiers and counters that upstream has types for
    (
        "npr_link/attribute.rs",
        "    PhysPortId(Vec<u8>),",
        "    PhysPortId(LinkPhysId),",
    ),
    (
        "npr_link/attribute.rs",
        "    PhysSwitchId(Vec<u8>),",
        "    PhysSwitchId(LinkPhysId),",
    ),
    (
        "npr_link/attribute.rs",
        "34 PhysPortId(raw);",
        "34 PhysPortId(LinkPhysId value raw);",
    ),
    (
        "npr_link/attribute.rs",
        "36 PhysSwitchId(raw);",
        "36 PhysSwitchId(LinkPhysId value raw);",
    ),
    (
        "npr_link/attribute.rs",
        "use crate::npr_link::extent_mask::LinkExtentMask;",
        "use crate::npr_link::extent_mask::LinkExtentMask; use crate::kept::LinkPhysId;",
    ),
    (
        "npr_link/info.rs",
        "    Xstats(Vec<u8>),",
        "    Xstats(crate::kept::LinkXstats),",
    ),
    (
        "npr_link/info.rs",
        "LinkInfo::Xstats(read_bytes(alloc, value)?)",
        "LinkInfo::Xstats(crate::kept::LinkXstats::Other(read_bytes(alloc, value)?))",
    ),
    (
        "npr_link/info.rs",
        ".map(LinkInfo::Xstats)",
        ".map(crate::kept::LinkXstats::Other).map(LinkInfo::Xstats)",
    ),
    // a pair has one other end
    (
        "npr_link/info_data.rs",
        "    Veth(Vec<InfoVeth>),",
        "    Veth(InfoVeth),",
    ),
    (
        "npr_link/info_data.rs",
        "Ok(InfoData::Veth(parse_list(alloc, (), bytes, looks)?))",
        "crate::peer::pair(parse_list(alloc, (), bytes, looks)?, bytes)",
    ),
    (
        "npr_link/info_data.rs",
        "            Veth(list InfoVeth);\n",
        "\n",
    ),
    (
        "npr_link/info_data.rs",
        "InfoData::Other(bytes) => read_bytes(",
        "InfoData::Veth(end) => Ok(InfoData::Veth(end.clone())), InfoData::Other(bytes) => read_bytes(",
    ),
    (
        "npr_link/info_data.rs",
        "InfoData::Other(bytes) => Ok(bytes.len()),",
        "InfoData::Veth(end) => crate::peer::check_pair(end), InfoData::Other(bytes) => Ok(bytes.len()),",
    ),
    (
        "npr_link/info_data.rs",
        "InfoData::Other(bytes) => write_bytes(",
        "InfoData::Veth(end) => crate::peer::write_pair(end, out), InfoData::Other(bytes) => write_bytes(",
    ),
    // the data of a kind are a list
    (
        "npr_tc/attribute.rs",
        "    Options(TcOption),",
        "    Options(Vec<crate::tc_options::TcOption>),",
    ),
    (
        "npr_tc/attribute.rs",
        "TcOption::read(alloc, form, item.value(), looks)?",
        "crate::tc_options::list(TcOption::read(alloc, form, item.value(), looks)?)",
    ),
    (
        "npr_tc/attribute.rs",
        "use crate::npr_tc::option::TcOption;",
        "use crate::npr_tc::option::TcOption; use crate::tc_options::Listed as _;",
    ),
    (
        "npr_tc/mod.rs",
        "pub use option::TcOption;",
        "pub use crate::tc_options::TcOption;",
    ),
    (
        "npr_tc_actions/attribute.rs",
        "    Options(TcActionOption),",
        "    Options(Vec<crate::tc_options::TcActionOption>),",
    ),
    (
        "npr_tc_actions/attribute.rs",
        "TcActionOption::read(alloc, form, item.value(), looks),",
        "TcActionOption::read(alloc, form, item.value(), looks).map(crate::tc_options::action_list),",
    ),
    (
        "npr_tc_actions/attribute.rs",
        "use crate::npr_tc_actions::action_option::TcActionOption;",
        "use crate::npr_tc_actions::action_option::TcActionOption; use crate::tc_options::Listed as _;",
    ),
    (
        "npr_tc_actions/mod.rs",
        "pub use action_option::TcActionOption;",
        "pub use crate::tc_options::TcActionOption;",
    ),
];

/// The files of upstream's tests, and the modules that they are in.
const TESTS: [(&str, &str); 11] = [
    ("root", "tests.rs"),
    ("address", "address/tests/mod.rs"),
    ("link", "link/tests/mod.rs"),
    ("neighbour", "neighbour/tests/mod.rs"),
    ("neighbour_table", "neighbour_table/tests.rs"),
    ("nsid", "nsid/tests.rs"),
    ("prefix", "prefix/tests.rs"),
    ("route", "route/tests/mod.rs"),
    ("rule", "rule/tests/mod.rs"),
    ("tc", "tc/tests/mod.rs"),
    ("actions", "tc/actions/tests/mod.rs"),
];

/// What a test spells otherwise: structures of numbers, and headers of SEG6, have fields besides.
const SPELLED: [(&str, &str); 11] = [
    ("segments: vec![", "hmac: None, segments: vec! ["),
    ("Stats(Stats {", "Stats(Stats { missing: 0, more: vec![],"),
    ("Stats64 {", "Stats64 { missing: 0, more: vec![],"),
    ("(InetDevConf {", "(InetDevConf { missing: 0, more: vec![],"),
    (
        "Inet6DevConf {",
        "Inet6DevConf { force_forwarding: 0, missing: 1, more: vec![],",
    ),
    ("Inet6Stats {", "Inet6Stats { missing: 0, more: vec![],"),
    ("Icmp6Stats {", "Icmp6Stats { missing: 0, more: vec![],"),
    ("LinkVfInfo(vec![", "LinkVfInfo::Info(vec!["),
    ("enabled: false", "setting: 0"),
    ("enabled: true", "setting: 1"),
    (
        "                    InfoMacVlan::MacAddr(",
        "crate::link::MacVlanAddress::MacAddr(",
    ),
];

/// The tests whose types are others here: counters that upstream keeps as bytes, and those of `fq_codel`, which lose no byte.
const LEFT_OUT: [&str; 3] = [
    "fn test_get_filter_matchall(",
    "fn test_get_filter_u32(",
    "fn test_get_qdisc_fq_codel(",
];

fn main() {
    println!("cargo::rerun-if-changed=build.rs");
    println!("cargo::rerun-if-env-changed=UPSTREAM");
    println!("cargo::rustc-cfg=upstream");
    let folder = |name| PathBuf::from(var_os(name).expect("cargo sets it"));
    let crates = folder("CARGO_MANIFEST_DIR").join("../../crates");
    for library in erase::LIBRARIES {
        println!(
            "cargo::rerun-if-changed={}",
            erase::folder(&crates, library).0.display()
        );
    }
    let out = folder("OUT_DIR");
    if let Err(fault) = erase::erase_all(&crates, &out) {
        println!("cargo::error={fault}");
        return;
    }
    for library in erase::LIBRARIES {
        bring_in_traits(&out.join(library));
    }
    FILES
        .iter()
        .for_each(|(file, text)| write(&out.join(file), text));
    CHANGES.iter().for_each(|change| apply(&out, change));
    if let Some(upstream) = var_os("UPSTREAM") {
        println!("cargo::rustc-cfg=upstream_tests");
        bring_in_tests(&PathBuf::from(upstream).join("src"), &out.join("upstream"));
    }
}

/// Makes a change once, where it is wanted.
fn apply(out: &Path, (file, from, to): &(&str, &str, &str)) {
    let path = out.join(file);
    let text = read(&path);
    assert!(text.contains(from), "{file}: no `{from}`");
    write(&path, &text.replacen(from, to, 1));
}

/// A value is read of bytes, or of the buffer of its fields.
fn read_of_buffers(text: &str) -> String {
    let (mut found, mut begun) = (String::new(), false);
    for line in text.lines() {
        let line = match line.contains("pub fn parse(bytes: &[u8]) -> Result<Self, DecodeError>") {
            true => line.replace(
                "parse(bytes: &[u8])",
                "parse<B: crate::buffers::AsBytes + ?Sized>(bytes: &B)",
            ),
            false => line.to_owned(),
        };
        begun |= line.contains("parse<B: ");
        let is_body = begun && line.trim() == "{";
        found += &line;
        if is_body {
            found += " let bytes = crate::buffers::AsBytes::as_bytes(bytes);";
            begun = false;
        }
        found.push('\n');
    }
    found
}

/// What the proved text calls on an attribute that is kept as it stands, and on a peer, is a trait's here; the value of the first
/// is a copy.
fn bring_in_traits(folder: &Path) {
    for entry in fs::read_dir(folder).expect("a folder") {
        let path = entry.expect("a file").path();
        if path.is_dir() {
            bring_in_traits(&path);
            continue;
        }
        let text = read(&path).replace("write_bytes(nla.value(), ", "write_bytes(&nla.value(), ");
        let text = read_of_buffers(&text);
        write(
            &path,
            &(text + "use crate::{default_nla::Kept as _, peer::Peer as _};\n"),
        );
    }
}

/// Copies upstream's tests, and names each module of them in a file of its own.
fn bring_in_tests(upstream: &Path, out: &Path) {
    for (module, file) in TESTS {
        let (from, to) = (upstream.join(file), out.join(file));
        let folder = from.parent().filter(|folder| folder.ends_with("tests"));
        let files = match folder {
            Some(folder) => fs::read_dir(folder)
                .expect("tests")
                .map(|entry| entry.expect("a file").path())
                .collect(),
            None => vec![from],
        };
        for from in files {
            let to = to.with_file_name(from.file_name().expect("a name"));
            fs::create_dir_all(to.parent().expect("a folder")).expect("a folder");
            let text = SPELLED
                .iter()
                .fold(read(&from), |text, (said, here)| text.replace(said, here));
            let left_out = |text: String, name: &&str| {
                text.replace(&format!("\n{name}"), &format!("\n#[cfg(any())]\n{name}"))
            };
            write(&to, &LEFT_OUT.iter().fold(text, left_out));
        }
        let declared = format!("#[cfg(test)]\n#[path = {to:?}]\nmod tests;\n");
        write(&out.join(module).with_extension("rs"), &declared);
    }
}

fn read(path: &Path) -> String {
    fs::read_to_string(path).unwrap_or_else(|fault| panic!("{}: {fault}", path.display()))
}

fn write(path: &Path, text: &str) {
    fs::write(path, text).unwrap_or_else(|fault| panic!("{}: {fault}", path.display()));
}
