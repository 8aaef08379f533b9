//! What is rewritten so that a user finds what upstream has.

use crate::fault::Fault;
use crate::rules::{Erased, Eraser};
use crate::source::Source;

/// Enumerations that never have one more variant. Each other one is `#[non_exhaustive]`, unless the crate
/// is built with `--cfg upstream`, for upstream's own tests.
pub const CLOSED: &[&str] = &[
    "Action",
    "Answer",
    "CanonicalError",
    "End",
    "EnvelopeError",
    "MessageType",
    "WriteCanonicalError",
    "WriteError",
];

/// Structures that may have one more field.
pub const OPEN: &[&str] = &[
    "CacheInfo",
    "Ioam6TraceHdr",
    "Message",
    "NeighbourCacheInfo",
    "RouteCacheInfo",
    "RouteGeneveOpt",
    "RouteMfcStats",
    "RouteNextHop",
    "RplSrh",
    "Seg6Header",
    "Seg6LocalSrh",
];

/// Structures of numbers that may have one more, whose zeros are their default.
pub const GROWN: &[&str] = &[
    "Icmp6Stats",
    "Inet6DevConf",
    "Inet6Stats",
    "InetDevConf",
    "Stats",
    "Stats64",
];

/// The addresses that the standard library has.
const ADDRESSES: [&str; 3] = ["Ipv4Addr", "Ipv6Addr", "IpAddr"];
pub const USE_OF_ADDRESSES: &str = "pub use std::net::{IpAddr, Ipv4Addr, Ipv6Addr};";

/// Whether it is the file of addresses.
pub fn has_addresses(library: &str, path: &str) -> bool {
    library == "npr_base" && path.ends_with("/ip.rt")
}

/// The file of addresses, in whose place those of the standard library stand.
pub fn addresses<'a>(source: &Source<'a>) -> Result<Erased<'a>, Fault> {
    let declared = |at: &usize| {
        let is_other = ["fn", "(", "use"].contains(&source.word(at + 1));
        source.word(*at) == "pub" && !is_other
    };
    let found: Vec<&str> = (0..source.tokens.len())
        .filter(declared)
        .map(|at| source.word(at + 2))
        .collect();
    if found != ADDRESSES {
        return Err(source.fault(0, "three types of addresses were expected"));
    }
    let lines = source.text.lines().enumerate().map(|(n, line)| match n {
        0 => format!("{line}\n"),
        1 => format!("{USE_OF_ADDRESSES}\n"),
        _ if line.is_empty() => "\n".into(),
        _ => format!("// {line}\n"),
    });
    Ok(Erased {
        text: lines.collect(),
        tally: [("addresses of std", 1)].into(),
        macros: Vec::new(),
    })
}

impl Eraser<'_> {
    /// Whether a set of flags is declared here.
    pub(crate) fn is_set(&self, at: usize) -> bool {
        self.source.is(at, "pub struct _ ( _ ) ;")
            && ["u8", "u16", "u32"].contains(&self.source.word(at + 4))
    }

    /// What is public, and may grow.
    pub(crate) fn declaration(&mut self, at: usize) -> Result<usize, Fault> {
        let name = self.source.word(at + 2);
        let may_grow = match self.source.word(at + 1) {
            "enum" => !CLOSED.contains(&name),
            "struct" => OPEN.contains(&name) || GROWN.contains(&name),
            _ => false,
        };
        if may_grow {
            let put = "#[cfg_attr(not(upstream), non_exhaustive)] ";
            self.edits
                .insert_before(&self.source, at, "non_exhaustive", put)?;
        }
        if self.is_set(at) {
            let put = "pub(crate) ";
            self.edits
                .insert(&self.source, at + 3, "field of a set", put)?;
        }
        Ok(at + 1)
    }

    /// A set shows the names of its flags. Its number is shown in the tests of proved text alone.
    pub(crate) fn debug_of_set(&mut self, debug: usize, behind: usize) -> Result<(), Fault> {
        if self.source.word(debug + 1) != "," {
            return Err(self.source.fault(debug, "`Debug,` was expected"));
        }
        self.cut(debug, 2, "derived Debug of a set")?;
        let put = " #[cfg_attr(test, derive(Debug))]";
        self.edits
            .insert(&self.source, behind - 1, "derived Debug in tests", put)
    }

    /// A set has calls of these names too, which take the place of the trait's.
    pub(crate) fn call_of_set(&mut self, at: usize) -> Result<usize, Fault> {
        let put = format!("{}_in", self.source.word(at));
        self.replace(at, 1, "call of a set", &put)
    }
}
