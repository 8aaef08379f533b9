//! Each request for memory is refused in turn: of a reading, a copy, a walk and a writing of the stored
//! messages, and each is answered.

use crate::address::AddressHeader;
use crate::address_label::AddressLabelHeader;
use crate::framing::{DecodeError, Header, Message, Parseable, WriteError, to_vec};
use crate::link::LinkHeader;
use crate::memory::Global;
use crate::neighbour::NeighbourHeader;
use crate::neighbour_table::NeighbourTableHeader;
use crate::netconf::NetconfHeader;
use crate::nexthop::NextHopHeader;
use crate::nsid::NsidHeader;
use crate::prefix::PrefixHeader;
use crate::stats::StatsHeader;
use crate::route::RouteHeader;
use crate::rule::RuleHeader;
use crate::tc::{TcActionMessageHeader, TcHeader};
use crate::testing::hex;
use crate::{CanonicalError, MessageKind, canonical};
use std::cell::Cell;

thread_local! {
    /// How many requests are still granted.
    static GRANTED: Cell<usize> = const { Cell::new(usize::MAX) };
    /// How many were refused.
    static REFUSED: Cell<usize> = const { Cell::new(0) };
}

/// Whether this request is refused, as each behind it.
pub(crate) fn is_refused() -> bool {
    GRANTED.with(|granted| match granted.get() {
        usize::MAX => false,
        0 => {
            REFUSED.set(REFUSED.get() + 1);
            true
        }
        left => {
            granted.set(left - 1);
            false
        }
    })
}

/// How many runs were refused memory, until one was granted all of it. Want of memory is told where a
/// request was refused, and there alone.
fn runs(mut is_want_of_memory: impl FnMut() -> bool) -> usize {
    (0..)
        .take_while(|count| {
            REFUSED.set(0);
            GRANTED.set(*count);
            let told = is_want_of_memory();
            GRANTED.set(usize::MAX);
            assert_eq!(told, REFUSED.get() > 0);
            told
        })
        .count()
}

/// The same of the calls on a message of this kind.
fn runs_of<H: Header>(kind: MessageKind, bytes: &[u8]) -> usize {
    let wanted = DecodeError::OutOfMemory;
    let read = || Message::<H, H::Attribute>::parse(Global, bytes);
    let walk = || {
        let mut steps = Message::<H, H::Attribute>::attributes(Global, bytes)?;
        steps.try_for_each(|step| step.map(drop))
    };
    let again = || canonical(Global, kind, bytes);
    let reads = runs(|| read().err() == Some(wanted))
        + runs(|| walk() == Err(wanted))
        + runs(|| again() == Err(CanonicalError::Refused(wanted)));
    let Ok(message) = read() else {
        return reads;
    };
    let copies = runs(|| message.try_clone(Global).is_err());
    let writings = runs(|| matches!(to_vec(Global, &message), Err(WriteError::OutOfMemory)));
    reads + copies + writings
}

/// The same of the messages of stored files.
fn of_files<H: Header>(kind: MessageKind, names: &[&str]) -> usize {
    let folder = concat!(env!("CARGO_MANIFEST_DIR"), "/../../crates/conformance/data");
    let of_line = |line: &str| {
        let digits = line.split('\t').next().expect("a first part");
        let bytes = hex::decode(Global, digits).expect("hexadecimal digits");
        runs_of::<H>(kind, &bytes)
    };
    let of_file = |name: &&str| {
        let text = std::fs::read_to_string(format!("{folder}/{name}.tsv")).expect("a stored file");
        text.lines().map(of_line).sum::<usize>()
    };
    names.iter().map(of_file).sum()
}

#[test]
fn each_request_that_is_refused_is_answered() {
    let counts = [
        of_files::<AddressHeader>(MessageKind::Address, &["address", "generated_address"]),
        of_files::<RouteHeader>(MessageKind::Route, &["route", "generated_route"]),
        of_files::<RuleHeader>(MessageKind::Rule, &["rule", "generated_rule"]),
        of_files::<NeighbourHeader>(MessageKind::Neighbour, &["neighbour"]),
        of_files::<LinkHeader>(MessageKind::Link, &["link"]),
        of_files::<NextHopHeader>(MessageKind::NextHop, &["nexthop"]),
        of_files::<NsidHeader>(MessageKind::Nsid, &["nsid"]),
        of_files::<NetconfHeader>(MessageKind::Netconf, &["netconf"]),
        of_files::<AddressLabelHeader>(MessageKind::AddressLabel, &["address-label"]),
        of_files::<NeighbourTableHeader>(MessageKind::NeighbourTable, &["neighbour-table"]),
        of_files::<PrefixHeader>(MessageKind::Prefix, &["prefix"]),
        of_files::<TcHeader>(MessageKind::Tc, &["tc"]),
        of_files::<TcActionMessageHeader>(MessageKind::TcAction, &["tc-action"]),
        of_files::<StatsHeader>(MessageKind::Stats, &["stats"]),
    ];
    let count: usize = counts.iter().sum();
    println!("{count} requests refused, each answered");
    assert!(counts.iter().all(|count| *count > 0) && count > 50_000);
}
