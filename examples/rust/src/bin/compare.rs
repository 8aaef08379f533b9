//! `compare KIND FILE.. [KIND FILE..]` compares the crate's answers with those in files of
//! `crates/conformance`. The last line is `N lines, M differ`. The status is 1 where one does, and 2 where
//! a word is wrong or a file cannot be read.

use netlink_packet_route::framing::{DecodeError, Header, Message, WriteError};
use netlink_packet_route::{
    address, address_label, link, neighbour, neighbour_table, netconf, nexthop, nsid, prefix, route,
    rule, stats, tc,
};
use std::process::ExitCode;

/// What is answered to bytes.
type Answer = fn(&[u8]) -> Result<String, String>;

/// Each kind of messages by its name.
const KINDS: &[(&str, Answer)] = &[
    ("address", answer::<address::AddressHeader>),
    ("route", answer::<route::RouteHeader>),
    ("rule", answer::<rule::RuleHeader>),
    ("neighbour", answer::<neighbour::NeighbourHeader>),
    ("link", answer::<link::LinkHeader>),
    ("nexthop", answer::<nexthop::NextHopHeader>),
    ("nsid", answer::<nsid::NsidHeader>),
    ("netconf", answer::<netconf::NetconfHeader>),
    ("address-label", answer::<address_label::AddressLabelHeader>),
    (
        "neighbour-table",
        answer::<neighbour_table::NeighbourTableHeader>,
    ),
    ("prefix", answer::<prefix::PrefixHeader>),
    ("tc", answer::<tc::TcHeader>),
    ("tc-action", answer::<tc::TcActionMessageHeader>),
    ("stats", answer::<stats::StatsHeader>),
];

fn answer<H: Header>(bytes: &[u8]) -> Result<String, String> {
    let message = Message::<H, H::Attribute>::try_from(bytes).map_err(refusal)?;
    let written = message.to_bytes().map_err(cause)?;
    Ok(format!("canonical {}", hex(&written)))
}

fn refusal(fault: DecodeError) -> String {
    format!("refused {}", fault.name())
}

fn cause(fault: WriteError) -> String {
    match fault {
        WriteError::Unfit(cause) => format!("unfit {}", cause.name()),
        WriteError::OutOfMemory => "out of memory".into(),
    }
}

fn hex(bytes: &[u8]) -> String {
    bytes.iter().map(|byte| format!("{byte:02x}")).collect()
}

/// The bytes of hexadecimal digits.
fn unhex(digits: &str) -> Option<Vec<u8>> {
    let pair = |at| u8::from_str_radix(digits.get(at..at + 2)?, 16).ok();
    (0..digits.len()).step_by(2).map(pair).collect()
}

/// How many lines a file has, and how many of them are answered otherwise.
fn compare(answer: Answer, path: &str) -> Result<(usize, usize), String> {
    let text = std::fs::read_to_string(path).map_err(|fault| format!("{path}: {fault}"))?;
    let (mut lines, mut differ) = (0, 0);
    for line in text.lines() {
        lines += 1;
        let of_another_form = || format!("{path}: line {lines} is of another form");
        let (digits, wanted) = line.split_once('\t').ok_or_else(of_another_form)?;
        let bytes = unhex(digits).ok_or_else(of_another_form)?;
        let answered = answer(&bytes).unwrap_or_else(|refused| refused);
        if answered != wanted {
            differ += 1;
            println!("{path}: line {lines}: {answered}, where {wanted} stands");
        }
    }
    Ok((lines, differ))
}

/// The sums over all files.
fn compare_all(words: impl Iterator<Item = String>) -> Result<(usize, usize), String> {
    let (mut kind, mut sums) = (None, (0, 0));
    for word in words {
        if let Some((_, answer)) = KINDS.iter().find(|(name, _)| *name == word) {
            kind = Some(*answer);
            continue;
        }
        let answer = kind.ok_or_else(|| format!("{word} is no kind of messages"))?;
        let (lines, differ) = compare(answer, &word)?;
        sums = (sums.0 + lines, sums.1 + differ);
    }
    Ok(sums)
}

fn main() -> ExitCode {
    match compare_all(std::env::args().skip(1)) {
        Ok((lines, differ)) => {
            println!("{lines} lines, {differ} differ");
            ExitCode::from(u8::from(differ != 0))
        }
        Err(fault) => {
            eprintln!("{fault}");
            ExitCode::from(2)
        }
    }
}
