//! `made OUT SEED COUNT` makes so many messages of each kind of stored ones, and a twentieth as many
//! datagrams, by a seed. It writes them to OUT, each with what the crate answers, for the program
//! `conformance` to compare.

#[path = "../tests/common/mod.rs"]
mod common;

use common::{KINDS, Kind, hex, lines_of};
use netlink_packet_route as library;
use std::fmt::Write;

/// Numbers without an order (SplitMix64).
struct Random(u64);

impl Random {
    fn number(&mut self) -> u64 {
        self.0 = self.0.wrapping_add(0x9e37_79b9_7f4a_7c15);
        let mixed = (self.0 ^ (self.0 >> 30)).wrapping_mul(0xbf58_476d_1ce4_e5b9);
        let mixed = (mixed ^ (mixed >> 27)).wrapping_mul(0x94d0_49bb_1331_11eb);
        mixed ^ (mixed >> 31)
    }

    /// A number below the bound, and 0 where there is none.
    fn below(&mut self, bound: usize) -> usize {
        match bound {
            0 => 0,
            _ => (self.number() >> 33) as usize % bound,
        }
    }

    fn byte(&mut self) -> u8 {
        self.number() as u8
    }

    fn of<'a, T>(&mut self, all: &'a [T]) -> &'a T {
        &all[self.below(all.len())]
    }
}

/// Changes a byte by a few.
fn shift(random: &mut Random, byte: &mut u8) {
    *byte = byte.wrapping_add(random.below(9) as u8).wrapping_sub(4);
}

/// A stored one with a few bytes or lengths changed, its end cut, or a piece of another put in.
fn changed(random: &mut Random, all: &[Vec<u8>]) -> Vec<u8> {
    let mut bytes = random.of(all).clone();
    for _ in 0..=random.below(4) {
        let at = random.below(bytes.len());
        match random.below(8) {
            0..=2 if !bytes.is_empty() => bytes[at] = random.byte(),
            3 if !bytes.is_empty() => bytes[at] = random.below(32) as u8,
            4 if !bytes.is_empty() => shift(random, &mut bytes[at & !3]),
            5 => bytes.truncate(at),
            _ => put_in(random, &mut bytes, at & !3, all),
        }
    }
    bytes
}

/// Puts a piece of another one in.
fn put_in(random: &mut Random, bytes: &mut Vec<u8>, at: usize, all: &[Vec<u8>]) {
    let other = random.of(all);
    let from = random.below(other.len()) & !3;
    let count = random.below(other.len() - from + 1).min(64);
    let at = at.min(bytes.len());
    bytes.splice(at..at, other[from..from + count].iter().copied());
}

/// An attribute: its kind and its value.
type Attribute = (u16, Vec<u8>);

/// The attributes behind a header.
fn attributes(bytes: &[u8], header: usize) -> Vec<Attribute> {
    let mut found = Vec::new();
    let mut rest = bytes.get(header..).unwrap_or_default();
    while let [low, high, kind_low, kind_high, more @ ..] = rest {
        let length = usize::from(u16::from_le_bytes([*low, *high]));
        let Some(value) = length.checked_sub(4).and_then(|count| more.get(..count)) else {
            break;
        };
        let kind = u16::from_le_bytes([*kind_low, *kind_high]);
        found.push((kind, value.to_vec()));
        rest = rest.get(length.next_multiple_of(4)..).unwrap_or_default();
    }
    found
}

/// Changes an attribute in one place.
fn change(random: &mut Random, (kind, value): &mut Attribute) {
    let at = random.below(value.len());
    match random.below(9) {
        0 => *kind = random.below(40) as u16,
        1 => *kind ^= 0x8000 >> random.below(2),
        2 => value.truncate(at),
        3 => value.push(random.byte()),
        4 => value.extend([0; 4]),
        5 if !value.is_empty() => value[at] = random.below(24) as u8,
        6 if value.len() > 8 => shift(random, &mut value[at & !3]),
        _ if !value.is_empty() => value[at] = random.byte(),
        _ => {}
    }
}

/// A header of one, and attributes of others, some of them changed.
fn composed(random: &mut Random, all: &[Vec<u8>], pool: &[Attribute], header: usize) -> Vec<u8> {
    let first = random.of(all);
    let mut bytes = first[..header.min(first.len())].to_vec();
    if random.below(6) == 0 && !bytes.is_empty() {
        let at = random.below(bytes.len());
        bytes[at] = random.byte();
    }
    for _ in 0..random.below(6) {
        let mut attribute = random.of(pool).clone();
        for _ in 0..random.below(3) {
            change(random, &mut attribute);
        }
        let (kind, value) = attribute;
        bytes.extend((4 + value.len() as u16).to_le_bytes());
        bytes.extend(kind.to_le_bytes());
        bytes.extend(value);
        bytes.resize(bytes.len().next_multiple_of(4), random.below(2) as u8);
    }
    bytes
}

/// The lines of a kind, each bytes and the answer to them.
fn lines(kind: &Kind, seed: u64, count: usize) -> String {
    let mut random = Random(seed);
    let generated = format!("generated_{}", kind.word);
    let files: &[&str] = match kind.word {
        "address" | "route" | "rule" => &[kind.word, &generated],
        _ => &[kind.word],
    };
    let stored = files.iter().flat_map(|file| lines_of(file));
    let all: Vec<Vec<u8>> = stored.map(|(bytes, _)| bytes).collect();
    let header = match kind.word {
        "nsid" | "netconf" | "neighbour-table" => 4,
        "address" | "nexthop" => 8,
        "link" => 16,
        _ => 12,
    };
    let pool: Vec<_> = all
        .iter()
        .flat_map(|bytes| attributes(bytes, header))
        .collect();
    let mut text = String::new();
    for at in 0..count {
        let bytes = match at % 4 {
            1.. if kind.word != "datagrams" => composed(&mut random, &all, &pool, header),
            _ => changed(&mut random, &all),
        };
        writeln!(text, "{}\t{}", hex(&bytes), kind.answer(&bytes)).expect("a text that grows");
    }
    text
}

fn main() {
    let words: Vec<String> = std::env::args().skip(1).collect();
    let [out, seed, count] = &words[..] else {
        panic!("made OUT SEED COUNT");
    };
    let (seed, count) = (
        seed.parse().expect("a seed"),
        count.parse().expect("a count"),
    );
    for kind in &KINDS {
        let count = if kind.word == "datagrams" {
            count / 20
        } else {
            count
        };
        let path = format!("{out}/{}.tsv", kind.word);
        std::fs::write(path, lines(kind, seed, count)).expect("a folder for the files");
        println!("{count} {} of the seed {seed}", kind.word);
    }
}
