//! Times this library and the upstream crate over the same messages, in turns, and with the feature `peers` libmnl and libnl.
//!
//! `bench [ROUNDS [ROUTES]]` reads the real messages of `crates/conformance/data`. A figure is the median over
//! rounds of the ratio of both times, ours by upstream's: below 1 is faster.

mod links;
mod timing;
mod ways;

use netlink_packet_core::{Emitable, Parseable};
use netlink_packet_route::{address::AddressMessage, route::RouteMessage, rule::RuleMessage};
use links::{Link, NEW_LINK};
use std::hint::black_box;
use std::time::{Duration, Instant};
use timing::median;
use ways::{compare_dump, compare_ways, datagram};

#[repr(C)]
struct Answer {
    status: u32,
    number: u32,
    length: usize,
}

unsafe extern "C" {
    fn npr_address_canonical(bytes: *const u8, length: usize, out: *mut u8, room: usize) -> Answer;
    fn npr_route_canonical(bytes: *const u8, length: usize, out: *mut u8, room: usize) -> Answer;
    fn npr_rule_canonical(bytes: *const u8, length: usize, out: *mut u8, room: usize) -> Answer;
    fn npr_link_canonical(bytes: *const u8, length: usize, out: *mut u8, room: usize) -> Answer;
}

type Ours = unsafe extern "C" fn(*const u8, usize, *mut u8, usize) -> Answer;

/// Reads a message, measures it, and writes it where it has room: the length, if it is one.
type Work = fn(Ours, &[u8], &mut [u8]) -> Option<usize>;

fn ours(call: Ours, bytes: &[u8], out: &mut [u8]) -> Option<usize> {
    // SAFETY: the call reads the one slice and writes the other, and keeps neither.
    let answer = unsafe { call(bytes.as_ptr(), bytes.len(), out.as_mut_ptr(), out.len()) };
    matches!(answer.status, 0 | 3).then_some(answer.length)
}

fn upstream<M>(_call: Ours, bytes: &[u8], out: &mut [u8]) -> Option<usize>
where
    M: Parseable<[u8]> + Emitable,
{
    let message = M::parse(bytes).ok()?;
    let length = message.buffer_len();
    if let Some(room) = out.get_mut(..length) {
        message.emit(room);
    }
    Some(length)
}

fn bytes_of(digits: &str) -> Vec<u8> {
    let byte = |at: usize| u8::from_str_radix(&digits[at..at + 2], 16).expect("hexadecimal text");
    (0..digits.len()).step_by(2).map(byte).collect()
}

/// The messages of a file: hexadecimal text up to a tab.
fn messages(path: &str) -> Vec<Vec<u8>> {
    let text = std::fs::read_to_string(path).unwrap_or_else(|fault| panic!("{path}: {fault}"));
    let digits = text.lines().map(|line| line.split('\t').next().unwrap_or(""));
    digits.map(bytes_of).collect()
}

/// Those that both sides read, and write as the same bytes.
fn taken_alike(all: Vec<Vec<u8>>, call: Ours, theirs: Work) -> Vec<Vec<u8>> {
    let is_alike = |bytes: &Vec<u8>| {
        let (mut mine, mut other) = (vec![0; 1 << 18], vec![0; 1 << 18]);
        let length = ours(call, bytes, &mut mine);
        length.is_some() && length == theirs(call, bytes, &mut other) && mine == other
    };
    all.into_iter().filter(is_alike).collect()
}

/// How long the work takes over all messages, so many times.
fn timed(work: Work, call: Ours, all: &[Vec<u8>], out: &mut [u8], times: usize) -> Duration {
    let start = Instant::now();
    for _ in 0..times {
        for bytes in all {
            black_box(work(call, black_box(bytes), out));
        }
    }
    start.elapsed()
}

/// Prints both medians in nanoseconds a message, and that of the ratios.
fn compare(title: &str, call: Ours, theirs: Work, all: &[Vec<u8>], room: usize, rounds: usize) {
    let mut out = vec![0; room];
    let times = 1 + 4000 / all.len().max(1);
    let (mut mine, mut other, mut ratios) = (vec![], vec![], vec![]);
    for round in 0..rounds {
        // The order changes by the round.
        let (a, b) = if round % 2 == 0 {
            let a = timed(ours, call, all, &mut out, times);
            (a, timed(theirs, call, all, &mut out, times))
        } else {
            let b = timed(theirs, call, all, &mut out, times);
            (timed(ours, call, all, &mut out, times), b)
        };
        let each = |time: Duration| time.as_nanos() as f64 / (times * all.len()) as f64;
        mine.push(each(a));
        other.push(each(b));
        ratios.push(each(a) / each(b));
    }
    let (mine, other, ratio) = (median(mine), median(other), median(ratios));
    println!("{title:<28} {mine:>9.1} {other:>9.1} {ratio:>6.2}");
}

/// What is compared of a kind.
struct Kind {
    name: &'static str,
    message_type: u16,
    call: Ours,
    theirs: Work,
    ways: fn(&[u8], usize, usize),
}

const KINDS: [Kind; 4] = [
    Kind {
        name: "address",
        message_type: 20,
        call: npr_address_canonical,
        theirs: upstream::<AddressMessage>,
        ways: compare_ways::<AddressMessage>,
    },
    Kind {
        name: "route",
        message_type: 24,
        call: npr_route_canonical,
        theirs: upstream::<RouteMessage>,
        ways: compare_ways::<RouteMessage>,
    },
    Kind {
        name: "rule",
        message_type: 32,
        call: npr_rule_canonical,
        theirs: upstream::<RuleMessage>,
        ways: compare_ways::<RuleMessage>,
    },
    Kind {
        name: "link",
        message_type: NEW_LINK,
        call: npr_link_canonical,
        theirs: upstream::<Link>,
        ways: compare_ways::<Link>,
    },
];

fn main() {
    let mut words = std::env::args().skip(1).map(|word| word.parse().expect("a count"));
    let rounds = words.next().unwrap_or(101);
    let routes = words.next().unwrap_or(1_000_000);
    println!("{:<28} {:>9} {:>9} {:>6}", "nanoseconds a message", "ours", "upstream", "ratio");
    for kind in &KINDS {
        let path = format!("{}/../crates/conformance/data/{}.tsv", env!("CARGO_MANIFEST_DIR"), kind.name);
        let all = taken_alike(messages(&path), kind.call, kind.theirs);
        println!("{}: {} messages", kind.name, all.len());
        compare("  parse, measure", kind.call, kind.theirs, &all, 0, rounds);
        compare("  parse, measure, write", kind.call, kind.theirs, &all, 1 << 18, rounds);
        (kind.ways)(&datagram(kind.message_type, &all), all.len(), rounds);
    }
    let routes = u32::try_from(routes).expect("a count of routes");
    compare_dump(routes, rounds.min(11));
}
