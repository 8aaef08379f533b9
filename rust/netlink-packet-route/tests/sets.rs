//! Sets of flags beside those that the macro of `bitflags` makes, for each number and pair of numbers.

use netlink_packet_route::route;
use std::collections::HashSet;
use std::fmt::Debug;

bitflags::bitflags! {
    #[derive(Clone, Copy, Debug, Default, PartialEq, Eq, Hash)]
    struct RouteNextHopFlags: u8 {
        const Dead = 0x1;
        const Pervasive = 0x2;
        const Onlink = 0x4;
        const Offload = 0x8;
        const Linkdown = 0x10;
        const Unresolved = 0x20;
        const Trap = 0x40;
        const _ = !0;
    }
}

type Ours = route::RouteNextHopFlags;
type Theirs = RouteNextHopFlags;

/// What is answered of both sets, in texts and numbers.
macro_rules! answers {
    ($set:ty, $a:expr, $b:expr) => {{
        let (a, b) = (<$set>::from_bits_retain($a), <$set>::from_bits_truncate($b));
        let mut changed = [a; 8];
        changed[0].insert(b);
        changed[1].remove(b);
        changed[2].toggle(b);
        changed[3].set(b, true);
        changed[4] |= b;
        changed[5] &= b;
        changed[6] ^= b;
        changed[7] -= b;
        let truths = [a.intersects(b), a.contains(b), a.is_empty(), a.is_all()];
        let made = [
            a | b,
            a & b,
            a ^ b,
            a - b,
            !a,
            a.union(b),
            a.intersection(b),
            a.difference(b),
            a.symmetric_difference(b),
            a.complement(),
            [a, b].into_iter().collect(),
        ];
        let numbers: Vec<u8> = made.iter().chain(&changed).map(|set| set.bits()).collect();
        (truths, numbers, <$set>::from_bits($b).map(|set| set.bits()))
    }};
}

/// What is printed and walked of a set.
macro_rules! texts {
    ($set:ty, $a:expr) => {{
        let a = <$set>::from_bits_retain($a);
        let names: Vec<(&str, u8)> = a
            .iter_names()
            .map(|(name, set)| (name, set.bits()))
            .collect();
        let parts: Vec<u8> = a.into_iter().map(|set| set.bits()).collect();
        let walked: Vec<u8> = a.iter().map(|set| set.bits()).collect();
        let numbers = format!("{a:b} {a:o} {a:x} {a:X} {a:#b}");
        (texts_of(a), numbers, names, parts, walked)
    }};
}

fn texts_of(set: impl Debug) -> [String; 2] {
    [format!("{set:?}"), format!("{set:#?}")]
}

#[test]
fn pairs_answer_as_those_of_the_macro() {
    for (a, b) in (0..=u8::MAX).flat_map(|a| (0..=u8::MAX).map(move |b| (a, b))) {
        assert_eq!(answers!(Ours, a, b), answers!(Theirs, a, b), "{a} {b}");
    }
}

#[test]
fn numbers_are_shown_as_those_of_the_macro() {
    for a in 0..=u8::MAX {
        assert_eq!(texts!(Ours, a), texts!(Theirs, a), "{a}");
    }
    let hashed: HashSet<Ours> = (0..=u8::MAX).map(Ours::from_bits_retain).collect();
    assert_eq!(hashed.len(), 256);
}

#[test]
fn the_type_itself_answers_as_that_of_the_macro() {
    const BOTH: Ours = Ours::Dead.union(Ours::Trap);
    assert_eq!(BOTH.bits(), Theirs::Dead.union(Theirs::Trap).bits());
    assert_eq!(Ours::empty().bits(), Theirs::empty().bits());
    assert_eq!(Ours::all().bits(), Theirs::all().bits());
    assert_eq!(Ours::default().bits(), Theirs::default().bits());
    for name in ["Dead", "Trap", "dead", ""] {
        let bits = Theirs::from_name(name).map(|set| set.bits());
        assert_eq!(Ours::from_name(name).map(|set| set.bits()), bits);
    }
}
