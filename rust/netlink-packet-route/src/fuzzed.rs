//! The messages that the program `fuzz` makes by the seed of its stored run, and its worked ones with each
//! byte changed: of each what is asked of the stored ones.

#[allow(dead_code)]
#[path = "../tests/common/mod.rs"]
mod common;

use crate as library;
use crate::fuzz::making::Maker;
use crate::fuzz::subject::Subject;
use crate::fuzz::worked::messages;
use crate::memory::Global;
use common::{KINDS, Kind, hex, unhex};

/// The seed of the stored run.
const SEED: u64 = 20_261_123;

/// How many messages of a kind are made, and how far apart the values of a changed byte are.
const COUNT: usize = if cfg!(debug_assertions) {
    5_000
} else {
    125_000
};
const APART: usize = if cfg!(debug_assertions) { 15 } else { 1 };

/// Bytes that are told where a promise about them is broken.
struct Told<'a>(&'a [u8]);

impl Drop for Told<'_> {
    fn drop(&mut self) {
        if std::thread::panicking() {
            eprintln!("broken: {}", hex(self.0));
        }
    }
}

fn answer(kind: &Kind, bytes: &[u8]) {
    let _told = Told(bytes);
    kind.answer(bytes);
}

fn kind_of(subject: Subject) -> &'static Kind {
    let word = match subject {
        Subject::Message(kind) => kind.name(),
        Subject::Datagram => "datagrams",
    };
    let kind = KINDS.iter().find(|kind| kind.word == word);
    kind.expect("a kind that is asked about")
}

/// Asks about the messages of a subject, and answers how many there are.
fn ask(subject: Subject) -> usize {
    let kind = kind_of(subject);
    let (mut maker, mut bytes, mut count) = (Maker::new(Global, SEED), Vec::new(), COUNT);
    for _ in 0..COUNT {
        maker.make(subject, &mut bytes).expect("memory");
        answer(kind, &bytes);
    }
    for mut bytes in messages(subject).iter().map(|text| unhex(text)) {
        for at in 0..bytes.len() {
            let kept = bytes[at];
            for value in (0..=u8::MAX).step_by(APART) {
                bytes[at] = value;
                answer(kind, &bytes);
                count += 1;
            }
            bytes[at] = kept;
        }
    }
    count
}

#[test]
fn messages_of_a_seed() {
    let counts = std::thread::scope(|scope| {
        let kinds = library::MessageKind::ALL.map(Subject::Message);
        let subjects = kinds.into_iter().chain([Subject::Datagram]);
        let asked: Vec<_> = subjects
            .map(|subject| scope.spawn(move || ask(subject)))
            .collect();
        let told = asked
            .into_iter()
            .map(|asked| asked.join().expect("no promise that is broken"));
        told.collect::<Vec<_>>()
    });
    println!(
        "{} messages of a seed, none broken",
        counts.iter().sum::<usize>()
    );
}
