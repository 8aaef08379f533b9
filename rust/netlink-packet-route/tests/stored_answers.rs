//! The stored answers of the proved program: each line is bytes in hexadecimal, a tab, and what is
//! answered to them.

mod common;
use common::{KINDS, lines_of};
use netlink_packet_route as library;

/// Compares the files of a kind, and answers how many lines they have.
fn compare(word: &str, files: &[&str]) -> usize {
    let kind = KINDS.iter().find(|kind| kind.word == word).expect("a kind");
    let mut count = 0;
    for file in files {
        for (at, (bytes, wanted)) in lines_of(file).iter().enumerate() {
            assert_eq!(kind.answer(bytes), *wanted, "{file}, line {}", at + 1);
            count += 1;
        }
    }
    println!("{count} answers, 0 differ");
    count
}

#[test]
fn addresses() {
    assert!(compare("address", &["address", "generated_address"]) > 1000);
}

#[test]
fn routes() {
    assert!(compare("route", &["route", "generated_route"]) > 1000);
}

#[test]
fn rules() {
    assert!(compare("rule", &["rule", "generated_rule"]) > 1000);
}

#[test]
fn neighbours() {
    assert!(compare("neighbour", &["neighbour"]) > 0);
}

#[test]
fn links() {
    assert!(compare("link", &["link"]) > 200);
}

#[test]
fn next_hops_and_small_messages() {
    for word in [
        "nexthop",
        "nsid",
        "netconf",
        "address-label",
        "neighbour-table",
        "prefix",
        "stats",
    ] {
        assert!(compare(word, &[word]) > 0);
    }
}

#[test]
fn traffic_control() {
    assert!(compare("tc", &["tc"]) > 500);
    assert!(compare("tc-action", &["tc-action"]) > 100);
}

#[test]
fn datagrams_with_envelopes() {
    assert!(compare("datagrams", &["datagrams"]) > 0);
}
