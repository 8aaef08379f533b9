//! How often headers are looked at, over a message with a row of each kind. Each attribute of a
//! message is looked at once, and that of a route or of a next hop once more, up to the type that
//! governs it or to a fault.

use netlink_packet_route::address::AddressHeader;
use netlink_packet_route::framing::{Header, Looks, Message};
use netlink_packet_route::route::RouteHeader;
use netlink_packet_route::rule::RuleHeader;
use npr_testing::{INET, bytes_of, says};
use std::test::Fail;

/// The reading of these texts takes so many looks that find a header, and so many that find none.
fn takes<H: Header>(rt: &impl AllocGlobal, texts: &[&str], wanted: &str) -> Result<(), Fail> {
    let bytes = bytes_of(rt, texts)?;
    let mut looks = Looks::new();
    let _ = Message::<H, H::Attribute>::parse_counted(rt.alloc(), bytes.as_slice(), &mut looks);
    let (successful, failed) = (looks.successful(), looks.failed());
    says(rt, format_args!("{successful} {failed}"), wanted)
}

/// The reading of each line behind the header takes so many looks.
fn counts<H: Header>(rt: &impl AllocGlobal, header: &str, lines: &str) -> Result<(), Fail> {
    for line in lines.lines() {
        if let Some((text, wanted)) = line.split_once("=>") {
            takes::<H>(rt, &[header, text], wanted.trim())?;
        }
    }
    Ok(())
}

#[test]
fn at_addresses(rt: HostRuntime) -> Result<(), Fail> {
    let lines = "
        => 0 0
        01000000 => 0 0
        01000000 07000300 6c6f0000 => 1 0";
    counts::<AddressHeader>(&rt, "020880fe", lines)
}

/// A value of the wrong length ends the reading, and so does a byte.
#[test]
fn at_rules(rt: HostRuntime) -> Result<(), Fail> {
    let lines = "
        05000600 07000000 07000300 6c6f0000 => 1 0
        07000300 6c6f0000 00 => 1 1";
    counts::<RuleHeader>(&rt, "02000000 fe000001 00000000", lines)
}

/// Addresses, numbers, realms, a gateway of another family, a port and a preference; metrics; and a
/// type, at which the search ends, in front of the labels and of the fault behind them.
#[test]
fn at_routes(rt: HostRuntime) -> Result<(), Fail> {
    let lines = "
        => 0 0
        080001 => 0 2
        08000400 02000000 => 2 0
        08000100 0a000000 08000400 02000000 08000600 07000000 08000b00 fe00fa00 \
            0a001200 02000a00 00010000 06001c00 01bb0000 05001400 01000000 => 14 0
        14000800 08000200 dc050000 07001000 62627200 => 4 0
        07000800 010203 => 2 1
        06001500 01000000 0c001600 08000100 000641ff => 4 0
        06001500 01000000 0c001600 08000100 000641ff 080001 => 4 1
        0c001600 08000100 000641ff 06001500 01000000 => 5 0";
    counts::<RouteHeader>(&rt, INET, lines)
}

/// A type, a member of it, an option in the member, and what the option holds. A type of Geneve
/// before a class is looked at, and nothing behind it.
#[test]
fn at_options_of_a_tunnel(rt: HostRuntime) -> Result<(), Fail> {
    let lines = "
        06001500 02000000 24001600 20000880 1c000180 \
            06000100 00010000 05000200 02000000 08000300 01020304 => 8 0
        06001500 02000000 1c001600 18000880 14000180 05000200 02000000 06000100 00010000 => 6 0
        06001500 02000000 14001600 10000880 0c000280 08000100 05000000 => 6 0
        06001500 02000000 0f001600 0b000880 07000380 010203 => 5 1";
    counts::<RouteHeader>(&rt, INET, lines)
}

/// Whole lists; a second next hop that is shorter than its header, and one that begins too early; an
/// attribute of one byte, and metrics that are cut inside.
#[test]
fn at_next_hops(rt: HostRuntime) -> Result<(), Fail> {
    let lines = "
        04000900 => 2 0
        14000900 10000000 01000000 08000400 02000000 => 5 0
        1c000900 0d000000 02000000 05001400 01aabbcc 08000000 03000000 => 6 0
        18000900 14000000 01000000 0c000900 08000000 01000000 => 6 0
        1c000900 10000000 01000000 08000400 02000000 07000000 01000000 => 5 1
        19000900 0d000000 02000000 05001400 01 08000000 03000000 000000 => 5 1
        0d000900 09000000 01000000 00 00000000 => 3 3
        17000900 13000000 01000000 0b000800 08000200 dc0500 => 5 1";
    counts::<RouteHeader>(&rt, INET, lines)
}
