//! Next hops of routes by several paths: their headers, lists of them, and lists inside lists.

use netlink_packet_route::AddressFamily;
use netlink_packet_route::framing::{
    DecodeError, DefaultNla, EmitError, Emitable, Looks, Parseable, ParseableParametrized,
};
use netlink_packet_route::route::{
    RouteAttribute, RouteLwEnCapType, RouteMessage, RouteNextHop, RouteNextHopBuffer,
    RouteNextHopFlags, RoutePreference, RouteType, read_next_hops,
};
use npr_testing::{INET, bytes_of, holds, messages, same, says, shows, writes};
use std::alloc::{AllocError, Global};
use std::test::Fail;

/// A next hop of 13 bytes by interface 2, with one attribute of 5 bytes.
const HOP: [u8; 14] = [13, 0, 4, 7, 2, 0, 0, 0, 5, 0, 20, 0, 1, 0];

#[test]
fn reads_a_header() -> Result<(), Fail> {
    let wanted = RouteNextHopBuffer {
        length: 13,
        flags: 4,
        hops: 7,
        interface_index: 2,
    };
    same(RouteNextHopBuffer::new_checked(&HOP)?, wanted)?;
    same(RouteNextHopBuffer::parse(&HOP[..8])?, wanted)?;
    holds(wanted.to_bytes().as_slice() == &HOP[..8])
}

/// The bytes of each line begin with no whole next hop, for this cause.
fn refuses_next_hops(rt: &impl AllocGlobal, lines: &str) -> Result<(), Fail> {
    for line in lines.lines() {
        if let Some((text, fault)) = line.split_once("=>") {
            let bytes = bytes_of(rt, &[text])?;
            match RouteNextHopBuffer::new_checked(bytes.as_slice()) {
                Ok(_) => holds(false)?,
                Err(found) => says(rt, found, fault.trim())?,
            }
        }
    }
    Ok(())
}

#[test]
fn refuses_a_header(rt: HostRuntime) -> Result<(), Fail> {
    let lines = "
        ffff0000 00000000 => a next hop of length 65535 with 8 bytes left
        00000000 00000000 00000000 00000000 => a next hop of length 0 with 16 bytes left
        07000000 01000000 => a next hop of length 7 with 8 bytes left
        0d000407 02000000 05001400 => a next hop of length 13 with 12 bytes left
        0d000407 020000 => 7 bytes, where a next hop begins with 8";
    refuses_next_hops(&rt, lines)?;
    let wanted = DecodeError::HeaderTooShort { got: 7, want: 8 };
    let short = RouteNextHopBuffer::parse(&HOP[..7]).err();
    same(short, Some(wanted))
}

/// Next hops as they are, by a multiple of four, without padding behind the last, with all flags, and
/// in a next hop. The type of the message's own list governs a next hop that has none, and a type
/// inside governs its next hop and those inside it that have none: neither what stands beside the list
/// nor the next hop behind it.
#[test]
fn reads_lists(rt: HostRuntime) -> Result<(), Fail> {
    let lines = "
        04000900 => [MultiPath([])]
        1c000900 0d000000 02000000 05001400 01aabbcc 08000000 03000000 -> \
            1c000900 10000000 02000000 05001400 01000000 08000000 03000000 => \
            [MultiPath([RouteNextHop { flags: RouteNextHopFlags(0), hops: 0, interface_index: 2, \
            attributes: [Preference(High)] }, RouteNextHop { flags: RouteNextHopFlags(0), hops: 0, \
            interface_index: 3, attributes: [] }])]
        11000900 0d000000 02000000 05001400 01 -> 14000900 10000000 02000000 05001400 01000000 => \
            [MultiPath([RouteNextHop { flags: RouteNextHopFlags(0), hops: 0, interface_index: 2, \
            attributes: [Preference(High)] }])]
        21000900 10000000 02000000 05001400 01aabbcc 0d00ff07 03000000 05001400 01000000 -> \
            24000900 10000000 02000000 05001400 01000000 1000ff07 03000000 05001400 01000000 => \
            [MultiPath([RouteNextHop { flags: RouteNextHopFlags(0), hops: 0, interface_index: 2, \
            attributes: [Preference(High)] }, RouteNextHop { flags: RouteNextHopFlags(255), hops: 7, \
            interface_index: 3, attributes: [Preference(High)] }])]
        18000900 14000000 01000000 0c000900 08000000 01000000 => \
            [MultiPath([RouteNextHop { flags: RouteNextHopFlags(0), hops: 0, interface_index: 1, \
            attributes: [MultiPath([RouteNextHop { flags: RouteNextHopFlags(0), hops: 0, \
            interface_index: 1, attributes: [] }])] }])]
        18000900 14000000 02000000 0c001600 08000100 000641ff 06001500 01000000 => \
            [MultiPath([RouteNextHop { flags: RouteNextHopFlags(0), hops: 0, interface_index: 2, \
            attributes: [Encap([Mpls(Destination([MplsLabel { label: 100, traffic_class: 0, \
            bottom_of_stack: true, ttl: 255 }]))])] }]), EncapType(Mpls)] # Outside.
        20000900 1c000000 02000000 0c001600 08000100 000641ff 06001500 01000000 => \
            [MultiPath([RouteNextHop { flags: RouteNextHopFlags(0), hops: 0, interface_index: 2, \
            attributes: [Encap([Mpls(Destination([MplsLabel { label: 100, traffic_class: 0, \
            bottom_of_stack: true, ttl: 255 }]))]), EncapType(Mpls)] }])] # Inside.
        28000900 10000000 01000000 06001500 01000000 14000000 02000000 0c001600 08000100 000641ff \
            0c001600 08000100 000641ff => \
            [MultiPath([RouteNextHop { flags: RouteNextHopFlags(0), hops: 0, interface_index: 1, \
            attributes: [EncapType(Mpls)] }, RouteNextHop { flags: RouteNextHopFlags(0), hops: 0, \
            interface_index: 2, attributes: [Encap([Other(DefaultNla { kind: 1, \
            value: [0, 6, 65, 255] })])] }]), \
            Encap([Other(DefaultNla { kind: 1, value: [0, 6, 65, 255] })])] # No other.
        2c000900 28000000 01000000 18000900 14000000 02000000 0c001600 08000100 000641ff \
            06001500 01000000 => \
            [MultiPath([RouteNextHop { flags: RouteNextHopFlags(0), hops: 0, interface_index: 1, \
            attributes: [MultiPath([RouteNextHop { flags: RouteNextHopFlags(0), hops: 0, \
            interface_index: 2, attributes: [Encap([Mpls(Destination([MplsLabel { label: 100, \
            traffic_class: 0, bottom_of_stack: true, ttl: 255 }]))])] }]), EncapType(Mpls)] }])] \
            # What it holds.
        0c000900 07000000 01000000 => a next hop of length 7 with 8 bytes left
        0b000900 08000000 01000000 => 7 bytes, where a next hop begins with 8
        19000900 0d000000 02000000 05001400 01 08000000 03000000 000000 => \
            5 bytes, where a next hop begins with 8 # The first wants three bytes of padding.
        0d000900 09000000 01000000 00 00000000 => 1 bytes, where an attribute begins with 4";
    messages::<RouteMessage>(&rt, INET, lines)
}

/// A route with so many lists, each in a next hop of the one before; the last next hop has these
/// bytes of attributes.
fn nested(rt: &impl AllocGlobal, levels: u16, inside: &[u8]) -> Result<Vec<u8>, Fail> {
    let mut bytes = bytes_of(rt, &[INET])?;
    let mut length = levels
        .saturating_mul(12)
        .saturating_add(u16::try_from(inside.len())?);
    for _ in 0..levels {
        let [a, b] = length.to_le_bytes();
        let [c, d] = length.saturating_sub(4).to_le_bytes();
        bytes.extend_from_slice(&[a, b, 9, 0, c, d, 0, 0, 1, 0, 0, 0])?;
        length = length.saturating_sub(12);
    }
    bytes.extend_from_slice(inside)?;
    Ok(bytes)
}

/// How many lists stand in one another. They are taken apart one by one: let go as one value, they
/// take room on the stack for each.
fn depth(attributes: Vec<RouteAttribute>) -> u16 {
    let mut attributes = attributes;
    for levels in 0..u16::MAX {
        let Some(RouteAttribute::MultiPath(mut hops)) = attributes.pop() else {
            return levels;
        };
        let Some(hop) = hops.pop() else {
            return levels;
        };
        attributes = hop.attributes;
    }
    u16::MAX
}

/// As deep as a length of two bytes lets them stand: the outermost attribute has 65,532 bytes.
#[test]
fn reads_to_the_depth(rt: HostRuntime) -> Result<(), Fail> {
    let bytes = nested(&rt, 5_461, &[])?;
    let mut looks = Looks::new();
    let message = RouteMessage::parse_counted(rt.alloc(), bytes.as_slice(), &mut looks)?;
    same((looks.successful(), looks.failed()), (16_383, 0))?;
    same(depth(message.attributes), 5_461)
}

#[test]
fn refuses_in_the_depth(rt: HostRuntime) -> Result<(), Fail> {
    let bytes = nested(&rt, 5_000, &[3, 0, 1, 0])?;
    let mut looks = Looks::new();
    let message = RouteMessage::parse_counted(rt.alloc(), bytes.as_slice(), &mut looks);
    let fault = DecodeError::AttributeLength { length: 3, left: 4 };
    same(message.err(), Some(fault))?;
    same((looks.successful(), looks.failed()), (15_000, 2))
}

#[test]
fn rewrites_a_hundred_levels(rt: HostRuntime) -> Result<(), Fail> {
    let bytes = nested(&rt, 100, &[])?;
    let mut looks = Looks::new();
    let message = RouteMessage::parse_counted(rt.alloc(), bytes.as_slice(), &mut looks)?;
    same((looks.successful(), looks.failed()), (300, 0))?;
    holds(message == RouteMessage::parse(rt.alloc(), bytes.as_slice())?)?;
    let text = hex::encode(rt.alloc(), bytes)?;
    writes(&rt, message, &[text.as_str()])
}

/// What `check` answers of a list of one next hop, whose one attribute has so many zeros.
fn check_of(alloc: Global, count: usize) -> Result<Result<usize, EmitError>, AllocError> {
    let value = DefaultNla::new(99, vec![in alloc; 0u8; count]?);
    let hop = RouteNextHop {
        interface_index: 1,
        attributes: vec![in alloc; RouteAttribute::Other(value)]?,
        ..RouteNextHop::new(alloc)
    };
    Ok(RouteAttribute::MultiPath(vec![in alloc; hop]?).check())
}

/// A list may have 65,531 bytes, and a next hop 65,535.
#[test]
fn says_what_does_not_fit(rt: HostRuntime) -> Result<(), Fail> {
    same(check_of(rt.alloc(), 65_516)?, Ok(65_532))?;
    let kind = 9;
    let len = 65_532;
    let unfit = Err(EmitError::TooLong { kind, len });
    same(check_of(rt.alloc(), 65_520)?, unfit)?;
    let unfit = Err(EmitError::NextHopTooLong { len: 65_536 });
    same(check_of(rt.alloc(), 65_524)?, unfit)
}

/// What next hops by themselves are read in.
const CONTEXT: (AddressFamily, RouteType, RouteLwEnCapType) = (
    AddressFamily::Inet,
    RouteType::Unicast,
    RouteLwEnCapType::None,
);

#[test]
fn a_list_by_itself(rt: HostRuntime) -> Result<(), Fail> {
    let bytes = bytes_of(
        &rt,
        &["0d000000 02000000 05001400 01aabbcc 08000000 03000000"],
    )?;
    let mut looks = Looks::new();
    let hops = read_next_hops(rt.alloc(), bytes.as_slice(), CONTEXT, &mut looks)?;
    same((looks.successful(), looks.failed()), (4, 0))?;
    let text = "[RouteNextHop { flags: RouteNextHopFlags(0), hops: 0, interface_index: 2, \
        attributes: [Preference(High)] }, RouteNextHop { flags: RouteNextHopFlags(0), hops: 0, \
        interface_index: 3, attributes: [] }]";
    shows(&rt, hops, text)
}

/// The byte behind it is not looked at.
#[test]
fn a_next_hop_by_itself(rt: HostRuntime) -> Result<(), Fail> {
    let hop = RouteNextHop::parse_with_param(rt.alloc(), &HOP, CONTEXT)?;
    let wanted = RouteNextHop {
        flags: RouteNextHopFlags::Onlink,
        hops: 7,
        interface_index: 2,
        attributes: vec![in rt.alloc(); RouteAttribute::Preference(RoutePreference::High)]?,
    };
    holds(hop == wanted)?;
    holds(hop.try_clone(rt.alloc())? == wanted)?;
    writes(&rt, hop, &["10000407 02000000 05001400 01000000"])
}

#[test]
fn refuses_a_next_hop(rt: HostRuntime) -> Result<(), Fail> {
    let short = RouteNextHop::parse_with_param(rt.alloc(), &HOP[..12], CONTEXT);
    let length = 13;
    let fault = DecodeError::NextHopLength { length, left: 12 };
    same(short.err(), Some(fault))
}

#[test]
fn a_new_next_hop(rt: HostRuntime) -> Result<(), Fail> {
    let hop = RouteNextHop::new(rt.alloc());
    hop.check()?;
    let wanted = RouteNextHopBuffer {
        length: 8,
        flags: 0,
        hops: 0,
        interface_index: 0,
    };
    same(RouteNextHopBuffer::of(&hop), wanted)?;
    writes(&rt, hop, &["08000000 00000000"])
}
