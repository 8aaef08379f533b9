//! Rules of the kernel and of `ip`, and damaged ones.

use bitflags::Flags;
use netlink_packet_route::framing::{
    EmitError, Emitable, Header, Nla, Parseable, WriteError, to_vec,
};
use netlink_packet_route::rule::{
    RuleAction, RuleAttribute, RuleFlags, RuleHeader, RuleMessage, RuleMessageBuffer,
    RulePortRange, RuleUidRange,
};
use netlink_packet_route::{AddressFamily, IpProtocol};
use npr_testing::{bytes_of, check_of, holds, messages, same, writes};
use std::test::Fail;

/// A header: inet, the table main, look up.
const HEADER: &str = "02000000 fe000001 00000000";

#[test]
fn reads_messages(rt: HostRuntime) -> Result<(), Fail> {
    // Reserved bytes of the header are dropped.
    let lines = "
        02000000 fe112201 00000000 -> 02000000 fe000001 00000000 => []
        => 0 bytes, where a header of 12 is wanted";
    messages::<RuleMessage>(&rt, "", lines)?;
    let lines = "
        => []
        08000300 65746830 -> 09000300 65746830 00000000 => [Iifname(\"eth0\")] # Without its zero.
        05001300 07000000 -> 05001300 01000000 => [L3MDev(true)] # Any byte above 0 is true.
        0c000c00 00000000 0000002a => [TunId(42)] # The id of a tunnel, big endian.
        05001600 06000000 => [IpProtocol(Tcp)]
        05001300 07000000 0c000c00 00000000 0000002a 05001600 06000000 08000b00 fe00fa00 \
            0c001400 01000000 02000000 05001500 02000000 08000100 0a000001 -> \
            05001300 01000000 0c000c00 00000000 0000002a 05001600 06000000 08000b00 fe00fa00 \
            0c001400 01000000 02000000 05001500 02000000 08000100 0a000001 => \
            [L3MDev(true), TunId(42), IpProtocol(Tcp), Realm(RouteRealm { source: 250, destination: 254 }), \
            UidRange(RuleUidRange { start: 1, end: 2 }), Protocol(Kernel), \
            Destination(10.0.0.1)]
        0b001400 00000000 00000000 => a value of 7 bytes at attribute 20 of Rule
        04000200 => a value of 0 bytes at attribute 2 of Rule # `ip rule add from all`.";
    messages::<RuleMessage>(&rt, HEADER, lines)
}

/// A value that no reading gives is written by its number, and is read as what has that.
#[test]
fn a_protocol_under_another_name(rt: HostRuntime) -> Result<(), Fail> {
    let alloc = rt.alloc();
    let mut message = RuleMessage::new(alloc);
    let protocol = RuleAttribute::IpProtocol(IpProtocol::Other(6));
    message.attributes.push(protocol)?;
    let bytes = to_vec(alloc, &message)?;
    let wanted = bytes_of(&rt, &["00000000 00000000 00000000 05001600 06000000"])?;
    same(bytes, wanted)?;
    let line = "00000000 00000000 00000000 05001600 06000000 => [IpProtocol(Tcp)]";
    messages::<RuleMessage>(&rt, "", line)
}

/// An attribute by itself fills just the room that it takes.
#[test]
fn an_attribute_by_itself() -> Result<(), Fail> {
    let attribute = RuleAttribute::TunId(42);
    same(attribute.check()?, 12)?;
    let mut out = [0xffu8; 12];
    attribute.emit(&mut out);
    same(out, [12, 0, 12, 0, 0, 0, 0, 0, 0, 0, 0, 42])
}

#[test]
fn protocols_that_fit() -> Result<(), Fail> {
    let multipath = RuleAttribute::IpProtocol(IpProtocol::Mptcp);
    same(
        multipath.check(),
        Err(EmitError::IpProtocol { number: 262 }),
    )?;
    let tcp = RuleAttribute::IpProtocol(IpProtocol::Other(6));
    same(tcp.check(), Ok(8))
}

#[test]
fn a_name_that_is_too_long(rt: HostRuntime) -> Result<(), Fail> {
    let kind = 3;
    let len = 65_532;
    let unfit = check_of::<RuleMessage>(&rt, &[HEADER, "ffff0300"], 65_531)?;
    same(unfit, Err(EmitError::TooLong { kind, len }))
}

#[test]
fn headers(rt: HostRuntime) -> Result<(), Fail> {
    let bytes = bytes_of(&rt, &[HEADER])?;
    let header = RuleHeader::parse(bytes.as_slice())?;
    let layout = RuleMessageBuffer::from(&header);
    holds(layout.to_bytes().as_slice() == bytes.as_slice())?;
    let wanted = RuleHeader {
        family: AddressFamily::Inet,
        dst_len: 0,
        src_len: 0,
        tos: 0,
        table: 254,
        action: RuleAction::ToTable,
        flags: RuleFlags::default(),
    };
    same(header, wanted)
}

#[test]
fn numbers() -> Result<(), Fail> {
    holds(!RuleFlags::default().contains(RuleFlags::Invert))?;
    same(u8::from(RuleAction::from(4)), 4)
}

#[test]
fn ranges(rt: HostRuntime) -> Result<(), Fail> {
    let ports = RulePortRange::parse(&[22, 0, 23, 0])?;
    same(ports, RulePortRange { start: 22, end: 23 })?;
    writes(&rt, ports, &["16001700"])?;
    let users = RuleUidRange::parse(&[1, 0, 0, 0, 0, 1, 0, 0])?;
    same(users, RuleUidRange { start: 1, end: 256 })?;
    writes(&rt, users, &["01000000 00010000"])
}

#[test]
fn becomes_bytes_of_its_own(rt: HostRuntime) -> Result<(), Fail> {
    let alloc = rt.alloc();
    let bytes = bytes_of(&rt, &[HEADER, "08000600 00800000"])?;
    let mut message = RuleMessage::parse(alloc, bytes.as_slice())?;
    same(to_vec(alloc, &message), Ok(bytes))?;
    let multipath = RuleAttribute::IpProtocol(IpProtocol::Mptcp);
    message.attributes.push(multipath)?;
    let cause = EmitError::IpProtocol { number: 262 };
    same(to_vec(alloc, &message), Err(WriteError::Unfit(cause)))
}
