//! Labels, realms, numbers and structures of routes: entries of RFC 3032, and layouts of
//! `linux/rtnetlink.h`; and the names of kinds of messages.

use bitflags::Flags;
use netlink_packet_route::family::{read_bytes, read_name};
use netlink_packet_route::framing::{At, DecodeError};
use netlink_packet_route::route::{
    MplsLabel, RouteCacheInfo, RouteCacheInfoBuffer, RouteFlags, RouteMfcStats,
    RouteMfcStatsBuffer, RouteNextHopFlags, RouteProtocol, RouteRealm, emit_labels, read_labels,
};
use netlink_packet_route::{IpProtocol, MessageKind};
use npr_testing::{LABEL, bytes_of, holds, same, writes};
use std::test::Fail;

#[test]
fn label_and_number() -> Result<(), Fail> {
    same(MplsLabel::from(0x0006_41ff), LABEL)?;
    // A class of 9 is written as 1, and a label of 2^20 + 100 as 100.
    let wide = MplsLabel {
        traffic_class: 9,
        ..LABEL
    };
    let far = MplsLabel {
        label: 0x10_0064,
        ..LABEL
    };
    let numbers = [LABEL, wide, far].map(u32::from);
    same(numbers, [0x0006_41ff, 0x0006_43ff, 0x0006_41ff])
}

/// Labels 100 and 200, of which the second is the bottom of its stack, with TTL 64.
const STACK: [MplsLabel; 2] = [
    MplsLabel {
        bottom_of_stack: false,
        ..LABEL
    },
    MplsLabel {
        label: 200,
        ttl: 64,
        ..LABEL
    },
];

/// A byte behind the last whole entry is dropped.
#[test]
fn label_stack(rt: HostRuntime) -> Result<(), Fail> {
    let bytes = bytes_of(&rt, &["000640ff 000c8140 07"])?;
    let labels = read_labels(rt.alloc(), bytes.as_slice())?;
    holds(labels.as_slice() == STACK.as_slice())?;
    let mut out = [0xffu8; 8];
    emit_labels(&STACK, &mut out);
    same(out, [0x00, 0x06, 0x40, 0xff, 0x00, 0x0c, 0x81, 0x40])
}

#[test]
fn one_label(rt: HostRuntime) -> Result<(), Fail> {
    same(MplsLabel::parse(&[0x00, 0x06, 0x41, 0xff])?, LABEL)?;
    writes(&rt, LABEL, &["000641ff"])
}

#[test]
fn realms(rt: HostRuntime) -> Result<(), Fail> {
    let bytes = [0xfe, 0x00, 0xfa, 0x00];
    let realm = RouteRealm {
        source: 250,
        destination: 254,
    };
    same(RouteRealm::parse(&bytes)?, realm)?;
    for got in 0..4 {
        let at = At::NO_PLACE;
        let refusal = DecodeError::ValueLength { at, got };
        same(RouteRealm::parse(&bytes[..got]).err(), Some(refusal))?;
    }
    writes(&rt, realm, &["fe00fa00"])
}

#[test]
fn numbers() -> Result<(), Fail> {
    same(IpProtocol::from(6i32), IpProtocol::Tcp)?;
    let numbers = [
        IpProtocol::from(6u8).as_u8(),
        IpProtocol::Mptcp.as_u8(),
        IpProtocol::from(-1i32).as_u8(),
    ];
    same(numbers, [Some(6), None, None])?;
    same(RouteProtocol::parse(&[186])?, RouteProtocol::Bgp)
}

#[test]
fn cache_info(rt: HostRuntime) -> Result<(), Fail> {
    let wanted = RouteCacheInfo {
        clntref: 1,
        last_use: 0x0102_0304,
        expires: 300,
        error: 0xffff_ffa3,
        used: 5,
        id: 0x8000_0006,
        ts: 0x0700,
        ts_age: 0x0008_0000,
    };
    let texts = ["01000000 04030201 2c010000 a3ffffff 05000000 06000080 00070000 00000800"];
    let bytes = bytes_of(&rt, &texts)?;
    same(RouteCacheInfo::parse(bytes.as_slice())?, wanted)?;
    let layout = RouteCacheInfoBuffer::parse(bytes.as_slice())?;
    holds(layout.to_bytes().as_slice() == bytes.as_slice())?;
    same(RouteCacheInfoBuffer::from(&wanted), layout)?;
    writes(&rt, wanted, &texts)
}

#[test]
fn mfc_stats(rt: HostRuntime) -> Result<(), Fail> {
    let wanted = RouteMfcStats {
        packets: 10,
        bytes: 0x7060_5040_3020_1000,
        wrong_if: 0x8000_0000_0000_0001,
    };
    let texts = ["0a00000000000000 0010203040506070 0100000000000080"];
    let bytes = bytes_of(&rt, &texts)?;
    same(RouteMfcStats::parse(bytes.as_slice())?, wanted)?;
    let layout = RouteMfcStatsBuffer::parse(bytes.as_slice())?;
    holds(layout.to_bytes().as_slice() == bytes.as_slice())?;
    same(RouteMfcStatsBuffer::from(&wanted), layout)?;
    writes(&rt, wanted, &texts)
}

/// More bytes than a structure has are not looked at, and fewer are refused.
#[test]
fn structures_at_the_front() -> Result<(), Fail> {
    let zeros = [0u8; 33];
    same(RouteCacheInfo::parse(&zeros)?, RouteCacheInfo::default())?;
    same(RouteMfcStats::parse(&zeros)?, RouteMfcStats::default())?;
    let short = Some(DecodeError::HeaderTooShort { got: 31, want: 32 });
    same(RouteCacheInfo::parse(&[0; 31]).err(), short)?;
    same(RouteCacheInfoBuffer::parse(&[0; 31]).err(), short)?;
    let short = Some(DecodeError::HeaderTooShort { got: 23, want: 24 });
    same(RouteMfcStats::parse(&[0; 23]).err(), short)?;
    same(RouteMfcStatsBuffer::parse(&[0; 23]).err(), short)
}

/// A final zero is taken off a name, and bytes are as they stand.
#[test]
fn names_and_bytes(rt: HostRuntime) -> Result<(), Fail> {
    let value = [b'l', b'o', 0];
    let name = read_name(rt.alloc(), &value, At::NO_PLACE)?;
    same(name.as_str(), "lo")?;
    let bytes = read_bytes(rt.alloc(), &value)?;
    same(bytes.as_slice(), value.as_slice())
}

#[test]
fn flags_of_next_hops() -> Result<(), Fail> {
    let bits = [
        RouteNextHopFlags::Dead.bits(),
        RouteNextHopFlags::Onlink.bits(),
        RouteNextHopFlags::Trap.bits(),
        RouteNextHopFlags::from_bits_retain(0xff).bits(),
        RouteNextHopFlags::default().bits(),
    ];
    same(bits, [1, 4, 64, 0xff, 0])
}

#[test]
fn flags_of_routes() -> Result<(), Fail> {
    let bits = [
        RouteFlags::Onlink.bits(),
        RouteFlags::Notify.bits(),
        RouteFlags::Cloned.bits(),
        RouteFlags::OffloadFailed.bits(),
        RouteFlags::from_bits_retain(0xdead_beef).bits(),
    ];
    same(bits, [4, 0x100, 0x200, 0x2000_0000, 0xdead_beef])?;
    let both = RouteFlags::from_bits_retain(0x4001);
    let known = [RouteFlags::Dead, RouteFlags::RtOffload, RouteFlags::RtTrap];
    same(known.map(|flag| both.contains(flag)), [true, true, false])
}

#[test]
fn kinds_of_messages() -> Result<(), Fail> {
    for kind in MessageKind::ALL {
        same(MessageKind::named(kind.name()), Some(kind))?;
    }
    same(MessageKind::named("Route"), None)
}
