//! Members of the tunnels SEG6, SEG6 local, RPL and IOAM6.

use netlink_packet_route::route::{
    Ioam6Mode, RouteIoam6Tunnel, RouteRplIpTunnel, RouteSeg6IpTunnel, RouteSeg6LocalTunnel,
    Seg6LocalAction, Seg6Mode,
};
use npr_testing::{members, same};
use std::test::Fail;

/// Segments of a header stand in reverse, and what follows it is dropped. Faults stand in their order.
#[test]
fn members_of_seg6(rt: HostRuntime) -> Result<(), Fail> {
    let lines = "
        14000200 fc000000000000000000000000000002 => \
            Src(fc00::2)
        08000300 01020304 => Table(67305985)
        04000000 => Other(DefaultNla { kind: 0, value: [] })
        30000100 01000000 00040401 01000000 fc000000000000000000000000000002 fc000000000000000000000000000001 => \
            Seg6(Seg6Header { mode: Encap, \
            segments: [fc00::1, \
            fc00::2], hmac: None })
        48000100 00000000 00070400 00080000 fc000000000000000000000000000001 \
            0526000000000007 0000000000000000 0000000000000000 0000000000000000 0000000000000000 => \
            Seg6(Seg6Header { mode: Inline, \
            segments: [fc00::1], \
            hmac: Some(7) })
        10000100 00000000 00000400 00000000 => \
            Seg6(Seg6Header { mode: Inline, segments: [], hmac: None })
        14000100 00000000 00000400 00000000 aabbccdd -> 10000100 00000000 00000400 00000000 => \
            Seg6(Seg6Header { mode: Inline, segments: [], hmac: None })
        0f000100 00000000 00000000 000000 => a SEG6 routing header without its fixed part
        10000100 00000000 00020400 00000000 => a SEG6 routing header of another length than it states
        18000100 00000000 00010400 00080000 0000000000000000 => a SEG6 routing header without room for its HMAC
        18000100 00000000 00010400 00000000 0000000000000000 => a SEG6 routing header of segments that are not whole
        18000100 00000000 00060400 00080000 0000000000000000 => a SEG6 routing header of another length than it states";
    members::<RouteSeg6IpTunnel>(&rt, (), lines)
}

/// The value of number 0 is dropped, here and in the tunnels below. A header whose length byte says 3
/// is kept as it stands.
#[test]
fn members_of_seg6_local(rt: HostRuntime) -> Result<(), Fail> {
    let lines = "
        08000000 01020304 -> 04000000 => Unspecified
        08000100 0a000000 => Action(EndB6Encap)
        08000300 01020304 => Table(67305985)
        08000400 01020304 => Nh4(1.2.3.4)
        14000500 fc000000000000000000000000000001 => \
            Nh6(fc00::1)
        08000600 01020304 => Iif(67305985)
        08000700 01020304 => Oif(67305985)
        08000900 01020304 => VrfTable(67305985)
        1c000200 29020400 0000002a fc000000000000000000000000000001 => \
            Srh(Seg6LocalSrh { next_header: 41, routing_type: 4, segments_left: 0, first_segment: 0, \
            flags: 0, tag: 42, \
            segments: [fc00::1] })
        1c000200 29030400 0000002a fc000000000000000000000000000001 => \
            Other(DefaultNla { kind: 2, value: [41, 3, 4, 0, 0, 0, 0, 42, \
            252, 0, 0, 0, 0, 0, 0, 0, 0, 0, 0, 0, 0, 0, 0, 1] })";
    members::<RouteSeg6LocalTunnel>(&rt, (), lines)
}

/// Nine bytes, and a compressed list, are kept as they stand.
#[test]
fn members_of_rpl(rt: HostRuntime) -> Result<(), Fail> {
    let lines = "
        08000000 01020304 -> 04000000 => Unspecified
        1c000100 00020301 00000000 fc000000000000000000000000000001 => \
            Srh(RplSrh { next_header: 0, routing_type: 3, segments_left: 1, cmpri: 0, cmpre: 0, pad: 0, \
            segments: [fc00::1] })
        0d000100 00000000 00000000 00000000 => \
            Other(DefaultNla { kind: 1, value: [0, 0, 0, 0, 0, 0, 0, 0, 0] })
        1c000100 00020301 01000000 fc000000000000000000000000000001 => \
            Other(DefaultNla { kind: 1, value: [0, 2, 3, 1, 1, 0, 0, 0, \
            252, 0, 0, 0, 0, 0, 0, 0, 0, 0, 0, 0, 0, 0, 0, 1] })";
    members::<RouteRplIpTunnel>(&rt, (), lines)
}

/// Bits of no field of a trace are dropped, and nine bytes are kept as they stand.
#[test]
fn members_of_ioam6(rt: HostRuntime) -> Result<(), Fail> {
    let lines = "
        08000000 01020304 -> 04000000 => Unspecified
        05000100 03000000 => Mode(Auto)
        14000200 fc000000000000000000000000000001 => \
            Dst(fc00::1)
        08000400 01020304 => FreqK(67305985)
        08000500 01020304 => FreqN(67305985)
        14000600 fc000000000000000000000000000002 => \
            Src(fc00::2)
        0c000300 01025fff 01020304 -> 0c000300 01025c7f 01020300 => \
            Trace(Ioam6TraceHdr { namespace_id: 258, nodelen: 11, overflow: true, remlen: 127, \
            trace_type: 66051 })
        0d000300 00000000 00000000 00000000 => \
            Other(DefaultNla { kind: 3, value: [0, 0, 0, 0, 0, 0, 0, 0, 0] })";
    members::<RouteIoam6Tunnel>(&rt, (), lines)
}

#[test]
fn defaults() -> Result<(), Fail> {
    same(
        RouteSeg6LocalTunnel::default(),
        RouteSeg6LocalTunnel::Unspecified,
    )?;
    same(RouteRplIpTunnel::default(), RouteRplIpTunnel::Unspecified)?;
    same(RouteIoam6Tunnel::default(), RouteIoam6Tunnel::Unspecified)?;
    same(Ioam6Mode::default(), Ioam6Mode::Inline)?;
    same(Seg6Mode::default(), Seg6Mode::Inline)?;
    same(Seg6LocalAction::from(0), Seg6LocalAction::Other(0))?;
    same(u32::from(Seg6LocalAction::default()), 0)
}
