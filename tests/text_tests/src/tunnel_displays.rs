//! The texts that tunnels, their members and options are printed as, and writers that fail.

use bitflags::Flags;
use netlink_packet_route::framing::{Attribute, Looks, NlaBuffer};
use netlink_packet_route::net::Ipv6Addr;
use netlink_packet_route::route::{
    Ioam6TraceHdr, RouteIoam6Tunnel, RouteIp6Tunnel, RouteIp6TunnelFlags, RouteIpTunnel,
    RouteIpTunnelFlags, RouteLwTunnelOpt, RouteNextHopFlags, RouteRplIpTunnel, RouteScope,
    RouteSeg6LocalTunnel, RouteXfrmTunnel, RplSrh,
};
use npr_testing::{FIRST, SECOND, bytes_of, holds, says, shows};
use std::fmt;
use std::fmt::Write;
use std::test::Fail;

/// Each line is an attribute, and what it is printed as.
fn displays<A: Attribute<Context = ()> + fmt::Display>(
    rt: &impl AllocGlobal,
    lines: &str,
) -> Result<(), Fail> {
    for line in lines.lines() {
        if let Some((read, text)) = line.split_once("=>") {
            let bytes = bytes_of(rt, &[read])?;
            let item = NlaBuffer::new_checked(bytes.as_slice())?;
            let found = A::read(rt.alloc(), (), &item, &mut Looks::new())?;
            says(rt, found, text.trim())?;
        }
    }
    Ok(())
}

#[test]
fn members_of_ip(rt: HostRuntime) -> Result<(), Fail> {
    let lines = "
        04000000 => unspecified
        0c000100 00000000 00000064 => id 100
        08000200 0a000001 => dst 10.0.0.1
        08000300 0a000001 => src 10.0.0.1
        05000400 40 => ttl 64
        05000500 04 => tos 4
        04000800 =>
        06006300 0102 => DefaultNla { kind: 99, value: [1, 2] }";
    displays::<RouteIpTunnel>(&rt, lines)
}

#[test]
fn members_of_ip6(rt: HostRuntime) -> Result<(), Fail> {
    let lines = "
        04000000 => unspecified
        0c000100 00000000 00000064 => id 100
        14000200 fc000000000000000000000000000001 => dst fc00::1
        14000300 fc000000000000000000000000000001 => src, fc00::1
        05000400 40 => hoplimit 64
        05000500 04 => tc 4
        14000800 0c000200 08000100 2a000000 04000300 => vxlan_opts 42, erspan_opts 0:0:0:0
        06006300 0102 => DefaultNla { kind: 99, value: [1, 2] }";
    displays::<RouteIp6Tunnel>(&rt, lines)
}

/// A space follows each name.
#[test]
fn flags_of_ip(rt: HostRuntime) -> Result<(), Fail> {
    let flags = RouteIpTunnelFlags::from_bits_retain(12);
    says(&rt, RouteIpTunnel::Flags(flags), "key seq ")?;
    let flags = RouteIp6TunnelFlags::from_bits_retain(0xffff);
    says(&rt, RouteIp6Tunnel::Flags(flags), "key csum seq ")
}

#[test]
fn members_of_xfrm(rt: HostRuntime) -> Result<(), Fail> {
    let lines = "
        04000000 => unspecified
        08000100 07000000 => if_id 7
        08000200 08000000 => link_dev 8
        06006300 0102 => DefaultNla { kind: 99, value: [1, 2] }";
    displays::<RouteXfrmTunnel>(&rt, lines)
}

/// Options of Geneve, of Vxlan and of Erspan: of the last each number counts where it stands last.
#[test]
fn options(rt: HostRuntime) -> Result<(), Fail> {
    let lines = "
        24000100 06000100 01020000 06000100 00010000 05000200 02000000 06000300 abcd0000 => \
            geneve_opts 258:0:,geneve_opts 1:2:abcd
        04000100 =>
        14000200 08000100 01000000 08000100 02000000 => vxlan_opts 1,vxlan_opts 2
        0a000200 06006300 0102 => DefaultNla { kind: 99, value: [1, 2] }
        14000300 05000100 01000000 08000200 00000005 => erspan_opts 1:5:0:0
        1c000300 05000100 02000000 05000300 01000000 05000400 03000000 => erspan_opts 2:0:1:3
        2c000300 05000100 02000000 06006300 01020000 05000100 01000000 08000200 00000005 \
            08000200 00000006 => erspan_opts 1:6:0:0
        04000300 => erspan_opts 0:0:0:0
        06006300 0102 => DefaultNla { kind: 99, value: [1, 2] }";
    displays::<RouteLwTunnelOpt>(&rt, lines)
}

#[test]
fn members_of_seg6_local(rt: HostRuntime) -> Result<(), Fail> {
    let lines = "
        04000000 => unspecified
        08000100 06000000 => action End.DX4
        0c000200 00000000 ff000000 => srh segs 256 [  ]
        08000300 fe000000 => table 254
        08000400 0a000001 => nh4 10.0.0.1
        14000500 fc000000000000000000000000000001 => nh6 fc00::1
        08000600 02000000 => iif 2
        08000700 03000000 => oif 3
        08000900 09000000 => vrftable 9
        06006300 0102 => DefaultNla { kind: 99, value: [1, 2] }";
    displays::<RouteSeg6LocalTunnel>(&rt, lines)
}

#[test]
fn members_of_rpl(rt: HostRuntime) -> Result<(), Fail> {
    let mut header = RplSrh::new(rt.alloc());
    header.segments_left = 2;
    header.segments = vec![in rt.alloc(); Ipv6Addr::from(FIRST), Ipv6Addr::from(SECOND)]?;
    let header = RouteRplIpTunnel::Srh(header);
    says(&rt, header, "srh segs 2 [ fc00::2 fc00::1 ]")?;
    let lines = "
        04000000 => unspecified
        06006300 0102 => DefaultNla { kind: 99, value: [1, 2] }";
    displays::<RouteRplIpTunnel>(&rt, lines)
}

/// A trace of this type, with a namespace and the room that is left.
fn trace(trace_type: u32, namespace_id: u16, remlen: u8) -> RouteIoam6Tunnel {
    RouteIoam6Tunnel::Trace(Ioam6TraceHdr {
        namespace_id,
        nodelen: 0,
        overflow: false,
        remlen,
        trace_type,
    })
}

#[test]
fn members_of_ioam6(rt: HostRuntime) -> Result<(), Fail> {
    let lines = "
        04000000 => unspecified
        05000100 02 => mode encap
        14000200 fc000000000000000000000000000001 => tundst fc00::1
        0c000300 0001007f f0000000 => trace prealloc type 0xf00000 ns 1 size 508
        08000400 01000000 => freq 1
        08000500 02000000 => /2
        14000600 fc000000000000000000000000000001 => tunsrc fc00::1
        06006300 0102 => DefaultNla { kind: 99, value: [1, 2] }";
    displays::<RouteIoam6Tunnel>(&rt, lines)
}

/// Of fields that no bytes give.
#[test]
fn traces(rt: HostRuntime) -> Result<(), Fail> {
    let text = "trace prealloc type 0x000001 ns 0 size 1020";
    says(&rt, trace(1, 0, 255), text)?;
    let text = "trace prealloc type 0x1000000 ns 0 size 0";
    says(&rt, trace(0x100_0000, 0, 0), text)
}

/// A writer that fails at the call by which it would hold more bytes than so many.
#[derive(Drop)]
struct Narrow {
    text: String,
    room: usize,
}

impl fmt::Write for Narrow {
    fn write_str(&mut self, text: &str) -> fmt::Result {
        if text.len() > self.room {
            return Err(fmt::Error);
        }
        self.room -= text.len();
        self.text.push_str(text)?;
        Ok(())
    }
}

/// Printing to a writer that fails is answered as that, and it got a beginning of the text.
fn is_passed_on<T: fmt::Display + Drop>(rt: &impl AllocGlobal, value: T) -> Result<(), Fail> {
    let whole = format!(in rt.alloc(); "{value}")?;
    for room in 0..whole.len() {
        let mut writer = Narrow {
            text: String::new(rt.alloc()),
            room,
        };
        let answer = write!(writer, "{value}");
        holds(answer.is_err())?;
        holds(whole.as_str().starts_with(writer.text.as_str()))?;
    }
    Ok(())
}

/// The same of what this attribute is, which is printed so.
fn is_read_and_passed_on<A: Attribute<Context = ()> + fmt::Debug + fmt::Display>(
    rt: &impl AllocGlobal,
    bytes: &str,
    text: &str,
) -> Result<(), Fail> {
    let bytes = bytes_of(rt, &[bytes])?;
    let item = NlaBuffer::new_checked(bytes.as_slice())?;
    let found = A::read(rt.alloc(), (), &item, &mut Looks::new())?;
    shows(rt, &found, text)?;
    is_passed_on(rt, found)
}

#[test]
fn values_to_a_writer_that_fails(rt: HostRuntime) -> Result<(), Fail> {
    is_passed_on(&rt, trace(0xf0_0000, 1, 127))?;
    is_passed_on(&rt, RouteNextHopFlags::from_bits_retain(0xff))?;
    is_passed_on(&rt, Ipv6Addr::from(FIRST))?;
    is_passed_on(&rt, RouteScope::Other(7))
}

#[test]
fn members_to_a_writer_that_fails(rt: HostRuntime) -> Result<(), Fail> {
    let text = "Flags(RouteIpTunnelFlags(255))";
    is_read_and_passed_on::<RouteIpTunnel>(&rt, "06000600 00ff", text)?;
    let bytes = "1c000800 14000100 06000100 00000000 06000300 abcd0000 04000300";
    let text =
        "Opts([Geneve([RouteGeneveOpt { class: 0, typ: 0, opt_data: [171, 205] }]), Erspan([])])";
    is_read_and_passed_on::<RouteIp6Tunnel>(&rt, bytes, text)?;
    let bytes =
        "2c000200 00040000 00000000 fc000000000000000000000000000001 fc000000000000000000000000000002";
    let text = "Srh(Seg6LocalSrh { next_header: 0, routing_type: 0, segments_left: 0, \
        first_segment: 0, flags: 0, tag: 0, \
        segments: [fc00::1, \
        fc00::2] })";
    is_read_and_passed_on::<RouteSeg6LocalTunnel>(&rt, bytes, text)
}
