//! Routing headers and traces, read and written, and what is refused.

use netlink_packet_route::framing::{DecodeError, EmitError, Emitable, NlaBuffer, Parseable};
use netlink_packet_route::net::Ipv6Addr;
use netlink_packet_route::route::{
    Ioam6TraceHdr, RouteRplIpTunnel, RouteSeg6IpTunnel, RouteSeg6LocalTunnel, RplSrh, Seg6Header,
    Seg6LocalSrh, Seg6MessageBuffer,
};
use npr_testing::{FIRST, FIRST_TEXT, bytes_of, holds, is_alone, same, shows, writes};
use std::alloc::{AllocError, Global};
use std::test::Fail;

#[test]
fn seg6_layout() -> Result<(), Fail> {
    let short = DecodeError::HeaderTooShort { got: 11, want: 12 };
    same(Seg6MessageBuffer::parse(&[0u8; 11]).err(), Some(short))?;
    let layout = Seg6MessageBuffer::parse(&[1, 2, 3, 4, 5, 6, 7, 8, 9, 10, 11, 12, 13])?;
    same((layout.mode, layout.tag), (0x0403_0201, 0x0c0b))?;
    same(layout.to_bytes(), [1, 2, 3, 4, 5, 6, 7, 8, 9, 10, 11, 12])
}

/// So many times the same segment.
fn segments(alloc: Global, count: usize) -> Result<Vec<Ipv6Addr>, AllocError> {
    let mut list = Vec::new(alloc);
    for _ in 0..count {
        list.push(Ipv6Addr::from(FIRST))?;
    }
    Ok(list)
}

/// A SEG6 header with so many segments.
fn header_of(alloc: Global, count: usize, hmac: Option<u32>) -> Result<Seg6Header, AllocError> {
    Ok(Seg6Header {
        segments: segments(alloc, count)?,
        hmac,
        ..Seg6Header::new(alloc)
    })
}

/// `check` answers this fault or none of a SEG6 header, and the same of its member.
fn checks(rt: &impl AllocGlobal, count: usize, hmac: Option<u32>, fault: &str) -> Result<(), Fail> {
    let header = header_of(rt.alloc(), count, hmac)?;
    let found = header.check();
    same(RouteSeg6IpTunnel::Seg6(header).check(), found)?;
    shows(rt, found.err(), fault)
}

#[test]
fn so_many_segments_fit(rt: HostRuntime) -> Result<(), Fail> {
    checks(&rt, 127, None, "None")?;
    checks(&rt, 128, None, "Some(TooManySegments { count: 128 })")?;
    checks(&rt, 125, Some(1), "None")?;
    checks(&rt, 126, Some(1), "Some(TooManySegments { count: 126 })")?;
    checks(&rt, 4096, None, "Some(TooLong { kind: 1, len: 65548 })")
}

/// A header with so many segments is read again.
fn is_read_again(rt: &impl AllocGlobal, count: usize, hmac: Option<u32>) -> Result<(), Fail> {
    let header = header_of(rt.alloc(), count, hmac)?;
    let length = header.check()?;
    let mut bytes = vec![in rt.alloc(); 0xffu8; length]?;
    header.emit(bytes.as_mut_slice());
    let item = NlaBuffer::new_checked(bytes.as_slice())?;
    let found = RouteSeg6IpTunnel::parse(rt.alloc(), &item)?;
    holds(found == RouteSeg6IpTunnel::Seg6(header))
}

#[test]
fn the_most_segments(rt: HostRuntime) -> Result<(), Fail> {
    is_read_again(&rt, 127, None)?;
    is_read_again(&rt, 125, Some(1))
}

#[test]
fn copies_of_headers(rt: HostRuntime) -> Result<(), Fail> {
    let header = header_of(rt.alloc(), 2, Some(1))?;
    same(header.try_clone(rt.alloc())?, header)?;
    let local = local(rt.alloc())?;
    same(local.try_clone(rt.alloc())?, local)?;
    let rpl = rpl(rt.alloc())?;
    same(rpl.try_clone(rt.alloc())?, rpl)
}

#[test]
fn too_many_segments_of_others(rt: HostRuntime) -> Result<(), Fail> {
    let fault = EmitError::TooManySegments { count: 128 };
    let mut local = Seg6LocalSrh::new(rt.alloc());
    local.segments = segments(rt.alloc(), 128)?;
    same(local.check(), Err(fault))?;
    let mut rpl = RplSrh::new(rt.alloc());
    rpl.segments = segments(rt.alloc(), 128)?;
    same(rpl.check(), Err(fault))
}

/// The header with the address `FIRST`.
fn local(alloc: Global) -> Result<Seg6LocalSrh, AllocError> {
    Ok(Seg6LocalSrh {
        next_header: 41,
        routing_type: 4,
        tag: 42,
        segments: segments(alloc, 1)?,
        ..Seg6LocalSrh::new(alloc)
    })
}

#[test]
fn writes_a_local_header(rt: HostRuntime) -> Result<(), Fail> {
    let text = "1c000200 29020400 0000002a fc000000000000000000000000000001";
    writes(&rt, local(rt.alloc())?, &[text])
}

#[test]
fn a_local_header_alone(rt: HostRuntime) -> Result<(), Fail> {
    let bytes = bytes_of(&rt, &["1c000200 29020400 0000002a", FIRST_TEXT])?;
    let item = NlaBuffer::new_checked(bytes.as_slice())?;
    let text =
        "Seg6LocalSrh { next_header: 41, routing_type: 4, segments_left: 0, first_segment: 0, \
        flags: 0, tag: 42, \
        segments: [fc00::1] }";
    is_alone::<Seg6LocalSrh>(&rt, &item, text)?;
    let text = "Srh(Seg6LocalSrh { next_header: 41, routing_type: 4, segments_left: 0, \
        first_segment: 0, flags: 0, tag: 42, \
        segments: [fc00::1] })";
    is_alone::<RouteSeg6LocalTunnel>(&rt, &item, text)
}

/// The header with the address `FIRST`.
fn rpl(alloc: Global) -> Result<RplSrh, AllocError> {
    Ok(RplSrh {
        routing_type: 3,
        segments_left: 1,
        segments: segments(alloc, 1)?,
        ..RplSrh::new(alloc)
    })
}

/// What doesn't fit its four bits is written modulo 16.
#[test]
fn writes_rpl_headers(rt: HostRuntime) -> Result<(), Fail> {
    let mut header = rpl(rt.alloc())?;
    header.pad = 0x1f;
    header.cmpri = 0x20;
    let text = "1c000100 00020301 00f00000 fc000000000000000000000000000001";
    writes(&rt, header, &[text])
}

#[test]
fn an_rpl_header_alone(rt: HostRuntime) -> Result<(), Fail> {
    let bytes = bytes_of(&rt, &["1c000100 00020301 00000000", FIRST_TEXT])?;
    let item = NlaBuffer::new_checked(bytes.as_slice())?;
    let text =
        "RplSrh { next_header: 0, routing_type: 3, segments_left: 1, cmpri: 0, cmpre: 0, pad: 0, \
        segments: [fc00::1] }";
    is_alone::<RplSrh>(&rt, &item, text)?;
    let text =
        "Srh(RplSrh { next_header: 0, routing_type: 3, segments_left: 1, cmpri: 0, cmpre: 0, \
        pad: 0, segments: [fc00::1] })";
    is_alone::<RouteRplIpTunnel>(&rt, &item, text)
}

const TRACE: Ioam6TraceHdr = Ioam6TraceHdr {
    namespace_id: 1,
    nodelen: 0,
    overflow: false,
    remlen: 127,
    trace_type: 0x00f0_0000,
};

/// What doesn't fit its bits is written modulo their count.
#[test]
fn writes_traces(rt: HostRuntime) -> Result<(), Fail> {
    writes(&rt, TRACE, &["0c000300 0001007f f0000000"])?;
    let past = Ioam6TraceHdr {
        namespace_id: 0x0102,
        nodelen: 43,
        overflow: true,
        remlen: 255,
        trace_type: 0xff01_0203,
    };
    writes(&rt, past, &["0c000300 01025c7f 01020300"])
}

#[test]
fn a_trace_alone(rt: HostRuntime) -> Result<(), Fail> {
    let item = NlaBuffer::new_checked(&[12, 0, 3, 0, 0, 1, 0, 0x7f, 0xf0, 0, 0, 0])?;
    let text = "Ioam6TraceHdr { namespace_id: 1, nodelen: 0, overflow: false, remlen: 127, \
        trace_type: 15728640 }";
    is_alone::<Ioam6TraceHdr>(&rt, &item, text)
}

/// What a tunnel keeps is no header by itself.
#[test]
fn unreadable_headers_alone(rt: HostRuntime) -> Result<(), Fail> {
    let bytes = bytes_of(&rt, &["1c000200 29030400 0000002a", FIRST_TEXT])?;
    let item = NlaBuffer::new_checked(bytes.as_slice())?;
    let text = "an unsupported header at attribute 2 of Seg6Local";
    is_alone::<Seg6LocalSrh>(&rt, &item, text)?;
    let bytes = bytes_of(&rt, &["1c000100 00020301 01000000", FIRST_TEXT])?;
    let item = NlaBuffer::new_checked(bytes.as_slice())?;
    let text = "an unsupported header at attribute 1 of Rpl";
    is_alone::<RplSrh>(&rt, &item, text)
}

#[test]
fn nine_bytes_alone(rt: HostRuntime) -> Result<(), Fail> {
    let item = NlaBuffer::new_checked(&[13, 0, 1, 0, 0, 0, 0, 0, 0, 0, 0, 0, 0, 0, 0, 0])?;
    let text = "an unsupported header at attribute 1 of Rpl";
    is_alone::<RplSrh>(&rt, &item, text)?;
    let item = NlaBuffer::new_checked(&[13, 0, 3, 0, 0, 0, 0, 0, 0, 0, 0, 0, 0, 0, 0, 0])?;
    let text = "an unsupported header at attribute 3 of Ioam6";
    is_alone::<Ioam6TraceHdr>(&rt, &item, text)
}
