//! Messages of rtnetlink as a kernel sent them, envelopes included.

use netlink_packet_route::envelope::{
    DoneMessage, ErrorMessage, NLMSG_DONE, NLMSG_ERROR, NLMSG_NOOP, NLMSG_OVERRUN, NetlinkBuffer,
    NetlinkHeader, NetlinkInner, NetlinkIterator, NetlinkMessage, NetlinkPayload,
};
use netlink_packet_route::family::read_bytes;
use netlink_packet_route::framing::{Emitable, Parseable, to_vec};
use netlink_packet_route::link::LinkExtentMask;
use netlink_packet_route::request::{
    dump_address_labels, dump_addresses, dump_links, dump_neighbour_tables, dump_neighbours,
    dump_netconfs, dump_next_hops, dump_nsids, dump_routes, dump_rules, dump_stats,
};
use netlink_packet_route::{AddressFamily, RouteNetlinkMessage};
use npr_testing::{bytes_of, holds, same, shows, writes};
use std::alloc::Global;
use std::test::Fail;

/// What a message is, in a word; one on a queueing discipline keeps a payload of 17 bytes.
fn word_of(message: &NetlinkMessage<RouteNetlinkMessage>) -> &'static str {
    match &message.payload {
        NetlinkPayload::Done(_) => "done",
        NetlinkPayload::Error(error) if error.code.is_none() => "acknowledgement",
        NetlinkPayload::Error(_) => "refusal",
        NetlinkPayload::Noop => "nothing",
        NetlinkPayload::Overrun(_) => "overrun",
        NetlinkPayload::InnerMessage(RouteNetlinkMessage::NewRule(_)) => "rule",
        NetlinkPayload::InnerMessage(RouteNetlinkMessage::Other(other))
            if other.message_type == 84 && other.payload.len() == 17 => "other",
        _ => "something else",
    }
}

/// The same of a message on a link.
fn link_word_of(message: &NetlinkMessage<RouteNetlinkMessage>) -> &'static str {
    match &message.payload {
        NetlinkPayload::InnerMessage(RouteNetlinkMessage::NewLink(_)) => "new",
        NetlinkPayload::InnerMessage(RouteNetlinkMessage::DelLink(_)) => "del",
        NetlinkPayload::InnerMessage(RouteNetlinkMessage::GetLink(_)) => "get",
        NetlinkPayload::InnerMessage(RouteNetlinkMessage::SetLink(_)) => "set",
        NetlinkPayload::InnerMessage(RouteNetlinkMessage::NewLinkProp(_)) => "new property",
        NetlinkPayload::InnerMessage(RouteNetlinkMessage::DelLinkProp(_)) => "del property",
        NetlinkPayload::InnerMessage(RouteNetlinkMessage::GetLinkProp(_)) => "get property",
        _ => "something else",
    }
}

/// What the message is, and the bytes of a copy, whose header is that of what is written.
fn rewrite(alloc: Global, found: &NetlinkBuffer<'_>) -> Result<(&'static str, Vec<u8>), Fail> {
    let message = NetlinkMessage::<RouteNetlinkMessage>::parse(alloc, found)?;
    let mut copy = message.try_clone(alloc)?;
    holds(copy == message)?;
    copy.check()?;
    copy.finalize();
    let bytes = to_vec(alloc, &copy)?;
    Ok((word_of(&copy), bytes))
}

/// What each message of the datagram is, and the bytes of them all.
fn rewritten(alloc: Global, datagram: &[u8]) -> Result<(Vec<&'static str>, Vec<u8>), Fail> {
    let mut words = Vec::new(alloc);
    let mut written = Vec::new(alloc);
    for found in NetlinkIterator::new(datagram) {
        let (word, bytes) = rewrite(alloc, &found?)?;
        words.push(word)?;
        written.extend_from_slice(bytes.as_slice())?;
    }
    Ok((words, written))
}

/// A rule of a dump, the end of the dump, and a message on a queueing discipline: each is read by its type, and
/// written as the same bytes, padding included.
#[test]
fn a_datagram_is_read_by_type(rt: HostRuntime) -> Result<(), Fail> {
    let texts = [
        "34000000 20000200 07000000 9c6c0000 0a000000 ff000001 00000000",
        "08000f00 ff000000 08000e00 ffffffff 05001500 02000000",
        "14000000 03000200 07000000 9c6c0000 00000000",
        "21000000 54000000 00000000 00000000 00000100 02000000 03000000 00000000 04000000",
    ];
    let bytes = bytes_of(&rt, texts.as_slice())?;
    let (words, written) = rewritten(rt.alloc(), bytes.as_slice())?;
    shows(&rt, words, "[\"rule\", \"done\", \"other\"]")?;
    same(written, bytes)
}

/// A link of each type, with its number alone.
#[test]
fn links_are_read_by_type(rt: HostRuntime) -> Result<(), Fail> {
    let words = [
        (16, "new"),
        (17, "del"),
        (18, "get"),
        (19, "set"),
        (108, "new property"),
        (109, "del property"),
        (110, "get property"),
    ];
    for (message_type, wanted) in words {
        let header = NetlinkHeader {
            message_type,
            ..NetlinkHeader::default()
        };
        let bytes = bytes_of(&rt, &["00000000 04000000 00000000 00000000"])?;
        let payload = NetlinkPayload::parse(rt.alloc(), header, bytes.as_slice())?;
        let message = NetlinkMessage { header, payload };
        same(message.payload.message_type(), message_type)?;
        same(link_word_of(&message.try_clone(rt.alloc())?), wanted)?;
    }
    Ok(())
}

/// A message of each other type, a header of zeros alone, and its copy, are no bytes of a type that is not
/// read.
#[test]
fn small_messages_are_read_by_type(rt: HostRuntime) -> Result<(), Fail> {
    let four = [64, 66, 67, 80, 81, 82, 88, 89, 90];
    let twelve = [52, 72, 73, 74];
    for message_type in four {
        is_read(&rt, message_type, "00000000")?;
    }
    for message_type in [104, 105, 106, 116, 117, 118] {
        is_read(&rt, message_type, "00000000 00000000")?;
    }
    for message_type in twelve {
        is_read(&rt, message_type, "00000000 00000000 00000000")?;
    }
    Ok(())
}

/// What stands behind a header of this type is a message that is read, and so is its copy.
fn is_read(rt: &impl AllocGlobal, message_type: u16, text: &str) -> Result<(), Fail> {
    let header = NetlinkHeader {
        message_type,
        ..NetlinkHeader::default()
    };
    let bytes = bytes_of(rt, &[text])?;
    let payload = NetlinkPayload::<RouteNetlinkMessage>::parse(
        rt.alloc(),
        header,
        bytes.as_slice(),
    )?;
    let copy = payload.try_clone(rt.alloc())?;
    holds(copy == payload)?;
    same(copy.message_type(), message_type)?;
    match copy {
        NetlinkPayload::InnerMessage(RouteNetlinkMessage::Other(_)) => holds(false),
        _ => holds(true),
    }
}

/// The message that so many zeros are under this type.
fn of_zeros(
    rt: &impl AllocGlobal,
    message_type: u16,
    count: usize,
) -> Result<RouteNetlinkMessage, Fail> {
    let header = NetlinkHeader {
        message_type,
        ..NetlinkHeader::default()
    };
    let zeros = [0u8; 16];
    let message = RouteNetlinkMessage::deserialize(rt.alloc(), &header, &zeros[..count.min(16)])?;
    Ok(message)
}

/// Each call that asks for a type, at a message of it, and one at a message of another.
#[test]
fn types_are_told(rt: HostRuntime) -> Result<(), Fail> {
    holds(of_zeros(&rt, 16, 16)?.is_new_link())?;
    holds(of_zeros(&rt, 17, 16)?.is_del_link())?;
    holds(of_zeros(&rt, 18, 16)?.is_get_link())?;
    holds(of_zeros(&rt, 19, 16)?.is_set_link())?;
    holds(of_zeros(&rt, 20, 8)?.is_new_address())?;
    holds(of_zeros(&rt, 21, 8)?.is_del_address())?;
    holds(of_zeros(&rt, 22, 8)?.is_get_address())?;
    holds(of_zeros(&rt, 24, 12)?.is_new_route())?;
    holds(of_zeros(&rt, 25, 12)?.is_del_route())?;
    holds(of_zeros(&rt, 26, 12)?.is_get_route())?;
    holds(of_zeros(&rt, 28, 12)?.is_new_neighbour())?;
    holds(of_zeros(&rt, 29, 12)?.is_del_neighbour())?;
    holds(of_zeros(&rt, 30, 12)?.is_get_neighbour())?;
    holds(of_zeros(&rt, 32, 12)?.is_new_rule())?;
    holds(of_zeros(&rt, 33, 12)?.is_del_rule())?;
    holds(of_zeros(&rt, 34, 12)?.is_get_rule())?;
    holds(of_zeros(&rt, 64, 4)?.is_new_neighbour_table())?;
    holds(of_zeros(&rt, 66, 4)?.is_get_neighbour_table())?;
    holds(of_zeros(&rt, 67, 4)?.is_set_neighbour_table())?;
    holds(of_zeros(&rt, 88, 4)?.is_new_nsid())?;
    holds(of_zeros(&rt, 89, 4)?.is_del_nsid())?;
    holds(of_zeros(&rt, 90, 4)?.is_get_nsid())?;
    holds(!of_zeros(&rt, 17, 16)?.is_new_link())
}

/// Nothing, lost data without bytes and with three, an acknowledgement, and a refusal with the header
/// of its request.
#[test]
fn messages_of_the_envelope_are_read(rt: HostRuntime) -> Result<(), Fail> {
    let texts = [
        "10000000 01000000 07000000 9c6c0000",
        "10000000 04000000 07000000 9c6c0000",
        "13000000 04000000 07000000 9c6c0000 c0ffee 00",
        "14000000 02000000 07000000 9c6c0000 00000000",
        "24000000 02000000 07000000 9c6c0000 ffffffff 24000000 18000506 07000000 00000000",
    ];
    let bytes = bytes_of(&rt, texts.as_slice())?;
    let (words, written) = rewritten(rt.alloc(), bytes.as_slice())?;
    let wanted = "[\"nothing\", \"overrun\", \"overrun\", \"acknowledgement\", \"refusal\"]";
    shows(&rt, words, wanted)?;
    same(written, bytes)
}

/// What stands behind a header of this type, and its copy, are printed so.
fn is_payload(
    rt: &impl AllocGlobal,
    message_type: u16,
    text: &str,
    wanted: &str,
) -> Result<(), Fail> {
    let header = NetlinkHeader {
        message_type,
        ..NetlinkHeader::default()
    };
    let bytes = bytes_of(rt, &[text])?;
    let payload = NetlinkPayload::<RouteNetlinkMessage>::parse(
        rt.alloc(),
        header,
        bytes.as_slice(),
    )?;
    same(payload.message_type(), message_type)?;
    let copy = payload.try_clone(rt.alloc())?;
    holds(copy == payload)?;
    shows(rt, copy, wanted)
}

/// What stands behind nothing is not looked at.
#[test]
fn payloads_are_read_by_type(rt: HostRuntime) -> Result<(), Fail> {
    is_payload(&rt, NLMSG_NOOP, "ff", "Noop")?;
    let acknowledgement = "Error(ErrorMessage { code: None, header: [] })";
    is_payload(&rt, NLMSG_ERROR, "00000000", acknowledgement)?;
    let done = "Done(DoneMessage { code: 0, extended_ack: [] })";
    is_payload(&rt, NLMSG_DONE, "00000000", done)?;
    is_payload(&rt, NLMSG_OVERRUN, "c0ffee", "Overrun([192, 255, 238])")?;
    let other = "InnerMessage(Other(OtherMessage { message_type: 84, payload: [] }))";
    is_payload(&rt, 84, "", other)
}

/// A code and the bytes behind it, by themselves.
#[test]
fn codes_are_read(rt: HostRuntime) -> Result<(), Fail> {
    let alloc = rt.alloc();
    let bytes = bytes_of(&rt, &["ffffffff 0102"])?;
    let error = ErrorMessage::parse(alloc, bytes.as_slice())?.try_clone(alloc)?;
    same(error.raw_code(), -1)?;
    shows(
        &rt,
        error,
        "ErrorMessage { code: Some(-1), header: [1, 2] }",
    )?;
    let done = DoneMessage::parse(alloc, bytes.as_slice())?.try_clone(alloc)?;
    shows(&rt, done, "DoneMessage { code: -1, extended_ack: [1, 2] }")?;
    same(read_bytes(alloc, bytes.as_slice())?, bytes)
}

/// What was sent to the kernel whose dumps `conformance` reads: `NLM_F_REQUEST` and `NLM_F_DUMP`, the
/// number 7, and a header of zeros but for the family; for links, which family `ip` gives is all one.
#[test]
fn dumps_are_asked_for(rt: HostRuntime) -> Result<(), Fail> {
    let alloc = rt.alloc();
    let addresses = dump_addresses(alloc, 7, AddressFamily::Inet6);
    writes(
        &rt,
        addresses,
        &["18000000 1600 0103 07000000 00000000 0a00000000000000"],
    )?;
    let routes = dump_routes(alloc, 7, AddressFamily::Inet);
    writes(
        &rt,
        routes,
        &["1c000000 1a00 0103 07000000 00000000 020000000000000000000000"],
    )?;
    let rules = dump_rules(alloc, 7, AddressFamily::Inet6);
    writes(
        &rt,
        rules,
        &["1c000000 2200 0103 07000000 00000000 0a0000000000000000000000"],
    )?;
    let neighbours = dump_neighbours(alloc, 7, AddressFamily::Inet);
    writes(
        &rt,
        neighbours,
        &["1c000000 1e00 0103 07000000 00000000 020000000000000000000000"],
    )?;
    let links = dump_links(alloc, 7, LinkExtentMask::Vf)?;
    let header = "28000000 1200 0103 07000000 00000000";
    let zeros = "00000000 00000000 00000000 00000000";
    writes(&rt, links, &[header, zeros, "08001d00 01000000"])
}

/// What `ip nexthop show`, `ip netns list-id` and `ip ntable show` ask, and the same of settings and address
/// labels, whose requests are a header of zeros but for the family too.
#[test]
fn dumps_of_small_messages_are_asked_for(rt: HostRuntime) -> Result<(), Fail> {
    let alloc = rt.alloc();
    let next_hops = dump_next_hops(alloc, 7, AddressFamily::Unspec);
    writes(
        &rt,
        next_hops,
        &["18000000 6a00 0103 07000000 00000000 0000000000000000"],
    )?;
    let name_spaces = dump_nsids(alloc, 7);
    writes(
        &rt,
        name_spaces,
        &["14000000 5a00 0103 07000000 00000000 00000000"],
    )?;
    let tables = dump_neighbour_tables(alloc, 7, AddressFamily::Unspec);
    writes(
        &rt,
        tables,
        &["14000000 4200 0103 07000000 00000000 00000000"],
    )?;
    let settings = dump_netconfs(alloc, 7, AddressFamily::Inet6);
    writes(
        &rt,
        settings,
        &["14000000 5200 0103 07000000 00000000 0a000000"],
    )?;
    let statistics = dump_stats(alloc, 7, 0x1f)?;
    writes(
        &rt,
        statistics,
        &["1c000000 5e00 0103 07000000 00000000 00000000 00000000 1f000000"],
    )?;
    let labels = dump_address_labels(alloc, 7, AddressFamily::Inet6);
    writes(
        &rt,
        labels,
        &["1c000000 4a00 0103 07000000 00000000 0a0000000000000000000000"],
    )
}
