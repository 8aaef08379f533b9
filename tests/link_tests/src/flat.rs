//! The header, and the attributes that stand for themselves.

use bitflags::Flags;
use netlink_packet_route::AddressFamily;
use netlink_packet_route::framing::{EmitError, Emitable, Header, Looks, Parseable};
use netlink_packet_route::link::{
    Grown, LinkAttribute, LinkFlags, LinkHeader, LinkLayerType, LinkMessage, LinkMessageBuffer,
    Stats, Stats64,
};
use npr_testing::{bytes_of, check_of, holds, messages, same, says, shows, writes};
use std::test::Fail;

/// A header of zeros.
const ZEROS: &str = "00000000 00000000 00000000 00000000";

/// No family, and the fourth link.
const FOURTH: &str = "00000000 04000000 00000000 00000000";

/// The fourth link, which is an Ethernet that is up.
const ETHERNET: &str = "00000100 04000000 43100100 00000000";

/// The fourth link, of family inet6.
const INET6: &str = "0a000000 04000000 00000000 00000000";

/// The fourth link, of family packet.
const PACKET: &str = "11000000 04000000 00000000 00000000";

/// `ip link` shows of the first: `lo: <LOOPBACK,UP,LOWER_UP> link/loopback`. The second byte is padding,
/// and any number is a kind of link.
#[test]
fn reads_headers(rt: HostRuntime) -> Result<(), Fail> {
    let bytes = bytes_of(&rt, &["00000403 01000000 49000100 00000000"])?;
    let header = LinkHeader {
        interface_family: AddressFamily::Unspec,
        link_layer_type: LinkLayerType::Loopback,
        index: 1,
        flags: LinkFlags::from_bits_retain(0x10049),
        change_mask: LinkFlags::default(),
    };
    same(LinkHeader::parse(bytes.as_slice())?, header)?;
    writes(&rt, header, &["00000403 01000000 49000100 00000000"])?;
    let padded = bytes_of(&rt, &["00ff3412 04000000 00000000 00000000"])?;
    let other = LinkHeader::parse(padded.as_slice())?;
    same(other.link_layer_type, LinkLayerType::Other(0x1234))?;
    writes(&rt, other, &["00003412 04000000 00000000 00000000"])?;
    let layout = LinkMessageBuffer::parse(padded.as_slice())?;
    same(layout.reserved_1, 0xff)?;
    holds(layout.to_bytes().as_slice() == padded.as_slice())
}

/// A request for all links in one to four bytes, as `getifaddrs` sends it, has no header.
#[test]
fn refuses_short_headers(rt: HostRuntime) -> Result<(), Fail> {
    let lines = "
        => 0 bytes, where a header of 16 is wanted
        11000000 => 4 bytes, where a header of 16 is wanted";
    messages::<LinkMessage>(&rt, "", lines)
}

/// Numbers and names. A name may come without its zero; flags of a number are dropped; the last four
/// bytes of a map are padding.
#[test]
fn reads_attributes(rt: HostRuntime) -> Result<(), Fail> {
    let lines = "
        => []
        08000300 65746830 -> 09000300 65746830 00000000 => [IfName(\"eth0\")]
        09000340 65746830 00000000 060044c0 02000000 -> 09000300 65746830 00000000 06004400 02000000 => \
            [IfName(\"eth0\"), Headroom(2)]
        04003e80 04004180 => [DevlinkPort([]), DpllPin([])]
        05001000 06000000 05001000 09000000 05001100 01000000 => \
            [OperState(Up), OperState(Other(9)), Mode(Dormant)]
        24000e00 00000000 00000000 00000000 00000000 00000000 00000000 0b000102 ffffffff -> \
            24000e00 00000000 00000000 00000000 00000000 00000000 00000000 0b000102 00000000 => \
            [Map(Map { memory_start: 0, memory_end: 0, base_address: 0, irq: 11, dma: 1, port: 2 })]
        0c004200 05000000 00000000 0c004200 00000000 01000000 -> 08004200 05000000 0c004200 00000000 01000000 => \
            [MaxPacingOffloadHorizon(5), MaxPacingOffloadHorizon(4294967296)]
        24002400 00010203 04050607 08090a0b 0c0d0e0f 10111213 14151617 18191a1b 1c1d1e1f => \
            [PhysSwitchId([0, 1, 2, 3, 4, 5, 6, 7, 8, 9, 10, 11, 12, 13, 14, 15, 16, 17, 18, 19, 20, 21, \
            22, 23, 24, 25, 26, 27, 28, 29, 30, 31])]
        10001800 0c000100 08000100 05000000 => \
            [VfPorts([Port([Vf(5)])])]";
    messages::<LinkMessage>(&rt, ETHERNET, lines)
}

/// Values of another length, or that are no text.
#[test]
fn refuses_values(rt: HostRuntime) -> Result<(), Fail> {
    let lines = "
        06000400 dc050000 => a value of 2 bytes at attribute 4 of Link
        08001400 636166e9 => no UTF-8 at attribute 20 of Link
        0a004200 00000000 00000000 => a value of 6 bytes at attribute 66 of Link
        20000e00 00000000 00000000 00000000 00000000 00000000 00000000 00000000 => \
            28 bytes, where a header of 32 is wanted";
    messages::<LinkMessage>(&rt, ETHERNET, lines)
}

/// What `ip link show dev lo` asks; `ip link set dev if4 xdp off`; reasons that hold a link down, which
/// are written with NESTED; and `ip link property add dev if4 altname longer-name altname second`.
#[test]
fn reads_requests(rt: HostRuntime) -> Result<(), Fail> {
    let asked =
        "08001d00 09000000 07000300 6c6f0000 => [ExtMask(LinkExtentMask(9)), IfName(\"lo\")]";
    messages::<LinkMessage>(&rt, ZEROS, asked)?;
    let lines = "
        14002b00 08000100 ffffffff 08000300 01000000 => [Xdp([Fd(-1), Flags(1)])]
        05002700 01000000 14003700 08000100 08000000 08000200 08000000 -> \
            05002700 01000000 14003780 08000100 08000000 08000200 08000000 => \
            [ProtoDown(1), ProtoDownReason([Mask(8), Value(8)])]
        20003480 10003500 6c6f6e67 65722d6e 616d6500 0b003500 7365636f 6e640000 => \
            [PropList([AltIfName(\"longer-name\"), AltIfName(\"second\")])]";
    messages::<LinkMessage>(&rt, FOURTH, lines)
}

/// What address families say: a list under no family and those of IP, and bytes under another.
#[test]
fn reads_address_families(rt: HostRuntime) -> Result<(), Fail> {
    let lines = "
        10001a00 0c000a00 05000800 01000000 => [AfSpecUnspec([Inet6([AddrGenMode(None)])])]
        0c001a00 08000200 06000a00 => an attribute of length 6 with 4 bytes left
        44001a00 40000a00 3c000600 07000000 00000000 02000000 00000000 00000000 00000000 05000000 00000000 \
            00000000 00000000 00000000 00000000 00000000 00000000 => \
            [AfSpecUnspec([Inet6([Icmp6Stats(Icmp6Stats { num: 7, in_msgs: 2, in_errors: 0, out_msgs: 5, \
            out_errors: 0, csum_errors: 0, rate_limit_host: 0, missing: 0, more: [] })])])]
        18001a00 14000a00 0e000600 07000000 00000000 aabb0000 -> \
            14001a00 10000a00 0c000600 07000000 00000000 => \
            [AfSpecUnspec([Inet6([Icmp6Stats(Icmp6Stats { num: 7, in_msgs: 0, in_errors: 0, out_msgs: 0, \
            out_errors: 0, csum_errors: 0, rate_limit_host: 0, missing: 6, more: [] })])])]
        1c001a00 18000a00 13000500 00000000 00000000 00000000 00000000 => \
            15 bytes, where a header of 16 is wanted";
    messages::<LinkMessage>(&rt, FOURTH, lines)?;
    let token = "1c001a00 18000a00 14000700 00000000 00000000 00000000 00010002 => \
        [AfSpecUnspec([Inet6([Token(::1:2)])])]";
    messages::<LinkMessage>(&rt, INET6, token)?;
    let kept = "0c001a00 08000200 06000a00 => [AfSpecUnknown([8, 0, 2, 0, 6, 0, 10, 0])]";
    messages::<LinkMessage>(&rt, PACKET, kept)
}

/// A header alone takes no looks.
#[test]
fn counts_no_looks_at_a_header(rt: HostRuntime) -> Result<(), Fail> {
    let bytes = bytes_of(&rt, &[ETHERNET])?;
    let mut looks = Looks::new();
    LinkMessage::parse_counted(rt.alloc(), bytes.as_slice(), &mut looks)?;
    same(looks, Looks::new())
}

/// The counters of which `ip -s link` says that 18 packets of 1298 bytes came and 10 of 956 went; the
/// kernel has no more than these.
#[test]
fn reads_few_statistics(rt: HostRuntime) -> Result<(), Fail> {
    let front = "12000000 00000000 0a000000 00000000 12050000 00000000 bc030000 00000000";
    let bytes = bytes_of(&rt, &[front, "ffffff"])?;
    let stats = Stats64::read(rt.alloc(), bytes.as_slice())?;
    same(stats.rx_packets, 18)?;
    same(stats.tx_packets, 10)?;
    same(stats.rx_bytes, 1298)?;
    same(stats.tx_bytes, 956)?;
    same(stats.rx_errors, 0)?;
    same(stats.missing, 21)?;
    same(stats.len(), 32)?;
    writes(&rt, LinkAttribute::Stats64(stats), &["24001700", front])
}

/// Two counters of a newer kernel stand behind those that have a name.
#[test]
fn reads_more_statistics(rt: HostRuntime) -> Result<(), Fail> {
    let last = "00000000 00000000 00000000 01000000 02000000 03000000";
    let bytes = bytes_of(&rt, &[ZEROS, ZEROS, ZEROS, ZEROS, ZEROS, last])?;
    let stats = Stats::read(rt.alloc(), bytes.as_slice())?;
    same(stats.rx_nohandler, 1)?;
    same(stats.missing, 0)?;
    same(stats.more.as_slice(), [2u32, 3].as_slice())?;
    let copy = stats.try_clone(rt.alloc())?;
    same(copy, stats)
}

/// What is built is written whole.
#[test]
fn writes_statistics(rt: HostRuntime) -> Result<(), Fail> {
    let mut stats = Stats64::new(rt.alloc());
    stats.rx_bytes = 7;
    let wanted = [
        "cc001700",
        ZEROS,
        "07000000 00000000",
        ZEROS,
        ZEROS,
        ZEROS,
        ZEROS,
        ZEROS,
        ZEROS,
        ZEROS,
        ZEROS,
        ZEROS,
        ZEROS,
        ZEROS,
    ];
    writes(&rt, LinkAttribute::Stats64(stats), &wanted)
}

/// A name of 65,531 letters is too long with its zero, and a number is written over what stood there.
#[test]
fn checks_and_writes(rt: HostRuntime) -> Result<(), Fail> {
    let mut name = String::new(rt.alloc());
    for _ in 0..65531 {
        name.push_str("a")?;
    }
    let long = EmitError::TooLong {
        kind: 3,
        len: 65532,
    };
    same(LinkAttribute::IfName(name).check(), Err(long))?;
    writes(&rt, LinkAttribute::Mtu(1500), &["08000400 dc050000"])
}

/// The names of kinds of links.
#[test]
fn prints_kinds_of_links(rt: HostRuntime) -> Result<(), Fail> {
    says(&rt, LinkLayerType::Ieee802154Monitor, "IEEE802154_MONITOR")?;
    says(&rt, LinkLayerType::Sixlowpan, "6LOWPAN")?;
    says(&rt, LinkLayerType::Other(0x1234), "4660")
}

/// The names of the flags that are set, and last the bits without one.
#[test]
fn prints_flags(rt: HostRuntime) -> Result<(), Fail> {
    says(
        &rt,
        LinkFlags::from_bits_retain(0x80041),
        "Up | Running | 0x80000",
    )?;
    says(
        &rt,
        LinkFlags::from_bits_retain(0x51043),
        "Up | Broadcast | Running | Multicast | LowerUp | Echo",
    )?;
    says(&rt, LinkFlags::from_bits_retain(0xfff80000), "0xfff80000")?;
    says(&rt, LinkFlags::from_bits_retain(0), "")
}
