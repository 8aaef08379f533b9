"""Messages with each row of the tables of docs/format.md but those of number 0, with several values, for `checks/worded`."""

import ipaddress
import itertools
import struct

# the types of new messages
TYPES = {"link": 16, "address": 20, "route": 24, "neighbour": 28, "rule": 32, "prefix": 52, "neighbour-table": 64, "address-label": 72,
         "netconf": 80, "nsid": 88, "nexthop": 104, "bucket": 116}
# those of which no message says that one is gone
STAYING = {"prefix", "neighbour-table"}
INET, INET6, MPLS, BRIDGE = 2, 10, 28, 7
# the number of an interface that no machine has, so that `ip` has no name for it
INDEX = 70001
# the numbers of a link that is shown, of one that is down, of one that is up, and of one whose name an address has
LINK, DOWN, UP, NAMED = 70002, 70003, 70004, 70005


def number(size, order="little"):
    """Numbers of so many bytes: the edges, and some between."""
    top = 2 ** (8 * size)
    return [it.to_bytes(size, order) for it in (0, 1, 7, 100, top // 2 - 1, top // 2, top - 1)]


def bits(size, order="little"):
    """No bit, two, each, and all."""
    return [it.to_bytes(size, order) for it in (0, 3, *(1 << at for at in range(8 * size)), 2 ** (8 * size) - 1)]


def listed(*rows):
    """Attributes of these numbers and values."""
    return b"".join(two(4 + len(value), kind) + value + bytes(-len(value) % 4) for kind, value in rows)


four = lambda *values: struct.pack(f"<{len(values)}I", *values)
two = lambda *values: struct.pack(f"<{len(values)}H", *values)
label = lambda value, bottom=1: struct.pack(">I", value << 12 | bottom << 8)
trace = lambda space, node, overflow, left, kind: struct.pack(">HHI", space, node << 11 | overflow << 10 | left, kind << 8)
option = lambda of_class, of_type, data: listed((1, struct.pack(">H", of_class)), (2, BYTES[of_type]), (3, data))
# a next hop, and a header with each of these values at a place
hop = lambda *rows, flags=0, hops=0, index=INDEX: two(8 + len(listed(*rows))) + bytes([flags, hops]) + four(index) + listed(*rows)
put = lambda header, at, values: [header[:at] + it + header[at + len(it):] for it in values]
BYTES = [bytes([it]) for it in range(256)]
V4 = [ipaddress.ip_address(it).packed for it in ("0.0.0.0", "192.0.2.1", "255.255.255.255")]
V6 = [ipaddress.ip_address(it).packed for it in ("::", "2001:db8::1", "::1.2.3.4", "::ffff:1.2.3.4", "::1", "2001:db8:0:1:1:1:1:1",
                                                 "2001:0:0:1::1", "1:0:2::", "ffff:ffff:ffff:ffff:ffff:ffff:ffff:ffff")]
LABELS = [label(0), label(16), label(0xFFFFF), label(16, 0) + label(17), label(1, 0) + label(2, 0) + label(0xFFFFF)]
INDEXES = [four(0), four(INDEX), four(2 ** 31 - 1)]
NAMES = [b"\0", b"q7\0", b"q7", b"abcdefghijklmno\0"]
# 1 comes first, for `ip` reads its names of realms only at a realm other than 0
REALMS = [two(*it) for it in itertools.product((1, 0, 9, 0xFFFF), repeat=2)]
PORTS = [two(*it) for it in ((0, 0), (80, 80), (0, 65535), (1000, 2000), (65535, 65535))]
TABLES = number(4) + [four(it) for it in (252, 253, 254, 255, 256)]

ADDRESS_ROWS = {3: NAMES, 8: bits(4), 9: number(4), 10: number(4), 11: BYTES[:5] + BYTES[255:],
                6: [four(*it) for it in ((0, 0, 0, 0), (1, 2, 3, 4), (2 ** 32 - 1,) * 4, (2 ** 31, 2 ** 31 - 1, 0, 0))]}
OF_FAMILY = {INET: {4: V4}, INET6: {5: V6, 7: V6}}  # more of an address of one version
RULE_ROWS = {3: NAMES, 17: NAMES, 6: number(4), 10: number(4), 13: number(4), 14: number(4), 16: number(4), 11: REALMS, 15: TABLES,
             12: number(8, "big"), 19: BYTES[:2] + BYTES[255:], 21: BYTES, 22: BYTES, 23: PORTS, 24: PORTS,
             20: [four(*it) for it in ((0, 0), (100, 200), (2 ** 32 - 1, 2 ** 32 - 1), (0, 2 ** 31))]}
NEIGHBOUR_ROWS = {2: [BYTES[2] * 2, bytes(6), b"\2\0\0\0\0\x22", b"\xff" * 6, bytes(range(8)), bytes(range(20))],
                  3: [four(*it) for it in ((0, 0, 0, 0), (100, 2200, 33300, 4), (12345, 1, 99, 1), (2 ** 32 - 1,) * 4)],
                  4: number(4), 5: number(2), 6: number(2, "big"), 7: number(4), 8: INDEXES, 9: INDEXES, 10: number(4),
                  11: number(4), 12: BYTES[:20] + BYTES[180:200], 13: number(4), 15: bits(4)}
VIAS = [two(INET) + it for it in V4] + [two(INET6) + it for it in V6] + [two(17) + bytes(range(6)), two(200) + b"\1\2"]
ROUTE_ROWS = {3: INDEXES, 4: INDEXES, 6: number(4), 15: TABLES, 16: number(4), 18: VIAS, 25: number(4), 30: number(4),
              11: REALMS, 20: BYTES[:5] + BYTES[255:], 26: BYTES[:3] + BYTES[255:],
              12: [four(*(value if at == it else 0 for it in range(8))) for at in range(8)
                   for value in (0, 1, 99, 100, 12345, 2 ** 31 - 1, 2 ** 31, 2 ** 32 - 1)],
              17: [struct.pack("<3Q", *it) for it in ((0, 0, 0), (1, 2, 3), (2 ** 64 - 1,) * 3)],
              27: BYTES[:20], 28: number(2, "big"), 29: number(2, "big"), 31: number(4, "big"), 23: number(4)}
TIMES = number(4) + [four(it) for it in (8, 999, 1000, 1001, 8000, 8100, 12344)]
METRIC_ROWS = {**{kind: TIMES for kind in (2, 3, 4, 5, 6, 7, 8, 9, 10, 11, 13, 14, 15, 17)}, 12: bits(4), 16: [b"cubic\0", b"\0"]}


def srh(segments, key=None):
    """A routing header of SEG6, perhaps with a hash of this key."""
    last = len(segments) - 1
    tail = b"" if key is None else b"\x05\x26\0\0" + key + bytes(32)
    return bytes([0, 2 * len(segments) + len(tail) // 8, 4, last, last, 8 if tail else 0, 0, 0]) + b"".join(segments) + tail


SEGMENTS = [[V6[1]], [V6[1], V6[0], V6[3]], [V6[4]] * 10]
TRACES = [trace(*it) for it in ((1, 1, 0, 3, 0x800000), (0, 0, 0, 0, 0), (65535, 31, 1, 127, 0xFFFFFF), (7, 2, 0, 61, 2))]
GENEVE = [option(0, 0, b""), option(1, 2, bytes(4)), option(0xFFFF, 255, bytes(range(8))) + option(0x102, 1, b"abcd")]
ERSPAN = [*(listed((1, BYTES[1]), (2, it)) for it in number(4, "big")), *(listed((1, BYTES[2]), (3, it), (4, it)) for it in number(1))]
OPTIONS = [listed((kind, it)) for kind, values in ((1, GENEVE), (2, [listed((1, it)) for it in number(4)]), (3, ERSPAN)) for it in values]
TUNNEL = {1: number(8, "big"), 4: number(1), 5: number(1), 6: bits(2, "big"), 8: OPTIONS}
ENCAP_ROWS = {
    1: {1: LABELS, 2: number(1)}, 2: {**TUNNEL, 2: V4, 3: V4}, 4: {**TUNNEL, 2: V6, 3: V6},
    5: {1: [four(mode) + srh(*it) for mode in (*range(6), 2 ** 32 - 1) for it in itertools.product(SEGMENTS, [None, *number(4)])],
        2: V6, 3: TABLES},
    7: {1: [four(it) for it in (*range(18), 2 ** 32 - 1)], 2: [srh(it) for it in SEGMENTS], 3: TABLES, 4: V4, 5: V6, 6: INDEXES,
        7: INDEXES, 9: TABLES},
    8: {1: [bytes([0, 2 * len(it), 3, len(it)]) + four(0) + b"".join(it) for it in SEGMENTS]},
    9: {1: BYTES[:4] + BYTES[255:], 2: V6, 3: TRACES, 4: number(4), 5: number(4), 6: V6}, 10: {1: number(4), 2: INDEXES}}
# the members without which `ip` shows nothing of an encapsulation, in the order of the kernel
BESIDE = {7: {1: four(3)}, 9: {4: four(1), 5: four(1), 1: BYTES[2], 2: V6[1], 3: TRACES[0]}}


LINK_NAMES = [b"q7\0", b"q7", b"abcdefghijklmno\0"]
MACS = [b"\x02\0\0\0\0\x01", b"\xff" * 6, bytes(20), b"\0"]
QOS = [b"", listed((1, four(1, 2))), listed((1, four(1, 2)), (1, four(0, 2 ** 32 - 1)))]
KIND_NAMES = [b"dummy\0", b"ifb", b"no-such-kind\0"]
IDS = [bytes(8), b"\x80\0\x02\0\0\0\x0a\xff", b"\xff" * 8]
TIMERS = [struct.pack("<Q", it) for it in (0, 5, 99, 100, 12345, 2 ** 31 - 1)]
BRIDGE_ROWS = {**{kind: number(4) for kind in (1, 2, 3, 4, 5, 13, 26, 27, 28, 29, 48, 49, 50)}, **{kind: number(2) for kind in (6, 9, 12, 39)},
               **{kind: BYTES[:2] for kind in (7, 14, 15, 23, 24, 25, 36, 37, 38, 41, 42, 45)}, 8: [b"\x81\0", b"\x88\xa8", b"\x12\x34"],
               11: IDS, **{kind: TIMERS for kind in (16, 17, 18, 19)}, 20: MACS[:2], 21: [b""], 22: BYTES[:4], 43: BYTES[:3],
               44: BYTES[:3], **{kind: number(8) for kind in range(30, 36)},
               46: [four(value, mask) for value in (0, 1, 3, 31, 2 ** 32 - 1) for mask in (0, 1, 3, 31, 2 ** 32 - 1)],
               47: [b"", listed((1, V4[1]), (2, INDEXES[1]), (3, number(8)[3])), listed((5, V6[1]), (6, INDEXES[1]), (7, number(8)[3]))]}
PORT_ROWS = {1: BYTES[:6] + BYTES[255:], 3: number(4), **{kind: number(2) for kind in (2, 15, 16, 17, 18)}, 13: IDS, 14: IDS,
             **{kind: BYTES[:2] for kind in (4, 5, 6, 7, 8, 9, 10, 11, 12, 19, 20, 27, 28, 29, 30, 32, 33, 35, 36, 39, 40, 43, 45)},
             **{kind: TIMERS for kind in (21, 22, 23)}, 24: [b""], 25: BYTES[:4], 31: bits(2), 34: INDEXES,
             **{kind: number(4) for kind in (37, 38, 41, 42, 44)}}
# the rows of a VLAN without which `ip` shows nothing of it
VLAN_ROWS = {1: number(2), 2: [four(it, 2 ** 32 - 1) for it in (*(1 << at for at in range(6)), 31, 0xFFFFFFE0, 0)] + [four(3, 3)], 3: QOS, 4: QOS,
             5: [b"\x81\0", b"\x88\xa8", b"\x12\x34"]}
PEER_ROWS = {1: MACS, 2: MACS, 3: LINK_NAMES, 16: BYTES[:8], 17: BYTES[:3], **{kind: number(4) for kind in (4, 13, 19, 27, 28, 31, 32, 40, 41, 46, 58, 63, 64)}}
BOND_ROWS = {**{kind: number(4) for kind in (3, 4, 5, 7, 15, 18, 19, 20, 28)}, 2: INDEXES, 11: INDEXES, 1: BYTES[:8],
             8: [b"", listed((0, V4[1])), listed((0, V4[2]), (1, V4[1]), (2, V4[0]))], 31: [b"", listed((0, V6[1]), (1, V6[2]))],
             **{kind: [four(it) for it in range(8)] for kind in (9, 10)}, **{kind: BYTES[:4] for kind in (12, 13, 21, 22)}, 14: BYTES[:7],
             **{kind: number(1) for kind in (16, 30)}, **{kind: BYTES[:2] for kind in (6, 17, 27, 29, 32, 33, 34)},
             23: [b"", listed(*((kind, two(kind)) for kind in (1, 2, 3, 4)), (5, MACS[0]))], 24: number(2), 25: number(2), 26: MACS[:2]}
BOND_PORT_ROWS = {1: BYTES[:3], 2: BYTES[:5], 3: number(4), 4: MACS, 5: number(2), 6: number(2), 7: bits(1), 8: [it + b"\0" for it in bits(1)],
                  9: number(4), 10: number(2), 11: BYTES[:2], 12: BYTES[:2]}
MACVLAN_ROWS = {1: [four(it) for it in (0, 1, 2, 4, 8, 16, 32)], 2: bits(2), 3: [four(it) for it in range(5)], 4: MACS[:2], 6: number(4)[:5],
                7: number(4), 8: number(4), 9: number(4), 5: [b"", listed((4, MACS[0])), listed((4, MACS[0]), (4, MACS[1]))]}
IPVLAN_ROWS = {1: [two(it) for it in range(4)], 2: bits(2)}
TUN_ROWS = {1: number(4), 2: number(4), 3: BYTES[:4], **{kind: BYTES[:2] for kind in (4, 5, 6, 7)}, 8: number(4), 9: number(4)}
GROUPS = [bytes([224, 0, 0, 1]), bytes([239, 1, 1, 1])]
UDP_RANGES = [b"\0\0\0\0", b"\x27\x10\x4e\x20"]
VXLAN_ROWS = {1: number(4), 2: V4 + GROUPS, 3: INDEXES, 4: V4, 5: number(1), 6: number(1), 8: number(4), 9: number(4), 10: UDP_RANGES,
              **{kind: BYTES[:2] for kind in (7, 11, 12, 13, 14, 18, 19, 20, 21, 22, 25, 30, 31, 34)},
              **{kind: [b"", b"\1"] for kind in (23, 24, 27, 28)}, 15: number(2, "big"), 26: number(4, "big"), 29: BYTES[:4],
              32: [four(it) for it in range(3)], 33: bits(8, "big")}
GENEVE_ROWS = {1: number(4), 2: V4, 3: number(1), 4: number(1), 5: number(2, "big"), **{kind: BYTES[:2] for kind in (8, 9, 10, 12)},
               11: number(4, "big"), 13: BYTES[:4], **{kind: [b""] for kind in (6, 14, 16)}, 15: UDP_RANGES, 17: V4}
# what a tunnel is packed in once more, by the numbers of its type, flags and ports, and what GRE has in both versions
encap = lambda kind: {kind: [two(it) for it in range(4)], kind + 1: bits(2), kind + 2: number(2, "big"), kind + 3: number(2, "big")}
GRE_BOTH = {1: INDEXES, 2: bits(2, "big"), 3: bits(2, "big"), 4: number(4, "big"), 5: number(4, "big"), 8: number(1), **encap(14), 18: [b""],
            20: number(4), 21: number(4), 22: BYTES[:3], 23: BYTES[:2], 24: number(2)}
GRE_ROWS = {**GRE_BOTH, 6: V4, 7: V4, 9: number(1), 10: BYTES[:2], 19: BYTES[:2]}
GRE6_ROWS = {**GRE_BOTH, 6: V6, 7: V6, 11: number(1), 12: number(4, "big"), 13: bits(4)}
IP_BOTH = {1: INDEXES, 4: number(1), 9: [bytes([it]) for it in (0, 4, 41, 137, 17)], **encap(15), 19: [b"", b"\1"], 20: number(4)}
IPIP_ROWS = {**IP_BOTH, 2: V4, 3: V4, 5: number(1), 8: bits(2), 10: BYTES[:2], 11: V6, 12: V4, 13: number(2), 14: number(2)}
IP6TNL_ROWS = {**IP_BOTH, 2: V6, 3: V6, 5: number(1), 6: number(1), 7: number(4, "big"), 8: bits(4)}
FLOW = b"\x0b\x11\x23\x45"
VTI_BOTH = {1: INDEXES, 2: number(4, "big"), 3: number(4, "big"), 6: number(4)}
# the rows without which `ip` tells of a tunnel what no row says, or ends
GRE_BESIDE = {2: b"\0\0", 3: b"\0\0", 4: V4[1], 5: V4[2], 8: BYTES[0], 14: two(1), 15: two(0), 16: two(0), 17: two(0)}
IP_BESIDE = {4: BYTES[0], 15: two(2), 16: two(0), 17: two(0), 18: two(0)}
IPIP_BESIDE = {**IP_BESIDE, 2: V4[0], 3: V4[0], 10: BYTES[1], 11: V6[1], 12: V4[1], 13: two(32), 14: two(24)}
ENDS, ENDS6 = {6: V4[1], 7: V4[1]}, {6: V6[1], 7: V6[1]}
NETKIT_ROWS = {2: BYTES[:2], **{kind: [four(it) for it in (0, 1, 2, 7)] for kind in (3, 4, 5, 6, 7)}, 8: number(2), 9: number(2), 10: number(4)}
HSR_ROWS = {1: INDEXES[1:], 2: INDEXES[1:], 3: BYTES[:2], 4: MACS[:1], 5: number(2), 6: BYTES[:2], 7: BYTES[:2]}
MACSEC_ROWS = {1: number(8, "big"), 2: number(2, "big"), 3: BYTES[:3], 5: number(4)[:5], 6: BYTES[:5], **{kind: BYTES[:2] for kind in (7, 8, 9, 10, 11, 12)},
               4: [it.to_bytes(8, "little") for it in (0x80020001000001, 0x80C20001000001, 0x80C20001000002, 0x80C20001000003, 0x80C20001000004)],
               13: BYTES[:3], 15: BYTES[:3]}
# of each kind with words, and of each kind of ports: its rows, and those that stand beside each
INFO_ROWS = [
    *((1, name, rows, {}) for name, rows in (
        ("bridge", BRIDGE_ROWS), ("vrf", {1: number(4)}), ("bond", BOND_ROWS),
        ("ipvlan", IPVLAN_ROWS), ("ipvtap", IPVLAN_ROWS), ("tun", TUN_ROWS), ("vxlan", VXLAN_ROWS), ("vxlan", {16: V6, 17: V6}),
        ("geneve", GENEVE_ROWS), ("geneve", {7: V6, 18: V6}), ("xfrm", {1: INDEXES, 2: number(4), 3: [b""]}), ("netkit", NETKIT_ROWS))),
    *((4, name, rows, {}) for name, rows in (("bridge", PORT_ROWS), ("vrf", {1: number(4)}), ("bond", BOND_PORT_ROWS))),
    # `ip` shows nothing of a MACVLAN without its mode, its sources in one mode alone, and numbers of queues of a device that has several
    (1, "macvlan", MACVLAN_ROWS, {1: four(4)}), (1, "macvtap", MACVLAN_ROWS, {1: four(4)}), (1, "macvlan", MACVLAN_ROWS, {1: four(16), 6: four(2)}),
    (1, "tun", TUN_ROWS, {7: BYTES[1]}),
    (1, "hsr", HSR_ROWS, {1: four(INDEX), 2: four(INDEX)}), (1, "ipoib", {1: number(2), 2: [two(0), two(1)], 3: number(2)}, {1: two(1), 2: two(0)}),
    (1, "macsec", MACSEC_ROWS, {}), (1, "gtp", {3: number(4), 4: [four(0), four(1)], 6: BYTES[:3]}, {}),
    (1, "erspan", GRE_ROWS, {**GRE_BESIDE, **ENDS}), (1, "ip6erspan", GRE6_ROWS, {**GRE_BESIDE, **ENDS6}),
    (1, "gre", GRE_ROWS, {**GRE_BESIDE, **ENDS}), (1, "gretap", GRE_ROWS, {**GRE_BESIDE, **ENDS}),
    (1, "ip6gre", GRE6_ROWS, {**GRE_BESIDE, **ENDS6}), (1, "ip6gretap", GRE6_ROWS, {**GRE_BESIDE, **ENDS6}),
    (1, "ip6gre", {kind: GRE6_ROWS[kind] for kind in (11, 12, 13, 20)}, {**GRE_BESIDE, **ENDS6, 11: BYTES[4], 12: FLOW, 13: four(0), 20: four(7)}),
    (1, "ipip", IPIP_ROWS, IPIP_BESIDE), (1, "sit", IPIP_ROWS, IPIP_BESIDE), (1, "ip6tnl", IP6TNL_ROWS, {**IP_BESIDE, 2: V6[0], 3: V6[0]}),
    (1, "ip6tnl", IP6TNL_ROWS, {**IP_BESIDE, 2: V6[1], 3: V6[1], 6: BYTES[4], 7: FLOW, 8: four(0), 20: four(7)}),
    (1, "vti", {**VTI_BOTH, 4: V4, 5: V4}, {4: V4[0], 5: V4[0]}), (1, "vti6", {**VTI_BOTH, 4: V6, 5: V6}, {4: V6[0], 5: V6[0]})]
XDP_ROWS = {2: BYTES[:6], 4: number(4), 5: number(4)[1:], 6: number(4)[1:], 7: number(4)[1:], 1: number(4), 3: bits(4), 8: number(4)}
INET6_ROWS = {1: bits(4), 2: [four(*range(60)), four(*range(62)), four(7)], 3: [b"", bytes(range(24))], 5: [four(1, 2, 3, 4)], 6: [bytes(56), bytes(64)],
              7: V6, 8: BYTES[:5], 9: number(4)}
STATS = [bytes(96), four(*range(1, 24)), four(*range(30))]
LINK_ROWS = {1: MACS, 2: MACS, 54: MACS, 5: INDEXES, 10: INDEXES, 6: NAMES, 20: NAMES, 38: NAMES, 53: LINK_NAMES, 56: NAMES, 57: NAMES,
             **{kind: number(4) for kind in (4, 13, 19, 21, 27, 28, 30, 31, 32, 35, 37, 40, 41, 44, 45, 46, 47, 48, 49, 50, 51, 58, 59, 60,
                                              61, 63, 64)},
             7: STATS, 23: [bytes(192), bytes(range(200)), bytes(8)], 14: [bytes(28) + bytes(4), bytes(range(32))], 16: BYTES[:8] + BYTES[255:],
             17: BYTES[:3], 33: BYTES[:2], 39: BYTES[:3], 34: [b"\1\2", bytes(8)], 36: [b"\1\2", bytes(8)], 29: bits(4),
             52: [listed((53, b"second\0"), (53, b"a longer name than sixteen\0"))], 55: [listed((1, four(8)), (2, four(9)))],
             66: number(8), 67: BYTES[:2], 68: number(2), 69: number(2),
             26: [listed((2, listed((1, four(*range(33))))), (10, listed((8, BYTES[0])))), listed((2, listed((1, four(*range(35))))))]}


# what is in a list that is marked as one
NESTED = 0x8000
# numbers that `ip` reads of next hops: members with weights, of which it reads one byte, and timers of groups
GROUPS_OF = [b"".join(four(of) + two(weight, 0) for of, weight in it)
             for it in ([(1, 0)], [(1, 2), (14, 255)], [(2 ** 32 - 1, 1), (2, 0), (3, 9)], [(1, 256), (2, 299), (3, 65535)])]
RESILIENT = {1: two(4), 2: four(6000), 3: four(30000), 4: number(8)[0]}
RESILIENT_ROWS = {1: number(2), 2: TIMES, 3: TIMES, 4: TIMERS}
BUCKET_ROWS = {1: number(2), 2: TIMERS, 3: number(4)}
GROUP_STATS = [listed((1, four(1)), (2, number(4)[3])), listed((1, four(2)), (2, number(8)[4]), (3, number(8)[3]))]
NEXT_HOP_ROWS = {2: GROUPS_OF, 3: [two(it) for it in (0, 1, 2, 65535)], 4: [b""], 5: INDEXES, 9: [b""], 10: INDEXES, 11: [b""], 14: bits(4),
                 15 + NESTED: [b"", listed((1 + NESTED, GROUP_STATS[0])), listed(*((1 + NESTED, it) for it in GROUP_STATS))],
                 16: number(4), 17: number(4)}
# one encapsulation of each type that routes have not in DIFFERENCES
NEXT_HOP_ENCAPS = [(1, {1: LABELS[3]}), (2, {1: number(8)[3], 2: V4[1], 3: V4[2], 4: BYTES[9], 5: BYTES[64]}), (4, {1: number(8)[3], 2: V6[1]}),
                   (5, {1: four(1) + srh(SEGMENTS[1])}), (7, {1: four(3)})]
NSID_ROWS = {1: number(4), 2: number(4), 3: number(4), 4: number(4), 5: number(4)}
NETCONF_ROWS = {kind: number(4) for kind in range(2, 10)}
# -1 and -2 stand for all interfaces, and for those that come
SETTING_INDEXES = [*INDEXES, *(four(2 ** 32 - it) for it in (1, 2, 3))]
LABEL_ROWS = {1: V6, 2: number(4)}
PREFIX_ROWS = {1: V6, 2: [four(*it) for it in ((0, 0), (1800, 3600), (2 ** 32 - 1, 2 ** 32 - 1), (2 ** 31, 1))]}
TABLE_NAMES = [b"arp_cache\0", b"ndisc_cache\0", b"q"]
TABLE_ROWS = {2: number(4), 3: number(4), 4: number(4), 8: number(8),
              5: [bytes(32), two(4, 312) + four(*range(1, 8)), b"\xff" * 32, two(16, 0) + four(*(2 ** it for it in range(25, 32)))],
              7: [bytes(88), struct.pack("<11Q", *range(11)), b"\xff" * 88]}
PARAMETER_ROWS = {1: INDEXES, **{kind: number(4) for kind in (2, 8, 9, 10, 11, 14, 16, 17)},
                  **{kind: number(8) for kind in (3, 4, 5, 6, 7, 12, 13, 15, 19)}}


# what a bridge says of a port or of itself
BRIDGE_SAYS = {0: [two(it) for it in range(4)], 1: [two(it) for it in range(3)], 2: [two(1 << it, it) for it in range(16)],
               3: [listed((1, four(1000 + it)), (2, two(10 + it)), (3, two(8 << it))) for it in (0, 1)],
               6 | NESTED: [listed(*((1, listed((1, two(tree)), (2, bytes([state])))) for tree, state in it))
                            for it in ([(0, 3)], [(10, 0), (11, 1), (12, 2), (13, 4), (14, 5)])]}


def rows(table):
    """Each value of each row, and the second value of all rows together."""
    yield from ([(kind, value)] for kind, values in table.items() for value in values)
    yield [(kind, values[1]) for kind, values in table.items() if len(values) > 1]


def addresses():
    for family, ips in ((INET, V4), (INET6, V6)):
        header, local = bytes([family, 24, 0x80, 0]) + four(INDEX), (2, ips[1])
        yield from ((it, [local]) for at, values in ((1, number(1)), (2, bits(1)), (3, BYTES), (4, INDEXES)) for it in put(header, at, values))
        yield from ((header, more) for it in ips for more in ([(1, it)], [(2, it)], [local, (1, it)]))
        yield from ((header, [(1, ips[1]), local, *it]) for it in rows({**ADDRESS_ROWS, **OF_FAMILY[family]}))


def rules():
    for family, ips, lengths in ((INET, V4, (0, 1, 24, 32)), (INET6, V6, (0, 1, 64, 128))):
        header = bytes([family, 0, 0, 0, 254, 0, 0, 1]) + bytes(4)
        for at, values in ((3, BYTES[::4]), (4, BYTES[:2] + BYTES[252:]), (7, BYTES[:16]), (8, bits(4))):
            yield from ((it, []) for it in put(header, at, values))
        yield from ((it, [(3, NAMES[1]), (17, NAMES[1])]) for it in put(header, 8, map(four, (0, 8, 0x10, 0x18))))
        yield from ((it, more) for it in put(header, 1, map(bytes, itertools.product(lengths, repeat=2)))
                    for more in ([], [(1, ips[1]), (2, ips[1])]))
        yield from ((header[:1] + bytes([24, 32]) + header[3:], [(kind, it)]) for kind in (1, 2) for it in ips)
        yield from ((header, it) for it in rows(RULE_ROWS))
        yield from ((header[:7] + BYTES[2] + four(flags), [(4, it)]) for flags in (0, 4) for it in number(4))
        yield from ((header, [(10, mark), (16, mask)]) for mark in number(4) for mask in number(4))


def neighbours():
    for family, ips in ((INET, V4), (INET6, V6), (BRIDGE, [])):
        header, to = bytes([family, 0, 0, 0]) + four(INDEX) + two(2) + bytes([0, 1]), [(1, it) for it in ips[1:2]]
        for at, values in ((4, INDEXES), (8, bits(2)), (10, bits(1)), (11, BYTES[:13])):
            yield from ((it, to) for it in put(header, at, values))
        yield from ((it, [*to, (15, four(1))]) for it in put(header, 10, bits(1)))
        yield from ((header, it) for it in [*([(1, it)] for it in ips), *(to + it for it in rows(NEIGHBOUR_ROWS))])


def next_hops(ips):
    yield from (hop(flags=it) for it in (0, 3, 1, 2, 4, 8, 16, 32, 64, 128, 255))
    yield from (hop(hops=it) for it in (1, 2, 127, 128, 255))
    yield hop(index=0) + hop(hops=2, index=2 ** 31 - 1)
    yield from (hop((5, it)) + hop((5, it), hops=1) for it in ips)
    yield from (hop((kind, it)) for kind, values in ((11, REALMS), (18, VIAS), (19, ips), (26, BYTES[:2])) for it in values)
    yield hop((21, two(1)), (22, listed((1, LABELS[1]))), (5, ips[1]))


def route_lists(ips):
    """Attributes of a route, behind its destination."""
    yield from rows({**ROUTE_ROWS, **{kind: ips for kind in (2, 5, 7)}})
    yield from ([(8, listed(*[(1, four(0x3FFFC))] * (len(it) > 1), *it))] for it in rows(METRIC_ROWS))
    yield from ([(8, listed((1, four(it)), (kind, values[1])))] for kind, values in METRIC_ROWS.items() for it in (0, 1 << kind))
    # `ip` ends at a name that is locked and not there
    yield from ([(8, listed((1, four(1 << kind))))] for kind in METRIC_ROWS if kind != 16)
    yield from ([(21, two(kind))] for kind in (*range(12), 65535))
    yield from ([(21, two(kind)), (22, listed(*{**BESIDE.get(kind, {}), **dict(it)}.items()))]
                for kind, table in ENCAP_ROWS.items() for it in rows(table))


def routes():
    for family, ips, lengths in ((INET, V4, (0, 1, 24, 32)), (INET6, V6, (0, 1, 64, 128)), (MPLS, LABELS[:3], (0, 20))):
        header, to = bytes([family, lengths[-1], 0, 0, 254, 3, 0, 1]) + bytes(4), (1, ips[1])
        some = BYTES if family == INET else number(1)
        flags = [it for it in bits(4) if not it[1] & 2]  # `ip` leaves out clones
        for at, values in ((3, BYTES[::8]), (4, BYTES[:2] + BYTES[252:]), (5, some), (6, some), (7, BYTES[:14]), (8, flags)):
            yield from ((it, [to]) for it in put(header, at, values))
        yield from ((it, more) for it in put(header, 1, map(bytes, itertools.product(lengths, repeat=2)))
                    for more in ([], [to, (2, ips[1])]))
        yield from ((header, [(1, it)]) for it in ips)
        yield from ((header, [to, (9, it)]) for it in next_hops(ips))
        yield from ((header, [to, (19, it)]) for it in (LABELS if family == MPLS else ips))
        yield from ((header, [to, *it]) for it in (rows({4: INDEXES, 18: VIAS, 26: BYTES[:2]}) if family == MPLS else route_lists(ips)))
        yield from ((it, [to, (23, value)]) for it in put(header, 7, BYTES[5:6]) for value in number(8))


def link_header(flags=0, index=LINK, of_type=1, change=0, family=0):
    return bytes([family, 0]) + two(of_type) + four(index, flags, change)


def link_lists():
    """Attributes of a link, behind its name."""
    yield from rows(LINK_ROWS)
    yield from ([(37, four(1)), (5, it)] for it in INDEXES)
    yield from ([(1, MACS[0]), (54, it)] for it in MACS[:2])
    yield from ([(18, listed((kind, name.encode() + b"\0"), (kind + 1, listed(*{**beside, **dict(it)}.items()))))]
                for kind, name, table, beside in INFO_ROWS for it in rows(table))
    # `ip` shows the bridge in the place of its root, and of a VLAN nothing without its number
    yield from ([(18, listed((1, b"bridge\0"), (2, listed((10, it), (11, it)))))] for it in IDS)
    yield from ([(18, listed((1, b"vlan\0"), (2, listed(*{5: b"\x81\0", 1: two(7), **dict(it)}.items()))))] for it in rows(VLAN_ROWS))
    yield from ([(18, listed((1, name), (2, listed((1, head + listed(*it))))))]
                for name, head in ((b"veth\0", bytes(16)), (b"veth\0", link_header(1, 9, 772, 1, 7)), (b"netkit\0", bytes(16))) for it in rows(PEER_ROWS))
    yield from ([(18, listed((1, it), (4, it), *more))] for it in KIND_NAMES for more in ([], [(2, b"\1\2"), (3, b"\3"), (5, b"\4")]))
    yield from ([(43, listed(*{2: BYTES[1], **dict(it)}.items()))] for it in rows(XDP_ROWS))
    yield from ([(26, listed((10, listed(*it))))] for it in rows(INET6_ROWS))


def links():
    header, name = link_header(), (3, LINK_NAMES[0])
    yield from ((it, [name, (2, MACS[0])]) for it in put(header, 8, bits(4)))
    yield from ((link_header(it), [name]) for it in (0x41, 0x40, 0x1, 0x10043))
    yield from ((link_header(of_type=it), [name]) for it in (*range(40), *range(250, 300), *range(500, 530), *range(760, 830), 65534, 65535))
    yield from ((link_header(of_type=it), [name, (1, address), (2, address)]) for it in (768, 769, 776, 778, 823) for address in (*V4, *V6, MACS[0]))
    yield from ((link_header(change=it, family=of), [name]) for it in (0, 1, 2 ** 32 - 1) for of in (0, BRIDGE, INET6))
    yield from ((header, [(3, it)]) for it in LINK_NAMES)
    yield from ((header, [name, *it]) for it in link_lists())
    for family, kind, table in ((BRIDGE, 26, BRIDGE_SAYS), (BRIDGE, 12 | NESTED, PORT_ROWS), (INET6, 12, INET6_ROWS)):
        yield from ((link_header(family=family), [name, (kind, listed(*it))]) for it in rows(table))
    for index, flags in ((DOWN, 0), (UP, 1)):
        yield link_header(flags, index), [(3, b"below\0")]
        yield link_header(2), [name, (5, four(index)), (10, four(index))]


def next_hop_objects():
    of = (1, four(1))
    for family, ips in ((INET, V4), (INET6, V6), (0, [])):
        header = bytes([family, 253, 0, 0]) + four(0)
        flags = [it for it in bits(4) if not it[1] & 2]
        for at, values in ((1, BYTES[:2] + BYTES[199:]), (2, BYTES[:20] + BYTES[180:]), (4, flags)):
            yield from ((it, [of]) for it in put(header, at, values))
        yield from ((header, [of, (6, it)]) for it in ips)
        yield from ((header, [of, *it]) for it in rows(NEXT_HOP_ROWS))
        yield from ((header, [of, (3, two(1)), (12 + NESTED, listed(*{**RESILIENT, **dict(it)}.items()))]) for it in rows(RESILIENT_ROWS))
        yield from ((header, [of, (8 + NESTED, listed(*members.items())), (7, two(kind)), (5, INDEXES[1])]) for kind, members in NEXT_HOP_ENCAPS)
        yield from ((header, [(1, it)]) for it in number(4))


def buckets():
    header, of = bytes(8), (1, four(6))
    yield header, [of]
    yield from ((it, [of]) for it in put(header, 4, [it for it in bits(4) if not it[1] & 2]))
    yield from ((header, [of, (13 + NESTED, listed(*it))]) for it in rows(BUCKET_ROWS))


def nsids():
    yield from ((bytes(4), [*([(1, four(12))] if it[0][0] != 1 else []), *it]) for it in rows(NSID_ROWS))
    yield bytes([INET, 0, 0, 0]), [(1, four(12))]


def netconfs():
    for family in (INET, INET6, MPLS, BRIDGE):
        header = bytes([family, 0, 0, 0])
        yield from ((header, [(1, it)]) for it in SETTING_INDEXES)
        yield from ((header, [(1, INDEXES[1]), *it]) for it in rows(NETCONF_ROWS))


def address_labels():
    header, prefix = bytes([INET6, 0, 32, 0]) + four(0, 0), (1, V6[1])
    for at, values in ((2, number(1)), (3, bits(1)), (4, INDEXES), (8, number(4))):
        yield from ((it, [prefix, (2, four(98))]) for it in put(header, at, values))
    yield from ((header, [*([prefix] if it[0][0] != 1 else []), *it]) for it in rows(LABEL_ROWS))


def prefixes():
    header, prefix = bytes([INET6, 0, 0, 0]) + four(INDEX) + bytes([3, 64, 0, 0]), (1, V6[1])
    for at, values in ((4, INDEXES), (9, number(1)), (10, [*bits(1), BYTES[0xC0], BYTES[0x81]])):
        yield from ((it, [prefix]) for it in put(header, at, values))
    yield from ((header, [*([prefix] if it[0][0] != 1 else []), *it]) for it in rows(PREFIX_ROWS))


def neighbour_tables():
    name = (1, TABLE_NAMES[0])
    for family in (INET, INET6, MPLS):
        header = bytes([family, 0, 0, 0])
        yield from ((header, [(1, it)]) for it in TABLE_NAMES)
        yield from ((header, [name, *it]) for it in rows(TABLE_ROWS))
        yield from ((header, [name, (6, listed(*it))]) for it in rows(PARAMETER_ROWS))


def message(kind, header, attributes, is_gone=0):
    body = header + listed(*attributes)
    return kind, four(16 + len(body)) + two(TYPES[kind] + is_gone, 0) + four(0, 0) + body


def messages():
    """Each message with its kind; of each kind one more says that something is gone. The first is a link, whose name the next has."""
    yield message("link", link_header(index=NAMED), [(3, b"named\0")])
    yield message("address", bytes([INET, 24, 0x80, 0]) + four(NAMED), [(2, V4[1])])
    for kind, made in (("address", addresses()), ("rule", rules()), ("neighbour", neighbours()), ("route", routes()), ("link", links()),
                       ("nexthop", next_hop_objects()), ("bucket", buckets()), ("nsid", nsids()), ("netconf", netconfs()),
                       ("address-label", address_labels()), ("prefix", prefixes()), ("neighbour-table", neighbour_tables())):
        for at, it in enumerate(made):
            yield message(kind, *it)
            if at == 0 and kind not in STAYING:
                yield message(kind, *it, is_gone=1)
