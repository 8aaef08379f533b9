"""What nlshow is run with by `checks/run`, and how it answers."""

import struct

ROUTE = "02000000fe03000100000000"
LINK = "00000100040000004310010000000000"

# the end of a dump, and what nlshow is tried with
DONE = bytes.fromhex("1400000003000200000000000000000000000000")
SHOW_USAGE = b"usage: nlshow [--json | --count] [--numeric] [--hex] [--as KIND] [--links FILE] [--keep FILE] [KIND..] [--] [FILE..]\n"
# a link, and a route by it
LINK_MESSAGE = bytes.fromhex("28000000100000000000000000000000" "00000100020000000000000000000000" "0700030064300000")
ROUTE_BY_LINK = bytes.fromhex("24000000180000000000000000000000" "02000000fe03000100000000" "0800040002000000")
COUNTS = (b"bytes 40\naddresses 0\nroutes 0\nrules 0\nneighbours 0\nlinks 0\nnexthops 0\nnsids 0\nnetconfs 0\naddress-labels 0\nneighbour-tables 0\n"
          b"prefixes 0\ntc 0\ntc-actions 0\nstats 0\nothers 0\ncontrols 2\nrefused 0\n")
# a bucket of a group of next hops, and a request for tables of neighbours
BUCKET = bytes.fromhex("40000000740000000000000000000000" "0000000000000000" "0800010006000000"
                       "20000d80" "0600010000000000" "080003000e000000" "0c000200d101000000000000")
TABLES = bytes.fromhex("14000000420001030000000000000000" "02000000")
COUNTS_OF_SMALL = COUNTS.replace(b"bytes 40", b"bytes 84").replace(b"nexthops 0", b"nexthops 1").replace(b"tables 0", b"tables 1").replace(b"controls 2", b"controls 0")
# rules of two families, of which `ip monitor` says the same
RULES = [bytes.fromhex(f"24000000200000000000000000000000" f"{family:02x}000000080000010000000008000600" "09000000") for family in (2, 10)]
LABELS = f"0x{ROUTE} 10001600 0c000100 00064600:000c81ff 0600150001000000 # two labels\n\n".encode()
LONG_MESSAGE = bytes.fromhex("04000400") + bytes(1 << 18) + DONE
LONG_LINE = b"0" * (1 << 18) + b"\n"
BAD_HEX = b"BadHex: no pairs of hexadecimal digits\n"
# what an input looks like that is refused
OF_TEXT = b"-: this looks like hexadecimal text, which `--hex` reads\n"
NO_DATAGRAM = b"-: this looks like no datagram; `--as` reads a message without an envelope\n"
DATAGRAM = b"-: this looks like a datagram, which is read without `--as`\n"
OF_LINES = b"-: this looks like a message over several lines, of which `tr -d '\\n'` makes one\n"


def captures():
    """Captures of a datagram that nlmon saw, behind one of another family, in each form and order of bytes."""
    of_others, of_routes = (struct.pack(">HHH8xH", 4, 824, 0, family) for family in (16, 0))
    for order, name in ("<", "little"), (">", "big"):
        packet = lambda data: struct.pack(f"{order}IIII", 0, 0, len(data), len(data)) + data
        head = struct.pack(f"{order}IHHiIII", 0xA1B2C3D4, 2, 4, 0, 0, 1 << 18, 253)
        yield f"pcap, {name} endian", head + packet(of_routes + DONE)
        yield f"pcap, {name} endian, with others", head + packet(of_others + DONE) + packet(of_routes + DONE)
        head = struct.pack(f"{order}IIIHHqI", 0x0A0D0D0A, 28, 0x1A2B3C4D, 1, 0, -1, 28) + struct.pack(f"{order}IIHHII", 1, 20, 253, 0, 0, 20)
        data = of_routes + DONE
        yield f"pcapng, {name} endian", head + struct.pack(f"{order}7I", 6, 68, 0, 0, 0, 36, 36) + data + struct.pack(f"{order}I", 68)
        yield f"pcapng, {name} endian, without times", head + struct.pack(f"{order}3I", 3, 52, 36) + data + struct.pack(f"{order}I", 52)


CAPTURES = list(captures())
SHOWN = [
    ("a wrong option", ["--jsn", "--hex"], b"", 2, b"", b"nlshow: `--jsn` is no option\n" + SHOW_USAGE),
    ("an option without its word", ["--json", "--keep"], b"", 2, b"", b"nlshow: `--keep` wants a word behind it\n" + SHOW_USAGE),
    ("an option joined to a word that is none", ["--as=links"], b"", 2, b"", b"nlshow: `links` is no kind of message\n" + SHOW_USAGE),
    ("an option joined to its word", ["--hex", "--as=route"], LABELS, 0, b"default encap mpls 100[tc 3]/200[ttl 255] proto boot\n", b""),
    ("a file with the name of an option", ["--", "--json"], b"", 5, b"", b"--json: no such file or directory\n"),
    ("messages of a kind", ["link", "-"], ROUTE_BY_LINK + LINK_MESSAGE + DONE, 0, b"2: d0: <>\n    link/ether\n", b""),
    ("messages of two kinds, counted", ["route", "link", "--count"], ROUTE_BY_LINK + LINK_MESSAGE + DONE, 0,
     COUNTS.replace(b"bytes 40", b"bytes 96").replace(b"routes 0", b"routes 1").replace(b"links 0", b"links 1").replace(b"controls 2", b"controls 0"), b""),
    ("a file with the name of a kind", ["--", "route"], b"", 5, b"", b"route: no such file or directory\n"),
    ("the file behind one that is not there", ["/no/file", "-"], DONE, 5, b"done\n", b"/no/file: no such file or directory\n"),
    *((f"what ip {kind} save wrote", [], magic.to_bytes(4, "little") + DONE, 0, b"done\n", b"")
      for kind, magic in (("route", 0x45311224), ("address", 0x47361222), ("rule", 0x71706986))),
    *((f"a capture, {title}", [], capture, 0, b"done\n", b"") for title, capture in CAPTURES),
    ("a capture that is cut", [], CAPTURES[0][1][:-1], 1, b"", b"-: packet 1 at byte 24, 51 bytes: BadBlock: no block of a capture of nlmon\n"),
    ("objects and a count", ["--json", "--count"], b"", 2, b"", b"nlshow: `--json` and `--count` do not go together\n" + SHOW_USAGE),
    ("a kind of no message", ["--as", "links"], b"", 2, b"", b"nlshow: `links` is no kind of message\n" + SHOW_USAGE),
    ("a word that is no text", [b"\xff"], b"", 4, b"", b"nlshow: out of memory\n"),
    ("a file that is not there", ["/no/file"], b"", 5, b"", b"/no/file: no such file or directory\n"),
    ("a file that need not be made", ["--keep", "/no/file"], DONE, 0, b"done\n", b""),
    ("a file that cannot be made", ["--keep", "/no/file", "--hex"], b"0\n", 5, b"", b"-: line 1 at byte 0, 1 bytes: " + BAD_HEX + b"/no/file: cannot be opened\n"),
    ("no input", [], b"", 0, b"", b""),
    ("datagrams", ["-", "--numeric"], 3 * DONE, 0, b"done\ndone\ndone\n", b""),
    ("datagrams as JSON", ["--json"], DONE, 0, b'{"code":0,"message":"done"}\n', b""),
    ("a count", ["--count"], 2 * DONE, 0, COUNTS, b""),
    ("a name of an interface that its link tells", [], LINK_MESSAGE + ROUTE_BY_LINK, 0, b"2: d0: <>\n    link/ether\ndefault dev d0 proto boot\n", b""),
    ("names that a file tells", ["--links", "-", "/dev/null"], LINK_MESSAGE, 0, b"", b""),
    ("a file of names that is not there", ["--links", "/no/file"], DONE, 5, b"", b"/no/file: no such file or directory\n"),
    ("a file of names that is no dump", ["--links", "-", "/dev/null"], DONE[:7], 1, b"",
     b"-: message 1 at byte 0, 7 bytes: MessageTooShort: 7 bytes, where a message begins with 16\n"),
    ("a count, which has no names", ["--count", "--links", "-", "/dev/null"], LINK_MESSAGE, 0, COUNTS.replace(b"bytes 40", b"bytes 0").replace(b"controls 2", b"controls 0"), b""),
    ("a text with blanks and a comment", ["--hex", "--as", "route"], LABELS, 0, b"default encap mpls 100[tc 3]/200[ttl 255] proto boot\n", b""),
    ("rules of two families", [], RULES[0] + RULES[1] + RULES[0], 0, b"9: from all lookup 8\n9: from all lookup 8 family inet6\n9: from all lookup 8 family inet\n", b""),
    ("a bucket of next hops", [], BUCKET, 0, b"id 6 index 0 idle_time 4.65 nhid 14\n", b""),
    ("a request for tables of neighbours", ["--json"], TABLES, 0, b'{"family":"inet","message":"neighbour-table","request":true}\n', b""),
    ("messages of each small kind, counted", ["--count"], BUCKET + TABLES, 0, COUNTS_OF_SMALL, b""),
    *((f"a message of kind {kind} alone", ["--hex", "--as", kind], f"{text}\n".encode(), 0, f"{line}\n".encode(), b"") for kind, text, line in (
        ("nexthop", "0200000000000000080001001600000004000400", "id 22 scope global blackhole proto unspec"),
        ("nsid", "00000000080001000c000000", "nsid 12"),
        ("netconf", "02000000080001000f0000000800020001000000", "inet 15 forwarding on"),
        ("address-label", "0a0020000000000000000000" "1400010020010db9000000000000000000000000" "0800020062000000", "prefix 2001:db9::/32 label 98"),
        ("neighbour-table", "020000000e0001006172705f63616368650000000800020080000000", "inet arp_cache\n    thresh1 128"),
        ("prefix", "0a0000005b0000000340c000" "1400010020010db8007700000000000000000000", "prefix 2001:db8:77::/64 dev 91 onlink autoconf"),
        ("tc", "00000000020000000000fffff1ffffff00000000" "0b000100636c736163740000", "clsact ffff: dev 2 parent ffff:fff1"),
        ("tc-action", "00000000" "0800030002000000", "total acts 2"),
        ("stats", "000000000100000008000000" "1c000400" "18000280" "14000380" "0500010001000000" "0500020000000000",
         "dev 1\n    l3_stats request on used off"))),
    ("a message that is too long", ["--keep", "/dev/full"], LONG_MESSAGE, 5, b"", b"/dev/full: write failed\n"),
    ("the message behind it", [], LONG_MESSAGE, 1, b"done\n",
     b"-: message 1 at byte 0, 262148 bytes: TooLong: 262148 bytes, where 262144 have room\n" + NO_DATAGRAM),
    ("a message alone that is too long", ["--as", "route"], LONG_LINE, 1, b"",
     b"-: message 1 at byte 0, 262145 bytes: TooLong: 262145 bytes, where 262143 have room\n" + OF_TEXT),
    ("a line that is too long", ["--hex"], LONG_LINE, 1, b"",
     b"-: line 1 at byte 0, 262145 bytes: TooLong: 262145 bytes, where 262143 have room\n"),
]


def counted(count):
    return count.to_bytes(2, "little").hex()


def encapsulation(kind, members):
    """The attributes of an encapsulation of this type."""
    return f"06001500{counted(kind)}0000{counted(4 + len(members) // 2)}1600{members}"


# refusals of nlshow: the kind, the message in hexadecimal, and the words for it
REFUSED = [
    ("route", "02", "HeaderTooShort: 1 bytes, where a header of 12 is wanted, at byte 0"),
    ("route", ROUTE + "0400", "AttributeTooShort: 2 bytes, where an attribute begins with 4, at byte 12"),
    ("route", ROUTE + "03000100", "AttributeLength: an attribute of length 3 with 4 bytes left, at byte 12"),
    ("route", ROUTE + "0800090001000000", "NextHopTooShort: 4 bytes, where a next hop begins with 8, in RTA_MULTIPATH (9) at byte 12"),
    ("route", ROUTE + "0c0009000700000001000000", "NextHopLength: a next hop of length 7 with 8 bytes left, in RTA_MULTIPATH (9) at byte 12"),
    ("route", ROUTE + "06000f0001020000", "ValueLength: a value of 2 bytes at RTA_TABLE (15), where 4 are wanted, at byte 12"),
    ("address", "020880fe01000000060003006cff0000", "NotUtf8: no UTF-8 at IFA_LABEL (3), at byte 8"),
    ("rule", "02000000fe000001000000000500060001000000", "ValueLength: a value of 1 bytes at FRA_PRIORITY (6), where 4 are wanted, at byte 12"),
    ("link", "11000000", "HeaderTooShort: 4 bytes, where a header of 16 is wanted, at byte 0"),
    ("link", LINK + "06000400dc050000", "ValueLength: a value of 2 bytes at IFLA_MTU (4), where 4 are wanted, at byte 16"),
    ("link", LINK + "1c00120009000100766c616e000000000c0002000800010064000000", "ValueLength: a value of 4 bytes at IFLA_VLAN_ID (1), where 2 are wanted, in IFLA_LINKINFO (18) at byte 16"),
    ("nexthop", "0200000000000000" "060006000a000000", "ValueLength: a value of 2 bytes at NHA_GATEWAY (6), where 4 are wanted, at byte 8"),
    ("netconf", "1c000000" "08000100ffffffff" "0500070001000000", "ValueLength: a value of 1 bytes at NETCONFA_INPUT (7), where 4 are wanted, at byte 12"),
    ("prefix", "0a0000005b0000000340c000" "0b00020008070000100e0000", "HeaderTooShort: 7 bytes, where a header of 8 is wanted, in PREFIX_CACHEINFO (2) at byte 12"),
    ("neighbour-table", "00000000" "10000600" "0800010004000000" "0c000500", "AttributeLength: an attribute of length 12 with 4 bytes left, in NDTA_PARMS (6) at byte 4"),
    ("neighbour-table", "00000000" "06000100ff000000", "NotUtf8: no UTF-8 at NDTA_NAME (1), at byte 4"),
    ("stats", "000000000100000008000000" "1c000400" "1800020014000300" "0500010000000000" "0600020000000000",
     "ValueLength: a value of 2 bytes at IFLA_OFFLOAD_XSTATS_HW_S_INFO_USED (2), where 1 are wanted, in IFLA_STATS_LINK_OFFLOAD_XSTATS (4) at byte 12"),
    ("nsid", "00", "HeaderTooShort: 1 bytes, where a header of 4 is wanted, at byte 0"),
    ("route", ROUTE + "0a00120002010a0000010000", "ViaFamily: a gateway of address family 258, in RTA_VIA (18) at byte 12"),
    ("route", ROUTE + encapsulation(5, "0800010000000000"), "Seg6Header: a SEG6 routing header without its fixed part, in RTA_ENCAP (22) at byte 20"),
    ("route", ROUTE + encapsulation(5, "10000100000000000002040000000000"), "Seg6Header: a SEG6 routing header of another length than it states, in RTA_ENCAP (22) at byte 20"),
    ("route", ROUTE + encapsulation(5, "18000100000000000001040000080000" + "00" * 8), "Seg6Header: a SEG6 routing header without room for its HMAC, in RTA_ENCAP (22) at byte 20"),
    ("route", ROUTE + encapsulation(5, "18000100000000000001040000000000" + "00" * 8), "Seg6Header: a SEG6 routing header of segments that are not whole, in RTA_ENCAP (22) at byte 20"),
    ("route", ROUTE + encapsulation(2, "100008800c0001800500020001000000"), "GeneveOrder: LWTUNNEL_IP_OPT_GENEVE_TYPE (2) before a class, in RTA_ENCAP (22) at byte 20"),
    ("route", ROUTE + encapsulation(2, "100008800c0001800500090001000000"), "GeneveChild: Geneve option attribute 9 is unknown, in RTA_ENCAP (22) at byte 20"),
]

# bytes in which no message stands, how many those of the refused message are, the words for it and what they look like
BROKEN = [
    (DONE[:7], 7, "MessageTooShort: 7 bytes, where a message begins with 16", b""),
    (DONE[:17], 17, "MessageLength: a message of length 20 with 17 bytes left", b""),
    (b"\x0f" + DONE[1:], 20, "MessageLength: a message of length 15 with 20 bytes left", NO_DATAGRAM),
    (DONE[:3] + b"\xff" + DONE[4:], 4278190100, "MessageLength: a message of length 4278190100 with 20 bytes left", NO_DATAGRAM),
]
BAD_LINES = [b"0 2", b"0g", b"020"]
# inputs of another form than that which is read
LOOKS = [
    (["--as", "route"], DONE, "message 1 at byte 0, 20 bytes: AttributeLength: an attribute of length 0 with 8 bytes left, at byte 12", DATAGRAM),
    ([], DONE.hex().encode(), "message 1 at byte 0, 808465457 bytes: MessageLength: a message of length 808465457 with 40 bytes left", OF_TEXT),
    ([], b"no datagram at all", "message 1 at byte 0, 1679847278 bytes: MessageLength: a message of length 1679847278 with 18 bytes left", NO_DATAGRAM),
    (["--hex"], DONE[:18].hex().encode() + b"\n", "line 1 at byte 0, 18 bytes: MessageLength: a message of length 20 with 18 bytes left", OF_LINES),
]
# calls that would empty the file `f`
SPARED = [
    ("a file that is read and kept into", ["--keep", "f", "-", "f"]),
    ("a file that tells names and is kept into", ["--keep", "f", "--links", "f"]),
    ("the same by another path", ["--keep", "./f", "-", "f"]),
    ("the same by a link", ["--keep", "f", "./link"]),
    ("standard input that is kept into", ["--keep", "f", "-"], True),
]

# words and texts for nlshow
SHOWN_WITHOUT = [
    ("a line", [], 2 * DONE),
    ("an object", ["--json", "--hex", "--as", "route"], LABELS),
    ("a count", ["--count"], DONE),
    ("a link, and a route by its name", [], LINK_MESSAGE + ROUTE_BY_LINK),
    ("names that a file tells", ["--links", "-", "/dev/null"], LINK_MESSAGE),
]
