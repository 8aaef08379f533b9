/* Messages of Linux rtnetlink for C, of eleven kinds: links, addresses, routes, rules, neighbours and their
 * tables, next hops, name spaces, settings, address labels and prefixes. The calls give the canonical bytes
 * of given bytes, whether bytes are a message and what is wrong with them, the names of that, the values of
 * attributes, what is said of messages in the answer to a request, and steps over the messages of a datagram,
 * over attributes and over next hops; and they write requests. The header is C99, and C++.
 *
 * A message of a kind is what stands behind `struct nlmsghdr`: a header of 4 bytes (`struct rtgenmsg`,
 * `struct netconfmsg` or `struct ndtmsg`, to a multiple of 4), 8 (`struct ifaddrmsg`, `struct nhmsg`), 12
 * (`struct rtmsg`, `struct fib_rule_hdr`, `struct ndmsg`, `struct ifaddrlblmsg`, `struct prefixmsg`) or 16
 * (`struct ifinfomsg`), and attributes to the end. In a datagram of a socket it is found by
 * `npr_message_at`, and `npr_kind_of` gives the kind of its type. Two inputs that have canonical bytes mean
 * the same exactly if these are equal.
 *
 * A kind is a number that three calls take (`npr_canonical`, `npr_fault_of`, `npr_begin`). The calls
 * with a kind in their name (`npr_route_fault` and its like) are inline here, and no symbols of the library
 * any more: what was compiled with an earlier header is to be compiled again, and its text stays.
 *
 * The calls are proved for all bytes: none reads or writes outside what it is given, none keeps
 * anything of it, and none ends the process, but for one whose thread has too little stack (below).
 * What each answers is in its contract (crates/npr_c/src). What no proof looks at is this header,
 * and that the caller keeps to this:
 *
 * - A pointer is not null, and as many bytes may be read or written there as the length says. That
 *   goes for a length of 0 as well, at which any byte's address will do; an empty `std::vector` may
 *   have none.
 * - The bytes that are read and the buffer that is written do not overlap, and no other thread
 *   writes the former, or uses the latter, while a call runs.
 * - `malloc`, `realloc` and `free` are of one allocator, and align as the C standard asks. Only
 *   `npr_canonical` uses them, which is not called from a signal handler, nor in the forked child of a
 *   process with threads. All other calls may be, and take no memory.
 * - Next hops may hold next hops, 5,461 deep in one attribute. Of stack `npr_canonical` uses some 145
 *   bytes for each level, and `npr_fault_of` some 80. A thread with NPR_STACK bytes
 *   of stack is enough for every input; a signal handler may have a smaller one. Where a message is
 *   deeper than the stack, the process ends by a signal, as where any C function has no stack left.
 *
 * Calls may run in several threads at once. Lengths and places are in bytes. The library is built
 * for x86-64 under Linux. */

#ifndef NETLINK_PACKET_ROUTE_H
#define NETLINK_PACKET_ROUTE_H

#include <stddef.h>
#include <stdint.h>

/* The version of the library. While the first two numbers stay, structures, calls and numbers stay as they are, and others are added. */
#define NPR_VERSION_MAJOR 0
#define NPR_VERSION_MINOR 17
#define NPR_VERSION_PATCH 0
#define NPR_VERSION "0.17.0"

/* The stack of a thread that is enough for every call and every input, in bytes: 1 MiB. The deepest
 * message takes some 773 KiB, and where a fault is looked for some 433 (measured). */
#define NPR_STACK 1048576

#ifdef __cplusplus
extern "C" {
#endif

/* The version of the library that is linked: 65,536 for each of the first number, 256 for each of the second,
 * and the third. */
uint32_t npr_version(void);

/* The kinds of messages, by the numbers that the calls take. */
enum npr_kind {
    NPR_KIND_ADDRESS = 1,
    NPR_KIND_ROUTE = 2,
    NPR_KIND_RULE = 3,
    NPR_KIND_NEIGHBOUR = 4,
    NPR_KIND_LINK = 5,
    NPR_KIND_NEXT_HOP = 6,
    NPR_KIND_NSID = 7,
    NPR_KIND_NETCONF = 8,
    NPR_KIND_ADDRESS_LABEL = 9,
    NPR_KIND_NEIGHBOUR_TABLE = 10,
    NPR_KIND_PREFIX = 11,
    NPR_KIND_TC = 12,
    NPR_KIND_TC_ACTION = 13,
    NPR_KIND_STATS = 14
};

/* The kind of messages of this type, RTM_* of linux/rtnetlink.h, or 0 where it is none that is read. */
uint32_t npr_kind_of(uint16_t message_type);

/* How a call that writes ends. At all but NPR_WRITTEN the buffer is as it was. */
enum npr_status {
    /* The bytes stand in the buffer, and the rest of it is as it was. */
    NPR_WRITTEN = 0,
    /* The bytes are no message, or memory was refused; there is no such kind; or no attribute and no message can
     * end there. */
    NPR_REFUSED = 1,
    /* The bytes are a message that has no canonical bytes, or what is to be written has a length that can't be
     * said. */
    NPR_UNFIT = 2,
    /* What is to be written has no room in the buffer. */
    NPR_SHORT = 3
};

/* Why bytes, or a call, are refused: of bytes the first fault in reading order. */
enum npr_refusal {
    /* Memory was refused, which says nothing of the bytes: to a call for canonical bytes, and never
     * where no whole attribute follows the header. */
    NPR_OUT_OF_MEMORY = 1,
    /* Fewer bytes than a header takes: that of the message, or of a structure in a value. */
    NPR_HEADER_TOO_SHORT = 2,
    /* Fewer than 4 bytes where an attribute begins. */
    NPR_ATTRIBUTE_TOO_SHORT = 3,
    /* An attribute's length is below 4, or above the bytes that are left. */
    NPR_ATTRIBUTE_LENGTH = 4,
    /* Fewer than 8 bytes where a next hop begins. */
    NPR_NEXT_HOP_TOO_SHORT = 5,
    /* A next hop's length is below 8, or above the bytes that are left. */
    NPR_NEXT_HOP_LENGTH = 6,
    /* A value of a length that its attribute does not take. */
    NPR_VALUE_LENGTH = 7,
    /* A name that is no UTF-8. */
    NPR_NOT_UTF8 = 8,
    /* A SEG6 routing header that can't be read. */
    NPR_SEG6_HEADER = 9,
    /* A type or data of a Geneve option before any class. */
    NPR_GENEVE_ORDER = 10,
    /* A child of a Geneve option of an unknown number. */
    NPR_GENEVE_CHILD = 11,
    /* A gateway of an address family that no byte holds. */
    NPR_VIA_FAMILY = 12,
    /* A routing header in a form that is not read. */
    NPR_UNSUPPORTED = 13,
    /* Fewer than 16 bytes where a message of a datagram begins. */
    NPR_MESSAGE_TOO_SHORT = 14,
    /* The length of a message of a datagram is below 16, or above the bytes that are left. */
    NPR_MESSAGE_LENGTH = 15,
    /* The number of a kind that is that of none. */
    NPR_UNKNOWN_KIND = 16
};

/* Why a message has no canonical bytes, or a part of a request is not written: of a message the first cause in its
 * order. */
enum npr_cause {
    /* An attribute's value would take more than 65,531 bytes. */
    NPR_TOO_LONG = 1,
    /* A next hop would take more than 65,535 bytes. */
    NPR_NEXT_HOP_TOO_LONG = 2,
    /* A routing header with more segments than its length can say. */
    NPR_TOO_MANY_SEGMENTS = 3,
    /* A protocol over IP that no byte holds. */
    NPR_IP_PROTOCOL = 4,
    /* A length that no size_t holds, or one of a message that 32 bits don't. */
    NPR_TOTAL = 5
};

/* What a call that writes answers. */
struct npr_answer {
    /* One of `enum npr_status`. */
    uint32_t status;
    /* At NPR_REFUSED one of `enum npr_refusal`, at NPR_UNFIT one of `enum npr_cause`, and else 0. */
    uint32_t number;
    /* At NPR_WRITTEN and NPR_SHORT how many canonical bytes there are, or the place behind what is written into a
     * request; else 0. */
    size_t length;
};

/* Writes the canonical bytes of the message of a kind that `bytes` are to the front of `out`. At any other
 * answer than NPR_WRITTEN, `out` is as it was. A buffer with 5 bytes for each 2 of the input is
 * never too short; one of length 0 asks how many bytes are wanted. */
struct npr_answer npr_canonical(uint32_t kind, const uint8_t *bytes, size_t length, uint8_t *out, size_t room);

/* The family in which the number of an attribute is to be understood. */
enum npr_family {
    /* No attribute is told. */
    NPR_FAMILY_NONE = 0,
    /* IFA_* of linux/if_addr.h. */
    NPR_FAMILY_ADDRESS = 1,
    /* FRA_* of linux/fib_rules.h. */
    NPR_FAMILY_RULE = 2,
    /* RTA_* of linux/rtnetlink.h. */
    NPR_FAMILY_ROUTE = 3,
    /* RTAX_* of linux/rtnetlink.h. */
    NPR_FAMILY_METRIC = 4,
    /* MPLS_IPTUNNEL_* of linux/mpls_iptunnel.h. */
    NPR_FAMILY_MPLS = 5,
    /* LWTUNNEL_IP_* of linux/lwtunnel.h. */
    NPR_FAMILY_IP = 6,
    /* LWTUNNEL_IP6_* of linux/lwtunnel.h. */
    NPR_FAMILY_IP6 = 7,
    /* LWT_XFRM_* of linux/lwtunnel.h. */
    NPR_FAMILY_XFRM = 8,
    /* LWTUNNEL_IP_OPTS_* of linux/lwtunnel.h. */
    NPR_FAMILY_OPT = 9,
    /* LWTUNNEL_IP_OPT_GENEVE_* of linux/lwtunnel.h. */
    NPR_FAMILY_GENEVE = 10,
    /* LWTUNNEL_IP_OPT_VXLAN_* of linux/lwtunnel.h. */
    NPR_FAMILY_VXLAN = 11,
    /* LWTUNNEL_IP_OPT_ERSPAN_* of linux/lwtunnel.h. */
    NPR_FAMILY_ERSPAN = 12,
    /* SEG6_IPTUNNEL_* of linux/seg6_iptunnel.h. */
    NPR_FAMILY_SEG6 = 13,
    /* SEG6_LOCAL_* of linux/seg6_local.h. */
    NPR_FAMILY_SEG6_LOCAL = 14,
    /* RPL_IPTUNNEL_* of linux/rpl_iptunnel.h. */
    NPR_FAMILY_RPL = 15,
    /* IOAM6_IPTUNNEL_* of linux/ioam6_iptunnel.h. */
    NPR_FAMILY_IOAM6 = 16,
    /* NDA_* of linux/neighbour.h. */
    NPR_FAMILY_NEIGHBOUR = 17,
    /* IFLA_* of linux/if_link.h. */
    NPR_FAMILY_LINK = 18,
    /* IFLA_INFO_* of linux/if_link.h. */
    NPR_FAMILY_LINK_INFO = 19,
    /* IFLA_XDP_* of linux/if_link.h. */
    NPR_FAMILY_LINK_XDP = 20,
    /* IFLA_ALT_IFNAME of linux/if_link.h, the one property. */
    NPR_FAMILY_PROP = 21,
    /* IFLA_PROTO_DOWN_REASON_* of linux/if_link.h. */
    NPR_FAMILY_LINK_PROTOCOL_DOWN_REASON = 22,
    /* Address families in IFLA_AF_SPEC: AF_* of linux/socket.h. */
    NPR_FAMILY_AF_SPEC_UNSPEC = 23,
    /* IFLA_INET_* of linux/if_link.h. */
    NPR_FAMILY_AF_SPEC_INET = 24,
    /* IFLA_INET6_* of linux/if_link.h. */
    NPR_FAMILY_AF_SPEC_INET6 = 25,
    /* IFLA_BR_* of linux/if_link.h. */
    NPR_FAMILY_INFO_BRIDGE = 26,
    /* BRIDGE_QUERIER_* of linux/if_bridge.h. */
    NPR_FAMILY_BRIDGE_QUERIER_STATE = 27,
    /* IFLA_BRPORT_* of linux/if_link.h. */
    NPR_FAMILY_INFO_BRIDGE_PORT = 28,
    /* IFLA_VLAN_* of linux/if_link.h. */
    NPR_FAMILY_INFO_VLAN = 29,
    /* IFLA_VLAN_QOS_* of linux/if_link.h. */
    NPR_FAMILY_VLAN_QOS_MAPPING = 30,
    /* IFLA_VRF_* of linux/if_link.h. */
    NPR_FAMILY_INFO_VRF = 31,
    /* VETH_INFO_* of linux/veth.h. */
    NPR_FAMILY_INFO_VETH = 32,
    /* IFLA_* of linux/if_link.h, in the peer of a link. */
    NPR_FAMILY_PEER = 33,
    /* IFLA_BRIDGE_* of linux/if_bridge.h. */
    NPR_FAMILY_AF_SPEC_BRIDGE = 34,
    /* IFLA_BRIDGE_VLAN_TUNNEL_* of linux/if_bridge.h. */
    NPR_FAMILY_BRIDGE_VLAN_TUNNEL_INFO = 35,
    /* IFLA_BRIDGE_MST_ENTRY of linux/if_bridge.h, the one state in a list of states. */
    NPR_FAMILY_BRIDGE_MST = 36,
    /* IFLA_BRIDGE_MST_ENTRY_* of linux/if_bridge.h. */
    NPR_FAMILY_BRIDGE_MST_ENTRY = 37,
    /* IFLA_BOND_* of linux/if_link.h. */
    NPR_FAMILY_INFO_BOND = 38,
    /* IFLA_BOND_AD_INFO_* of linux/if_link.h. */
    NPR_FAMILY_BOND_AD_INFO = 39,
    /* IFLA_BOND_SLAVE_* of linux/if_link.h. */
    NPR_FAMILY_INFO_BOND_PORT = 40,
    /* IFLA_MACVLAN_* of linux/if_link.h. */
    NPR_FAMILY_INFO_MAC_VLAN = 41,
    /* IFLA_MACVLAN_MACADDR of linux/if_link.h, in a list of addresses. */
    NPR_FAMILY_MAC_VLAN_ADDRESS = 42,
    /* IFLA_IPVLAN_* of linux/if_link.h. */
    NPR_FAMILY_INFO_IP_VLAN = 43,
    /* IFLA_NETKIT_* of linux/if_link.h. */
    NPR_FAMILY_INFO_NETKIT = 44,
    /* IFLA_TUN_* of linux/if_link.h. */
    NPR_FAMILY_INFO_TUN = 45,
    /* IFLA_VXLAN_* of linux/if_link.h. */
    NPR_FAMILY_INFO_VXLAN = 46,
    /* IFLA_GENEVE_* of linux/if_link.h. */
    NPR_FAMILY_INFO_GENEVE = 47,
    /* IFLA_GRE_* of linux/if_tunnel.h, over version 4. */
    NPR_FAMILY_INFO_GRE = 48,
    /* IFLA_GRE_* of linux/if_tunnel.h, over version 6. */
    NPR_FAMILY_INFO_GRE6 = 49,
    /* IFLA_IPTUN_* of linux/if_tunnel.h. */
    NPR_FAMILY_INFO_IP_TUNNEL = 50,
    /* IFLA_VTI_* of linux/if_tunnel.h. */
    NPR_FAMILY_INFO_VTI = 51,
    /* IFLA_XFRM_* of linux/if_link.h. */
    NPR_FAMILY_INFO_XFRM = 52,
    /* NHA_* of linux/nexthop.h. */
    NPR_FAMILY_NEXT_HOP = 53,
    /* NHA_RES_GROUP_* of linux/nexthop.h. */
    NPR_FAMILY_NEXT_HOP_RES_GROUP = 54,
    /* NHA_RES_BUCKET_* of linux/nexthop.h. */
    NPR_FAMILY_NEXT_HOP_RES_BUCKET = 55,
    /* NHA_GROUP_STATS_ENTRY of linux/nexthop.h, the one entry in a list of entries. */
    NPR_FAMILY_NEXT_HOP_GROUP_STATS = 56,
    /* NHA_GROUP_STATS_ENTRY_* of linux/nexthop.h. */
    NPR_FAMILY_NEXT_HOP_GROUP_STATS_ENTRY = 57,
    /* NETNSA_* of linux/net_namespace.h. */
    NPR_FAMILY_NSID = 58,
    /* PREFIX_* of linux/rtnetlink.h. */
    NPR_FAMILY_PREFIX = 59,
    /* NETCONFA_* of linux/netconf.h. */
    NPR_FAMILY_NETCONF = 60,
    /* NDTA_* of linux/neighbour.h. */
    NPR_FAMILY_NEIGHBOUR_TABLE = 61,
    /* NDTPA_* of linux/neighbour.h. */
    NPR_FAMILY_NEIGHBOUR_TABLE_PARAMETER = 62,
    /* IFAL_* of linux/if_addrlabel.h. */
    NPR_FAMILY_ADDRESS_LABEL = 63,
    /* TCA_* of linux/rtnetlink.h. */
    NPR_FAMILY_TC = 65,
    /* TCA_STATS_* of linux/gen_stats.h. */
    NPR_FAMILY_TC_STATS2 = 66,
    /* TCA_STAB_* of linux/pkt_sched.h. */
    NPR_FAMILY_TC_STAB = 67,
    /* The data of ingress and clsact, which have no numbers of their own. */
    NPR_FAMILY_TC_QDISC_INGRESS = 68,
    /* TCA_FQ_CODEL_* of linux/pkt_sched.h. */
    NPR_FAMILY_TC_QDISC_FQ_CODEL = 69,
    /* TCA_U32_* of linux/pkt_cls.h. */
    NPR_FAMILY_TC_FILTER_U32 = 70,
    /* TCA_MATCHALL_* of linux/pkt_cls.h. */
    NPR_FAMILY_TC_FILTER_MATCH_ALL = 71,
    /* TCA_FLOWER_* of linux/pkt_cls.h. */
    NPR_FAMILY_TC_FILTER_FLOWER = 72,
    /* TCA_FLOWER_KEY_MPLS_OPTS_* of linux/pkt_cls.h. */
    NPR_FAMILY_TC_FILTER_FLOWER_MPLS = 73,
    /* TCA_FLOWER_KEY_MPLS_OPT_LSE_* of linux/pkt_cls.h. */
    NPR_FAMILY_TC_FILTER_FLOWER_MPLS_LSE = 74,
    /* TCA_ROOT_* of linux/rtnetlink.h. */
    NPR_FAMILY_TC_ACTION_MESSAGE = 75,
    /* TCA_ACT_* of linux/pkt_cls.h. */
    NPR_FAMILY_TC_ACTION = 76,
    /* TCA_MIRRED_* of linux/tc_act/tc_mirred.h. */
    NPR_FAMILY_TC_ACTION_MIRROR = 77,
    /* TCA_NAT_* of linux/tc_act/tc_nat.h. */
    NPR_FAMILY_TC_ACTION_NAT = 78,
    /* TCA_TUNNEL_KEY_* of linux/tc_act/tc_tunnel_key.h. */
    NPR_FAMILY_TC_ACTION_TUNNEL_KEY = 79,
    /* Actions, each with its place as its number. */
    NPR_FAMILY_TC_ACTIONS = 80,
    /* TCA_HTB_* of linux/pkt_sched.h. */
    NPR_FAMILY_TC_QDISC_HTB = 81,
    /* TCA_TBF_* of linux/pkt_sched.h. */
    NPR_FAMILY_TC_QDISC_TBF = 82,
    /* TCA_RED_* of linux/pkt_sched.h. */
    NPR_FAMILY_TC_QDISC_RED = 83,
    /* TCA_FQ_* of linux/pkt_sched.h. */
    NPR_FAMILY_TC_QDISC_FQ = 84,
    /* TCA_NETEM_* of linux/pkt_sched.h. */
    NPR_FAMILY_TC_QDISC_NETEM = 85,
    /* NETEM_LOSS_* of linux/pkt_sched.h. */
    NPR_FAMILY_TC_NETEM_LOSS = 86,
    /* TCA_FW_* of linux/pkt_cls.h. */
    NPR_FAMILY_TC_FILTER_FW = 87,
    /* TCA_BPF_* of linux/pkt_cls.h. */
    NPR_FAMILY_TC_FILTER_BPF = 88,
    /* TCA_GACT_* of linux/tc_act/tc_gact.h. */
    NPR_FAMILY_TC_ACTION_GACT = 89,
    /* TCA_POLICE_* of linux/pkt_cls.h. */
    NPR_FAMILY_TC_ACTION_POLICE = 90,
    /* TCA_VLAN_* of linux/tc_act/tc_vlan.h. */
    NPR_FAMILY_TC_ACTION_VLAN = 91,
    /* TCA_SKBEDIT_* of linux/tc_act/tc_skbedit.h. */
    NPR_FAMILY_TC_ACTION_SKBEDIT = 92,
    /* TCA_CSUM_* of linux/tc_act/tc_csum.h. */
    NPR_FAMILY_TC_ACTION_CSUM = 93,
    /* TCA_CT_* of linux/tc_act/tc_ct.h. */
    NPR_FAMILY_TC_ACTION_CT = 94,
    /* TCA_SAMPLE_* of linux/tc_act/tc_sample.h. */
    NPR_FAMILY_TC_ACTION_SAMPLE = 95,
    /* TCA_ACT_BPF_* of linux/tc_act/tc_bpf.h. */
    NPR_FAMILY_TC_ACTION_BPF = 96,
    /* TCA_CAKE_* of linux/pkt_sched.h. */
    NPR_FAMILY_TC_QDISC_CAKE = 97,
    /* TCA_CAKE_STATS_* of linux/pkt_sched.h. */
    NPR_FAMILY_TC_CAKE_STAT = 98,
    /* A list of cake's tins: the number of each is its place. */
    NPR_FAMILY_TC_CAKE_TINS = 99,
    /* TCA_CAKE_TIN_STATS_* of linux/pkt_sched.h. */
    NPR_FAMILY_TC_CAKE_TIN_STAT = 100,
    /* TCA_MQPRIO_* of linux/pkt_sched.h. */
    NPR_FAMILY_TC_QDISC_MQPRIO = 101,
    /* TCA_MQPRIO_TC_ENTRY_* of linux/pkt_sched.h. */
    NPR_FAMILY_TC_MQPRIO_ENTRY = 102,
    /* TCA_BASIC_* of linux/pkt_cls.h. */
    NPR_FAMILY_TC_FILTER_BASIC = 103,
    /* TCA_EMATCH_TREE_* of linux/pkt_cls.h. */
    NPR_FAMILY_TC_EMATCH_TREE = 104,
    /* A list of extended matches: the number of each is its place. */
    NPR_FAMILY_TC_EMATCHES = 105,
    /* TCA_FLOWER_KEY_CFM_* of linux/pkt_cls.h. */
    NPR_FAMILY_TC_FLOWER_CFM = 106,
    /* TCA_FLOWER_KEY_ENC_OPTS_* of linux/pkt_cls.h, the options of a tunnel. */
    NPR_FAMILY_TC_ENC = 107,
    /* TCA_FLOWER_KEY_ENC_OPT_GENEVE_* of linux/pkt_cls.h. */
    NPR_FAMILY_TC_ENC_GENEVE = 108,
    /* TCA_FLOWER_KEY_ENC_OPT_VXLAN_* of linux/pkt_cls.h. */
    NPR_FAMILY_TC_ENC_VXLAN = 109,
    /* TCA_FLOWER_KEY_ENC_OPT_ERSPAN_* of linux/pkt_cls.h. */
    NPR_FAMILY_TC_ENC_ERSPAN = 110,
    /* TCA_FLOWER_KEY_ENC_OPT_GTP_* of linux/pkt_cls.h. */
    NPR_FAMILY_TC_ENC_GTP = 111,
    /* TCA_FLOWER_KEY_ENC_OPT_PFCP_* of linux/pkt_cls.h. */
    NPR_FAMILY_TC_ENC_PFCP = 112,
    /* TCA_PEDIT_* of linux/tc_act/tc_pedit.h. */
    NPR_FAMILY_TC_ACTION_PEDIT = 113,
    /* TCA_PEDIT_KEY_EX of linux/tc_act/tc_pedit.h, the one entry in a list of entries. */
    NPR_FAMILY_TC_PEDIT_KEYS_EX = 114,
    /* TCA_PEDIT_KEY_EX_* of linux/tc_act/tc_pedit.h. */
    NPR_FAMILY_TC_PEDIT_KEY_EX = 115,
    /* IFLA_MCTP_* of linux/if_link.h. */
    NPR_FAMILY_AF_SPEC_MCTP = 116,
    /* DPLL_A_PIN_* of linux/dpll.h. */
    NPR_FAMILY_LINK_DPLL_PIN = 117,
    /* IFLA_HSR_* of linux/if_link.h. */
    NPR_FAMILY_INFO_HSR = 118,
    /* IFLA_OVPN_* of linux/if_link.h. */
    NPR_FAMILY_INFO_OVPN = 119,
    /* NFEA_* of linux/neighbour.h. */
    NPR_FAMILY_NEIGHBOUR_FDB = 120,
    /* IFLA_GTP_* of linux/if_link.h. */
    NPR_FAMILY_INFO_GTP = 121,
    /* IFLA_IPOIB_* of linux/if_link.h. */
    NPR_FAMILY_INFO_IPOIB = 122,
    /* IFLA_MACSEC_* of linux/if_link.h. */
    NPR_FAMILY_INFO_MAC_SEC = 123,
    /* IFLA_VF_INFO of linux/if_link.h, the one entry in a list of virtual functions. */
    NPR_FAMILY_LINK_VF_INFO = 124,
    /* IFLA_VF_* of linux/if_link.h. */
    NPR_FAMILY_VF_INFO = 125,
    /* IFLA_VF_STATS_* of linux/if_link.h. */
    NPR_FAMILY_VF_STATS = 126,
    /* IFLA_VF_VLAN_INFO of linux/if_link.h, the one entry in a list of VLANs. */
    NPR_FAMILY_VF_VLAN = 127,
    /* IFLA_VF_PORT of linux/if_link.h, the one entry in a list of ports. */
    NPR_FAMILY_LINK_VF_PORT = 128,
    /* IFLA_PORT_* of linux/if_link.h. */
    NPR_FAMILY_VF_PORT = 129,
    /* IFLA_STATS_* of linux/if_link.h. */
    NPR_FAMILY_STATS = 130,
    /* LINK_XSTATS_TYPE_* of linux/if_link.h. */
    NPR_FAMILY_LINK_XSTATS = 131,
    /* BRIDGE_XSTATS_* of linux/if_bridge.h. */
    NPR_FAMILY_BRIDGE_XSTATS = 132,
    /* BOND_XSTATS_* of linux/if_bonding.h. */
    NPR_FAMILY_BOND_XSTATS = 133,
    /* BOND_3AD_STAT_* of linux/if_bonding.h. */
    NPR_FAMILY_BOND_AD_STAT = 134,
    /* IFLA_OFFLOAD_XSTATS_* of linux/if_link.h. */
    NPR_FAMILY_OFFLOAD_XSTATS = 135,
    /* IFLA_OFFLOAD_XSTATS_* of linux/if_link.h, each with what is known of counting it in hardware. */
    NPR_FAMILY_OFFLOAD_HW_INFO = 136,
    /* IFLA_OFFLOAD_XSTATS_HW_S_INFO_* of linux/if_link.h. */
    NPR_FAMILY_OFFLOAD_HW_STATE = 137,
    /* Address families in IFLA_STATS_AF_SPEC: AF_* of linux/socket.h. */
    NPR_FAMILY_STATS_AF_SPEC = 138,
    /* MPLS_STATS_* of linux/mpls.h. */
    NPR_FAMILY_MPLS_STATS = 139
};

/* What is wrong with a SEG6 routing header (RFC 8754, section 2). */
enum npr_seg6_fault {
    /* Fewer bytes than the fixed part takes. */
    NPR_SEG6_SHORT = 1,
    /* The length that it states is not the length that it has. */
    NPR_SEG6_LENGTH = 2,
    /* The HMAC flag is set, and no HMAC has room. */
    NPR_SEG6_HMAC = 3,
    /* The segments are not whole. */
    NPR_SEG6_SEGMENTS = 4
};

/* What is wrong with bytes as a message: a refusal with all that it tells, and where it stands. A
 * member that a refusal tells nothing of is 0, and all are 0 where the bytes are a message. */
struct npr_fault {
    /* One of `enum npr_refusal`, or 0 where the bytes are a message. */
    uint32_t number;
    /* One of `enum npr_family`, of the attribute at NPR_VALUE_LENGTH, NPR_NOT_UTF8, NPR_UNSUPPORTED,
     * NPR_GENEVE_ORDER and NPR_GENEVE_CHILD. */
    uint32_t family;
    /* The number of this attribute, without the two flags of a kind. */
    uint16_t kind;
    /* At NPR_SEG6_HEADER one of `enum npr_seg6_fault`, at NPR_VIA_FAMILY the address family. */
    uint16_t detail;
    /* The length that is stated at NPR_ATTRIBUTE_LENGTH and NPR_NEXT_HOP_LENGTH; how many bytes there
     * were at NPR_HEADER_TOO_SHORT, NPR_ATTRIBUTE_TOO_SHORT, NPR_NEXT_HOP_TOO_SHORT and
     * NPR_VALUE_LENGTH. */
    size_t length;
    /* How many bytes are left at NPR_ATTRIBUTE_LENGTH and NPR_NEXT_HOP_LENGTH, how many the header
     * takes at NPR_HEADER_TOO_SHORT. */
    size_t limit;
    /* Where an attribute of the message begins, from the first of the bytes: the one that is wrong, or
     * that none can be where one should begin. It is at the level of the message: what is wrong inside
     * an encapsulation or a next hop stands in the RTA_ENCAP or RTA_MULTIPATH that begins there, and
     * what is wrong in the data of a kind of link in its IFLA_LINKINFO. Each attribute before it is
     * read. 0 where the bytes are fewer than a header. */
    size_t offset;
};

/* Whether the bytes are a message of a kind, and else the first fault in reading order. Nothing is written, and
 * no memory is taken: the number is never NPR_OUT_OF_MEMORY. A message of which all members are 0 here
 * may still have no canonical bytes (NPR_UNFIT). In such a message each value has a length that its
 * attribute takes, at all depths, and each name is UTF-8: so a walk over its values (`npr_next`,
 * `npr_enter`) ends at NPR_END. At NPR_UNKNOWN_KIND all other members are 0. */
struct npr_fault npr_fault_of(uint32_t kind, const uint8_t *bytes, size_t length);

/* Room for every name and its zero. */
#define NPR_NAME_ROOM 18

/* Writes the name of a refusal, as "AttributeLength", and a zero to the front of `out`, and leaves
 * the rest of it. Another number has an empty name. Answers the length of the name without the
 * zero; where that is not below `room`, `out` is as it was. */
size_t npr_refusal_name(uint32_t number, char *out, size_t room);

/* The same for the name of a cause, as "TooLong". */
size_t npr_cause_name(uint32_t number, char *out, size_t room);

/* Room for the name of every attribute and its zero. */
#define NPR_ATTRIBUTE_ROOM 48

/* The same for the name of the attribute of a number (without the two flags of a kind) in a family, as "IFLA_MTU". A number that the
 * kernel's headers don't name has an empty one. */
size_t npr_attribute_name(uint32_t family, uint16_t number, char *out, size_t room);

/* Room for every text of a fault and its zero. */
#define NPR_TEXT_ROOM 256

/* The same for what is wrong with the bytes as a message of a kind, in words: the attribute by name and number, the lengths that are
 * there and that are wanted, and the place, as "a value of 2 bytes at IFLA_MTU (4), where 4 are wanted, at byte 16". Where the bytes are
 * a message the text is empty. */
size_t npr_fault_text(uint32_t kind, const uint8_t *bytes, size_t length, char *out, size_t room);

/* The name of a refusal, as `npr_refusal_name` writes it, as a text that stays. */
static inline const char *npr_refusal_text(uint32_t number) {
    switch (number) {
    case NPR_OUT_OF_MEMORY:
        return "OutOfMemory";
    case NPR_HEADER_TOO_SHORT:
        return "HeaderTooShort";
    case NPR_ATTRIBUTE_TOO_SHORT:
        return "AttributeTooShort";
    case NPR_ATTRIBUTE_LENGTH:
        return "AttributeLength";
    case NPR_NEXT_HOP_TOO_SHORT:
        return "NextHopTooShort";
    case NPR_NEXT_HOP_LENGTH:
        return "NextHopLength";
    case NPR_VALUE_LENGTH:
        return "ValueLength";
    case NPR_NOT_UTF8:
        return "NotUtf8";
    case NPR_SEG6_HEADER:
        return "Seg6Header";
    case NPR_GENEVE_ORDER:
        return "GeneveOrder";
    case NPR_GENEVE_CHILD:
        return "GeneveChild";
    case NPR_VIA_FAMILY:
        return "ViaFamily";
    case NPR_UNSUPPORTED:
        return "Unsupported";
    case NPR_MESSAGE_TOO_SHORT:
        return "MessageTooShort";
    case NPR_MESSAGE_LENGTH:
        return "MessageLength";
    case NPR_UNKNOWN_KIND:
        return "UnknownKind";
    default:
        return "";
    }
}

/* The same for the name of a cause. */
static inline const char *npr_cause_text(uint32_t number) {
    switch (number) {
    case NPR_TOO_LONG:
        return "TooLong";
    case NPR_NEXT_HOP_TOO_LONG:
        return "NextHopTooLong";
    case NPR_TOO_MANY_SEGMENTS:
        return "TooManySegments";
    case NPR_IP_PROTOCOL:
        return "IpProtocol";
    case NPR_TOTAL:
        return "Total";
    default:
        return "";
    }
}

/* How a step ends. */
enum npr_step_status {
    /* An attribute, a next hop, or a message of a datagram stands at the place. */
    NPR_FOUND = 0,
    /* None does: `number` is NPR_ATTRIBUTE_TOO_SHORT or NPR_ATTRIBUTE_LENGTH, and of the others
     * NPR_NEXT_HOP_TOO_SHORT or NPR_NEXT_HOP_LENGTH, NPR_MESSAGE_TOO_SHORT or NPR_MESSAGE_LENGTH. */
    NPR_FAULT = 1,
    /* The place is the end of the bytes, or past it. */
    NPR_END = 2
};

/* What a step over attributes answers. All members but `status` and `number` are 0 unless the status is NPR_FOUND. */
struct npr_step {
    /* One of `enum npr_step_status`. */
    uint32_t status;
    /* At NPR_FAULT one of `enum npr_refusal`, and else 0. */
    uint32_t number;
    /* Where the value begins, from the first of the bytes. */
    size_t value;
    /* The length of the value, without header and padding. */
    size_t length;
    /* Where the next attribute begins, from the first of the bytes; where none follows, their
     * length. It is at least 4 above the place that was asked for. */
    size_t next;
    /* All 16 bits of the kind: the number, NLA_F_NET_BYTEORDER (0x4000) and NLA_F_NESTED (0x8000). */
    uint16_t kind;
};

/* The attribute that begins `at` bytes from the first. In a message the first one begins behind the
 * header, at 8, 12 or 16; inside a value that is a list, at its first byte. In a larger buffer `length`
 * is where the bytes end, as that of a message or of a value. It takes no memory. */
struct npr_step npr_step_at(const uint8_t *bytes, size_t length, size_t at);

/* The first attribute of this number (below 0x4000: a kind without its two flags) that begins at `at`
 * or behind it, or the fault or the end that comes before one. `length` is where the bytes end. It takes
 * no memory. */
struct npr_step npr_find(const uint8_t *bytes, size_t length, size_t at, uint16_t number);

/* What a step over next hops answers. All members but `status` and `number` are 0 unless the status is
 * NPR_FOUND. */
struct npr_next_hop {
    /* One of `enum npr_step_status`. */
    uint32_t status;
    /* At NPR_FAULT one of `enum npr_refusal`, and else 0. */
    uint32_t number;
    /* The index of its interface. */
    uint32_t interface_index;
    /* RTNH_F_* of linux/rtnetlink.h. */
    uint8_t flags;
    /* Its weight less one. */
    uint8_t hops;
    /* Where its attributes begin, and where they end, from the first of the bytes: they are gone over
     * by `npr_step_at(bytes, end, attributes)`. */
    size_t attributes;
    size_t end;
    /* Where the next one begins, from the first of the bytes; where none follows, their length. It is
     * at least 8 above the place that was asked for. */
    size_t next;
};

/* The next hop that begins `at` bytes from the first. In the value of RTA_MULTIPATH the first one
 * begins at its first byte. Its attributes are not looked at. It takes no memory. */
struct npr_next_hop npr_next_hop_at(const uint8_t *bytes, size_t length, size_t at);

/* How the value of an attribute is seen. An enumeration or a set of flags is its number. */
enum npr_form {
    /* Nothing: what stood there is dropped. */
    NPR_FORM_NOTHING = 0,
    /* A number of 1, 2, 4 or 8 bytes, in `integer`. */
    NPR_FORM_U8 = 1,
    NPR_FORM_U16 = 2,
    NPR_FORM_U32 = 3,
    NPR_FORM_U64 = 4,
    /* A signed number of 4 bytes: `npr_signed`. */
    NPR_FORM_I32 = 5,
    /* A truth value, 0 or 1 in `integer`. */
    NPR_FORM_BOOL = 6,
    /* An address of 4 or 16 bytes, for `inet_ntop`. */
    NPR_FORM_ADDRESS = 7,
    /* A name in UTF-8, without its final zero. It may hold a zero, and it has no zero behind it that may be relied on. */
    NPR_FORM_NAME = 8,
    /* Bytes as they stand. */
    NPR_FORM_BYTES = 9,
    /* The bytes of a structure of the kernel's headers, as a cache's or a range's. */
    NPR_FORM_STRUCTURE = 10,
    /* The bytes of a list of attributes, which `npr_enter` enters; of next hops, for `npr_next_hop_at`; or of what else is
     * read by none of these calls. They can be wrong, and a walk that does not enter them passes what is. */
    NPR_FORM_INSIDE = 11,
    /* A signed number of 8 bytes: `npr_signed64`. */
    NPR_FORM_I64 = 12
};

/* What a step over values answers. All members but `status` and `number` are 0 unless the status is NPR_FOUND. */
struct npr_value {
    /* One of `enum npr_step_status`. */
    uint32_t status;
    /* At NPR_FAULT one of `enum npr_refusal`: the attribute that begins there is none, or its value is wrong. Else 0. */
    uint32_t number;
    /* One of `enum npr_family`, in which `kind` is to be understood. */
    uint32_t family;
    /* The number of the attribute, without the two flags of a kind. */
    uint16_t kind;
    /* One of `enum npr_form`. */
    uint16_t form;
    /* A number in the order of the machine, whatever its order in the bytes; of a signed one the two's complement. Else 0. */
    uint64_t integer;
    /* Where the value begins, from the first of the bytes. */
    size_t value;
    /* How many bytes of it there are: of a number those that it takes, of a name those without its zero. */
    size_t length;
    /* Where the next attribute begins, from the first of the bytes; where none follows, their length. */
    size_t next;
};

/* A list of attributes, as the calls below answer it and take it. All members but `status` and `number` are 0 unless the status
 * is NPR_FOUND. */
struct npr_list {
    /* NPR_FOUND; NPR_FAULT where the bytes are fewer than a header, or there is no such kind; NPR_END where the value holds no
     * list of attributes. */
    uint32_t status;
    /* At NPR_FAULT NPR_HEADER_TOO_SHORT or NPR_UNKNOWN_KIND, and else 0. */
    uint32_t number;
    /* One of `enum npr_family`: that of the attributes. */
    uint32_t family;
    /* What their numbers rest on besides, as the family of the header or what governs a list. Give it back as it is. */
    uint32_t context;
    /* Where the list begins, and where it ends, from the first of the bytes. */
    size_t at;
    size_t end;
};

/* The attributes of a message of a kind, behind its header. No memory is taken, here and below. */
struct npr_list npr_begin(uint32_t kind, const uint8_t *bytes, size_t length);

/* The three calls of a kind by its name: `npr_route_fault(bytes, length)` is `npr_fault_of(NPR_KIND_ROUTE, bytes, length)`. */
#define NPR_CALLS(name, kind)                                                                                          \
    static inline struct npr_answer npr_##name##_canonical(const uint8_t *bytes, size_t length, uint8_t *out,          \
                                                           size_t room) {                                              \
        return npr_canonical(kind, bytes, length, out, room);                                                          \
    }                                                                                                                  \
    static inline struct npr_fault npr_##name##_fault(const uint8_t *bytes, size_t length) {                           \
        return npr_fault_of(kind, bytes, length);                                                                      \
    }                                                                                                                  \
    static inline struct npr_list npr_##name##_begin(const uint8_t *bytes, size_t length) {                            \
        return npr_begin(kind, bytes, length);                                                                         \
    }

NPR_CALLS(address, NPR_KIND_ADDRESS)
NPR_CALLS(route, NPR_KIND_ROUTE)
NPR_CALLS(rule, NPR_KIND_RULE)
NPR_CALLS(neighbour, NPR_KIND_NEIGHBOUR)
NPR_CALLS(link, NPR_KIND_LINK)
NPR_CALLS(next_hop, NPR_KIND_NEXT_HOP)
NPR_CALLS(nsid, NPR_KIND_NSID)
NPR_CALLS(netconf, NPR_KIND_NETCONF)
NPR_CALLS(address_label, NPR_KIND_ADDRESS_LABEL)
NPR_CALLS(neighbour_table, NPR_KIND_NEIGHBOUR_TABLE)
NPR_CALLS(prefix, NPR_KIND_PREFIX)
NPR_CALLS(tc, NPR_KIND_TC)
NPR_CALLS(tc_action, NPR_KIND_TC_ACTION)
NPR_CALLS(stats, NPR_KIND_STATS)

#undef NPR_CALLS

/* The value of the attribute that begins `at` bytes from the first, in a list of this family and context. `length` is where the
 * list ends. `npr_next` is for a whole list. */
struct npr_value npr_value_at(const uint8_t *bytes, size_t length, size_t at, uint32_t family, uint32_t context);

/* The list in the value of the attribute that begins `at` bytes from the first. `npr_enter` is for the value of a reader. */
struct npr_list npr_inside_at(const uint8_t *bytes, size_t length, size_t at, uint32_t family, uint32_t context);

/* The list of the attributes of a next hop, which begin at `at` and end at `length`, in a list of this family and context.
 * `npr_enter_hop` is for the next hops of a reader. */
struct npr_list npr_hop_inside(const uint8_t *bytes, size_t length, size_t at, uint32_t family, uint32_t context);

/* A walk over the values of a list, kept by the caller:
 *
 *     struct npr_reader reader = npr_read(bytes, npr_begin(NPR_KIND_ROUTE, bytes, length));
 *     for (struct npr_value value; npr_next(&reader, &value);)
 *         if (value.kind == RTA_OIF)
 *             index = (uint32_t)value.integer;
 */
struct npr_reader {
    const uint8_t *bytes;
    struct npr_list list;
    /* Where the next attribute begins. */
    size_t at;
};

/* The reader of a list in these bytes. That of no list has no values. */
static inline struct npr_reader npr_read(const uint8_t *bytes, struct npr_list list) {
    struct npr_reader reader = {bytes, list, list.at};
    return reader;
}

/* The next value. Answers 1 where there is one; else 0, and the status of the value tells whether the list is at its end or is
 * wrong there. */
static inline int npr_next(struct npr_reader *reader, struct npr_value *value) {
    *value = npr_value_at(reader->bytes, reader->list.end, reader->at, reader->list.family, reader->list.context);
    if (value->status != NPR_FOUND)
        return 0;
    reader->at = value->next;
    return 1;
}

/* Enters the list in a value that the reader gave. Answers 1 where there is one, and else 0. */
static inline int npr_enter(const struct npr_reader *reader, const struct npr_value *value, struct npr_reader *inside) {
    struct npr_list list = npr_inside_at(reader->bytes, reader->list.end, value->value - 4, reader->list.family, reader->list.context);
    *inside = npr_read(reader->bytes, list);
    return list.status == NPR_FOUND;
}

/* The first next hop in a value that the reader gave, and the one behind a next hop. */
static inline struct npr_next_hop npr_first_hop(const struct npr_reader *reader, const struct npr_value *value) {
    return npr_next_hop_at(reader->bytes, value->value + value->length, value->value);
}

static inline struct npr_next_hop npr_hop_behind(const struct npr_reader *reader, const struct npr_value *value, struct npr_next_hop hop) {
    return npr_next_hop_at(reader->bytes, value->value + value->length, hop.next);
}

/* Enters the attributes of a next hop in a value that the reader gave. */
static inline struct npr_reader npr_enter_hop(const struct npr_reader *reader, const struct npr_next_hop *hop) {
    return npr_read(reader->bytes, npr_hop_inside(reader->bytes, hop->end, hop->attributes, reader->list.family, reader->list.context));
}

/* The first byte of a value that the reader gave. */
static inline const uint8_t *npr_bytes(const struct npr_reader *reader, const struct npr_value *value) {
    return reader->bytes + value->value;
}

/* A name that the reader gave: `length` of the value says how long it is. */
static inline const char *npr_text(const struct npr_reader *reader, const struct npr_value *value) {
    return (const char *)(reader->bytes + value->value);
}

/* A signed number of 4 bytes. */
static inline int32_t npr_signed(const struct npr_value *value) {
    uint32_t low = (uint32_t)value->integer;
    return low <= INT32_MAX ? (int32_t)low : -(int32_t)(UINT32_MAX - low) - 1;
}

/* A signed number of 4 or 8 bytes. */
static inline int64_t npr_signed64(const struct npr_value *value) {
    return value->integer <= INT64_MAX ? (int64_t)value->integer : -(int64_t)(UINT64_MAX - value->integer) - 1;
}

/* What a step over the messages of a datagram answers. All members but `status` and `number` are 0
 * unless the status is NPR_FOUND. */
struct npr_message {
    /* One of `enum npr_step_status`. */
    uint32_t status;
    /* At NPR_FAULT one of `enum npr_refusal`, and else 0. */
    uint32_t number;
    /* NLMSG_* of linux/netlink.h, or RTM_* of linux/rtnetlink.h. */
    uint16_t message_type;
    /* NLM_F_* of linux/netlink.h. */
    uint16_t flags;
    /* The number of the request to which the message belongs. */
    uint32_t sequence_number;
    /* The port of the socket that asked, or 0. */
    uint32_t port_number;
    /* Where what stands behind `struct nlmsghdr` begins, from the first of the bytes: there, with
     * `length`, stands the message that the calls above take. */
    size_t payload;
    /* Its length, without padding. */
    size_t length;
    /* Where the next message begins, from the first of the bytes; where none follows, their length.
     * It is at least 16 above the place that was asked for. */
    size_t next;
};

/* The message that begins `at` bytes from the first of a datagram. The first one begins at 0. It takes
 * no memory. */
struct npr_message npr_message_at(const uint8_t *datagram, size_t length, size_t at);

/* What is said of a message in a conversation. */
enum npr_hearing {
    /* It is of the answer. */
    NPR_ANSWER = 0,
    /* It has the number of another request, or another port. */
    NPR_FOREIGN = 1,
    /* No message is left in the datagram: read the next one. */
    NPR_NO_MORE = 2,
    /* The answer ends: `ending` tells how. */
    NPR_ENDED = 3
};

/* How an answer ends. */
enum npr_ending {
    /* The dump is whole. */
    NPR_DONE = 1,
    /* The request was done. */
    NPR_ACKNOWLEDGED = 2,
    /* The kernel refused the request: `code` is the number of the error of errno.h, below 0. */
    NPR_REFUSED_REQUEST = 3,
    /* The dump is over, and the tables changed meanwhile: ask again. */
    NPR_INTERRUPTED = 4,
    /* Messages were lost: NLMSG_OVERRUN. */
    NPR_OVERRUN = 5,
    /* A datagram has bytes that are no message. */
    NPR_BROKEN = 6,
    /* An error or an end that has fewer bytes than its code takes. */
    NPR_CUT = 7
};

/* What is said of the next message of a datagram. All members but `status` and `interrupted` are 0 unless they are told. */
struct npr_heard {
    /* One of `enum npr_hearing`. */
    uint32_t status;
    /* At NPR_ENDED one of `enum npr_ending`, and else 0. */
    uint32_t ending;
    /* At NPR_REFUSED_REQUEST the code of the error, below 0. */
    int32_t code;
    /* 1 where a part of the answer said that the tables changed. */
    uint32_t interrupted;
    /* As in `struct npr_message`; 0 where no message stands. */
    uint16_t message_type;
    uint16_t flags;
    size_t payload;
    size_t length;
    size_t next;
};

/* What is said of the message that begins `at` bytes from the first of a datagram, in the conversation that a request of this
 * number began from a socket of this port, or of any where it is 0. `interrupted` is what the call before answered there, and 0
 * before any. `npr_hear` keeps all of it. */
struct npr_heard npr_hear_at(const uint8_t *datagram, size_t length, size_t at, uint32_t sequence_number, uint32_t port_number,
                             uint32_t interrupted);

/* The answer to a request, kept by the caller, over the datagrams that come:
 *
 *     struct npr_conversation talk = {sequence_number, 0, 0, 0};
 *     do {
 *         length = recv(..); talk.at = 0;
 *         while ((heard = npr_hear(&talk, datagram, length)).status == NPR_ANSWER || heard.status == NPR_FOREIGN)
 *             ..
 *     } while (heard.status == NPR_NO_MORE); */
struct npr_conversation {
    /* The number of the request. */
    uint32_t sequence_number;
    /* The port of the socket, or 0 for any. */
    uint32_t port_number;
    /* 1 where a part of the answer said that the tables changed; 0 at first. */
    uint32_t interrupted;
    /* Where the next message of the datagram begins; 0 at the first byte of each. */
    size_t at;
};

static inline struct npr_heard npr_hear(struct npr_conversation *talk, const uint8_t *datagram, size_t length) {
    struct npr_heard heard = npr_hear_at(datagram, length, talk->at, talk->sequence_number, talk->port_number, talk->interrupted);
    talk->interrupted = heard.interrupted;
    if (heard.next != 0)
        talk->at = heard.next;
    return heard;
}

/* Requests. These calls write into a buffer of the caller's at a place, and answer the place behind what they wrote: NPR_SHORT and
 * that place where it is past the room, NPR_UNFIT and NPR_TOTAL where no size_t holds it. None keeps anything, and none takes
 * memory. `struct npr_writer` below keeps the place. */

/* Writes an attribute: its length and its kind, with the flags that it is given, in 4 bytes, the value, and zeros to a multiple of
 * 4. NPR_UNFIT and NPR_TOO_LONG where the value has more than 65,531 bytes. What was put is read back by `npr_step_at`. */
struct npr_answer npr_put_at(uint8_t *out, size_t room, size_t at, uint16_t kind, const uint8_t *value, size_t length);

/* Writes a header of a fixed size, as `struct nlmsghdr`, `struct rtmsg` or `struct rtnexthop`, and zeros to a multiple of 4. */
struct npr_answer npr_copy_at(uint8_t *out, size_t room, size_t at, const uint8_t *bytes, size_t length);

/* Ends an attribute that holds others, or a next hop, which begins at `start`, at `end`: writes the bytes between them into the
 * first 2 bytes of its header. All else stays, and the answer is `end`. NPR_UNFIT and NPR_TOO_LONG where they are more than 65,535.
 * NPR_REFUSED and NPR_ATTRIBUTE_LENGTH where none can end there: fewer than 4 bytes or no multiple of 4 behind its beginning, or
 * past the room. */
struct npr_answer npr_end_at(uint8_t *out, size_t room, size_t start, size_t end);

/* Ends a message, which begins at `start`, at `end`: writes the bytes between them into the first 4 bytes of `struct nlmsghdr`. All
 * else stays, and the answer is `end`. NPR_UNFIT and NPR_TOTAL where 32 bits don't hold them. NPR_REFUSED and NPR_MESSAGE_LENGTH
 * where none can end there: fewer than 16 bytes behind its beginning, or past the room. */
struct npr_answer npr_end_message_at(uint8_t *out, size_t room, size_t start, size_t end);

/* A request, written into a buffer of the caller's:
 *
 *     struct npr_writer writer = npr_write(out, sizeof out);
 *     size_t message = npr_begin_message(&writer, RTM_NEWROUTE, NLM_F_REQUEST | NLM_F_CREATE, sequence_number);
 *     npr_put_header(&writer, &header, sizeof header);
 *     npr_put(&writer, RTA_DST, address, 4);
 *     size_t encapsulation = npr_begin_nested(&writer, RTA_ENCAP);
 *     npr_put_be32(&writer, MPLS_IPTUNNEL_DST, label);
 *     npr_end_nested(&writer, encapsulation);
 *     npr_end_message(&writer, message);
 *     if (writer.status == NPR_WRITTEN)
 *         send(socket, out, writer.at, 0);
 *
 * The first answer that is not NPR_WRITTEN stays: nothing is written behind it. */
struct npr_writer {
    uint8_t *out;
    size_t room;
    /* How many bytes are written, which is the place of the next ones. */
    size_t at;
    /* One of `enum npr_status`: NPR_WRITTEN, or the first other answer. */
    uint32_t status;
    /* At NPR_REFUSED one of `enum npr_refusal`, at NPR_UNFIT one of `enum npr_cause`, and else 0. */
    uint32_t number;
};

/* The writer of a buffer. */
static inline struct npr_writer npr_write(uint8_t *out, size_t room) {
    struct npr_writer writer = {out, room, 0, NPR_WRITTEN, 0};
    return writer;
}

/* Takes notice of an answer. */
static inline void npr_wrote(struct npr_writer *writer, struct npr_answer answer) {
    writer->status = answer.status;
    writer->number = answer.number;
    if (answer.status == NPR_WRITTEN)
        writer->at = answer.length;
}

/* Bytes of which there may be none: then any place will do, also a null pointer. */
static inline const uint8_t *npr_some(const void *bytes, size_t length) {
    return (const uint8_t *)(length == 0 ? "" : bytes);
}

/* An attribute of this kind, which may have the two flags of a kind, with this value. */
static inline void npr_put(struct npr_writer *writer, uint16_t kind, const void *value, size_t length) {
    if (writer->status == NPR_WRITTEN)
        npr_wrote(writer, npr_put_at(writer->out, writer->room, writer->at, kind, npr_some(value, length), length));
}

/* A header of a fixed size. */
static inline void npr_put_header(struct npr_writer *writer, const void *header, size_t length) {
    if (writer->status == NPR_WRITTEN)
        npr_wrote(writer, npr_copy_at(writer->out, writer->room, writer->at, npr_some(header, length), length));
}

/* A number in the order of the machine, which is that of nearly all attributes. */
static inline void npr_put_u8(struct npr_writer *writer, uint16_t kind, uint8_t number) {
    npr_put(writer, kind, &number, sizeof number);
}

static inline void npr_put_u16(struct npr_writer *writer, uint16_t kind, uint16_t number) {
    npr_put(writer, kind, &number, sizeof number);
}

static inline void npr_put_u32(struct npr_writer *writer, uint16_t kind, uint32_t number) {
    npr_put(writer, kind, &number, sizeof number);
}

static inline void npr_put_u64(struct npr_writer *writer, uint16_t kind, uint64_t number) {
    npr_put(writer, kind, &number, sizeof number);
}

/* A number in the order of the network, the highest byte first. */
static inline void npr_put_be16(struct npr_writer *writer, uint16_t kind, uint16_t number) {
    uint8_t bytes[2] = {(uint8_t)(number >> 8), (uint8_t)number};
    npr_put(writer, kind, bytes, sizeof bytes);
}

static inline void npr_put_be32(struct npr_writer *writer, uint16_t kind, uint32_t number) {
    uint8_t bytes[4] = {(uint8_t)(number >> 24), (uint8_t)(number >> 16), (uint8_t)(number >> 8), (uint8_t)number};
    npr_put(writer, kind, bytes, sizeof bytes);
}

/* A name with its zero. */
static inline void npr_put_name(struct npr_writer *writer, uint16_t kind, const char *name) {
    size_t length = 0;
    while (name[length] != 0)
        length++;
    npr_put(writer, kind, name, length + 1);
}

/* Begins an attribute that holds what is put next, as RTA_MULTIPATH holds next hops. Answers its place for the end. */
static inline size_t npr_begin_list(struct npr_writer *writer, uint16_t kind) {
    size_t start = writer->at;
    npr_put(writer, kind, "", 0);
    return start;
}

/* The same of one that holds attributes: NLA_F_NESTED is set in its kind. */
static inline size_t npr_begin_nested(struct npr_writer *writer, uint16_t kind) {
    return npr_begin_list(writer, (uint16_t)(kind | 0x8000));
}

/* Ends an attribute that one of these two began. */
static inline void npr_end_nested(struct npr_writer *writer, size_t start) {
    if (writer->status == NPR_WRITTEN)
        npr_wrote(writer, npr_end_at(writer->out, writer->room, start, writer->at));
}

/* Begins a next hop (`struct rtnexthop`) in an RTA_MULTIPATH, with RTNH_F_*, its weight less one, and its interface. Its attributes
 * are put next. Answers its place for the end. */
static inline size_t npr_begin_next_hop(struct npr_writer *writer, uint8_t flags, uint8_t hops, uint32_t interface_index) {
    struct {
        uint16_t length;
        uint8_t flags, hops;
        uint32_t interface_index;
    } header = {0, flags, hops, interface_index};
    size_t start = writer->at;
    npr_put_header(writer, &header, sizeof header);
    return start;
}

/* Ends a next hop. */
static inline void npr_end_next_hop(struct npr_writer *writer, size_t start) { npr_end_nested(writer, start); }

/* Begins a message (`struct nlmsghdr`) of this type, with NLM_F_*, and the number of the request. Its header and its attributes are
 * put next. Answers its place for the end. */
static inline size_t npr_begin_message(struct npr_writer *writer, uint16_t message_type, uint16_t flags, uint32_t sequence_number) {
    struct {
        uint32_t length;
        uint16_t message_type, flags;
        uint32_t sequence_number, port_number;
    } header = {0, message_type, flags, sequence_number, 0};
    size_t start = writer->at;
    npr_put_header(writer, &header, sizeof header);
    return start;
}

/* Ends a message. Another one may begin behind it. */
static inline void npr_end_message(struct npr_writer *writer, size_t start) {
    if (writer->status == NPR_WRITTEN)
        npr_wrote(writer, npr_end_message_at(writer->out, writer->room, start, writer->at));
}

#ifdef __cplusplus
}
#endif

#endif
