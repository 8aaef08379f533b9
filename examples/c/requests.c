/* Requests that are written into a buffer, beside their bytes by hand: a route of two next hops with an encapsulation, a VLAN link,
 * and numbers of each size. The first is read back, and tried in every room up to its own. It ends with 0 where all is as it should
 * be, and else with 1 and the first that is not. `make check` compiles it as C and as C++. */

#include "netlink_packet_route.h"
#include <linux/if_link.h>
#include <linux/netlink.h>
#include <linux/rtnetlink.h>
#include <stdio.h>
#include <string.h>

#define WANT(is_so)                                                                                                    \
    do {                                                                                                               \
        if (!(is_so)) {                                                                                                \
            fprintf(stderr, "requests.c:%d: %s\n", __LINE__, #is_so);                                                  \
            return 1;                                                                                                  \
        }                                                                                                              \
    } while (0)

/* Of linux/lwtunnel.h from 6.1 on. */
enum { ENCAP_XFRM = 10, XFRM_IF_ID = 1 };

/* The kernel's layouts, the lowest byte first: struct nlmsghdr, struct rtmsg, and attributes. */
static const uint8_t ROUTE[] = {
    92, 0, 0, 0, 24, 0, 5, 4, 7, 0, 0, 0, 0, 0, 0, 0,  /* length, RTM_NEWROUTE, REQUEST | ACK | CREATE, sequence 7, port 0 */
    2, 24, 0, 0, 254, 4, 0, 1, 0, 0, 0, 0,              /* AF_INET, 24 bits, table main, protocol static, scope, unicast, flags */
    8, 0, 1, 0, 192, 0, 2, 0,                           /* RTA_DST */
    36, 0, 9, 0,                                        /* RTA_MULTIPATH */
    16, 0, 0, 0, 2, 0, 0, 0, 8, 0, 5, 0, 198, 51, 100, 1,  /* struct rtnexthop of interface 2, RTA_GATEWAY */
    16, 0, 4, 9, 3, 0, 0, 0, 8, 0, 5, 0, 198, 51, 100, 2,  /* of interface 3, RTNH_F_ONLINK and weight 10, RTA_GATEWAY */
    12, 0, 22, 128, 8, 0, 1, 0, 42, 0, 0, 0,            /* RTA_ENCAP | NLA_F_NESTED: LWT_XFRM_IF_ID */
    6, 0, 21, 0, 10, 0, 0, 0,                           /* RTA_ENCAP_TYPE of LWTUNNEL_ENCAP_XFRM, padding */
};

/* struct nlmsghdr, struct ifinfomsg, and attributes. */
static const uint8_t LINK[] = {
    88, 0, 0, 0, 16, 0, 1, 6, 8, 0, 0, 0, 0, 0, 0, 0,    /* length, RTM_NEWLINK, REQUEST | EXCL | CREATE, sequence 8, port 0 */
    0, 0, 0, 0, 0, 0, 0, 0, 0, 0, 0, 0, 0, 0, 0, 0,      /* zeros */
    9, 0, 3, 0, 'v', 'l', 'a', 'n', 0, 0, 0, 0,          /* IFLA_IFNAME, padding */
    8, 0, 5, 0, 4, 0, 0, 0,                              /* IFLA_LINK */
    36, 0, 18, 128,                                      /* IFLA_LINKINFO | NLA_F_NESTED */
    9, 0, 1, 0, 'v', 'l', 'a', 'n', 0, 0, 0, 0,          /* IFLA_INFO_KIND, padding */
    20, 0, 2, 128,                                       /* IFLA_INFO_DATA | NLA_F_NESTED */
    6, 0, 1, 0, 100, 0, 0, 0, 6, 0, 5, 0, 136, 168, 0, 0, /* IFLA_VLAN_ID, IFLA_VLAN_PROTOCOL, the highest byte first */
};

static const uint8_t NUMBERS[] = {
    5,  0, 1, 0, 1, 0, 0, 0,             /* a byte, padding */
    6,  0, 2, 0, 2, 1, 0, 0,             /* two bytes, padding */
    8,  0, 3, 0, 4, 3, 2, 1,             /* four */
    12, 0, 4, 0, 8, 7, 6, 5, 4, 3, 2, 1, /* eight */
    6,  0, 5, 0, 1, 2, 0, 0,             /* the highest byte first */
    8,  0, 6, 0, 1, 2, 3, 4,             /* the same */
    4,  0, 7, 0,                         /* nothing */
};

static const uint8_t DESTINATION[] = {192, 0, 2, 0}, FIRST[] = {198, 51, 100, 1}, SECOND[] = {198, 51, 100, 2};

static void put_next_hop(struct npr_writer *writer, uint8_t flags, uint8_t hops, uint32_t interface_index, const uint8_t *gateway) {
    size_t hop = npr_begin_next_hop(writer, flags, hops, interface_index);
    npr_put(writer, RTA_GATEWAY, gateway, 4);
    npr_end_next_hop(writer, hop);
}

static void put_route(struct npr_writer *writer) {
    struct rtmsg header;
    memset(&header, 0, sizeof header);
    header.rtm_family = 2;
    header.rtm_dst_len = 24;
    header.rtm_table = RT_TABLE_MAIN;
    header.rtm_protocol = RTPROT_STATIC;
    header.rtm_type = RTN_UNICAST;
    size_t message = npr_begin_message(writer, RTM_NEWROUTE, NLM_F_REQUEST | NLM_F_ACK | NLM_F_CREATE, 7);
    npr_put_header(writer, &header, sizeof header);
    npr_put(writer, RTA_DST, DESTINATION, sizeof DESTINATION);
    size_t hops = npr_begin_list(writer, RTA_MULTIPATH);
    put_next_hop(writer, 0, 0, 2, FIRST);
    put_next_hop(writer, RTNH_F_ONLINK, 9, 3, SECOND);
    npr_end_nested(writer, hops);
    size_t encapsulation = npr_begin_nested(writer, RTA_ENCAP);
    npr_put_u32(writer, XFRM_IF_ID, 42);
    npr_end_nested(writer, encapsulation);
    npr_put_u16(writer, RTA_ENCAP_TYPE, ENCAP_XFRM);
    npr_end_message(writer, message);
}

static int is_written(const struct npr_writer *writer, const uint8_t *wanted, size_t length) {
    return writer->status == NPR_WRITTEN && writer->number == 0 && writer->at == length && memcmp(writer->out, wanted, length) == 0;
}

static int route(void) {
    uint8_t out[256], canonical[256];
    struct npr_writer writer = npr_write(out, sizeof out);
    put_route(&writer);
    WANT(is_written(&writer, ROUTE, sizeof ROUTE));
    struct npr_message message = npr_message_at(out, writer.at, 0);
    WANT(message.status == NPR_FOUND && message.message_type == RTM_NEWROUTE && message.sequence_number == 7);
    WANT(message.payload == 16 && message.length == sizeof ROUTE - 16 && message.next == sizeof ROUTE);
    uint32_t kind = npr_kind_of(message.message_type);
    WANT(kind == NPR_KIND_ROUTE && npr_fault_of(kind, out + message.payload, message.length).number == 0);
    struct npr_answer answer = npr_canonical(kind, out + message.payload, message.length, canonical, sizeof canonical);
    WANT(answer.status == NPR_WRITTEN && answer.length == message.length);
    WANT(memcmp(canonical, ROUTE + 16, answer.length) == 0);
    return 0;
}

/* Each room up to that of the whole is too short, and nothing is written past it. */
static int rooms(void) {
    uint8_t out[sizeof ROUTE + 16];
    for (size_t room = 0; room <= sizeof ROUTE; room++) {
        memset(out, 0xaa, sizeof out);
        struct npr_writer writer = npr_write(out, room);
        put_route(&writer);
        WANT(writer.status == (room < sizeof ROUTE ? NPR_SHORT : NPR_WRITTEN) && writer.number == 0 && writer.at <= room);
        for (size_t at = room; at < sizeof out; at++)
            WANT(out[at] == 0xaa);
    }
    return 0;
}

static int links(void) {
    uint8_t out[256];
    static const uint8_t HEADER[16] = {0};
    struct npr_writer writer = npr_write(out, sizeof out);
    size_t message = npr_begin_message(&writer, RTM_NEWLINK, NLM_F_REQUEST | NLM_F_EXCL | NLM_F_CREATE, 8);
    npr_put_header(&writer, HEADER, sizeof HEADER);
    npr_put_name(&writer, IFLA_IFNAME, "vlan");
    npr_put_u32(&writer, IFLA_LINK, 4);
    size_t info = npr_begin_nested(&writer, IFLA_LINKINFO);
    npr_put_name(&writer, IFLA_INFO_KIND, "vlan");
    size_t data = npr_begin_nested(&writer, IFLA_INFO_DATA);
    npr_put_u16(&writer, IFLA_VLAN_ID, 100);
    npr_put_be16(&writer, IFLA_VLAN_PROTOCOL, 0x88a8);
    npr_end_nested(&writer, data);
    npr_end_nested(&writer, info);
    npr_end_message(&writer, message);
    WANT(is_written(&writer, LINK, sizeof LINK));
    WANT(npr_fault_of(NPR_KIND_LINK, out + 16, writer.at - 16).number == 0);
    return 0;
}

static int numbers(void) {
    uint8_t out[256];
    struct npr_writer writer = npr_write(out, sizeof out);
    npr_put_u8(&writer, 1, 1);
    npr_put_u16(&writer, 2, 0x102);
    npr_put_u32(&writer, 3, 0x1020304);
    npr_put_u64(&writer, 4, 0x102030405060708);
    npr_put_be16(&writer, 5, 0x102);
    npr_put_be32(&writer, 6, 0x1020304);
    npr_put(&writer, 7, NULL, 0);
    WANT(is_written(&writer, NUMBERS, sizeof NUMBERS));
    return 0;
}

static int answers(struct npr_answer answer, uint32_t status, uint32_t number, size_t length) {
    return answer.status == status && answer.number == number && answer.length == length;
}

/* Lengths that a header can't say, and places that can't be. */
static int limits(void) {
    static uint8_t out[65552], value[65532];
    WANT(answers(npr_put_at(out, sizeof out, 4, 1, value, 65531), NPR_WRITTEN, 0, 65540));
    WANT(out[4] == 255 && out[5] == 255 && answers(npr_put_at(out, 65539, 4, 1, value, 65531), NPR_SHORT, 0, 65540));
    WANT(answers(npr_put_at(out, sizeof out, 4, 1, value, 65532), NPR_UNFIT, NPR_TOO_LONG, 0));
    WANT(answers(npr_put_at(out, sizeof out, SIZE_MAX - 3, 1, value, 1), NPR_UNFIT, NPR_TOTAL, 0));
    WANT(answers(npr_put_at(out, sizeof out, SIZE_MAX - 8, 1, value, 1), NPR_SHORT, 0, SIZE_MAX));
    WANT(answers(npr_copy_at(out, 8, 4, value, 1), NPR_WRITTEN, 0, 8));
    WANT(answers(npr_copy_at(out, 7, 4, value, 1), NPR_SHORT, 0, 8));
    WANT(answers(npr_copy_at(out, 8, SIZE_MAX, value, 1), NPR_UNFIT, NPR_TOTAL, 0));
    WANT(answers(npr_end_at(out, sizeof out, 0, 65532), NPR_WRITTEN, 0, 65532) && out[0] == 252 && out[1] == 255);
    WANT(answers(npr_end_at(out, sizeof out, 0, 65536), NPR_UNFIT, NPR_TOO_LONG, 0));
    WANT(answers(npr_end_at(out, 8, 4, 4), NPR_REFUSED, NPR_ATTRIBUTE_LENGTH, 0));
    WANT(answers(npr_end_at(out, 8, 8, 4), NPR_REFUSED, NPR_ATTRIBUTE_LENGTH, 0));
    WANT(answers(npr_end_at(out, 8, 1, 7), NPR_REFUSED, NPR_ATTRIBUTE_LENGTH, 0));
    WANT(answers(npr_end_at(out, 8, 4, 12), NPR_REFUSED, NPR_ATTRIBUTE_LENGTH, 0));
    WANT(answers(npr_end_message_at(out, 32, 4, 31), NPR_WRITTEN, 0, 31) && out[4] == 27 && out[5] == 0);
    WANT(answers(npr_end_message_at(out, 32, 4, 19), NPR_REFUSED, NPR_MESSAGE_LENGTH, 0));
    WANT(answers(npr_end_message_at(out, 32, 4, 33), NPR_REFUSED, NPR_MESSAGE_LENGTH, 0));
    return 0;
}

int main(void) { return route() || rooms() || links() || numbers() || limits(); }
