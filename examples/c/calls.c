/* Each call of the library with what it must answer. It ends with 0 where all is as it should be, and else with 1
 * and the first answer that is not. `make check` compiles it as C and as C++. */

#include "netlink_packet_route.h"
#include <linux/if_link.h>
#include <linux/rtnetlink.h>
#include <stdio.h>
#include <string.h>

#define LENGTH(array) (sizeof(array) / sizeof *(array))

#define WANT(is_so)                                                                                                    \
    do {                                                                                                               \
        if (!(is_so)) {                                                                                                \
            fprintf(stderr, "calls.c:%d: %s\n", __LINE__, #is_so);                                                     \
            return 1;                                                                                                  \
        }                                                                                                              \
    } while (0)

/* An address message: a local address, a label under NLA_F_NESTED, and three bytes that are no attribute. */
static const uint8_t ADDRESS[] = {2, 8, 128, 254, 1, 0,   0,   0,   8, 0, 1, 0, 127, 0,
                                  0, 1, 7,   0,   3, 128, 'l', 'o', 0, 0, 5, 0, 255};

/* A route message: RTA_MULTIPATH with a next hop of 13 bytes and one of 8. */
static const uint8_t ROUTE[] = {2, 0, 0, 0, 254, 3, 0,  1, 0, 0,   0,   0,   28, 0, 9, 0, 13, 0, 4, 5,
                                2, 0, 0, 0, 5,   0, 20, 0, 1, 170, 187, 204, 8,  0, 0, 0, 3,  0, 0, 0};

/* A datagram: a message of type 20 whose payload has 9 bytes, padding, an end of a dump, and a length that is one too
 * many. */
static const uint8_t DATAGRAM[] = {25, 0, 0, 0, 20, 0, 18, 0, 7, 0, 0, 0, 8, 1, 0, 0, 1, 2, 3, 4, 5, 6,
                                   7,  8, 9, 0, 0,  0, 20, 0, 0, 0, 3, 0, 2, 0, 7, 0, 0, 0, 8, 1, 0, 0,
                                   0,  0, 0, 0, 17, 0, 0,  0, 3, 0, 2, 0, 7, 0, 0, 0, 8, 1, 0, 0};

/* What a call for a fault is given, and what it must tell. */
struct told {
    uint32_t kind;
    uint8_t bytes[48];
    size_t length;
    struct npr_fault wanted;
};

static const struct told TOLD[] = {
    {NPR_KIND_ADDRESS, {2, 8, 128}, 3, {NPR_HEADER_TOO_SHORT, 0, 0, 0, 3, 8, 0}},
    {NPR_KIND_ADDRESS, {2, 8, 128, 254, 1, 0, 0, 0}, 8, {0, 0, 0, 0, 0, 0, 0}},
    {NPR_KIND_ADDRESS, {2, 8, 128, 254, 1, 0, 0, 0, 5, 0, 1}, 11, {NPR_ATTRIBUTE_TOO_SHORT, 0, 0, 0, 3, 0, 8}},
    {NPR_KIND_ADDRESS, {2, 8, 128, 254, 1, 0, 0, 0, 10, 0, 1, 0, 7}, 13, {NPR_ATTRIBUTE_LENGTH, 0, 0, 0, 10, 5, 8}},
    {NPR_KIND_ADDRESS,
     {2, 8, 128, 254, 1, 0, 0, 0, 6, 0, 3, 0, 255, 0},
     14,
     {NPR_NOT_UTF8, NPR_FAMILY_ADDRESS, 3, 0, 0, 0, 8}},
    {NPR_KIND_RULE,
     {2, 0, 0, 0, 254, 0, 0, 1, 0, 0, 0, 0, 4, 0, 2, 0},
     16,
     {NPR_VALUE_LENGTH, NPR_FAMILY_RULE, 2, 0, 0, 0, 12}},
    {NPR_KIND_ROUTE,
     {2, 0, 0, 0, 254, 3, 0, 5, 0, 0, 0, 0, 8, 0, 23, 0, 184, 11, 0, 0},
     20,
     {NPR_VALUE_LENGTH, NPR_FAMILY_ROUTE, 23, 0, 4, 0, 12}},
    {NPR_KIND_ROUTE,
     {2, 0, 0, 0, 254, 3, 0, 1, 0, 0, 0, 0, 7, 0, 9, 0, 8, 0, 0},
     19,
     {NPR_NEXT_HOP_TOO_SHORT, 0, 0, 0, 3, 0, 12}},
    {NPR_KIND_ROUTE,
     {2, 0, 0, 0, 254, 3, 0, 1, 0, 0, 0, 0, 12, 0, 9, 0, 7, 0, 0, 0, 1, 0, 0, 0},
     24,
     {NPR_NEXT_HOP_LENGTH, 0, 0, 0, 7, 8, 12}},
    {NPR_KIND_ROUTE,
     {2, 0, 0, 0, 254, 3, 0, 1, 0, 0, 0, 0, 6, 0, 18, 0, 0, 1},
     18,
     {NPR_VIA_FAMILY, 0, 0, 256, 0, 0, 12}},
    /* LWTUNNEL_ENCAP_SEG6 with a mode and no header behind it */
    {NPR_KIND_ROUTE,
     {2, 0, 0, 0, 254, 3, 0, 1, 0, 0, 0, 0, 12, 0, 22, 0, 8, 0, 1, 0, 0, 0, 0, 0, 6, 0, 21, 0, 5, 0},
     30,
     {NPR_SEG6_HEADER, 0, 0, NPR_SEG6_SHORT, 0, 0, 12}},
    /* LWTUNNEL_ENCAP_IP with an option of Geneve: a type before a class, and a child 9 */
    {NPR_KIND_ROUTE,
     {2,   0,  0, 0, 254, 3, 0, 1, 0, 0, 0, 0, 20, 0, 22, 128, 16, 0, 8,
      128, 12, 0, 1, 128, 5, 0, 2, 0, 7, 0, 0, 0,  6, 0,  21,  0,  2, 0},
     38,
     {NPR_GENEVE_ORDER, NPR_FAMILY_GENEVE, 2, 0, 0, 0, 12}},
    {NPR_KIND_ROUTE,
     {2,   0,  0, 0, 254, 3, 0, 1, 0, 0, 0, 0, 20, 0, 22, 128, 16, 0, 8,
      128, 12, 0, 1, 128, 5, 0, 9, 0, 7, 0, 0, 0,  6, 0,  21,  0,  2, 0},
     38,
     {NPR_GENEVE_CHILD, NPR_FAMILY_GENEVE, 9, 0, 0, 0, 12}},
    /* a local address, a label with its padding, and three bytes that are no attribute */
    {NPR_KIND_ADDRESS,
     {2, 8, 128, 254, 1, 0, 0, 0, 8, 0, 1, 0, 127, 0, 0, 1, 7, 0, 3, 0, 'l', 'o', 0, 0, 5, 0, 255},
     27,
     {NPR_ATTRIBUTE_TOO_SHORT, 0, 0, 0, 3, 0, 24}},
    /* the type of an encapsulation, an interface, and a next hop whose interface has two bytes */
    {NPR_KIND_ROUTE,
     {2, 0, 0, 0, 254, 3,  0, 1, 0, 0,  0, 0, 6, 0, 21, 0, 5, 0, 0, 0, 8, 0, 4,
      0, 2, 0, 0, 0,   18, 0, 9, 0, 14, 0, 0, 0, 1, 0,  0, 0, 6, 0, 4, 0, 1, 2},
     46,
     {NPR_VALUE_LENGTH, NPR_FAMILY_ROUTE, 4, 0, 2, 0, 28}},
    /* an encapsulation that the type behind it makes wrong, behind an interface */
    {NPR_KIND_ROUTE,
     {2, 0,  0, 0,  254, 3, 0, 1, 0, 0, 0, 0, 8, 0, 4, 0,  2, 0, 0,
      0, 12, 0, 22, 0,   8, 0, 1, 0, 0, 0, 0, 0, 6, 0, 21, 0, 5, 0},
     38,
     {NPR_SEG6_HEADER, 0, 0, NPR_SEG6_SHORT, 0, 0, 20}},
    /* a neighbour of version 4 on interface 3, reachable: its address, and then a port of one byte */
    {NPR_KIND_NEIGHBOUR,
     {2, 0, 0, 0, 3, 0, 0, 0, 2, 0, 0, 1, 8, 0, 1, 0, 192, 0, 2, 3, 5, 0, 6, 0, 7},
     25,
     {NPR_VALUE_LENGTH, NPR_FAMILY_NEIGHBOUR, 6, 0, 1, 0, 20}},
    {NPR_KIND_NEIGHBOUR, {2, 0, 0, 0, 3, 0, 0, 0, 2, 0, 0, 1, 8, 0, 1, 0, 192, 0, 2, 3}, 20, {0, 0, 0, 0, 0, 0, 0}},
    /* a link: four bytes of a header, a largest packet of two bytes, a name */
    {NPR_KIND_LINK, {17, 0, 0, 0}, 4, {NPR_HEADER_TOO_SHORT, 0, 0, 0, 4, 16, 0}},
    {NPR_KIND_LINK,
     {0, 0, 1, 0, 4, 0, 0, 0, 67, 16, 1, 0, 0, 0, 0, 0, 6, 0, 4, 0, 220, 5},
     22,
     {NPR_VALUE_LENGTH, NPR_FAMILY_LINK, 4, 0, 2, 0, 16}},
    {NPR_KIND_LINK,
     {0, 0, 4, 3, 1, 0, 0, 0, 73, 0, 1, 0, 0, 0, 0, 0, 7, 0, 3, 0, 'l', 'o', 0},
     23,
     {0, 0, 0, 0, 0, 0, 0}},
    /* a name, and data of a vlan whose number has four bytes */
    {NPR_KIND_LINK,
     {0,  0, 1,  0, 4, 0, 0, 0, 0,   0,   0,   0,   0,  0, 0, 0, 7, 0, 3, 0, 'l', 'o', 0, 0,
      24, 0, 18, 0, 8, 0, 1, 0, 'v', 'l', 'a', 'n', 12, 0, 2, 0, 8, 0, 1, 0, 100, 0,   0, 0},
     48,
     {NPR_VALUE_LENGTH, NPR_FAMILY_INFO_VLAN, 1, 0, 4, 0, 24}},
    /* a structure that takes 32 bytes, in 4 */
    {NPR_KIND_LINK,
     {0, 0, 1, 0, 4, 0, 0, 0, 0, 0, 0, 0, 0, 0, 0, 0, 8, 0, 14, 0, 0, 0, 0, 0},
     24,
     {NPR_HEADER_TOO_SHORT, 0, 0, 0, 4, 32, 16}},
};

static int same_fault(struct npr_fault one, struct npr_fault other) {
    return one.number == other.number && one.family == other.family && one.kind == other.kind &&
           one.detail == other.detail && one.length == other.length && one.limit == other.limit &&
           one.offset == other.offset;
}

static int same_step(struct npr_step step, uint16_t kind, size_t value, size_t length, size_t next) {
    return step.status == NPR_FOUND && step.number == 0 && step.kind == kind && step.value == value &&
           step.length == length && step.next == next;
}

static int steps(void) {
    struct npr_step step = npr_step_at(ADDRESS, sizeof ADDRESS, 8);
    WANT(same_step(step, 1, 12, 4, 16));
    step = npr_step_at(ADDRESS, sizeof ADDRESS, step.next);
    WANT(same_step(step, 0x8003, 20, 3, 24));
    step = npr_step_at(ADDRESS, sizeof ADDRESS, step.next);
    WANT(step.status == NPR_FAULT && step.number == NPR_ATTRIBUTE_TOO_SHORT && step.next == 0);
    WANT(npr_step_at(ADDRESS, 24, 24).status == NPR_END);
    WANT(npr_step_at(ADDRESS, sizeof ADDRESS, SIZE_MAX).status == NPR_END);
    return 0;
}

static int finds(void) {
    WANT(same_step(npr_find(ADDRESS, sizeof ADDRESS, 8, 1), 1, 12, 4, 16));
    WANT(same_step(npr_find(ADDRESS, sizeof ADDRESS, 8, 3), 0x8003, 20, 3, 24));
    WANT(npr_find(ADDRESS, sizeof ADDRESS, 16, 1).number == NPR_ATTRIBUTE_TOO_SHORT);
    WANT(npr_find(ADDRESS, 24, 16, 1).status == NPR_END);
    return 0;
}

static int next_hops(void) {
    struct npr_next_hop hop = npr_next_hop_at(ROUTE, sizeof ROUTE, 16);
    WANT(hop.status == NPR_FOUND && hop.flags == 4 && hop.hops == 5 && hop.interface_index == 2);
    WANT(hop.attributes == 24 && hop.end == 29 && hop.next == 32);
    WANT(same_step(npr_step_at(ROUTE, hop.end, hop.attributes), 20, 28, 1, 29));
    hop = npr_next_hop_at(ROUTE, sizeof ROUTE, hop.next);
    WANT(hop.status == NPR_FOUND && hop.flags == 0 && hop.interface_index == 3);
    WANT(hop.attributes == 40 && hop.end == 40 && hop.next == 40);
    WANT(npr_next_hop_at(ROUTE, sizeof ROUTE, hop.next).status == NPR_END);
    WANT(npr_next_hop_at(ROUTE, sizeof ROUTE, 33).number == NPR_NEXT_HOP_TOO_SHORT);
    WANT(npr_next_hop_at(ROUTE, 31, 20).number == NPR_NEXT_HOP_LENGTH);
    return 0;
}

static int same_value(struct npr_value value, uint32_t family, uint16_t kind, uint16_t form, uint64_t integer, size_t length) {
    return value.status == NPR_FOUND && value.family == family && value.kind == kind && value.form == form &&
           value.integer == integer && value.length == length;
}

static int values(void) {
    struct npr_value value;
    struct npr_reader inside, reader = npr_read(ADDRESS, npr_begin(NPR_KIND_ADDRESS, ADDRESS, sizeof ADDRESS));
    WANT(npr_next(&reader, &value) && same_value(value, NPR_FAMILY_ADDRESS, 1, NPR_FORM_ADDRESS, 0, 4));
    WANT(npr_bytes(&reader, &value) == ADDRESS + 12 && !npr_enter(&reader, &value, &inside));
    WANT(npr_next(&reader, &value) && same_value(value, NPR_FAMILY_ADDRESS, 3, NPR_FORM_NAME, 0, 2));
    WANT(memcmp(npr_text(&reader, &value), "lo", 2) == 0);
    WANT(!npr_next(&reader, &value) && value.number == NPR_ATTRIBUTE_TOO_SHORT);
    WANT(npr_begin(NPR_KIND_ADDRESS, ADDRESS, 7).number == NPR_HEADER_TOO_SHORT);
    return 0;
}

static int values_inside(void) {
    struct npr_value value;
    struct npr_reader reader = npr_read(ROUTE, npr_begin(NPR_KIND_ROUTE, ROUTE, sizeof ROUTE));
    WANT(npr_next(&reader, &value) && same_value(value, NPR_FAMILY_ROUTE, 9, NPR_FORM_INSIDE, 0, 24));
    struct npr_next_hop hop = npr_first_hop(&reader, &value);
    struct npr_reader inside = npr_enter_hop(&reader, &hop);
    struct npr_value preference;
    WANT(npr_next(&inside, &preference) && same_value(preference, NPR_FAMILY_ROUTE, 20, NPR_FORM_U8, ROUTE[28], 1));
    hop = npr_hop_behind(&reader, &value, hop);
    inside = npr_enter_hop(&reader, &hop);
    WANT(hop.interface_index == 3 && !npr_next(&inside, &preference) && preference.status == NPR_END);
    WANT(!npr_next(&reader, &value) && value.status == NPR_END);
    return 0;
}

static int conversations(void) {
    struct npr_conversation talk = {7, 0, 0, 0};
    struct npr_heard heard = npr_hear(&talk, DATAGRAM, sizeof DATAGRAM);
    WANT(heard.status == NPR_ANSWER && heard.message_type == 20 && heard.payload == 16 && heard.length == 9);
    heard = npr_hear(&talk, DATAGRAM, sizeof DATAGRAM);
    WANT(heard.status == NPR_ENDED && heard.ending == NPR_INTERRUPTED && heard.interrupted == 1);
    struct npr_conversation other = {8, 0, 0, 0};
    WANT(npr_hear(&other, DATAGRAM, sizeof DATAGRAM).status == NPR_FOREIGN);
    other.at = sizeof DATAGRAM;
    WANT(npr_hear(&other, DATAGRAM, sizeof DATAGRAM).status == NPR_NO_MORE);
    return 0;
}

static int messages(void) {
    struct npr_message message = npr_message_at(DATAGRAM, sizeof DATAGRAM, 0);
    WANT(message.status == NPR_FOUND && message.message_type == 20 && message.flags == 18 &&
         message.sequence_number == 7);
    WANT(message.port_number == 264 && message.payload == 16 && message.length == 9 && message.next == 28);
    message = npr_message_at(DATAGRAM, sizeof DATAGRAM, message.next);
    WANT(message.status == NPR_FOUND && message.message_type == 3 && message.payload == 44 && message.length == 4 &&
         message.next == 48);
    WANT(npr_message_at(DATAGRAM, sizeof DATAGRAM, message.next).number == NPR_MESSAGE_LENGTH);
    WANT(npr_message_at(DATAGRAM, sizeof DATAGRAM - 1, message.next).number == NPR_MESSAGE_TOO_SHORT);
    WANT(npr_message_at(DATAGRAM, 48, message.next).status == NPR_END);
    return 0;
}

static int faults(void) {
    for (size_t i = 0; i < LENGTH(TOLD); i++)
        WANT(same_fault(npr_fault_of(TOLD[i].kind, TOLD[i].bytes, TOLD[i].length), TOLD[i].wanted));
    return 0;
}

/* The kinds of types of linux/rtnetlink.h, first and last of each, and of types that are none. */
static const struct {
    uint16_t type;
    uint32_t kind;
} TYPES[] = {
    {16, NPR_KIND_LINK}, {19, NPR_KIND_LINK},
    {20, NPR_KIND_ADDRESS}, {22, NPR_KIND_ADDRESS},
    {24, NPR_KIND_ROUTE}, {26, NPR_KIND_ROUTE},
    {28, NPR_KIND_NEIGHBOUR}, {30, NPR_KIND_NEIGHBOUR},
    {32, NPR_KIND_RULE}, {34, NPR_KIND_RULE},
    {52, NPR_KIND_PREFIX},
    {64, NPR_KIND_NEIGHBOUR_TABLE}, {66, NPR_KIND_NEIGHBOUR_TABLE}, {67, NPR_KIND_NEIGHBOUR_TABLE},
    {72, NPR_KIND_ADDRESS_LABEL}, {74, NPR_KIND_ADDRESS_LABEL},
    {80, NPR_KIND_NETCONF}, {82, NPR_KIND_NETCONF},
    {88, NPR_KIND_NSID}, {90, NPR_KIND_NSID},
    {104, NPR_KIND_NEXT_HOP}, {106, NPR_KIND_NEXT_HOP},
    {108, NPR_KIND_LINK}, {110, NPR_KIND_LINK},
    {116, NPR_KIND_NEXT_HOP}, {118, NPR_KIND_NEXT_HOP},
    {36, NPR_KIND_TC}, {46, NPR_KIND_TC}, {48, NPR_KIND_TC_ACTION}, {50, NPR_KIND_TC_ACTION}, {102, NPR_KIND_TC},
    {92, NPR_KIND_STATS}, {94, 0},
    {0, 0}, {3, 0}, {23, 0}, {39, 0}, {65, 0}, {68, 0}, {119, 0}, {65535, 0},
};

static int kinds(void) {
    uint8_t out[8] = {1, 2, 3, 4, 5, 6, 7, 8};
    for (size_t i = 0; i < LENGTH(TYPES); i++)
        WANT(npr_kind_of(TYPES[i].type) == TYPES[i].kind);
    for (uint32_t kind = 1; kind <= NPR_KIND_STATS; kind++)
        WANT(npr_fault_of(kind, ADDRESS, 3).number == NPR_HEADER_TOO_SHORT);
    for (uint32_t kind = 0; kind < 300; kind += kind == 0 ? 15 : 1) {
        struct npr_answer answer = npr_canonical(kind, ADDRESS, 24, out, sizeof out);
        WANT(answer.status == NPR_REFUSED && answer.number == NPR_UNKNOWN_KIND && answer.length == 0 && out[0] == 1 && out[7] == 8);
        struct npr_fault wanted = {NPR_UNKNOWN_KIND, 0, 0, 0, 0, 0, 0};
        WANT(same_fault(npr_fault_of(kind, ADDRESS, 24), wanted));
        struct npr_list list = npr_begin(kind, ADDRESS, 24);
        WANT(list.status == NPR_FAULT && list.number == NPR_UNKNOWN_KIND && list.at == 0 && list.end == 0);
    }
    return 0;
}

/* The calls with a kind in their name are those of its number. */
static int names_of_kinds(void) {
    uint8_t out[64];
    WANT(npr_address_canonical(ADDRESS, 24, out, sizeof out).length == npr_canonical(NPR_KIND_ADDRESS, ADDRESS, 24, out, sizeof out).length);
    WANT(same_fault(npr_route_fault(ROUTE, 15), npr_fault_of(NPR_KIND_ROUTE, ROUTE, 15)));
    WANT(npr_link_begin(ROUTE, sizeof ROUTE).at == 16 && npr_nsid_begin(ROUTE, sizeof ROUTE).at == 4);
    return 0;
}

/* The texts of the header are the names of the library. */
static int names(void) {
    char name[NPR_NAME_ROOM];
    for (uint32_t number = 0; number < 32; number++) {
        npr_refusal_name(number, name, sizeof name);
        WANT(strcmp(name, npr_refusal_text(number)) == 0);
        npr_cause_name(number, name, sizeof name);
        WANT(strcmp(name, npr_cause_text(number)) == 0);
    }
    return 0;
}

/* Attributes have the kernel's names (linux/if_link.h, linux/rtnetlink.h), and what is not there has none. */
static int attribute_names(void) {
    char name[NPR_ATTRIBUTE_ROOM] = "as it was";
    WANT(npr_attribute_name(NPR_FAMILY_LINK, IFLA_MTU, name, 8) == 8 && strcmp(name, "as it was") == 0);
    WANT(npr_attribute_name(NPR_FAMILY_LINK, IFLA_MTU, name, 9) == 8 && strcmp(name, "IFLA_MTU") == 0);
    WANT(npr_attribute_name(NPR_FAMILY_INFO_BOND_PORT, IFLA_BOND_SLAVE_AD_PARTNER_OPER_PORT_STATE, name, sizeof name) == 42);
    WANT(strcmp(name, "IFLA_BOND_SLAVE_AD_PARTNER_OPER_PORT_STATE") == 0);
    WANT(npr_attribute_name(NPR_FAMILY_METRIC, RTAX_MTU, name, sizeof name) == 8 && strcmp(name, "RTAX_MTU") == 0);
    WANT(npr_attribute_name(NPR_FAMILY_ROUTE, 999, name, sizeof name) == 0 && name[0] == 0);
    WANT(npr_attribute_name(999, 1, name, sizeof name) == 0 && name[0] == 0);
    return 0;
}

/* A table of two bytes in a route, and in what a driver says of a VLAN a number of four: each by its name, its lengths and its place. */
static int fault_texts(void) {
    static const uint8_t route[] = {2, 0, 0, 0, 254, 3, 0, 1, 0, 0, 0, 0, 6, 0, RTA_TABLE, 0, 1, 2, 0, 0};
    static const uint8_t link[] = {0, 0, 0, 0, 0, 0, 0, 0, 0, 0, 0, 0, 0, 0, 0, 0, 28, 0, IFLA_LINKINFO, 0,
                                   9, 0, IFLA_INFO_KIND, 0, 'v', 'l', 'a', 'n', 0, 0, 0, 0, 12, 0, IFLA_INFO_DATA, 0,
                                   8, 0, IFLA_VLAN_ID, 0, 100, 0, 0, 0};
    char text[NPR_TEXT_ROOM];
    WANT(npr_fault_text(NPR_KIND_ROUTE, route, sizeof route, text, sizeof text) == strlen(text));
    WANT(strcmp(text, "a value of 2 bytes at RTA_TABLE (15), where 4 are wanted, at byte 12") == 0);
    npr_fault_text(NPR_KIND_LINK, link, sizeof link, text, sizeof text);
    WANT(strcmp(text, "a value of 4 bytes at IFLA_VLAN_ID (1), where 2 are wanted, in IFLA_LINKINFO (18) at byte 16") == 0);
    WANT(npr_fault_text(NPR_KIND_ROUTE, route, 12, text, sizeof text) == 0 && text[0] == 0);
    npr_fault_text(0, route, 12, text, sizeof text);
    WANT(strcmp(text, "no such kind of messages") == 0);
    return 0;
}

static int version(void) {
    char text[32];
    snprintf(text, sizeof text, "%d.%d.%d", NPR_VERSION_MAJOR, NPR_VERSION_MINOR, NPR_VERSION_PATCH);
    WANT(strcmp(text, NPR_VERSION) == 0);
    WANT(npr_version() == NPR_VERSION_MAJOR * 65536 + NPR_VERSION_MINOR * 256 + NPR_VERSION_PATCH);
    return 0;
}

int main(void) {
    return steps() || finds() || next_hops() || values() || values_inside() || conversations() || messages() || faults() || kinds() ||
           names_of_kinds() || names() || attribute_names() || fault_texts() ||
           version();
}
