/* Calls the library for C in a thread with NPR_STACK bytes of stack, or with as many as the first word says. The
 * message is read from standard input, and how each call ends is printed. */

#define _POSIX_C_SOURCE 200809L

#include "netlink_packet_route.h"
#include <pthread.h>
#include <stdio.h>
#include <stdlib.h>

#define MOST (1 << 20)

struct kind {
    const char *name;
    struct npr_answer (*canonical)(const uint8_t *, size_t, uint8_t *, size_t);
    struct npr_fault (*fault)(const uint8_t *, size_t);
};

static const struct kind KINDS[] = {
    {"address", npr_address_canonical, npr_address_fault},
    {"route", npr_route_canonical, npr_route_fault},
    {"rule", npr_rule_canonical, npr_rule_fault},
    {"neighbour", npr_neighbour_canonical, npr_neighbour_fault},
    {"link", npr_link_canonical, npr_link_fault},
    {"nexthop", npr_next_hop_canonical, npr_next_hop_fault},
    {"nsid", npr_nsid_canonical, npr_nsid_fault},
    {"netconf", npr_netconf_canonical, npr_netconf_fault},
    {"address-label", npr_address_label_canonical, npr_address_label_fault},
    {"neighbour-table", npr_neighbour_table_canonical, npr_neighbour_table_fault},
    {"prefix", npr_prefix_canonical, npr_prefix_fault},
    {"tc", npr_tc_canonical, npr_tc_fault},
    {"tc-action", npr_tc_action_canonical, npr_tc_action_fault},
    {"stats", npr_stats_canonical, npr_stats_fault},
};

#define KIND_COUNT (sizeof KINDS / sizeof *KINDS)

static uint8_t bytes[MOST], room[3 * MOST];
static size_t length;
static struct npr_answer answers[KIND_COUNT];
static struct npr_fault faults[KIND_COUNT];

static void *ask(void *nothing) {
    for (size_t i = 0; i < KIND_COUNT; i++) {
        answers[i] = KINDS[i].canonical(bytes, length, room, sizeof room);
        faults[i] = KINDS[i].fault(bytes, length);
    }
    return nothing;
}

int main(int count, char **words) {
    pthread_attr_t attributes;
    pthread_t thread;
    size_t stack = count > 1 ? strtoul(words[1], NULL, 10) : NPR_STACK;
    length = fread(bytes, 1, sizeof bytes, stdin);
    if (ferror(stdin) || pthread_attr_init(&attributes) != 0)
        return 2;
    if (pthread_attr_setstacksize(&attributes, stack) != 0 || pthread_create(&thread, &attributes, ask, NULL) != 0 ||
        pthread_join(thread, NULL) != 0)
        return 2;
    for (size_t i = 0; i < KIND_COUNT; i++)
        printf("%s %u %u %zu %u\n", KINDS[i].name, answers[i].status, answers[i].number, answers[i].length,
               faults[i].number);
    return fflush(stdout) != 0;
}
