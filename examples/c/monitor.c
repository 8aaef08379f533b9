/* What the kernel tells of changes in its tables, handed on as it comes. */

#define _POSIX_C_SOURCE 200809L

#include "monitor.h"
#include <errno.h>
#include <linux/netlink.h>
#include <linux/rtnetlink.h>
#include <stdbool.h>
#include <stdint.h>
#include <stdio.h>
#include <sys/socket.h>
#include <unistd.h>

static int fail(const char *what) {
    perror(what);
    return -1;
}

/* The groups to which the kernel tells changes in the tables. */
static const int GROUPS[] = {RTNLGRP_LINK,      RTNLGRP_NEIGH,       RTNLGRP_IPV4_IFADDR, RTNLGRP_IPV4_ROUTE,
                             RTNLGRP_IPV4_RULE, RTNLGRP_IPV6_IFADDR, RTNLGRP_IPV6_ROUTE,  RTNLGRP_IPV6_RULE};

/* Takes a port, without which the kernel tells a socket nothing, and joins each group. */
static int join_groups(int socket) {
    struct sockaddr_nl own = {.nl_family = AF_NETLINK};
    if (bind(socket, (struct sockaddr *)&own, sizeof own) != 0)
        return -1;
    for (size_t i = 0; i < sizeof GROUPS / sizeof *GROUPS; i++)
        if (setsockopt(socket, SOL_NETLINK, NETLINK_ADD_MEMBERSHIP, &GROUPS[i], sizeof GROUPS[i]) != 0)
            return -1;
    return 0;
}

/* Writes all of a datagram at once, for whoever reads along. */
static bool is_written(const uint8_t *datagram, size_t length) {
    return fwrite(datagram, 1, length, stdout) == length && fflush(stdout) == 0;
}

/* Hands on what the kernel sends, up to a fault. Where it came faster than it was read, the kernel dropped some. */
static int follow(int socket) {
    static uint8_t bytes[1 << 16];
    for (;;) {
        struct sockaddr_nl sender = {0};
        socklen_t size = sizeof sender;
        ssize_t length = recvfrom(socket, bytes, sizeof bytes, MSG_TRUNC, (struct sockaddr *)&sender, &size);
        if (length < 0 && errno == ENOBUFS) {
            fprintf(stderr, "changes came too quickly, and some are lost\n");
            continue;
        }
        if (length < 0 && errno == EINTR)
            continue;
        if (length <= 0)
            return fail("read");
        if ((size_t)length > sizeof bytes) {
            fprintf(stderr, "a datagram of %zd bytes is lost, since only %zu have room\n", length, sizeof bytes);
            continue;
        }
        /* port 0 is the kernel's */
        if (sender.nl_pid == 0 && !is_written(bytes, (size_t)length))
            return fail("write");
    }
}

int monitor(void) {
    int opened = socket(AF_NETLINK, SOCK_RAW | SOCK_CLOEXEC, NETLINK_ROUTE);
    if (opened < 0)
        return fail("socket");
    int status = join_groups(opened) != 0 ? fail("groups") : follow(opened);
    close(opened);
    return status;
}
