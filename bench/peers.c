/* What libmnl and libnl make of the messages of a datagram, for the driver. Each answers a count, so that nothing of the work
 * is left out by the compiler. */
#include <libmnl/libmnl.h>
#include <linux/rtnetlink.h>
#include <netlink/msg.h>
#include <netlink/netlink.h>
#include <netlink/route/route.h>
#include <string.h>

/* the greatest number of an attribute that has a place in the table; links have greater ones */
#define GREATEST 40

static int put(const struct nlattr *attribute, void *data)
{
    const struct nlattr **table = data;
    if (mnl_attr_get_type(attribute) <= GREATEST)
        table[mnl_attr_get_type(attribute)] = attribute;
    return MNL_CB_OK;
}

static size_t header_of(uint16_t type)
{
    return type == RTM_NEWADDR ? sizeof(struct ifaddrmsg) : type == RTM_NEWLINK ? sizeof(struct ifinfomsg) : sizeof(struct rtmsg);
}

/* Pointers to the attributes of each message, in a table by their numbers: how many. No value is read. */
size_t peer_table(const void *datagram, size_t length)
{
    size_t count = 0;
    int left = (int)length;
    for (const struct nlmsghdr *message = datagram; mnl_nlmsg_ok(message, left); message = mnl_nlmsg_next(message, &left)) {
        const struct nlattr *table[GREATEST + 1] = {0};
        mnl_attr_parse(message, header_of(message->nlmsg_type), put, table);
        for (int number = 0; number <= GREATEST; number++)
            count += table[number] != NULL;
    }
    return count;
}

static void made(struct nl_object *object, void *data)
{
    (void)object;
    *(size_t *)data += 1;
}

/* An object of each message: how many it makes. libnl has a reader of routes that takes the bytes where they stand; for others it
 * is given a copy. */
size_t peer_objects(const void *datagram, size_t length)
{
    size_t count = 0;
    int left = (int)length;
    for (struct nlmsghdr *message = (void *)datagram; nlmsg_ok(message, left); message = nlmsg_next(message, &left)) {
        if (message->nlmsg_type == RTM_NEWROUTE) {
            struct rtnl_route *route = NULL;
            if (rtnl_route_parse(message, &route) >= 0 && route) {
                count++;
                rtnl_route_put(route);
            }
            continue;
        }
        struct nl_msg *copy = nlmsg_convert(message);
        if (copy) {
            nlmsg_set_proto(copy, NETLINK_ROUTE);
            nl_msg_parse(copy, made, &count);
            nlmsg_free(copy);
        }
    }
    return count;
}
