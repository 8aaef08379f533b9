/* Asks the kernel for a table, and prints each message of the answer in a line: its kind, the bytes of its header, and its values
 * behind the names of their attributes.
 *
 *   dump [-4|-6] [-w FILE] address|route|rule|neighbour|link|next_hop|nsid|netconf|address_label|neighbour_table
 *   dump -r FILE
 *   dump monitor
 *
 * With -w the datagrams of the answer are written to a file as they came, one behind the other; with -r such a
 * file is read in place of an answer. The bytes are read by the library's calls alone. With `monitor` what the kernel
 * tells of changes in these tables is written to standard output as it comes, until the program is stopped.
 *
 * It ends with 0; or with a line on standard error and 1 (a message is refused, or the kernel refused the request),
 * 2 (the usage), 3 (the tables changed while they were read: ask again) or 5 (reading or writing failed). */

#define _POSIX_C_SOURCE 200809L

#include "monitor.h"
#include "netlink_packet_route.h"
#include <arpa/inet.h>
#include <errno.h>
#include <inttypes.h>
#include <linux/if_link.h>
#include <linux/netlink.h>
#include <linux/rtnetlink.h>
#include <stdbool.h>
#include <stdio.h>
#include <stdlib.h>
#include <string.h>
#include <sys/socket.h>
#include <unistd.h>

#define USAGE                                                                                                          \
    "usage: dump [-4|-6] [-w FILE] KIND\n       dump -r FILE\n       dump monitor\nKIND: address, route, rule, neighbour, link, "      \
    "next_hop, nsid, netconf, address_label or neighbour_table"

enum ending { WELL = 0, REFUSED = 1, UNKNOWN_WORD = 2, INTERRUPTED = 3, FAILED = 5 };

/* A kind of message: its name, the type of a request for all, or 0, and the bytes of its header. */
struct kind {
    uint32_t number;
    const char *name;
    uint16_t asked;
    size_t header;
};

static const struct kind KINDS[] = {
    {NPR_KIND_ADDRESS, "address", RTM_GETADDR, 8},
    {NPR_KIND_ROUTE, "route", RTM_GETROUTE, 12},
    {NPR_KIND_RULE, "rule", RTM_GETRULE, 12},
    {NPR_KIND_NEIGHBOUR, "neighbour", RTM_GETNEIGH, 12},
    {NPR_KIND_LINK, "link", RTM_GETLINK, 16},
    {NPR_KIND_NEXT_HOP, "next_hop", RTM_GETNEXTHOP, 8},
    {NPR_KIND_NSID, "nsid", RTM_GETNSID, 4},
    {NPR_KIND_NETCONF, "netconf", RTM_GETNETCONF, 4},
    {NPR_KIND_ADDRESS_LABEL, "address_label", RTM_GETADDRLABEL, 12},
    {NPR_KIND_NEIGHBOUR_TABLE, "neighbour_table", RTM_GETNEIGHTBL, 4},
    {NPR_KIND_PREFIX, "prefix", 0, 12},
    {NPR_KIND_TC, "tc", RTM_GETQDISC, 20},
    {NPR_KIND_TC_ACTION, "tc_action", 0, 4},
    {NPR_KIND_STATS, "stats", 0, 12},
};

#define KIND_COUNT (sizeof KINDS / sizeof *KINDS)

/* Printing */

/* A name, with `?` for what is no plain character. */
static void print_text(const char *text, size_t length) {
    for (size_t i = 0; i < length; i++)
        putchar(text[i] > ' ' && text[i] < 0x7f ? text[i] : '?');
}

/* Bytes, as those of an address on the link. */
static void print_bytes(const uint8_t *bytes, size_t length) {
    for (size_t i = 0; i < length; i++)
        printf("%s%02x", i == 0 ? "" : ":", bytes[i]);
}

/* A value, as its form says. */
static void print_plain(const struct npr_reader *reader, const struct npr_value *value) {
    char text[INET6_ADDRSTRLEN];
    const uint8_t *bytes = npr_bytes(reader, value);
    if (value->form == NPR_FORM_ADDRESS)
        fputs(inet_ntop(value->length == 4 ? AF_INET : AF_INET6, bytes, text, sizeof text), stdout);
    else if (value->form == NPR_FORM_NAME)
        print_text(npr_text(reader, value), value->length);
    else if (value->form == NPR_FORM_I32 || value->form == NPR_FORM_I64)
        printf("%" PRId64, npr_signed64(value));
    else if (value->form <= NPR_FORM_BOOL)
        printf("%" PRIu64, value->integer);
    else
        print_bytes(bytes, value->length);
}

static void print_values(struct npr_reader reader);

/* The next hops of a route, each with its interface. */
static void print_next_hops(const struct npr_reader *reader, const struct npr_value *value) {
    struct npr_next_hop hop = npr_first_hop(reader, value);
    for (; hop.status == NPR_FOUND; hop = npr_hop_behind(reader, value, hop)) {
        printf("{ %u", (unsigned)hop.interface_index);
        print_values(npr_enter_hop(reader, &hop));
        fputs(" } ", stdout);
    }
}

/* The values of a list, each behind the name of its attribute, with those of the lists in them. */
static void print_values(struct npr_reader reader) {
    char name[NPR_ATTRIBUTE_ROOM];
    struct npr_reader inside;
    for (struct npr_value value; npr_next(&reader, &value);) {
        if (npr_attribute_name(value.family, value.kind, name, sizeof name) == 0)
            snprintf(name, sizeof name, "%u", value.kind);
        printf(" %s ", name);
        if (npr_enter(&reader, &value, &inside)) {
            putchar('{');
            print_values(inside);
            fputs(" }", stdout);
        } else if (value.family == NPR_FAMILY_ROUTE && value.kind == RTA_MULTIPATH) {
            print_next_hops(&reader, &value);
        } else {
            print_plain(&reader, &value);
        }
    }
}

/* Whether a type says that something is gone: of the types of a kind the second one. */
static bool is_deleted(uint16_t type) { return type % 4 == RTM_DELLINK % 4; }

/* The kind of the messages of a type, or none. */
static const struct kind *kind_of(uint16_t type) {
    uint32_t number = npr_kind_of(type);
    for (size_t i = 0; i < KIND_COUNT; i++)
        if (KINDS[i].number == number)
            return &KINDS[i];
    return NULL;
}

/* Prints a line for a message of this type. Answers whether it is what its type says. */
static bool print_line(uint16_t type, const uint8_t *bytes, size_t length) {
    const struct kind *kind = kind_of(type);
    if (kind == NULL) {
        printf("type %u, %zu bytes\n", type, length);
        return true;
    }
    char text[NPR_TEXT_ROOM];
    struct npr_fault fault = npr_fault_of(kind->number, bytes, length);
    printf("%s%s", is_deleted(type) ? "deleted " : "", kind->name);
    if (fault.number == 0) {
        putchar(' ');
        print_bytes(bytes, kind->header);
        print_values(npr_read(bytes, npr_begin(kind->number, bytes, length)));
    } else {
        npr_fault_text(kind->number, bytes, length, text, sizeof text);
        printf(" refused: %s: %s", npr_refusal_text(fault.number), text);
    }
    putchar('\n');
    return fault.number == 0;
}

/* Datagrams */

/* Prints the messages of the answer that stand in a datagram. Answers how the datagram or the answer ends. */
static struct npr_heard walk_over(struct npr_conversation *talk, const uint8_t *datagram, size_t length, bool *is_wrong) {
    struct npr_heard heard = npr_hear(talk, datagram, length);
    for (; heard.status == NPR_ANSWER || heard.status == NPR_FOREIGN; heard = npr_hear(talk, datagram, length))
        if (heard.status == NPR_ANSWER)
            *is_wrong |= !print_line(heard.message_type, datagram + heard.payload, heard.length);
    return heard;
}

/* How the program ends, by how the answer did. */
static int ending_of(struct npr_heard heard, bool is_wrong) {
    if (heard.ending == NPR_INTERRUPTED)
        fprintf(stderr, "the tables changed while they were read: ask again\n");
    if (heard.ending == NPR_REFUSED_REQUEST)
        fprintf(stderr, "refused by the kernel: %s\n", strerror(-heard.code));
    if (heard.ending >= NPR_OVERRUN)
        fprintf(stderr, "no whole answer\n");
    if (is_wrong || heard.ending == NPR_REFUSED_REQUEST || heard.ending >= NPR_OVERRUN)
        return REFUSED;
    return heard.ending == NPR_INTERRUPTED ? INTERRUPTED : WELL;
}

static int fail(const char *what) {
    perror(what);
    return FAILED;
}

/* A file holds the answers to one request or more. It is taken for one datagram: each of a kernel's ends at a multiple of four. */
static int read_file(const char *path) {
    static uint8_t bytes[1 << 24];
    FILE *file = fopen(path, "rb");
    if (file == NULL)
        return fail(path);
    size_t length = fread(bytes, 1, sizeof bytes, file);
    bool is_wrong = ferror(file) || length == sizeof bytes;
    fclose(file);
    if (is_wrong)
        return fail(path);
    struct npr_conversation talk = {0, 0, 0, 0};
    struct npr_heard heard;
    int status;
    do {
        talk.sequence_number = npr_message_at(bytes, length, talk.at).sequence_number;
        talk.interrupted = 0;
        heard = walk_over(&talk, bytes, length, &is_wrong);
        status = ending_of(heard, is_wrong);
    } while (status == WELL && heard.next != 0 && heard.next < length);
    return status;
}

/* Asks for a table: a request to dump, with a header of zeros but for the family. Behind that of links stands what is wanted of
 * them besides: virtual functions, and no statistics. */
static int request(int socket, const struct kind *kind, uint8_t family, uint32_t sequence) {
    uint8_t out[64];
    const uint8_t header[16] = {family};
    struct npr_writer writer = npr_write(out, sizeof out);
    size_t message = npr_begin_message(&writer, kind->asked, NLM_F_REQUEST | NLM_F_DUMP, sequence);
    npr_put_header(&writer, header, kind->header);
    if (kind->number == NPR_KIND_LINK)
        npr_put_u32(&writer, IFLA_EXT_MASK, RTEXT_FILTER_VF | RTEXT_FILTER_SKIP_STATS);
    npr_end_message(&writer, message);
    return writer.status != NPR_WRITTEN || send(socket, out, writer.at, 0) < 0 ? -1 : 0;
}

/* Reads the answer to its end, and writes its datagrams to the file, if there is one. */
static int read_answer(int socket, uint32_t sequence, FILE *file) {
    static uint8_t bytes[1 << 16];
    struct npr_conversation talk = {sequence, 0, 0, 0};
    struct npr_heard heard = {.status = NPR_NO_MORE};
    bool is_wrong = false;
    while (heard.status == NPR_NO_MORE) {
        ssize_t length = recv(socket, bytes, sizeof bytes, MSG_TRUNC);
        if (length < 0 && errno == EINTR)
            continue;
        if (length <= 0 || (size_t)length > sizeof bytes)
            return fail("read");
        if (file != NULL && fwrite(bytes, 1, (size_t)length, file) != (size_t)length)
            return fail("write");
        talk.at = 0;
        heard = walk_over(&talk, bytes, (size_t)length, &is_wrong);
    }
    return ending_of(heard, is_wrong);
}

static int dump(const struct kind *kind, uint8_t family, const char *path) {
    FILE *file = path != NULL ? fopen(path, "wb") : NULL;
    int opened = socket(AF_NETLINK, SOCK_RAW | SOCK_CLOEXEC, NETLINK_ROUTE);
    int status = FAILED;
    if ((path != NULL && file == NULL) || opened < 0)
        status = fail(opened < 0 ? "socket" : path);
    else if (request(opened, kind, family, 1) != 0)
        status = fail("write");
    else
        status = read_answer(opened, 1, file);
    if (opened >= 0)
        close(opened);
    if (file != NULL && fclose(file) != 0)
        status = fail(path);
    return status;
}

/* Does what the word behind the options names. */
static int run(const char *word, bool has_options, uint8_t family, const char *path) {
    if (!has_options && strcmp(word, "monitor") == 0)
        return monitor() == 0 ? WELL : FAILED;
    for (size_t i = 0; i < KIND_COUNT; i++)
        if (strcmp(KINDS[i].name, word) == 0 && KINDS[i].asked != 0)
            return dump(&KINDS[i], family, path);
    return UNKNOWN_WORD;
}

int main(int count, char **words) {
    uint8_t family = AF_UNSPEC;
    const char *to = NULL, *from = NULL;
    for (int option; (option = getopt(count, words, "46w:r:")) != -1;) {
        if (option == '?')
            return UNKNOWN_WORD;
        family = option == '4' ? AF_INET : option == '6' ? AF_INET6 : family;
        to = option == 'w' ? optarg : to;
        from = option == 'r' ? optarg : from;
    }
    int status = UNKNOWN_WORD;
    if (from == NULL && optind == count - 1)
        status = run(words[optind], optind > 1, family, to);
    if (from != NULL && optind == count)
        status = read_file(from);
    if (status == UNKNOWN_WORD)
        fprintf(stderr, "%s\n", USAGE);
    return fflush(stdout) != 0 ? fail("write") : status;
}
