/* Reads a message of rtnetlink as hexadecimal text from standard input and prints the report on it,
 * as the program of crates/nlroute does; or compares answers with those that stand in files.
 *
 *   nlroute KIND
 *   nlroute compare KIND FILE.. [KIND FILE..]
 *
 * A KIND is address, route, rule, neighbour, link, nexthop, nsid, netconf, address-label, neighbour-table,
 * prefix, tc, tc-action or stats.
 *
 * It ends with 0 and the report; or with one line on standard error and 1 (refused), 2 (bad
 * hexadecimal text, or the usage), 3 (unfit), 4 (out of memory) or 5 (reading or writing failed). A
 * comparison ends with 1 where an answer differs, and with 2 where a file can't be read. */

#define _POSIX_C_SOURCE 200809L

#include "netlink_packet_route.h"
#include <stdbool.h>
#include <stdio.h>
#include <stdlib.h>
#include <string.h>

#define KIND_NAMES "address|route|rule|neighbour|link|nexthop|nsid|netconf|address-label|neighbour-table|prefix|tc|tc-action|stats"
#define USAGE "usage: nlroute " KIND_NAMES "\n       nlroute compare " KIND_NAMES " FILE.."

enum ending { WELL = 0, REFUSED = 1, BAD_HEX = 2, UNFIT = 3, MEMORY = 4, FAILED = 5 };

/* A kind of message: its name, its number, and the bytes of its header. */
struct kind {
    const char *name;
    uint32_t number;
    size_t header;
};

static const struct kind KINDS[] = {
    {"address", NPR_KIND_ADDRESS, 8},
    {"route", NPR_KIND_ROUTE, 12},
    {"rule", NPR_KIND_RULE, 12},
    {"neighbour", NPR_KIND_NEIGHBOUR, 12},
    {"link", NPR_KIND_LINK, 16},
    {"nexthop", NPR_KIND_NEXT_HOP, 8},
    {"nsid", NPR_KIND_NSID, 4},
    {"netconf", NPR_KIND_NETCONF, 4},
    {"address-label", NPR_KIND_ADDRESS_LABEL, 12},
    {"neighbour-table", NPR_KIND_NEIGHBOUR_TABLE, 4},
    {"prefix", NPR_KIND_PREFIX, 12},
    {"tc", NPR_KIND_TC, 20},
    {"tc-action", NPR_KIND_TC_ACTION, 4},
    {"stats", NPR_KIND_STATS, 12},
};

static const struct kind *kind_of(const char *name) {
    for (size_t i = 0; i < sizeof KINDS / sizeof *KINDS; i++)
        if (strcmp(KINDS[i].name, name) == 0)
            return &KINDS[i];
    return NULL;
}

/* Bytes on the heap; `at` is never null. */
struct bytes {
    uint8_t *at;
    size_t length;
};

/* Room for so many bytes, or `at` null where memory is refused. */
static struct bytes room_for(size_t length) { return (struct bytes){malloc(length ? length : 1), length}; }

static int digit_of(uint8_t c) {
    if (c >= '0' && c <= '9')
        return c - '0';
    if (c >= 'a' && c <= 'f')
        return c - 'a' + 10;
    return c >= 'A' && c <= 'F' ? c - 'A' + 10 : -1;
}

/* The place behind a blank, a colon, `0x` or a comment at this place, or the place itself. */
static size_t passed(const struct bytes *text, size_t at) {
    if (memchr(" \t\n\r:", text->at[at], 5) != NULL)
        return at + 1;
    if (text->at[at] == '0' && at + 1 < text->length && (text->at[at + 1] == 'x' || text->at[at + 1] == 'X'))
        return at + 2;
    if (text->at[at] == '#')
        while (at < text->length && text->at[at] != '\n')
            at++;
    return at;
}

/* Makes the bytes of hexadecimal text in its place. With `loose`, blanks, colons, `0x` and comments may
 * stand before, between and after pairs. Answers whether it is such a text. */
static bool decode(struct bytes *text, bool loose) {
    size_t count = 0;
    for (size_t i = 0; i < text->length; i++) {
        size_t next = loose ? passed(text, i) : i;
        if (next != i) {
            i = next - 1;
            continue;
        }
        int high = digit_of(text->at[i++]);
        int low = i < text->length ? digit_of(text->at[i]) : -1;
        if (high < 0 || low < 0)
            return false;
        text->at[count++] = (uint8_t)(high * 16 + low);
    }
    text->length = count;
    return true;
}

static void print_hex(FILE *out, const uint8_t *bytes, size_t length) {
    for (size_t i = 0; i < length; i++)
        fprintf(out, "%02x", bytes[i]);
}

/* The library's answer for the bytes, in a buffer that is never too short. */
static bool ask(const struct kind *kind, struct bytes bytes, struct bytes *out, struct npr_answer *answer) {
    if (bytes.length > SIZE_MAX / 3)
        return false;
    *out = room_for(bytes.length * 2 + (bytes.length + 1) / 2);
    if (out->at == NULL)
        return false;
    *answer = npr_canonical(kind->number, bytes.at, bytes.length, out->at, out->length);
    return answer->status != NPR_REFUSED || answer->number != NPR_OUT_OF_MEMORY;
}

/* The name of what is wrong. */
static const char *name_of(struct npr_answer answer, char name[NPR_NAME_ROOM]) {
    if (answer.status == NPR_REFUSED)
        npr_refusal_name(answer.number, name, NPR_NAME_ROOM);
    else
        npr_cause_name(answer.number, name, NPR_NAME_ROOM);
    return name;
}

/* The report */

/* Goes over the attributes of canonical bytes. Counts them, and prints a line for each if asked. */
static size_t attributes_of(const struct kind *kind, struct bytes canonical, bool print) {
    size_t count = 0;
    struct npr_step step = npr_step_at(canonical.at, canonical.length, kind->header);
    while (step.status == NPR_FOUND) {
        count++;
        if (print)
            printf("kind %u length %zu\n", (unsigned)step.kind, step.length);
        step = npr_step_at(canonical.at, canonical.length, step.next);
    }
    return count;
}

static enum ending report(const struct kind *kind, size_t length, struct bytes canonical) {
    size_t count = attributes_of(kind, canonical, false);
    printf("%s: %zu bytes, %zu attributes\n", kind->name, length, count);
    attributes_of(kind, canonical, true);
    printf("canonical %zu bytes\n", canonical.length);
    print_hex(stdout, canonical.at, canonical.length);
    putchar('\n');
    return fflush(stdout) == 0 && !ferror(stdout) ? WELL : FAILED;
}

/* Says why there is no report, and with which status the program ends. */
static int tell(enum ending ending, const char *line, const char *name) {
    if (ending != WELL)
        fprintf(stderr, "%s%s\n", line, name);
    return ending;
}

/* Says that bytes begin with an envelope of rtnetlink, if they do. */
static void hint(struct bytes bytes) {
    if (bytes.length < 16)
        return;
    const uint8_t *b = bytes.at;
    uint32_t length = b[0] | (uint32_t)b[1] << 8 | (uint32_t)b[2] << 16 | (uint32_t)b[3] << 24;
    if (length >= 16 && length <= bytes.length && npr_kind_of((uint16_t)(b[4] | b[5] << 8)) != 0)
        fputs("these bytes begin with an envelope (struct nlmsghdr), which `nlshow --hex` reads\n", stderr);
}

static int answer_to(const struct kind *kind, struct bytes bytes) {
    struct bytes out = {NULL, 0};
    struct npr_answer answer;
    char name[NPR_NAME_ROOM];
    int status;
    if (!ask(kind, bytes, &out, &answer))
        status = tell(MEMORY, "out of memory", "");
    else if (answer.status == NPR_REFUSED) {
        status = tell(REFUSED, "refused: ", name_of(answer, name));
        hint(bytes);
    } else if (answer.status == NPR_UNFIT)
        status = tell(UNFIT, "unfit: ", name_of(answer, name));
    else
        status = tell(report(kind, bytes.length, (struct bytes){out.at, answer.length}), "write failed", "");
    free(out.at);
    return status;
}

/* Reads a file to its end. */
static enum ending read_all(FILE *file, struct bytes *text) {
    size_t room = 4096;
    *text = (struct bytes){malloc(room), 0};
    while (text->at != NULL) {
        text->length += fread(text->at + text->length, 1, room - text->length, file);
        if (ferror(file))
            return FAILED;
        if (text->length < room)
            return WELL;
        uint8_t *more = room <= SIZE_MAX / 2 ? realloc(text->at, room *= 2) : NULL;
        if (more == NULL)
            return MEMORY;
        text->at = more;
    }
    return MEMORY;
}

static int report_on(const struct kind *kind) {
    struct bytes text;
    int status = read_all(stdin, &text);
    if (status == FAILED)
        tell(FAILED, "read failed", "");
    else if (status == MEMORY)
        tell(MEMORY, "out of memory", "");
    else if (!decode(&text, true))
        status = tell(BAD_HEX, "bad hex", "");
    else
        status = answer_to(kind, text);
    free(text.at);
    return status;
}

/* The comparison */

struct comparison {
    unsigned long lines;
    unsigned long differ;
};

/* Whether the text is the hexadecimal text of the bytes. */
static bool is_hex_of(const char *text, const uint8_t *bytes, size_t length) {
    static const char digits[] = "0123456789abcdef";
    if (strlen(text) != 2 * length)
        return false;
    for (size_t i = 0; i < length; i++)
        if (text[2 * i] != digits[bytes[i] / 16] || text[2 * i + 1] != digits[bytes[i] % 16])
            return false;
    return true;
}

/* Whether the text tells this answer: `canonical HEX`, `refused NAME` or `unfit NAME`. */
static bool is_told(const char *text, struct npr_answer answer, const uint8_t *canonical) {
    static const char *const WORDS[] = {"canonical ", "refused ", "unfit "};
    char name[NPR_NAME_ROOM];
    if (answer.status > NPR_UNFIT || strncmp(text, WORDS[answer.status], strlen(WORDS[answer.status])) != 0)
        return false;
    text += strlen(WORDS[answer.status]);
    if (answer.status == NPR_WRITTEN)
        return is_hex_of(text, canonical, answer.length);
    return strcmp(text, name_of(answer, name)) == 0;
}

/* Whether a fault is told exactly where the bytes are refused, and the same one. */
static bool is_judged(const struct kind *kind, struct bytes bytes, struct npr_answer answer) {
    return npr_fault_of(kind->number, bytes.at, bytes.length).number == (answer.status == NPR_REFUSED ? answer.number : 0);
}

/* Compares a line, which is hexadecimal text, a tab and an answer. */
static bool compare_line(const struct kind *kind, char *line, struct comparison *sum) {
    char *tab = strchr(line, '\t');
    struct bytes out = {NULL, 0};
    struct npr_answer answer;
    if (tab == NULL)
        return false;
    struct bytes bytes = {(uint8_t *)line, (size_t)(tab - line)};
    bool well = decode(&bytes, false) && ask(kind, bytes, &out, &answer);
    if (well) {
        sum->lines++;
        if (!is_told(tab + 1, answer, out.at) || !is_judged(kind, bytes, answer)) {
            sum->differ++;
            printf("line %lu differs: %s\n", sum->lines, tab + 1);
        }
    }
    free(out.at);
    return well;
}

static bool compare_file(const struct kind *kind, const char *path, struct comparison *sum) {
    FILE *file = fopen(path, "r");
    char *line = NULL;
    size_t room = 0;
    bool well = file != NULL;
    for (ssize_t length; well && (length = getline(&line, &room, file)) > 0;) {
        if (line[length - 1] == '\n')
            line[length - 1] = '\0';
        well = compare_line(kind, line, sum);
    }
    well = well && !ferror(file);
    if (file != NULL)
        fclose(file);
    free(line);
    if (!well)
        fprintf(stderr, "%s: it can't be read, or a line is no hexadecimal text, a tab and an answer\n", path);
    return well;
}

static int compare(char **words) {
    struct comparison sum = {0, 0};
    const struct kind *kind = NULL;
    for (; *words != NULL; words++) {
        const struct kind *other = kind_of(*words);
        if (other == NULL && kind == NULL)
            break;
        if (other == NULL && !compare_file(kind, *words, &sum))
            return 2;
        kind = other != NULL ? other : kind;
    }
    if (kind == NULL) {
        fprintf(stderr, "%s\n", USAGE);
        return 2;
    }
    printf("%lu lines, %lu differ\n", sum.lines, sum.differ);
    return fflush(stdout) != 0 || sum.differ != 0;
}

int main(int count, char **words) {
    if (count > 1 && strcmp(words[1], "compare") == 0)
        return compare(words + 2);
    const struct kind *kind = count == 2 ? kind_of(words[1]) : NULL;
    if (kind != NULL)
        return report_on(kind);
    fprintf(stderr, "%s\n", USAGE);
    return 2;
}
