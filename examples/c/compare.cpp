// Compares the library's answers with those in files of crates/conformance, from C++.
//
//   compare KIND FILE.. [KIND FILE..]
//
// The last line is `N lines, M differ`. The status is 1 where one does, and 2 where a word is wrong or a file cannot be
// read.

#include "netlink_packet_route.h"
#include <algorithm>
#include <cstdint>
#include <fstream>
#include <iostream>
#include <optional>
#include <string>
#include <string_view>
#include <vector>

using Bytes = std::vector<std::uint8_t>;

struct Kind {
    std::string_view name;
    npr_kind number;
};

static const Kind KINDS[] = {
    {"address", NPR_KIND_ADDRESS},
    {"route", NPR_KIND_ROUTE},
    {"rule", NPR_KIND_RULE},
    {"neighbour", NPR_KIND_NEIGHBOUR},
    {"link", NPR_KIND_LINK},
    {"nexthop", NPR_KIND_NEXT_HOP},
    {"nsid", NPR_KIND_NSID},
    {"netconf", NPR_KIND_NETCONF},
    {"address-label", NPR_KIND_ADDRESS_LABEL},
    {"neighbour-table", NPR_KIND_NEIGHBOUR_TABLE},
    {"prefix", NPR_KIND_PREFIX},
    {"tc", NPR_KIND_TC},
    {"tc-action", NPR_KIND_TC_ACTION},
    {"stats", NPR_KIND_STATS},
};

static constexpr std::string_view DIGITS = "0123456789abcdef";

static std::string hex_of(const Bytes &bytes) {
    std::string text;
    for (std::uint8_t byte : bytes)
        text.append({DIGITS[byte / 16], DIGITS[byte % 16]});
    return text;
}

// The bytes of hexadecimal digits, or none where the text has others.
static std::optional<Bytes> bytes_of(std::string_view text) {
    if (text.size() % 2 != 0 || text.find_first_not_of(DIGITS) != text.npos)
        return std::nullopt;
    Bytes bytes;
    for (std::size_t at = 0; at < text.size(); at += 2)
        bytes.push_back(static_cast<std::uint8_t>(DIGITS.find(text[at]) * 16 + DIGITS.find(text[at + 1])));
    return bytes;
}

// What is answered to these bytes. An empty vector may have no address, which no call takes.
static std::string answer_to(const Kind &kind, const Bytes &bytes) {
    static const std::uint8_t none = 0;
    const std::uint8_t *place = bytes.empty() ? &none : bytes.data();
    Bytes out(bytes.size() / 2 * 5 + 5);
    const npr_answer answer = npr_canonical(kind.number, place, bytes.size(), out.data(), out.size());
    const npr_fault fault = npr_fault_of(kind.number, place, bytes.size());
    if (fault.number != (answer.status == NPR_REFUSED ? answer.number : 0))
        return "two answers";
    if (answer.status == NPR_REFUSED)
        return std::string("refused ") + npr_refusal_text(answer.number);
    if (answer.status == NPR_UNFIT)
        return std::string("unfit ") + npr_cause_text(answer.number);
    out.resize(answer.length);
    return "canonical " + hex_of(out);
}

struct Comparison {
    unsigned long lines = 0, differ = 0;
};

// Compares the lines of a file, each hexadecimal digits, a tab and an answer. Answers whether it has such lines alone.
static bool compare(const Kind &kind, const char *path, Comparison &sum) {
    std::ifstream file(path);
    std::string line;
    bool well = file.is_open();
    while (well && std::getline(file, line)) {
        const std::size_t tab = std::min(line.find('\t'), line.size());
        const auto bytes = bytes_of(std::string_view(line).substr(0, tab));
        well = bytes && tab < line.size();
        if (!well)
            break;
        const std::string answer = answer_to(kind, *bytes), wanted = line.substr(tab + 1);
        sum.lines++;
        if (answer == wanted)
            continue;
        sum.differ++;
        std::cout << path << ": " << answer << ", where " << wanted << " stands\n";
    }
    return well && !file.bad();
}

int main(int count, char **words) {
    const Kind *kind = nullptr;
    Comparison sum;
    for (int at = 1; at < count; at++) {
        const auto found =
            std::find_if(std::begin(KINDS), std::end(KINDS), [&](const Kind &it) { return it.name == words[at]; });
        if (found != std::end(KINDS)) {
            kind = found;
        } else if (kind == nullptr || !compare(*kind, words[at], sum)) {
            const char *why = kind ? ": it cannot be read, or has a line of another form" : " is no kind of messages";
            std::cerr << words[at] << why << '\n';
            return 2;
        }
    }
    std::cout << sum.lines << " lines, " << sum.differ << " differ\n";
    return sum.differ != 0;
}
