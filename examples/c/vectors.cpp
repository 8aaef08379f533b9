// The library from C++, over vectors. An empty one may have no address, which no call takes: it is passed as the
// address of a byte.

#include "netlink_packet_route.h"
#include <cstdint>
#include <optional>
#include <string>
#include <vector>

using Bytes = std::vector<std::uint8_t>;

static const std::uint8_t *place_of(const Bytes &bytes) {
    static const std::uint8_t none = 0;
    return bytes.empty() ? &none : bytes.data();
}

// The canonical bytes of a message, or the name of what is wrong.
static std::optional<Bytes> canonical(npr_kind kind, const Bytes &bytes, const char *&name) {
    // Five halves of the length are never too few, and there is a byte where the length is 0.
    Bytes out(bytes.size() / 2 * 5 + 4);
    npr_answer answer = npr_canonical(kind, place_of(bytes), bytes.size(), out.data(), out.size());
    if (answer.status == NPR_WRITTEN) {
        out.resize(answer.length);
        return out;
    }
    name = answer.status == NPR_UNFIT ? npr_cause_text(answer.number) : npr_refusal_text(answer.number);
    return std::nullopt;
}

// How many attributes stand behind the header.
static std::size_t count_of(npr_kind kind, const Bytes &bytes) {
    std::size_t count = 0;
    npr_reader reader = npr_read(place_of(bytes), npr_begin(kind, place_of(bytes), bytes.size()));
    for (npr_value value; npr_next(&reader, &value);)
        count++;
    return count;
}

// Whether a message without bytes is refused, and this one has so many attributes and is its own canonical bytes.
static bool is_right(npr_kind kind, const Bytes &message, std::size_t count) {
    const char *name = "";
    if (canonical(kind, {}, name) || std::string(name) != "HeaderTooShort")
        return false;
    auto out = canonical(kind, message, name);
    return out && *out == message && count_of(kind, *out) == count;
}

int main() {
    const Bytes route = {2, 0, 0, 0, 254, 3, 0, 1, 0, 0, 0, 0, 8, 0, 4, 0, 2, 0, 0, 0, 8, 0, 5, 0, 192, 0, 2, 1};
    const Bytes link = {0, 0, 4, 3, 1, 0, 0, 0, 73, 0, 1, 0, 0, 0, 0, 0, 7, 0, 3, 0, 'l', 'o', 0, 0};
    return !is_right(NPR_KIND_ROUTE, route, 2) || !is_right(NPR_KIND_LINK, link, 1);
}
