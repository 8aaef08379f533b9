#!/usr/bin/env python3
"""Compares the library's answers with those in files of crates/conformance, by `npr`.

    compare.py WORD FILE.. [WORD FILE..]

A word is a kind of messages as the programs name it, or `datagrams`. The last line is `N lines, M differ`. The status is 1 where one does, and 2 where
a word is wrong or a file cannot be read.
"""

import struct
import sys

import npr

# the first type of linux/rtnetlink.h of each kind
TYPES = {}
for number in range(0, 120):
    TYPES.setdefault(npr.KINDS[npr.kind_of(number)], number)


def answer_to(word, given):
    """What is answered to these bytes."""
    try:
        return answer_to_datagrams(given) if word == "datagrams" else answer_to_message(word, given)
    except npr.Fault as fault:
        return f"refused {fault.name}"
    except npr.Unfit as cause:
        return f"unfit {cause}"


def answer_to_message(kind, given):
    """The canonical bytes of a message of this kind, written again from its attributes."""
    message = npr.Message(TYPES[kind], 0, 0, 0, given)
    written = npr.canonical(message)
    writer = npr.Writer()
    writer.header(written[: npr.HEADERS[kind]])
    for attribute in npr.attributes(message._replace(payload=memoryview(written))):
        writer.put(attribute.kind, attribute.value)
    return f"canonical {writer.written().hex()}"


def answer_to_datagrams(given):
    """How many messages there are, how many of them are of no kind, and what is written of all."""
    found = list(npr.messages(given))
    others = sum(it.kind is None and it.type >= 16 for it in found)
    return f"messages {len(found)} others {others} {b''.join(map(enveloped, found)).hex()}"


def enveloped(message):
    """A message as it is written, with its envelope."""
    payload = npr.canonical(message) if message.kind else message.payload
    return padded(struct.pack("=IHHII", 16 + len(payload), *message[:4]) + payload)


def padded(written):
    """The bytes up to a multiple of four."""
    return written + bytes(-len(written) % 4)


def compare(word, path):
    """How many lines the file has, and how many are answered otherwise."""
    lines = differ = 0
    with open(path, encoding="ascii") as file:
        for line in file:
            digits, wanted = line.rstrip("\n").split("\t")
            answer = answer_to(word, bytes.fromhex(digits))
            lines, differ = lines + 1, differ + (answer != wanted)
            if answer != wanted:
                print(f"{path}: line {lines}: {answer}, where {wanted} stands")
    return lines, differ


def kind_of(word):
    """What `npr` names a kind that the programs name so."""
    return "next_hop" if word == "nexthop" else word.replace("-", "_")


def main(words):
    word, sums = None, [(0, 0)]
    for it in words:
        if kind_of(it) in npr.HEADERS or it == "datagrams":
            word = kind_of(it)
            continue
        if word is None:
            print(f"`{it}` is no kind of messages", file=sys.stderr)
            return 2
        try:
            sums.append(compare(word, it))
        except (OSError, ValueError) as fault:
            print(f"{it}: {fault}", file=sys.stderr)
            return 2
    lines, differ = map(sum, zip(*sums))
    print(f"{lines} lines, {differ} differ")
    return 1 if differ else 0


if __name__ == "__main__":
    sys.exit(main(sys.argv[1:]))
