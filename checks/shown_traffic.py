"""Compares what nlshow says of traffic control with what `tc -j -s -d` and `tc -s -d` said of the same messages, for `checks/shown`.

Each key of an object of `tc` has to be in that of nlshow with the same value, in whichever of the objects of PARTS it stands, but for
those of ASKED, and of kinds that are not of READ but for those of EVERY. The words of a line of `tc` have to stand in that of
nlshow in their order, but for lines that are PASSED and words that stand ALONE; nlshow may have others beside them, as the device.
"""

import json
import re

FILES = [f"traffic-{it}" for it in ("qdisc", "class", "filter", "chain", "action")]
# objects whose keys stand beside others in one of the two answers
PARTS = {"options", "keys", "stats", "fw", "prog"}
# the kinds whose data the library reads, and the keys of every kind
READ = {"fq_codel", "ingress", "clsact", "htb", "tbf", "red", "fq", "netem", "prio", "pfifo_fast", "pfifo", "bfifo", "pfifo_head_drop",
        "cake", "sfq", "u32", "flower", "matchall", "fw", "bpf", "basic",
        "mirred", "nat", "tunnel_key", "gact", "police", "vlan", "skbedit", "csum", "ct", "sample", "pedit", None}
EVERY = {"kind", "handle", "dev", "parent", "root", "leaf", "refcnt", "pref", "chain", "order"}
COUNTS = {"bytes", "packets", "drops", "overlimits", "requeues", "backlog", "qlen"}
# keys that no message has: what a kernel is asked of a program, and an attribute that kernels no longer write
ASKED = {"bpf": {"name", "jited", "load_time", "created_by_uid"}, "prio": {"multiqueue"}, "pfifo_fast": {"multiqueue"}}
# what stands in a filter in front of an old police, and what it counts
POLICE = ("kind", "police")
OF_POLICE = {"bytes", "packets", "dropped", "overlimits"}
# what `tc` says where there is no attribute
SILENT = [("nofrag", False), ("mask", "0xffffffff")]
# names of one thing: ours is the second
NAMES = {"class": "kind", "type": "kind", "priomap ": "priomap", "weights ": "weights"}
# bits that each have a truth value in `tc`, and a name in a list here
BITS = {"ct_state", "ip_flags", "enc_flags"}
# times of which `tc` prints the whole seconds
SECONDS = {"installed", "last_used", "first_used", "expires"}
INTERFACES = {"dev", "to_dev"}
# a protocol that has a name in some versions of `tc` alone
FRAMES = {"cfm": "[35074]"}


def pairs_of(it, is_read):
    """The keys of an object with their values, and of the objects in it that are PARTS, data of a kind only where they are read."""
    for key, value in it:
        if key in PARTS and isinstance(value, list) and (not value or isinstance(value[0], tuple)):
            yield from pairs_of(value, is_read) if is_read or key != "options" else ()
        else:
            yield key, value


def hexadecimal(text):
    return int(text or "0", 16)


def named(kind, key, value, before):
    """A key of `tc` and its value as nlshow has them."""
    if kind == "fw" and key == "mark":
        return "handle", hexadecimal(value)
    if kind == "police" and key == "control_action" and any(key == it for it, _ in before):
        return "result", value
    if kind == "fq" and key == "throttled" and any(key == it for it, _ in before):
        # flows, and then packets
        return "throttled_pkts", value
    return NAMES.get(key, key), value


class Comparison:
    """What was compared, what is wrong, and the names that devices turned out to have, by their numbers."""

    def __init__(self, names):
        self.keys, self.wrong, self.names = 0, [], names

    def same(self, key, theirs, ours):
        """Whether the values are the same."""
        if key in INTERFACES:
            return self.names.setdefault(ours, theirs) == theirs
        if key in SECONDS:
            return isinstance(ours, (int, float)) and int(ours) == theirs
        if key == "protocol":
            return FRAMES.get(theirs, theirs) == ours
        if key == "seid":
            # `tc` prints half of it
            return isinstance(ours, int) and theirs == ours % (1 << 32)
        if key in BITS:
            texts = theirs if isinstance(theirs, str) else "".join(("" if is_so else "no") + name for name, is_so in theirs)
            return texts == "".join(ours)
        if isinstance(theirs, list) and isinstance(ours, list) and theirs and isinstance(theirs[0], tuple):
            return all(self.same(name, value, dict(ours).get(name)) for name, value in theirs)
        if isinstance(theirs, list) and isinstance(ours, list):
            return len(theirs) == len(ours) and all(self.same(key, *pair) for pair in zip(theirs, ours))
        if key.startswith("icmp_"):
            return str(theirs).partition("/")[0] == str(ours)
        return theirs == ours or str(theirs) == str(ours)

    def matches(self, theirs, ours):
        """Whether the keys of a filter u32, each an object of the same name, and their counts are the same."""
        found = [dict(value) for key, value in theirs if key == "match"]
        listed = [dict(it) for it in dict(ours).get("match", [])]
        self.keys += 3 * len(found)
        return len(found) == len(listed) and all(
            (hexadecimal(it["value"]), hexadecimal(it["mask"]), it["off"]) == (hexadecimal(own["value"]), hexadecimal(own["mask"]), own["off"])
            for it, own in zip(found, listed))

    def in_front_of_police(self, told, own):
        """The keys of a filter in front of those of its police; the counts behind them are of it too."""
        at = told.index(POLICE) if POLICE in told else len(told)
        if at < len(told):
            self.compare([it for it in told[at:] if it[0] not in OF_POLICE], [POLICE, *dict(own).get("police", [])])
        return told[:at]

    def compare(self, theirs, ours):
        """The keys of an object, and of the actions in it."""
        kind = next((value for key, value in theirs if NAMES.get(key, key) == "kind"), None)
        told, own = list(pairs_of(theirs, kind in READ)), list(pairs_of(ours, True))
        is_filter = any(key == "pref" for key, _ in told)
        if is_filter:
            told = self.in_front_of_police(told, own)
        wanted = EVERY | (set() if is_filter else COUNTS)
        if any(key == "match" for key, _ in told) and not self.matches(told, own):
            self.wrong.append(f"match: {told!r} of tc, {own!r}")
        if kind == "u32" or any(key == "fh" for key, _ in told):
            # the hits of keys stand under a name that was there before
            told = [(key, value) for at, (key, value) in enumerate(told) if key != "match" and key not in [it for it, _ in told[:at]]]
        left_out = ASKED.get(kind, set())
        for at, (key, value) in enumerate(told):
            key, value = named(kind, key, value, told[:at])
            if key == "actions":
                shown = dict(own).get("actions", [])
                if len(value) != len(shown):
                    self.wrong.append(f"{kind}: {len(value)} actions of tc, {len(shown)}")
                for pair in zip(value, shown):
                    self.compare(*pair)
            elif key not in left_out and (kind in READ or key in wanted) and (key, value) not in SILENT:
                self.keys += 1
                if not self.same(key, value, dict(own).get(key)):
                    self.wrong.append(f"{kind} {key}: {value!r} of tc, {dict(own).get(key)!r}")


# extended matches, which `tc` prints among its JSON as they stand in lines
AMONG = re.compile(r"^  (?:(?:AND|OR) )?(?:NOT )?\w+\(.*\)\n", re.MULTILINE)


def objects(text):
    """Objects as lists of keys and values, since a key can stand twice."""
    return json.loads(AMONG.sub("", text), object_pairs_hook=lambda pairs: [tuple(it) for it in pairs])


def compare(name, theirs, ours, names):
    """Whether nlshow's objects say what those of `tc` do; it says what was compared, and learns the names of devices."""
    it = Comparison(names)
    told, shown = objects(theirs), [objects(line) for line in ours.splitlines()]
    if name == "traffic-action":
        told = [action for answer in told for action in dict(answer).get("actions", [])]
        shown = [action for answer in shown for action in dict(answer).get("actions", [])]
    if len(told) != len(shown):
        it.wrong.append(f"{len(told)} of tc, {len(shown)} of nlshow")
    for pair in zip(told, shown):
        it.compare(*pair)
    print(f"{name}: {len(told)} messages, {it.keys} keys" + "".join(f"\n  WRONG {wrong}" for wrong in it.wrong), flush=True)
    return not it.wrong


# lines of statistics, which nlshow has in JSON alone, with those of each class of service of cake, and extended matches, whose data
# nobody reads
PASSED = re.compile(r"\s*(?:Sent|backlog|Action statistics|maxpacket|new_flows_len|memory used|deficit|\(dropped|-----|lended|tokens|marked \d"
                    r"|flows \d+ \(|gc \d|rate \w+ \d+pps|prob_mark|forced_mark|allot|capacity estimate|min/max|average network|Tin|Bulk"
                    r"|(?:thresh|target|interval|\w+_delay|pkts|bytes|way_\w+|drops|marks|ack_drop|\w+_flows|max_len|quantum) {2,}"
                    r"|(?:AND |OR )?(?:NOT )?\w+(?=\())\b.*|\s*|\s*---.*")
# words without a value in a message, and counts that moved before the lines were printed
ALONE = re.compile(r" (?:installed|used|firstused) \d+ sec| terminal flowid| -{16}| \(rule hit \d+(?: success \d+)?\)| name \w+(?= tag )"
                   r"| jited load_time \d+ created_by_uid \d+")
# words of `tc` that touch, and a half that C rounds by its binary form
TOUCHING = re.compile(r"(/\d+)(?=mpu )|(Scell_log \d+)(?=qevent )")
HALVES = {"2.79ms": "2.8ms"}


def parts_of(text):
    """The words of each message, and those of each action in it, without lines of statistics."""
    messages = []
    for line in text.splitlines():
        if re.match(r"(?:qdisc|class|filter|chain|total acts) ", line):
            messages.append([[]])
        elif line.startswith("\taction order "):
            messages[-1].append([])
        if not PASSED.fullmatch(line) and messages:
            words = TOUCHING.sub(r"\g<0> ", ALONE.sub("", line)).split()
            messages[-1][-1] += [HALVES.get(it, it) for it in words]
    return messages


def is_kept(words):
    """Whether the data of a kind are kept as bytes."""
    at = {"qdisc": 1, "class": 1, "action": 3}.get(words[0])
    if words[0] in ("chain", "total"):
        return False
    return words[at or words.index("chain") - 1] not in READ


def is_in(words, all_words):
    """Whether the words stand among all in their order."""
    left = iter(all_words)
    return all(it in left for it in words)


def compare_lines(name, theirs, ours, names):
    """Whether nlshow's lines have the words of those of `tc`."""
    for number, device in names.items():
        ours = re.sub(rf"\b(dev|device) {number}\b", rf"\1 {device}", ours)
    for word, frame in FRAMES.items():
        theirs = theirs.replace(f" protocol {word} ", f" protocol {frame} ")
    told, shown = parts_of(theirs), parts_of(ours)
    wrong = [f"{len(told)} of tc, {len(shown)} of nlshow"] if len(told) != len(shown) else []
    pairs = [it for its in zip(told, shown) if not is_kept(its[0][0]) for it in zip(*its, strict=True) if not is_kept(it[0])]
    wrong += [f"{' '.join(their)}, where nlshow has {' '.join(our)}" for their, our in pairs if not is_in(their, our)]
    count = sum(len(their) for their, _ in pairs)
    print(f"{name}: {count} words of tc" + "".join(f"\n  WRONG {it}" for it in wrong), flush=True)
    return not wrong


def results(folder, run):
    """Whether what `run` says of each file, given options and the file, is what `tc` said."""
    names = {}
    for name in FILES:
        with open(f"{folder}/{name}.json", encoding="utf-8") as objects_of_tc, open(f"{folder}/{name}.txt", encoding="utf-8") as lines_of_tc:
            yield compare(name, objects_of_tc.read(), run("--json", f"{folder}/{name}.bin"), names)
            yield compare_lines(name, lines_of_tc.read(), run(f"{folder}/{name}.bin"), names)
