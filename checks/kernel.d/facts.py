"""Facts that `ip` and `tc` tell of a table, beside what `rust/kernel` reads of the kernel's answer, for `checks/kernel`.

A key of an object of `ip` or `tc` that is in the table of its kind has to be what the message says; a message is as serde shows it.
"""

import ipaddress
import json
import re

# the tables that `ip` names, and the pairs of numbers of `linux/pkt_sched.h` that stand for no handle
TABLES = {"default": 253, "main": 254, "local": 255}
ROOT, NONE = (0xffff, 0xffff), (0, 0)
# names of values, where `ip` has others than the variants
NAMES = {"totable": "to_tbl", "universe": "global", "res": "resilient"}
FAMILIES = {"Inet": "inet", "Inet6": "inet6", "Mpls": "mpls", "Bridge": "bridge"}
# the flag of a route that was made of another (RTM_F_CLONED), which `ip` leaves out
CLONED = 0x200
STATES = [(1, "INCOMPLETE"), (2, "REACHABLE"), (4, "STALE"), (8, "DELAY"), (16, "PROBE"), (32, "FAILED"), (64, "NOARP"), (128, "PERMANENT")]


class Message:
    """A message as serde shows it: its header, and the first attribute of each name."""

    def __init__(self, shown, links):
        (self.type, body), = shown.items()
        self.header, self.attributes, self.links = body["header"], body["attributes"], links

    def __getitem__(self, name):
        return value_of(self.attributes, name)

    def link(self, name):
        """The name of the device that an attribute numbers."""
        return name_of(self.links, self[name])

    def on_link(self, name, index):
        """An address on the link of a device, which `ip` writes by the type of the link."""
        value = self[name]
        kinds = {4: ("Tunnel", "Sit", "Ipgre"), 16: ("Tunnel6", "Ip6gre")}.get(len(value or ()), ())
        return address(value) if self.links.get(index, ("", ""))[1] in kinds else octets(value)


def value_of(attributes, name):
    """The value of the first attribute of this name, or None."""
    return next((it[name] for it in attributes or () if isinstance(it, dict) and name in it), None)


def links_of(messages):
    """The name and the type of each link, by its number."""
    links = [it["NewLink"] for it in messages]
    return {it["header"]["index"]: (value_of(it["attributes"], "IfName"), it["header"]["link_layer_type"]) for it in links}


def name_of(links, number):
    return None if number is None else links.get(number, (f"if{number}" if number else "*",))[0]


def is_told(attributes, name):
    return name in (attributes or ()) or value_of(attributes, name) is not None


def word(value):
    """A value with a name, as `ip` writes it, or its number as text."""
    if isinstance(value, dict):
        return str(*value.values())
    text = value and value.lower()
    return NAMES.get(text, text)


def octets(value):
    return None if value is None else ":".join(f"{it:02x}" for it in value)


def address(value):
    """An address, whether it stands alone, in bytes or behind its family."""
    if isinstance(value, dict):
        value, = value.values()
    return str(ipaddress.ip_address(bytes(value))) if isinstance(value, list) else value


def prefix(value, length, family):
    """An address with its length, as `ip` writes it: nothing of a whole one."""
    if value is None:
        return "default" if length == 0 else None
    whole = {"Inet": 32, "Inet6": 128}.get(family)
    return address(value) if length == whole else f"{address(value)}/{length}"


def table_of(it):
    return it.header["table"] if it["Table"] is None else it["Table"]


def table_number(value):
    return TABLES.get(value) or int(value)


def handle(value):
    """A handle, as `tc` writes it."""
    major, minor = value["major"], value["minor"]
    return f"{major:x}:" + (f"{minor:x}" if minor else "") if major else f":{minor:x}"


def pair(value):
    return value["major"], value["minor"]


def parent(it):
    """What a message of traffic control stands in, where `tc` says so."""
    return None if pair(it.header["parent"]) in (ROOT, NONE) else handle(it.header["parent"])


def is_root(it):
    return pair(it.header["parent"]) == ROOT


def device(it):
    return name_of(it.links, it.header["index"])


def same(told):
    return told


# each kind: the keys, what the message says, and how what is told is taken
LINK = {
    "ifindex": lambda it: it.header["index"], "ifname": lambda it: it["IfName"], "mtu": lambda it: it["Mtu"], "qdisc": lambda it: it["Qdisc"],
    "txqlen": lambda it: it["TxQueueLen"], "promiscuity": lambda it: it["Promiscuity"], "allmulti": lambda it: it["AllMulti"],
    "min_mtu": lambda it: it["MinMtu"], "max_mtu": lambda it: it["MaxMtu"], "ifalias": lambda it: it["IfAlias"],
    "num_tx_queues": lambda it: it["NumTxQueues"], "num_rx_queues": lambda it: it["NumRxQueues"], "gso_max_size": lambda it: it["GsoMaxSize"],
    "gso_max_segs": lambda it: it["GsoMaxSegs"], "tso_max_size": lambda it: it["TsoMaxSize"], "gro_max_size": lambda it: it["GroMaxSize"],
    "operstate": lambda it: it["OperState"].upper(), "master": lambda it: it.link("Controller"), "link_netnsid": lambda it: it["LinkNetNsId"],
    "link_index": lambda it: it["Link"], "address": lambda it: it.on_link("Address", it.header["index"]),
    "broadcast": lambda it: it.on_link("Broadcast", it.header["index"]),
    "altnames": lambda it: [value for value in map(lambda a: a.get("AltIfName"), it["PropList"] or ())],
    "linkinfo": lambda it: {"info_kind": kind_of(it, "Kind"), "info_slave_kind": kind_of(it, "PortKind")},
    "stats64": lambda it: len(it["Stats64"]) > 20,
}
ADDRESS = {
    "ifindex": lambda it: it.header["index"], "family": lambda it: FAMILIES[it.header["family"]], "prefixlen": lambda it: it.header["prefix_len"],
    "local": lambda it: it["Local"] or it["Address"], "address": lambda it: it["Address"], "label": lambda it: it["Label"],
    "scope": lambda it: word(it.header["scope"]), "broadcast": lambda it: it["Broadcast"], "metric": lambda it: it["RoutePriority"],
    "valid_life_time": lambda it: it["CacheInfo"]["ifa_valid"], "preferred_life_time": lambda it: it["CacheInfo"]["ifa_preferred"],
}
ROUTE = {
    "type": lambda it: word(it.header["kind"]), "gateway": lambda it: address(it["Gateway"]), "dev": lambda it: it.link("Oif"),
    "dst": lambda it: destination(it), "table": table_of, "metric": lambda it: it["Priority"], "protocol": lambda it: word(it.header["protocol"]),
    "scope": lambda it: word(it.header["scope"]), "prefsrc": lambda it: address(it["PrefSource"]), "nhid": lambda it: it["NhId"],
    "encap": lambda it: word(it["EncapType"]), "via": lambda it: via(it["Via"]), "nexthops": lambda it: hops(it),
    "from": lambda it: prefix(it["Source"], it.header["source_prefix_length"], it.header["address_family"]),
}
RULE = {
    "priority": lambda it: it["Priority"] or 0, "src": lambda it: address(it["Source"]) or "all", "dst": lambda it: address(it["Destination"]),
    "srclen": lambda it: it.header["src_len"], "dstlen": lambda it: it.header["dst_len"], "iif": lambda it: it["Iifname"],
    "oif": lambda it: it["Oifname"], "table": table_of, "fwmark": lambda it: it["FwMark"], "fwmask": lambda it: it["FwMask"],
    "goto": lambda it: it["Goto"], "suppress_prefixlen": lambda it: it["SuppressPrefixLen"], "protocol": lambda it: word(it["Protocol"]),
    "action": lambda it: word(it.header["action"]), "uid_start": lambda it: it["UidRange"]["start"], "uid_end": lambda it: it["UidRange"]["end"],
}
NEIGHBOUR = {
    "dst": lambda it: address(it["Destination"]), "dev": lambda it: name_of(it.links, it.header["ifindex"]),
    "lladdr": lambda it: it.on_link("LinkLocalAddress", it.header["ifindex"]), "state": lambda it: [name for bit, name in STATES if it.header["state"] & bit],
    "mac": lambda it: octets(it["LinkLocalAddress"]), "ifname": lambda it: name_of(it.links, it.header["ifindex"]),
    "master": lambda it: it.link("Controller"), "vlan": lambda it: it["Vlan"], "vni": lambda it: it["Vni"], "port": lambda it: it["Port"],
}
NEXT_HOP = {
    "id": lambda it: it["Id"], "gateway": lambda it: address(it["Gateway"]), "dev": lambda it: it.link("Oif"), "scope": lambda it: word(it.header["scope"]),
    "protocol": lambda it: word(it.header["protocol"]), "blackhole": lambda it: None if is_told(it.attributes, "Blackhole") else False,
    "group": lambda it: [(one["id"], one["weight"] + 1) for one in it["Group"]], "encap": lambda it: word(it["EncapType"]),
    "type": lambda it: word(it["GroupType"]),
    "bucket": lambda it: {key: value_of(it["ResBucket"], name) for key, name in (("index", "Index"), ("nhid", "NhId"))},
}
SMALL = {
    "nsid": {"nsid": lambda it: it["Id"]},
    "netconf": {"family": lambda it: FAMILIES[it.header["family"]], "interface": lambda it: settings_of(it), "forwarding": lambda it: bool(it["Forwarding"])},
    "address-label": {"address": lambda it: it["Address"], "label": lambda it: it["Label"], "prefixlen": lambda it: it.header["prefix_len"]},
    "neighbour-table": {"name": lambda it: it["Name"], "family": lambda it: FAMILIES[it.header["family"]],
                        "dev": lambda it: name_of(it.links, value_of(it["Parms"], "Ifindex")), "thresh_1": lambda it: it["Threshold1"],
                        "ucast_probes": lambda it: value_of(it["Parms"], "UcastProbes"), "gc_interval": lambda it: it["GcInterval"]},
}
TRAFFIC = {
    "kind": lambda it: it["Kind"], "class": lambda it: it["Kind"], "dev": device, "parent": parent, "handle": lambda it: handle(it.header["handle"]),
    "root": is_root, "refcnt": lambda it: it.header["info"], "chain": lambda it: it["Chain"], "pref": lambda it: it.header["info"] >> 16,
    "bytes": lambda it: value_of(it["Stats2"], "Basic")["bytes"], "packets": lambda it: value_of(it["Stats2"], "Basic")["packets"],
    "qlen": lambda it: value_of(it["Stats2"], "Queue")["qlen"], "leaf": lambda it: handle({"major": it.header["info"] >> 16, "minor": 0}),
    "actions": lambda it: actions_in(it), "options": lambda it: options_of(it), "ingress_block": lambda it: it["IngressBlock"],
}
# how what is told is taken, where it is not as it stands
TAKEN = {
    "table": table_number, "fwmark": lambda told: int(told, 16), "fwmask": lambda told: int(told, 16), "stats64": lambda told: True,
    "linkinfo": lambda told: {key: told.get(key) for key in ("info_kind", "info_slave_kind")}, "via": lambda told: told["host"],
    "nexthops": lambda told: [told_hop(it) for it in told], "blackhole": lambda told: None,
    "bucket": lambda told: {key: told[key] for key in ("index", "nhid")}, "actions": lambda told: [(told_kind(it), it["order"]) for it in told],
    "group": lambda told: group(told), "goto": int,
    # some versions write these otherwise
    "encap": lambda told: told["encap_type"] if isinstance(told, dict) else told, "leaf": lambda told: f"{int(told.rstrip(':'), 16):x}:",
}
# options of each kind of traffic control, and the names of their variants
OPTIONS = {
    "fq_codel": ("FqCodel", {"limit": "Limit", "flows": "Flows", "quantum": "Quantum"}), "u32": ("U32", {"flowid": "ClassId"}),
    "matchall": ("MatchAll", {"flowid": "ClassId"}),
}
# numbers that go on between the two answers, and how far they may
MOVING, FAR = {"bytes", "packets", "valid_life_time", "preferred_life_time"}, 10000


def kind_of(it, name):
    """The kind of a link, as `ip` names it, or None where it has no variant."""
    value = value_of(it["LinkInfo"], name)
    return value and (str(*value.values()) if isinstance(value, dict) else KINDS.get(value, value.lower()))


KINDS = {"Tun": "tun", "IpTunnel": "ipip", "Ip6Tnl": "ip6tnl", "SitTun": "sit", "GreTun": "gre", "GreTap": "gretap", "GreTun6": "ip6gre",
         "GreTap6": "ip6gretap", "Erspan6": "ip6erspan", "MacVlan": "macvlan", "MacVtap": "macvtap", "IpVlan": "ipvlan", "IpVtap": "ipvtap"}


def destination(it):
    family = it.header["address_family"]
    if family == "Mpls":
        value, = it["Destination"].values()
        return str(value[0]["label"] if isinstance(value, list) else value["label"])
    return prefix(it["Destination"], it.header["destination_prefix_length"], family)


def via(value):
    return value and address(value)


def told_hop(told):
    """A next hop that is told: gateway, device and weight."""
    return told.get("gateway") or told.get("via", {}).get("host"), told.get("dev"), told.get("weight", 1)


def told_kind(told):
    """The kind of an action, under the name that some actions have for it."""
    return told.get("kind", told.get("type"))


def hops(it):
    """The next hops of a route: gateway, device and weight."""
    return [(gateway(hop["attributes"]), name_of(it.links, hop["interface_index"]), hop["hops"] + 1) for hop in it["MultiPath"]]


def gateway(attributes):
    return address(value_of(attributes, "Gateway") or value_of(attributes, "Via"))


def group(told):
    return [(one["id"], one.get("weight", 1)) for one in told]


def settings_of(it):
    number = it["IfIndex"]
    return {-1: "all", 0xffffffff: "all", -2: "default", 0xfffffffe: "default"}.get(number) or name_of(it.links, number)


def actions_of(it):
    """The list of actions of a filter."""
    (kind, options), = (it["Options"] or {"": []}).items()
    return value_of(options, "Actions") or value_of(options, "Action") or []


def actions_in(it):
    return [(value_of(one["attributes"], "Kind"), one["tab"]) for one in actions_of(it)]


def options_of(it):
    """The options of OPTIONS that the message has."""
    variant, names = OPTIONS.get(it["Kind"], ("", {}))
    found = {key: value_of((it["Options"] or {}).get(variant), name) for key, name in names.items()}
    return {key: handle(value) if isinstance(value, dict) else value for key, value in found.items() if value is not None}


def told_options(told):
    """An object of `tc` with those of its options alone that are in OPTIONS."""
    _, names = OPTIONS.get(told.get("kind"), ("", {}))
    return {**told, "options": {key: value for key, value in told.get("options", {}).items() if key in names}}


def table_for(name):
    """The keys that are compared in the table of this name, or None."""
    if name == "neighbour-bridge":
        # here a state is no list
        return {key: NEIGHBOUR[key] for key in NEIGHBOUR.keys() - {"state"}}
    kinds = {"link": LINK, "address": ADDRESS, "route": ROUTE, "rule": RULE, "neighbour": NEIGHBOUR, "nexthop": NEXT_HOP, "bucket": NEXT_HOP}
    if name == "qdisc":
        return TRAFFIC | {"handle": lambda it: f"{it.header['handle']['major']:x}:"}
    if name.startswith("filter"):
        # here counts are those of an action
        return {key: TRAFFIC[key] for key in TRAFFIC.keys() - MOVING}
    return SMALL.get(name) or kinds.get(name.partition("-")[0], TRAFFIC)


def first_wins(pairs):
    """An object of `ip`: what stands in an encapsulation stands behind the keys of the route, some under their names."""
    return dict(reversed(pairs))


def objects(text):
    """The objects that are told, with None for one that is no JSON, which `tc` writes of some kinds; classes it tells in words."""
    try:
        return json.loads(text or "[]", object_pairs_hook=first_wins)
    except json.JSONDecodeError:
        if text.startswith("class "):
            return [told_class(it.split()) for it in text.splitlines() if it.startswith("class ")]
    return [lone_object(it) for it in re.split(r"(?<=}),(?={\"(?:kind|protocol)\":)", text[1:-1])]


def told_class(words):
    """A class that is told in words: its kind and its handle, and by their names what it stands in and what stands in it."""
    found = {"class": words[1], "handle": words[2], "root": "root" in words}
    return found | {key: words[words.index(key) + 1] for key in ("parent", "leaf") if key in words}


def lone_object(text):
    try:
        return json.loads(text, object_pairs_hook=first_wins)
    except json.JSONDecodeError:
        return None


class Comparison:
    """What `ip` or `tc` told of one table beside its messages."""

    def __init__(self, name, messages, links):
        self.name, self.table, self.count, self.broken, self.wrong = name, table_for(name), 0, 0, []
        self.messages = [Message(it, links) for it in messages]

    def compare(self, told):
        """Compares objects with messages, one with the other as they come."""
        told = told if told == [None] else self.taken(told)
        self.broken = told.count(None)
        if told == [None]:
            return
        if len(told) != len(self.messages):
            self.wrong.append(f"{len(told)} told, {len(self.messages)} read")
            return
        for theirs, ours in zip(told, self.messages):
            for key in sorted(self.table.keys() & (theirs or {}).keys()):
                self.compare_key(key, theirs[key], ours)

    def compare_key(self, key, told, ours):
        try:
            wanted, found = TAKEN.get(key, same)(told), self.table[key](ours)
        except (KeyError, TypeError, ValueError, AttributeError) as fault:
            wanted, found = told, f"not found: {fault!r}"
        self.count += 1
        # of an address without bytes `ip` writes a byte that stands behind it
        is_moved = key in MOVING and isinstance(found, int) and abs(found - wanted) < FAR
        if wanted != found and not is_moved and (key, found) != ("lladdr", ""):
            self.wrong.append(f"{key}: {wanted!r} told, {found!r} of {str(ours.header)}")

    def taken(self, told):
        """The objects in the order of the messages, one for each."""
        kind = self.name if self.name in SMALL else self.name.partition("-")[0]
        if kind == "address":
            self.messages.sort(key=lambda it: it.header["index"])
            return [{"ifindex": link["ifindex"], **it} for link in told for it in link.get("addr_info", [])]
        if kind == "rule":
            self.messages.sort(key=lambda it: it["Priority"] or 0)
        if kind == "route":
            self.messages = [it for it in self.messages if not it.header["flags"] & CLONED]
            # the table of a segment stands beside the route's, and alone where that is the main one
            return [{key: it[key] for key in it if key != "table" or it.get("encap") != "seg6local"} for it in told]
        if self.name in ("neighbour-4", "neighbour-6"):
            return self.taken_neighbours(told)
        if kind == "neighbour-table":
            return self.taken_once(told)
        if kind == "action":
            return self.taken_actions(told)
        return [it and told_options(it) for it in told] if "options" in self.table else told

    def taken_once(self, told):
        """The tables of neighbours, each once: in each datagram a kernel says again which table it goes on with."""
        self.messages = list({(it["Name"], value_of(it["Parms"], "Ifindex")): it for it in self.messages}.values())
        return list({(it["name"], it.get("dev")): it for it in told}.values())

    def taken_neighbours(self, told):
        """The neighbours in both answers, and in one those that stay; others come and go, and change."""
        ours = {(NEIGHBOUR["dst"](it), NEIGHBOUR["dev"](it)): it for it in self.messages}
        theirs = {(it["dst"], it["dev"]): it for it in told}
        stay = {key for key, it in ours.items() if "PERMANENT" in NEIGHBOUR["state"](it)}
        stay ^= {key for key, it in theirs.items() if "PERMANENT" in it["state"]}
        self.wrong += [f"the neighbour {key} is in one answer alone" for key in sorted(stay)]
        both = [key for key in theirs if key in ours]
        self.messages = [ours[key] for key in both]
        return [{key: value for key, value in theirs[one].items() if key != "state" or "PERMANENT" in value} for one in both]

    def taken_actions(self, told):
        """Actions one by one, which stand together in an object and in a message."""
        lists = [it["Actions"] or [] for it in self.messages]
        self.messages = [Message({"action": {"header": {}, "attributes": one["attributes"]}}, {}) for some in lists for one in some]
        self.table = {"kind": lambda it: it["Kind"]}
        return [it and {"kind": told_kind(it)} for answer in told for it in (answer or {}).get("actions", [])]


def compare(name, text, messages, links):
    """How many facts were compared, how many objects are no JSON, and what is wrong."""
    it = Comparison(name, messages, links)
    it.compare(objects(text))
    return it.count, it.broken, it.wrong
