"""Messages of rtnetlink in Python, over the shared library for C (`netlink_packet_route.h` documents its calls).

    for message in npr.messages(datagram):
        if message.kind == "route":
            for it in npr.values(message):
                print(it.name, it.value)

    writer = npr.Writer()
    with writer.message(RTM_NEWROUTE, NLM_F_REQUEST | NLM_F_CREATE, sequence_number):
        writer.header(struct.pack("=8BI", AF_INET, 24, 0, 0, RT_TABLE_MAIN, RTPROT_STATIC, 0, RTN_UNICAST, 0))
        writer.put(RTA_DST, address.packed)
    socket.send(writer.written())

Bytes are those of any buffer: `bytes`, `bytearray` or `memoryview`. Those that are no message raise a `Fault`, which has its place.
"""

import contextlib
import ctypes
import ipaddress
import pathlib
import struct
from ctypes import c_char_p as data, c_void_p as room, c_size_t as size, c_uint8 as u8, c_uint16 as u16, c_uint32 as u32, c_uint64 as u64
from typing import NamedTuple


def loaded(name):
    """The shared library: where the loader looks, or else where Cargo builds it in a checkout."""
    built = pathlib.Path(__file__).resolve().parents[2] / "rust/c/target/release" / name
    for place in (name, built):
        try:
            return ctypes.CDLL(str(place))
        except OSError:
            pass
    raise ImportError(
        f"{name} stands neither where the loader looks (LD_LIBRARY_PATH) nor as {built}: a release has it in its folder lib, and in a "
        "checkout `cargo build --release --manifest-path rust/c/Cargo.toml` makes it"
    )


LIBRARY = loaded("libnetlink_packet_route.so.0.17")
FOUND, FAULT = 0, 1
REFUSED, UNFIT, SHORT, TEXT_ROOM = 1, 2, 3, 256
NLA_F_NESTED = 0x8000


def structure(**members):
    return type("Structure", (ctypes.Structure,), {"_fields_": list(members.items())})


def function(name, gives, *takes):
    call = getattr(LIBRARY, name)
    call.restype, call.argtypes = gives, takes
    return call


ANSWER = structure(status=u32, number=u32, length=size)
TOLD = structure(number=u32, family=u32, kind=u16, detail=u16, length=size, limit=size, offset=size)
STEP = structure(status=u32, number=u32, value=size, length=size, next=size, kind=u16)
VALUE = structure(status=u32, number=u32, family=u32, kind=u16, form=u16, integer=u64, value=size, length=size, next=size)
LIST = structure(status=u32, number=u32, family=u32, context=u32, at=size, end=size)
HOP = structure(status=u32, number=u32, interface_index=u32, flags=u8, hops=u8, attributes=size, end=size, next=size)
ENVELOPE = structure(status=u32, number=u32, type=u16, flags=u16, sequence_number=u32, port_number=u32, payload=size, length=size, next=size)

kind_of = function("npr_kind_of", u32, u16)
canonical_of = function("npr_canonical", ANSWER, u32, data, size, data, size)
fault_of = function("npr_fault_of", TOLD, u32, data, size)
begin = function("npr_begin", LIST, u32, data, size)
message_at = function("npr_message_at", ENVELOPE, data, size, size)
step_at = function("npr_step_at", STEP, data, size, size)
value_at = function("npr_value_at", VALUE, data, size, size, u32, u32)
inside_at = function("npr_inside_at", LIST, data, size, size, u32, u32)
hop_at = function("npr_next_hop_at", HOP, data, size, size)
hop_inside = function("npr_hop_inside", LIST, data, size, size, u32, u32)
refusal_name = function("npr_refusal_name", size, u32, data, size)
cause_name = function("npr_cause_name", size, u32, data, size)
name_of_attribute = function("npr_attribute_name", size, u32, u16, data, size)
fault_text = function("npr_fault_text", size, u32, data, size, data, size)
put_at = function("npr_put_at", ANSWER, room, size, size, u16, data, size)
copy_at = function("npr_copy_at", ANSWER, room, size, size, data, size)
end_at = function("npr_end_at", ANSWER, room, size, size, size)
end_message_at = function("npr_end_message_at", ANSWER, room, size, size, size)

# the names of the kinds, the first of which has the number 1, and the bytes of their headers
HEADERS = {
    "address": 8,
    "route": 12,
    "rule": 12,
    "neighbour": 12,
    "link": 16,
    "next_hop": 8,
    "nsid": 4,
    "netconf": 4,
    "address_label": 12,
    "neighbour_table": 4,
    "prefix": 12,
    "tc": 20,
    "tc_action": 4,
    "stats": 12,
}
KINDS = [None, *HEADERS]


class Fault(ValueError):
    """Bytes that are refused: the name of the refusal, at which of the given bytes, and for a message what is wrong in words."""

    def __init__(self, number, offset, text=None):
        self.name, self.offset, self.text = name_of(refusal_name, number), offset, text
        super().__init__(f"{self.name}: {text or f'at byte {offset}'}")


class Unfit(ValueError):
    """A message that has no canonical bytes, or a part of a request that can't be written, for the cause of this name."""


class Message(NamedTuple):
    """A message of a datagram. Its kind is None where the library has none for its type."""

    type: int
    flags: int
    sequence_number: int
    port_number: int
    payload: bytes

    @property
    def kind(self):
        return KINDS[kind_of(self.type)]


class Attribute(NamedTuple):
    """An attribute: all 16 bits of its kind, of which the number has 14, and its value."""

    kind: int
    value: bytes

    @property
    def number(self):
        return self.kind & 0x3FFF


class Value(NamedTuple):
    """A value of an attribute: the number of its family (`enum npr_family`), in which its own number is to be understood, and an
    int, a bool, an address, a str, bytes, None, a list of values, or a list of next hops. Its name is the kernel's."""

    family: int
    number: int
    value: object

    @property
    def name(self):
        return attribute_name(self.family, self.number)


class NextHop(NamedTuple):
    """A next hop of a route: its interface, RTNH_F_*, its weight less one, and its values."""

    interface_index: int
    flags: int
    hops: int
    values: list


# the family of a route's attributes, and the number of its next hops
ROUTE, MULTIPATH = 3, 9
# what a value is by its form, of its number and its bytes
FORMS = {
    0: lambda integer, given: None,
    **dict.fromkeys(range(1, 5), lambda integer, given: integer),
    5: lambda integer, given: integer - (integer >> 63 << 64),
    6: lambda integer, given: integer != 0,
    7: lambda integer, given: ipaddress.ip_address(given),
    8: lambda integer, given: given.decode(),
    **dict.fromkeys(range(9, 12), lambda integer, given: given),
}


def messages(datagram):
    """The messages of a datagram, or of a dump's datagrams one behind the other."""
    at, datagram = 0, bytes(datagram)
    while (found := message_at(datagram, len(datagram), at)).status == FOUND:
        payload = datagram[found.payload : found.payload + found.length]
        yield Message(found.type, found.flags, found.sequence_number, found.port_number, payload)
        at = found.next
    if found.status == FAULT:
        raise Fault(found.number, at)


def attributes(of):
    """The attributes of a message that is one, or of an attribute whose value is a list of them."""
    inside, at = (of.payload, HEADERS[KINDS[checked(of)]]) if isinstance(of, Message) else (of.value, 0)
    inside = bytes(inside)
    while (step := step_at(inside, len(inside), at)).status == FOUND:
        yield Attribute(step.kind, inside[step.value : step.value + step.length])
        at = step.next
    if step.status == FAULT:
        raise Fault(step.number, at)


def values(message):
    """The values of a message that is one, with those of the lists that stand in them."""
    given = bytes(message.payload)
    return read(given, begin(checked(message), given, len(given)))


def read(given, of):
    """The values of a list in these bytes."""
    found, at = [], of.at
    while (step := value_at(given, of.end, at, of.family, of.context)).status == FOUND:
        found.append(Value(step.family, step.kind, inside(given, of, at, step)))
        at = step.next
    if step.status == FAULT:
        raise Fault(step.number, at)
    return found


def inside(given, of, at, step):
    """What a value is: the list that stands in it, or its next hops, if it has either."""
    entered = inside_at(given, of.end, at, of.family, of.context)
    if entered.status == FOUND:
        return read(given, entered)
    end = step.value + step.length
    if (step.family, step.kind) == (ROUTE, MULTIPATH):
        return list(next_hops(given, of, step.value, end))
    return FORMS[step.form](step.integer, given[step.value : end])


def next_hops(given, of, at, end):
    """The next hops that stand between two places, in a list."""
    while (hop := hop_at(given, end, at)).status == FOUND:
        entered = hop_inside(given, hop.end, hop.attributes, of.family, of.context)
        yield NextHop(hop.interface_index, hop.flags, hop.hops, read(given, entered))
        at = hop.next
    if hop.status == FAULT:
        raise Fault(hop.number, at)


def canonical(message):
    """The canonical bytes of a message, without its envelope."""
    given = bytes(message.payload)
    out = ctypes.create_string_buffer(len(given) // 2 * 5 + 5)
    answer = canonical_of(checked(message), given, len(given), out, len(out))
    if answer.status == REFUSED:
        raise MemoryError
    if answer.status == UNFIT:
        raise Unfit(name_of(cause_name, answer.number))
    return out.raw[: answer.length]


def checked(message):
    """The number of the kind of a message that is one."""
    kind, given = kind_of(message.type), bytes(message.payload)
    if kind == 0:
        raise ValueError(f"the library has no kind for messages of type {message.type}")
    told = fault_of(kind, given, len(given))
    if told.number:
        raise Fault(told.number, told.offset, name_of(fault_text, kind, given, len(given)))
    return kind


def name_of(call, *of):
    """The text that a call gives."""
    out = ctypes.create_string_buffer(TEXT_ROOM)
    call(*of, out, TEXT_ROOM)
    return out.value.decode()


def attribute_name(family, number):
    """The kernel's name of an attribute, "IFLA_MTU", or an empty text."""
    return name_of(name_of_attribute, family, number)


class Writer:
    """Requests, one behind the other, in a buffer that grows. What stands inside others is put between their ends, by `with`."""

    def __init__(self):
        self.out, self.at = bytearray(256), 0

    def written(self):
        """What is written so far."""
        return bytes(self.out[: self.at])

    def write(self, call, *given):
        """Has a call write, in a larger buffer where this one is too short, and goes on behind what it wrote."""
        while (answer := call(room_of(self.out), len(self.out), *given)).status == SHORT:
            self.out += bytes(answer.length)
        if answer.status == UNFIT:
            raise Unfit(name_of(cause_name, answer.number))
        if answer.status == REFUSED:
            raise Fault(answer.number, self.at)
        self.at = answer.length

    def put(self, kind, value=b""):
        """An attribute of this kind, which may have the two flags of a kind."""
        value = bytes(value)
        self.write(put_at, self.at, kind, value, len(value))

    def put_number(self, kind, number, count, order="little"):
        """An attribute that is a number of so many bytes, in the order of the machine or of the network ("big")."""
        self.put(kind, number.to_bytes(count, order, signed=number < 0))

    def put_name(self, kind, name):
        """An attribute that is a name, with its zero."""
        self.put(kind, name.encode() + b"\0")

    def header(self, given):
        """A header of a fixed size, as `struct rtmsg`."""
        given = bytes(given)
        self.write(copy_at, self.at, given, len(given))

    @contextlib.contextmanager
    def ended(self, call, start):
        yield self
        self.write(call, start, self.at)

    def message(self, type, flags, sequence_number):
        """A message (`struct nlmsghdr`), around its header and its attributes."""
        start = self.at
        self.header(struct.pack("=IHHII", 0, type, flags, sequence_number, 0))
        return self.ended(end_message_at, start)

    def list(self, kind):
        """An attribute around what it holds, as RTA_MULTIPATH holds next hops."""
        start = self.at
        self.put(kind)
        return self.ended(end_at, start)

    def nested(self, kind):
        """The same around attributes, with NLA_F_NESTED in its kind."""
        return self.list(kind | NLA_F_NESTED)

    def next_hop(self, interface_index, flags=0, hops=0):
        """A next hop (`struct rtnexthop`), around its attributes."""
        start = self.at
        self.header(struct.pack("=HBBI", 0, flags, hops, interface_index))
        return self.ended(end_at, start)


def room_of(out):
    """The place of a buffer."""
    return ctypes.addressof((u8 * len(out)).from_buffer(out))
