//! Messages of the kernel and of `ip` on addresses, and damaged ones.

use bitflags::Flags;
use netlink_packet_route::AddressFamily;
use netlink_packet_route::address::{
    AddressHeader, AddressHeaderFlags, AddressMessage, AddressMessageBuffer, AddressProtocol,
    AddressScope,
};
use netlink_packet_route::framing::{EmitError, Header};
use npr_testing::{bytes_of, check_of, holds, messages, same};
use std::test::Fail;

/// A header: inet, prefix 8, permanent, host, interface 1.
const HEADER: &str = "020880fe 01000000";

#[test]
fn reads_messages(rt: HostRuntime) -> Result<(), Fail> {
    let lines = "
        08000100 7f000001 08000200 7f000001 07000300 6c6f0000 08000800 80000000 \
            14000600 ffffffff ffffffff 9c000000 9c000000 => \
            [Address(127.0.0.1), \
            Local(127.0.0.1), Label(\"lo\"), Flags(AddressFlags(128)), \
            CacheInfo(CacheInfo { ifa_preferred: 4294967295, ifa_valid: 4294967295, cstamp: 156, \
            tstamp: 156 })] # The loopback interface, as `ip` shows it.
        05000b00 01020304 08000a00 ffffffff 08000980 01000000 \
            14000500 09090909 09090909 09090909 09090909 -> \
            05000b00 01000000 08000a00 ffffffff 08000900 01000000 \
            14000500 09090909 09090909 09090909 09090909 => \
            [Protocol(Loopback), TargetNetNsId(-1), RoutePriority(1), \
            Anycast(909:909:909:909:909:909:909:909)]
        => []
        06000300 6c6f -> 07000300 6c6f0000 => [Label(\"lo\")] # A name without its zero.
        04000300 -> 05000300 00000000 => [Label(\"\")] # The empty name.
        080063c0 deadbeef => [Other(DefaultNla { kind: 49251, value: [222, 173, 190, 239] })] # Both flags.
        05000b00 01020304 -> 05000b00 01000000 => [Protocol(Loopback)] # Padding that is not zero.
        08000980 01000000 -> 08000900 01000000 => [RoutePriority(1)] # The flag of a known number.
        08000a00 ffffffff => [TargetNetNsId(-1)]
        08000800 80000000 0000 => 2 bytes, where an attribute begins with 4
        03000100 => an attribute of length 3 with 4 bytes left
        06000300 fffe0000 => no UTF-8 at attribute 3 of Address
        07000100 7f000000 => a value of 3 bytes at attribute 1 of Address
        13000600 00000000 00000000 00000000 00000000 => 15 bytes, where a header of 16 is wanted
        08000700 e0000001 => a value of 4 bytes at attribute 7 of Address # Multicast.";
    messages::<AddressMessage>(&rt, HEADER, lines)?;
    messages::<AddressMessage>(&rt, "", "=> 0 bytes, where a header of 8 is wanted")
}

/// A label of 65,530 letters has a value of 65,531 bytes.
#[test]
fn says_what_is_too_long(rt: HostRuntime) -> Result<(), Fail> {
    let fits = check_of::<AddressMessage>(&rt, &[HEADER, "feff0300"], 65_530)?;
    same(fits, Ok(65_544))?;
    let kind = 3;
    let len = 65_532;
    let unfit = check_of::<AddressMessage>(&rt, &[HEADER, "ffff0300"], 65_531)?;
    same(unfit, Err(EmitError::TooLong { kind, len }))
}

#[test]
fn headers(rt: HostRuntime) -> Result<(), Fail> {
    let bytes = bytes_of(&rt, &[HEADER])?;
    let header = AddressHeader::parse(bytes.as_slice())?;
    let layout = AddressMessageBuffer::from(&header);
    holds(layout.to_bytes().as_slice() == bytes.as_slice())?;
    let wanted = AddressHeader {
        family: AddressFamily::Inet,
        prefix_len: 8,
        flags: AddressHeaderFlags::Permanent,
        scope: AddressScope::Host,
        index: 1,
    };
    same(header, wanted)
}

#[test]
fn numbers() -> Result<(), Fail> {
    same(AddressHeaderFlags::Permanent.bits(), 0x80)?;
    same(u8::from(AddressProtocol::from(9)), 9)?;
    same(AddressProtocol::from(3), AddressProtocol::LinkLocal)
}
