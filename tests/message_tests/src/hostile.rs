//! Messages that were cut short, and lengths that no attribute has.

use netlink_packet_route::address::AddressMessage;
use netlink_packet_route::framing::DecodeError;
use netlink_packet_route::route::RouteMessage;
use npr_testing::{INET, Message, bytes_of, holds, messages, same};
use std::test::Fail;

/// The address of the loopback interface.
const LOOPBACK: &str = "020880fe01000000 080001007f000001 080002007f000001 070003006c6f0000
    0800080080000000 14000600ffffffffffffffff9c0000009c000000";

/// A route by an object of a next hop, and one to a network of version 6.
const BY_NEXT_HOP: &str = "02100000fe03000100000000 080001000a060000 08001e002a000000";

const OF_VERSION_6: &str = "0a400000fe03000100000000 1400010020010db8000100000000000000000000
    08001700b80b0000 0800040002000000";

/// A route with two next hops, the first of which has 13 bytes and padding.
const TWO_NEXT_HOPS: &str = "02000000fe03000100000000 1c000900 0d00000002000000 0500140001 aabbcc
    0800000003000000";

/// A route with a next hop of 13 bytes and no padding.
const NO_PADDING: &str = "02000000fe03000100000000 11000900 0d00000002000000 0500140001";

/// A route whose second next hop would begin where the padding of the first is.
const UNPADDED: &str = "02000000fe03000100000000 19000900 0d00000002000000 0500140001
    0800000003000000 000000";

/// A route with an option of Geneve.
const GENEVE: &str = "02000000fe03000100000000 14001680 10000880 0c000180 0600010001020000
    0600150002000000";

/// Why so many bytes of a message are refused, whose attributes have these lengths: the header is not
/// whole, that of the last attribute is not, or its value is not.
fn refusal(count: usize, header: usize, lengths: &[u16]) -> Option<DecodeError> {
    if count < header {
        return Some(DecodeError::HeaderTooShort {
            got: count,
            want: header,
        });
    }
    let mut left = count - header;
    for length in lengths {
        let whole = usize::from(*length);
        if left == 0 {
            return None;
        }
        if left < 4 {
            return Some(DecodeError::AttributeTooShort { got: left });
        }
        if left < whole {
            return Some(DecodeError::AttributeLength {
                length: *length,
                left,
            });
        }
        left = left.saturating_sub(whole.next_multiple_of(4));
    }
    None
}

/// The beginnings up to `whole` bytes, of attributes of these lengths, are messages or are refused for
/// where they end.
fn is_cut<M: Message>(
    rt: &impl AllocGlobal,
    text: &str,
    header: usize,
    lengths: &[u16],
    whole: usize,
) -> Result<(), Fail> {
    let bytes = bytes_of(rt, &[text])?;
    holds(whole <= bytes.len())?;
    for end in 0..=bytes.len() {
        let answer = M::of(rt.alloc(), &bytes.as_slice()[..end]).err();
        if end <= whole {
            same(answer, refusal(end, header, lengths))?;
        }
    }
    Ok(())
}

#[test]
fn messages_cut_short(rt: HostRuntime) -> Result<(), Fail> {
    is_cut::<AddressMessage>(&rt, LOOPBACK, 8, &[8, 8, 7, 8, 20], 60)?;
    is_cut::<RouteMessage>(&rt, BY_NEXT_HOP, 12, &[8, 8], 28)?;
    is_cut::<RouteMessage>(&rt, OF_VERSION_6, 12, &[20, 8, 8], 48)?;
    is_cut::<RouteMessage>(&rt, TWO_NEXT_HOPS, 12, &[28], 40)?;
    is_cut::<RouteMessage>(&rt, NO_PADDING, 12, &[17], 29)?;
    is_cut::<RouteMessage>(&rt, UNPADDED, 12, &[25], 36)?;
    is_cut::<RouteMessage>(&rt, GENEVE, 12, &[20, 6], 40)?;
    let line = "19000900 0d00000002000000 0500140001 0800000003000000 000000 => \
        5 bytes, where a next hop begins with 8";
    messages::<RouteMessage>(&rt, INET, line)
}

#[test]
fn lengths_that_no_attribute_has(rt: HostRuntime) -> Result<(), Fail> {
    let lines = "
        00000100 => an attribute of length 0 with 4 bytes left
        01000100 => an attribute of length 1 with 4 bytes left
        02000100 => an attribute of length 2 with 4 bytes left
        03000100 => an attribute of length 3 with 4 bytes left
        ffff0100 => an attribute of length 65535 with 4 bytes left
        08000800 02000200 => an attribute of length 2 with 4 bytes left";
    messages::<RouteMessage>(&rt, INET, lines)
}
