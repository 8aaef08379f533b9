//! Datagrams as a kernel sent them, and what the standard says of their envelopes.

use netlink_packet_route::envelope::{
    Answer, Conversation, End, EnvelopeError, ErrorAttribute, NLM_F_MULTIPART, NLMSG_DONE,
    NLMSG_NOOP, NetlinkBuffer, NetlinkHeader, NetlinkIterator, error_text,
};
use netlink_packet_route::framing::{Looks, parse_list, to_vec};
use npr_testing::{bytes_of, holds, same, shows};
use std::test::Fail;

/// Two rules of a dump (`RTM_NEWRULE`, 32), and its end, which answer the request of this number.
fn dump(rt: &impl AllocGlobal, number: &str) -> Result<Vec<u8>, Fail> {
    let texts = [
        "3400000020000200",
        number,
        "9c6c0000 0a000000ff000001000000000800 0f00ff00000008000e00ffffffff0500150002000000",
        "3c00000020000200",
        number,
        "9c6c0000 0a000000fe0000010000000008000f00fe000000 08000e00ffffffff0500150002000000",
        "0800 0600fe7f0000 1400000003000200",
        number,
        "9c6c0000 00000000",
    ];
    bytes_of(rt, texts.as_slice())
}

/// The numbers 7 and 8 of requests.
const SEVEN: &str = "07000000";

const EIGHT: &str = "08000000";

/// The headers of a datagram up to its end or its fault, and the fault.
fn headers_of(
    rt: &impl AllocGlobal,
    datagram: &[u8],
) -> Result<(Vec<NetlinkHeader>, Option<EnvelopeError>), Fail> {
    let mut headers = Vec::new(rt.alloc());
    for found in NetlinkIterator::new(datagram) {
        match found {
            Ok(message) => headers.push(message.header())?,
            Err(e) => return Ok((headers, Some(e))),
        }
    }
    Ok((headers, None))
}

#[test]
fn walks_over_a_dump(rt: HostRuntime) -> Result<(), Fail> {
    let bytes = dump(&rt, SEVEN)?;
    let (headers, fault) = headers_of(&rt, bytes.as_slice())?;
    let wanted = "[NetlinkHeader { length: 52, message_type: 32, flags: 2, sequence_number: 7, \
        port_number: 27804 }, NetlinkHeader { length: 60, message_type: 32, flags: 2, \
        sequence_number: 7, port_number: 27804 }, NetlinkHeader { length: 20, message_type: 3, \
        flags: 2, sequence_number: 7, port_number: 27804 }]";
    shows(&rt, headers, wanted)?;
    same(fault, None)?;
    same((NLM_F_MULTIPART, NLMSG_DONE), (2, 3))
}

#[test]
fn writes_a_header(rt: HostRuntime) -> Result<(), Fail> {
    let part = NetlinkHeader {
        length: 52,
        message_type: 32,
        flags: NLM_F_MULTIPART,
        sequence_number: 7,
        port_number: 27804,
    };
    let written = to_vec(rt.alloc(), &part)?;
    let wanted = bytes_of(&rt, &["34000000 20000200 07000000 9c6c0000"])?;
    same(written, wanted)
}

/// So many headers stand in front of the end or of this fault.
fn has_headers(
    rt: &impl AllocGlobal,
    datagram: &[u8],
    count: usize,
    fault: Option<EnvelopeError>,
) -> Result<(), Fail> {
    let (headers, found) = headers_of(rt, datagram)?;
    same(
        (datagram.len(), headers.len(), found),
        (datagram.len(), count, fault),
    )
}

/// Each message of the dump, cut at each length, is the one that the refusal names.
#[test]
fn a_dump_is_cut_at_every_length(rt: HostRuntime) -> Result<(), Fail> {
    let bytes = dump(&rt, SEVEN)?;
    for (whole, (offset, end)) in [(0, 52), (52, 112), (112, 132)].into_iter().enumerate() {
        for cut in offset..end {
            let front = bytes.as_slice().get(..cut).unwrap_or(&[]);
            let left = cut - offset;
            let length = (end - offset) as u32;
            let wanted = match left {
                0 => None,
                1..16 => Some(EnvelopeError::MessageTooShort { offset, left }),
                _ => Some(EnvelopeError::MessageLength {
                    offset,
                    length,
                    left,
                }),
            };
            has_headers(&rt, front, whole, wanted)?;
        }
    }
    Ok(())
}

/// A message of 17 bytes: the next begins behind three bytes of padding, which may be missing at the end.
#[test]
fn padding_is_passed(rt: HostRuntime) -> Result<(), Fail> {
    let texts = [
        "11000000010000000000000000000000 ff aabbcc",
        "11000000010000000000000000000000 ff",
    ];
    let two = bytes_of(&rt, texts.as_slice())?;
    has_headers(&rt, two.as_slice(), 2, None)?;
    let padded = two.as_slice().get(..20).unwrap_or(&[]);
    let one = NetlinkBuffer::new_checked(padded)?;
    same(one.message_type(), NLMSG_NOOP)?;
    same(one.payload(), [0xff].as_slice())
}

/// What is said of a message, in a word.
fn word_of(answer: Answer<'_>) -> &'static str {
    match answer {
        Answer::Message(_) => "message",
        Answer::Foreign(_) => "foreign",
        Answer::Ended(End::Done) => "done",
        Answer::Ended(End::Acknowledged) => "acknowledged",
        Answer::Ended(End::Refused { .. }) => "refused",
        Answer::Ended(End::Interrupted) => "interrupted",
        Answer::Ended(End::Overrun) => "overrun",
        Answer::Ended(_) => "fault",
    }
}

/// What a conversation says of a datagram: these words, one for each message.
fn hears(
    rt: &impl AllocGlobal,
    conversation: &mut Conversation,
    datagram: &[u8],
    wanted: &[&'static str],
) -> Result<(), Fail> {
    let mut words = Vec::new(rt.alloc());
    let mut walk = NetlinkIterator::new(datagram);
    for _ in 0..9 {
        match conversation.next(&mut walk) {
            None => break,
            Some(answer) => words.push(word_of(answer))?,
        }
    }
    same(words.as_slice(), wanted)
}

#[test]
fn a_dump_is_answered(rt: HostRuntime) -> Result<(), Fail> {
    let bytes = dump(&rt, SEVEN)?;
    let datagram = bytes.as_slice();
    let mut asked = Conversation::new(7, 27804);
    hears(&rt, &mut asked, datagram, &["message", "message", "done"])?;
    holds(asked.is_over())?;
    hears(&rt, &mut asked, datagram, &[])?;
    hears(&rt, &mut Conversation::new(8, 0), datagram, &["foreign"; 3])?;
    hears(&rt, &mut Conversation::new(7, 1), datagram, &["foreign"; 3])
}

/// Two dumps, one behind the other: each answers its own request.
#[test]
fn two_dumps_are_joined(rt: HostRuntime) -> Result<(), Fail> {
    let mut both = dump(&rt, SEVEN)?;
    both.extend_from_slice(dump(&rt, EIGHT)?.as_slice())?;
    let mut first = Conversation::new(7, 0);
    hears(
        &rt,
        &mut first,
        both.as_slice(),
        &["message", "message", "done"],
    )?;
    holds(first.is_over())?;
    let words = [
        "foreign", "foreign", "foreign", "message", "message", "done",
    ];
    hears(
        &rt,
        &mut Conversation::new(8, 0),
        both.as_slice(),
        words.as_slice(),
    )
}

/// A part with `NLM_F_DUMP_INTR`, and then a datagram that ends the dump and has no such flag.
#[test]
fn an_earlier_part_interrupts(rt: HostRuntime) -> Result<(), Fail> {
    let part = bytes_of(&rt, &["1000000020001200070000009c6c0000"])?;
    let end = bytes_of(&rt, &["1400000003000200070000009c6c0000 00000000"])?;
    let mut asked = Conversation::new(7, 0);
    hears(&rt, &mut asked, part.as_slice(), &["message"])?;
    hears(&rt, &mut asked, end.as_slice(), &["interrupted"])
}

/// An acknowledgement, and an overrun.
#[test]
fn other_ends_are_told(rt: HostRuntime) -> Result<(), Fail> {
    let ends = [
        (
            "2400000002000001070000009c6c0000 00000000 24000000180005060700000000000000",
            "acknowledged",
        ),
        ("1000000004000000070000009c6c0000", "overrun"),
        ("1200000002000000070000009c6c0000 0000", "fault"),
        ("0f00000002000000070000009c6c0000", "fault"),
    ];
    for (text, wanted) in ends {
        let datagram = bytes_of(&rt, &[text])?;
        hears(
            &rt,
            &mut Conversation::new(7, 0),
            datagram.as_slice(),
            &[wanted],
        )?;
    }
    Ok(())
}

/// The attributes of the refusal that is a datagram's answer, with the code `EPERM` and these words.
fn refusal_of(
    rt: &impl AllocGlobal,
    datagram: &[u8],
    words: &str,
) -> Result<Vec<ErrorAttribute>, Fail> {
    let mut walk = NetlinkIterator::new(datagram);
    let answer = Conversation::new(7, 0).next(&mut walk);
    let Some(Answer::Ended(End::Refused { code, attributes })) = answer else {
        return Err(Fail::new("no refusal"));
    };
    same(code, -1)?;
    same(error_text(attributes), Some(words.as_bytes()))?;
    Ok(parse_list(rt.alloc(), (), attributes, &mut Looks::new())?)
}

/// The words and the offset of an extended answer, behind the header of the refused message alone.
#[test]
fn a_refusal_has_its_words(rt: HostRuntime) -> Result<(), Fail> {
    let texts = [
        "3c00000002000003070000009c6c0000 ffffffff 24000000180005060700000000000000",
        "0e0001004e6f7420666f756e6400 0000 0800020018000000",
    ];
    let datagram = bytes_of(&rt, texts.as_slice())?;
    let list = refusal_of(&rt, datagram.as_slice(), "Not found")?;
    shows(&rt, list, "[Message(\"Not found\"), Offset(24)]")
}

/// A cookie of five bytes (`NLMSGERR_ATTR_COOKIE`, 3) between the words and the offset.
#[test]
fn a_refusal_has_a_cookie(rt: HostRuntime) -> Result<(), Fail> {
    let texts = [
        "4400000002000003070000009c6c0000 ffffffff 24000000180005060700000000000000",
        "090001004275737900 000000 09000300c0ffee0102 000000 0800020018000000",
    ];
    let datagram = bytes_of(&rt, texts.as_slice())?;
    let list = refusal_of(&rt, datagram.as_slice(), "Busy")?;
    let wanted = "[Message(\"Busy\"), Cookie([192, 255, 238, 1, 2]), Offset(24)]";
    shows(&rt, list, wanted)
}
