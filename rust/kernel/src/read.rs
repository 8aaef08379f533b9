//! Reads the datagrams of an answer. A line is `message` and its JSON; `other` and a type that is not known; `wrong`, the message in
//! hexadecimal, and what is wrong; or `total` and how many messages there are, and of them how many are written back as they came.

use netlink_packet_route::envelope::{
    NETLINK_HEADER_LEN, NetlinkBuffer, NetlinkIterator, NetlinkMessage, NetlinkPayload,
};
use netlink_packet_route::memory::Global;
use netlink_packet_route::{MessageType, RouteNetlinkMessage, canonical};
use std::error::Error;

type Whole = NetlinkMessage<RouteNetlinkMessage>;

/// The bytes of a message with its envelope.
fn bytes_of<'a>(envelope: &NetlinkBuffer<'a>, datagram: &'a [u8], offset: usize) -> &'a [u8] {
    &datagram[offset..offset + envelope.length() as usize]
}

fn wrong(words: &str, bytes: &[u8]) {
    let digits: String = bytes.iter().map(|byte| format!("{byte:02x}")).collect();
    println!("wrong {digits} {words}");
}

/// Whether a message is written back as it came, or what is wrong: that its bytes are not read to an equal one.
fn is_same(message: &Whole, bytes: &[u8]) -> Result<bool, String> {
    let written = message
        .to_bytes()
        .map_err(|fault| format!("not written: {fault:?}"))?;
    let again = Whole::all(&written).collect::<Result<Vec<_>, _>>();
    let again = again.map_err(|fault| format!("canonical bytes refused: {fault}"))?;
    let [again] = &again[..] else {
        return Err(format!(
            "{} messages read of its canonical bytes",
            again.len()
        ));
    };
    if again.payload != message.payload || again.to_bytes().as_ref() != Ok(&written) {
        return Err("canonical bytes read to another message".into());
    }
    if let Some(kind) = MessageType::of(again.header.message_type).kind() {
        let alone = canonical(Global, kind, &bytes[NETLINK_HEADER_LEN..]).ok();
        if alone.as_deref() != Some(&written[NETLINK_HEADER_LEN..]) {
            return Err("other canonical bytes without the envelope".into());
        }
    }
    Ok(written == bytes)
}

/// Reads one message, and answers whether it is written back as it came.
fn read(envelope: &NetlinkBuffer, bytes: &[u8]) -> Result<bool, String> {
    let message = Whole::try_from(envelope).map_err(|fault| match Whole::all(bytes).next() {
        Some(Err(place)) => format!("refused: {place}"),
        _ => format!("refused: {fault}"),
    })?;
    match &message.payload {
        NetlinkPayload::InnerMessage(RouteNetlinkMessage::Other(_)) => {
            println!("other {}", envelope.message_type());
        }
        NetlinkPayload::InnerMessage(inner) => {
            let shown =
                serde_json::to_string(inner).map_err(|fault| format!("no JSON: {fault}"))?;
            println!("message {shown}");
        }
        NetlinkPayload::Done(_) => {}
        other => return Err(format!("no message of a table: {other:?}")),
    }
    is_same(&message, bytes)
}

/// Reads the datagrams of an answer, by envelopes and by `NetlinkMessage::all`, which find as many.
pub fn read_all(datagrams: &[u8]) -> Result<(), Box<dyn Error>> {
    let (mut count, mut same) = (0, 0);
    let mut walk = NetlinkIterator::new(datagrams);
    loop {
        let offset = walk.offset();
        let Some(found) = walk.next() else { break };
        let envelope = found?;
        let bytes = bytes_of(&envelope, datagrams, offset);
        count += 1;
        match read(&envelope, bytes) {
            Ok(is_same) => same += usize::from(is_same),
            Err(words) => wrong(&words, bytes),
        }
    }
    let whole = Whole::all(datagrams).filter(Result::is_ok).count();
    if whole != count || !walk.rest().is_empty() {
        wrong(
            &format!("{whole} messages of all, {count} of the envelopes"),
            walk.rest(),
        );
    }
    println!("total {count} {same}");
    Ok(())
}
