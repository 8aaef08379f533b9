//! Answers of the crate, which who asks names `library`, as the files of `crates/conformance` have them.

use super::library::address::AddressHeader;
use super::library::address_label::AddressLabelHeader;
use super::library::envelope::{
    EnvelopeError, NetlinkBuffer, NetlinkIterator, NetlinkMessage, NetlinkPayload,
};
use super::library::framing::{
    DecodeError, Emitable, Header, Looks, Message, NLA_F_NET_BYTEORDER, Nla, Parseable, WriteError,
    to_vec,
};
use super::library::link::LinkHeader;
use super::library::memory::Global;
use super::library::neighbour::NeighbourHeader;
use super::library::neighbour_table::NeighbourTableHeader;
use super::library::netconf::NetconfHeader;
use super::library::nexthop::NextHopHeader;
use super::library::nsid::NsidHeader;
use super::library::prefix::PrefixHeader;
use super::library::route::RouteHeader;
use super::library::rule::RuleHeader;
use super::library::stats::StatsHeader;
use super::library::tc::{TcActionMessageHeader, TcHeader};
use super::library::{CanonicalError, MessageKind, RouteNetlinkMessage, canonical, validate};
use std::fmt::Debug;

type Whole = NetlinkMessage<RouteNetlinkMessage>;

/// The folder of the files.
pub const DATA: &str = concat!(env!("CARGO_MANIFEST_DIR"), "/../../crates/conformance/data");

/// A kind of messages: its word, and what is answered to bytes.
pub struct Kind {
    pub word: &'static str,
    answer: fn(&[u8]) -> Result<String, Refusal>,
}

impl Kind {
    /// What is answered to these bytes. The calls that are told the kind, and know no type, answer the same.
    pub fn answer(&self, bytes: &[u8]) -> String {
        let answered = (self.answer)(bytes).unwrap_or_else(|refusal| refusal.0);
        if let Some(kind) = MessageKind::named(self.word) {
            let written = canonical(Global, kind, bytes);
            let fault = match written {
                Err(CanonicalError::Refused(fault)) => Err(fault),
                _ => Ok(()),
            };
            assert_eq!(validate(kind, bytes), fault);
            let written = written.map(|written| format!("canonical {}", hex(&written)));
            assert_eq!(written.unwrap_or_else(|e| Refusal::from(e).0), answered);
        }
        answered
    }
}

pub const KINDS: [Kind; 15] = [
    Kind {
        word: "address",
        answer: message::<AddressHeader>,
    },
    Kind {
        word: "route",
        answer: message::<RouteHeader>,
    },
    Kind {
        word: "rule",
        answer: message::<RuleHeader>,
    },
    Kind {
        word: "neighbour",
        answer: message::<NeighbourHeader>,
    },
    Kind {
        word: "link",
        answer: message::<LinkHeader>,
    },
    Kind {
        word: "nexthop",
        answer: message::<NextHopHeader>,
    },
    Kind {
        word: "nsid",
        answer: message::<NsidHeader>,
    },
    Kind {
        word: "netconf",
        answer: message::<NetconfHeader>,
    },
    Kind {
        word: "address-label",
        answer: message::<AddressLabelHeader>,
    },
    Kind {
        word: "neighbour-table",
        answer: message::<NeighbourTableHeader>,
    },
    Kind {
        word: "prefix",
        answer: message::<PrefixHeader>,
    },
    Kind {
        word: "tc",
        answer: message::<TcHeader>,
    },
    Kind {
        word: "tc-action",
        answer: message::<TcActionMessageHeader>,
    },
    Kind {
        word: "stats",
        answer: message::<StatsHeader>,
    },
    Kind {
        word: "datagrams",
        answer: datagrams,
    },
];

/// What is answered where there are no bytes to answer.
pub struct Refusal(String);

impl From<DecodeError> for Refusal {
    fn from(fault: DecodeError) -> Self {
        Refusal(format!("refused {}", fault.name()))
    }
}

impl From<WriteError> for Refusal {
    fn from(fault: WriteError) -> Self {
        match fault {
            WriteError::OutOfMemory => Refusal("out of memory".into()),
            WriteError::Unfit(cause) => Refusal(format!("unfit {}", cause.name())),
        }
    }
}

impl From<CanonicalError> for Refusal {
    fn from(fault: CanonicalError) -> Self {
        match fault {
            CanonicalError::Refused(fault) => fault.into(),
            CanonicalError::Unfit(cause) => WriteError::Unfit(cause).into(),
        }
    }
}

impl From<EnvelopeError> for Refusal {
    fn from(fault: EnvelopeError) -> Self {
        match fault {
            EnvelopeError::MessageTooShort { .. } => Refusal("refused MessageTooShort".into()),
            EnvelopeError::MessageLength { .. } => Refusal("refused MessageLength".into()),
        }
    }
}

pub fn hex(bytes: &[u8]) -> String {
    bytes.iter().map(|byte| format!("{byte:02x}")).collect()
}

pub fn unhex(digits: &str) -> Vec<u8> {
    let pair = |at| u8::from_str_radix(&digits[at..at + 2], 16).expect("hexadecimal digits");
    (0..digits.len()).step_by(2).map(pair).collect()
}

/// The canonical bytes of a message. They are read back to an equal one, which is written as they are,
/// and leave what is behind them.
fn message<H: Header + PartialEq + Debug>(bytes: &[u8]) -> Result<String, Refusal>
where
    H::Attribute: PartialEq + Debug,
{
    let read = Message::<H, H::Attribute>::parse(Global, bytes);
    in_parts::<H>(bytes, &read);
    counted::<H>(bytes, &read);
    let read = read?;
    seen::<H>(bytes, &read);
    assert_eq!(read.try_clone(Global).as_ref(), Ok(&read));
    let written = to_vec(Global, &read)?;
    assert!(written.len() * 2 <= bytes.len() * 5);
    assert_eq!(read.check(), Ok(written.len()));
    let mut longer = vec![0xaa; written.len() + 3];
    read.emit(&mut longer);
    assert_eq!(longer, [&written[..], &[0xaa; 3]].concat());
    for attribute in &read.attributes {
        let mut value = vec![0; attribute.value_len()];
        assert_eq!(attribute.write_value(&mut value), value.len());
    }
    let again = Message::parse(Global, &written[..]);
    assert_eq!(again.as_ref(), Ok(&read));
    assert_eq!(to_vec(Global, &again?).as_ref(), Ok(&written));
    Ok(format!("canonical {}", hex(&written)))
}

/// A reading that counts its looks at headers answers the same. They are at most what so many bytes
/// behind the header of a message allow.
fn counted<H: Header + PartialEq + Debug>(
    bytes: &[u8],
    read: &Result<Message<H, H::Attribute>, DecodeError>,
) where
    H::Attribute: PartialEq + Debug,
{
    let mut looks = Looks::new();
    let again = Message::<H, H::Attribute>::parse_counted(Global, bytes, &mut looks);
    assert_eq!(again, *read);
    let behind = bytes.len().saturating_sub(H::size()) as u64;
    assert!(looks.successful() <= behind / 4 * 2 && looks.failed() <= behind / 12 + 2);
}

/// The values that are seen of the bytes stand at the numbers of the message's attributes.
fn seen<H: Header>(bytes: &[u8], message: &Message<H, H::Attribute>) {
    let (_, values) = Message::<H, H::Attribute>::values(bytes).expect("a header");
    let seen = values.map(|found| found.expect("a value").0.number);
    let numbers = message
        .attributes
        .iter()
        .map(|a| a.kind() % NLA_F_NET_BYTEORDER);
    assert!(seen.eq(numbers));
}

/// The header by itself, the attributes one by one, and a message that is read again are as the message.
fn in_parts<H: Header + PartialEq + Debug>(
    bytes: &[u8],
    read: &Result<Message<H, H::Attribute>, DecodeError>,
) where
    H::Attribute: PartialEq + Debug,
{
    let mut again = Message::<H, H::Attribute>::default();
    let answered = again.parse_into(Global, bytes);
    assert_eq!(answered.err(), read.as_ref().err().copied());
    let header = H::parse(bytes);
    assert_eq!(header.is_ok(), bytes.len() >= H::size());
    let list = Message::<H, H::Attribute>::attributes(Global, bytes);
    let list = list.and_then(|steps| steps.collect::<Result<Vec<_>, _>>());
    match read {
        Ok(message) => {
            assert_eq!(again, *message);
            assert_eq!(header, Ok(message.header));
            assert_eq!(list.as_ref(), Ok(&message.attributes));
        }
        Err(fault) => assert_eq!(list.expect_err("a fault"), *fault),
    }
}

/// How many messages there are, how many of them of no known type, and what is written of all. Each is
/// asked about, also behind one that is refused.
fn datagrams(bytes: &[u8]) -> Result<String, Refusal> {
    let found: Vec<_> = NetlinkIterator::new(bytes)
        .map(|envelope| whole(&envelope?))
        .collect();
    let (mut messages, mut others, mut written) = (0, 0, Vec::new());
    for answer in found {
        let (message, bytes) = answer?;
        let is_other = matches!(
            message.payload,
            NetlinkPayload::InnerMessage(RouteNetlinkMessage::Other(_))
        );
        messages += 1;
        others += usize::from(is_other);
        written.extend(bytes);
    }
    Ok(format!(
        "messages {messages} others {others} {}",
        hex(&written)
    ))
}

/// A message with its envelope, and what is written of it: one message of a datagram, which is read back
/// to an equal one, but for the length and the type that are written.
fn whole(envelope: &NetlinkBuffer) -> Result<(Whole, Vec<u8>), Refusal> {
    let mut message = Whole::parse(Global, envelope)?;
    let written = to_vec(Global, &message)?;
    assert!(written.len() * 2 <= envelope.length() as usize * 5);
    message.finalize();
    let mut walk = NetlinkIterator::new(&written);
    let alone = walk.next().expect("a message")?;
    assert!(walk.next().is_none());
    let again = Whole::parse(Global, &alone);
    assert_eq!(again.as_ref(), Ok(&message));
    assert_eq!(to_vec(Global, &again?).as_ref(), Ok(&written));
    Ok((message, written))
}

/// The lines of a file, each its bytes and its answer.
pub fn lines_of(file: &str) -> Vec<(Vec<u8>, String)> {
    let text = std::fs::read_to_string(format!("{DATA}/{file}.tsv")).expect("a stored file");
    let parts = text
        .lines()
        .map(|line| line.split_once('\t').expect("a tab"));
    parts
        .map(|(digits, answer)| (unhex(digits), answer.into()))
        .collect()
}
