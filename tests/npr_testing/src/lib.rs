//! What the tests share: bytes as text, and what is asked of messages and attributes.
//!
//! Each helper takes what is wanted by value, since a test is proved sooner the less it holds. What is
//! not as wanted is answered, and ends no process: a library may not, and so the tests of several
//! crates stand on this one.
#![tactic(auto)]

ghost use Rattle.std.specs.Prelude.{◌≤◌, length, IfOk};

use netlink_packet_route::framing::{
    Attribute, DecodeError, EmitError, Emitable, Header, Looks, Message as Stored, NlaBuffer,
    Parseable,
};
use netlink_packet_route::route::MplsLabel;
use std::alloc::{AllocError, Global};
use std::fmt::{Debug, Display};
use std::test::Fail;

/// A route header: family inet, the table main, unicast.
pub const INET: &str = "02000000fe03000100000000";

/// The entry `000641ff`: label 100, class 0, the bottom of its stack, TTL 255.
pub const LABEL: MplsLabel = MplsLabel {
    label: 100,
    traffic_class: 0,
    bottom_of_stack: true,
    ttl: 255,
};

/// `fc00::1`.
pub const FIRST: [u8; 16] = [0xfc, 0, 0, 0, 0, 0, 0, 0, 0, 0, 0, 0, 0, 0, 0, 1];

/// `fc00::2`.
pub const SECOND: [u8; 16] = [0xfc, 0, 0, 0, 0, 0, 0, 0, 0, 0, 0, 0, 0, 0, 0, 2];

/// `fc00::1` as text.
pub const FIRST_TEXT: &str = "fc000000000000000000000000000001";

/// `fc00::2` as text.
pub const SECOND_TEXT: &str = "fc000000000000000000000000000002";

/// A message of any kind.
pub trait Message: Emitable + PartialEq + Drop + Sized {
    type Attribute: Debug + PartialEq + Drop;

    fn of(alloc: Global, bytes: &[u8]) -> Result<Self, DecodeError>;

    fn one_by_one(alloc: Global, bytes: &[u8]) -> Result<Vec<Self::Attribute>, DecodeError>;

    fn seen(bytes: &[u8]) -> Result<usize, DecodeError>;

    fn read_again(&mut self, alloc: Global, bytes: &[u8]) -> Result<(), DecodeError>;

    fn copy(&self, alloc: Global) -> Result<Self, AllocError>;

    fn attributes(&self) -> &[Self::Attribute];
}

impl<H: Header + PartialEq> Message for Stored<H, H::Attribute>
where
    H::Attribute: Debug + PartialEq,
{
    type Attribute = H::Attribute;

    fn of(alloc: Global, bytes: &[u8]) -> Result<Self, DecodeError> {
        Stored::<H, H::Attribute>::parse(alloc, bytes)
    }

    fn one_by_one(alloc: Global, bytes: &[u8]) -> Result<Vec<H::Attribute>, DecodeError> {
        let mut found = Vec::new(alloc);
        for attribute in Stored::<H, H::Attribute>::attributes(alloc, bytes)? {
            found.push(attribute?)?;
        }
        Ok(found)
    }

    fn seen(bytes: &[u8]) -> Result<usize, DecodeError> {
        let (_, values) = Stored::<H, H::Attribute>::values(bytes)?;
        let mut count = 0usize;
        for value in values {
            if let Err(refusal) = value {
                return Err(refusal);
            }
            count = count.saturating_add(1);
        }
        Ok(count)
    }

    fn read_again(&mut self, alloc: Global, bytes: &[u8]) -> Result<(), DecodeError> {
        self.parse_into(alloc, bytes)
    }

    fn copy(&self, alloc: Global) -> Result<Self, AllocError> {
        self.try_clone(alloc)
    }

    fn attributes(&self) -> &[H::Attribute] {
        self.attributes.as_slice()
    }
}

/// Both are equal.
pub fn same<T: PartialEq + Debug + Drop>(left: T, right: T) -> Result<(), Fail> {
    if left == right {
        Ok(())
    } else {
        Err(Fail::new(format_args!("{left:?} is not {right:?}")))
    }
}

/// It holds.
pub fn holds(truth: bool) -> Result<(), Fail> {
    if truth {
        Ok(())
    } else {
        Err(Fail::new("what is to hold does not"))
    }
}

/// The value is printed so.
pub fn says<T: Display + Drop>(rt: &impl AllocGlobal, value: T, text: &str) -> Result<(), Fail> {
    let found = format!(in rt.alloc(); "{value}")?;
    same(found.as_str(), text)
}

/// The value is printed so by `{:?}`.
pub fn shows<T: Debug + Drop>(rt: &impl AllocGlobal, value: T, text: &str) -> Result<(), Fail> {
    let found = format!(in rt.alloc(); "{value:?}")?;
    same(found.as_str(), text)
}

/// The bytes of these texts, one after the other; spaces may stand between digits.
pub fn bytes_of(rt: &impl AllocGlobal, texts: &[&str]) -> Result<Vec<u8>, Fail> {
    let mut bytes = Vec::new(rt.alloc());
    for text in texts {
        for word in text.split_whitespace() {
            bytes.extend_from_slice(hex::decode(rt.alloc(), word)?.as_slice())?;
        }
    }
    Ok(bytes)
}

/// So many bytes of ones, and seven more.
fn ones(alloc: Global, count: usize) -> Result<Vec<u8>, Fail>
    ensures { IfOk result (λ v. count ≤ length v.items) }
{
    let mut out = vec![in alloc; 0xffu8; count]?;
    out.extend_from_slice(&[0xff; 7])?;
    Ok(out)
}

/// What was written over ones is the bytes of the texts, and the rest stayed.
fn is_written(rt: &impl AllocGlobal, out: Vec<u8>, texts: &[&str]) -> Result<(), Fail> {
    let mut wanted = bytes_of(rt, texts)?;
    wanted.extend_from_slice(&[0xff; 7])?;
    same(out, wanted)
}

/// The value is written as these bytes into a longer buffer of ones, whose rest stays.
pub fn writes<T: Emitable + Drop>(
    rt: &impl AllocGlobal,
    value: T,
    texts: &[&str],
) -> Result<(), Fail> {
    let count = value.check()?;
    same(value.buffer_len(), count)?;
    let mut out = ones(rt.alloc(), count)?;
    value.emit(out.as_mut_slice());
    is_written(rt, out, texts)
}

/// The parts of a line: bytes, what is written of them, and what they are printed as.
///
/// Behind an arrow stands what is written, where that is another way, behind `=>` the text, and
/// behind `#` a remark.
fn parts_of(line: &str) -> (&str, &str, &str) {
    let (line, _) = line.split_once('#').unwrap_or((line, ""));
    let (bytes, text) = line.split_once("=>").unwrap_or((line, ""));
    let (read, written) = bytes.split_once("->").unwrap_or((bytes, bytes));
    (read, written, text.trim())
}

/// The message is what the bytes are, and so is its copy; its attributes are printed so, they come
/// so one by one, each has a value that is seen, and they are so read into a message that stands.
fn is_message<M: Message>(
    rt: &impl AllocGlobal,
    message: &mut M,
    bytes: &[u8],
    text: &str,
) -> Result<(), Fail> {
    let found = M::one_by_one(rt.alloc(), bytes)?;
    holds(message.attributes() == found.as_slice())?;
    same(M::seen(bytes)?, found.len())?;
    holds(message.copy(rt.alloc())? == *message)?;
    message.read_again(rt.alloc(), bytes)?;
    holds(message.attributes() == found.as_slice())?;
    shows(rt, found, text)
}

/// Each line is a message behind the header, whose attributes are printed as its text, or is none,
/// for the cause that is its text.
pub fn messages<M: Message>(rt: &impl AllocGlobal, header: &str, lines: &str) -> Result<(), Fail> {
    for line in lines.lines() {
        let (read, written, text) = parts_of(line);
        if text.is_empty() {
            holds(read.trim().is_empty())?;
            continue;
        }
        let bytes = bytes_of(rt, &[header, read])?;
        match M::of(rt.alloc(), bytes.as_slice()) {
            Ok(mut message) => {
                is_message(rt, &mut message, bytes.as_slice(), text)?;
                writes(rt, message, &[header, written])?;
            }
            Err(fault) => {
                let one_by_one = M::one_by_one(rt.alloc(), bytes.as_slice());
                same(one_by_one.err(), Some(fault))?;
                says(rt, fault, text)?;
            }
        }
    }
    Ok(())
}

/// What `check` answers of a message that ends in so many letters.
pub fn check_of<M: Message>(
    rt: &impl AllocGlobal,
    texts: &[&str],
    letters: u32,
) -> Result<Result<usize, EmitError>, Fail> {
    let mut bytes = bytes_of(rt, texts)?;
    for _ in 0..letters {
        bytes.push(b'a')?;
    }
    let message = M::of(rt.alloc(), bytes.as_slice())?;
    Ok(message.check())
}

/// Each line is an attribute, which is a member of a family that is printed as the line's text, and
/// so is its copy, or is none, for the cause that is its text.
pub fn members<A: Attribute + Debug + PartialEq>(
    rt: &impl AllocGlobal,
    context: A::Context,
    lines: &str,
) -> Result<(), Fail> {
    for line in lines.lines() {
        let (read, written, text) = parts_of(line);
        if text.is_empty() {
            holds(read.trim().is_empty())?;
            continue;
        }
        let bytes = bytes_of(rt, &[read])?;
        let item = NlaBuffer::new_checked(bytes.as_slice())?;
        match A::read(rt.alloc(), context, &item, &mut Looks::new()) {
            Ok(member) => {
                holds(A::value(context, &item).is_ok())?;
                holds(member.try_clone(rt.alloc())? == member)?;
                shows(rt, &member, text)?;
                writes(rt, member, &[written])?;
            }
            Err(fault) => says(rt, fault, text)?,
        }
    }
    Ok(())
}

/// The attribute by itself is printed so, or is none, for the cause that is the text.
pub fn is_alone<'a, A: Parseable<&'a NlaBuffer<'a>> + Debug + Drop>(
    rt: &impl AllocGlobal,
    item: &'a NlaBuffer<'a>,
    text: &str,
) -> Result<(), Fail> {
    match A::parse(rt.alloc(), item) {
        Ok(found) => shows(rt, found, text),
        Err(fault) => says(rt, fault, text),
    }
}
