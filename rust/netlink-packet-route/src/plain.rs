//! What a user of Rust looks for besides, written by hand: each line is one call of the proved text,
//! which is handed the allocator of Rust. No method here has a name that the proved text calls on such
//! a type: it would be called instead.

use crate::address::AddressHeader;
use crate::envelope::{
    EnvelopeError, NETLINK_HEADER_LEN, NetlinkBuffer, NetlinkInner, NetlinkIterator, NetlinkMessage,
};
use crate::framing::{DecodeError, Header, Message, Parseable, WriteError, to_vec};
use crate::link::LinkHeader;
use crate::memory::Global;
use crate::neighbour::{NeighbourHeader, NeighbourState};
use crate::route::{RouteGeneveOpt, RouteHeader, RouteNextHop, RplSrh, Seg6Header, Seg6LocalSrh};
use crate::rule::RuleHeader;
use crate::tc::*;
use crate::{Located, MessageType, RouteNetlinkMessage, locate};
use std::fmt;
use thiserror::Error;

/// Why there is no message at a place of a datagram. Places are in bytes from the first of the datagram.
#[derive(Clone, Copy, Debug, PartialEq, Eq, Error)]
#[non_exhaustive]
pub enum Fault {
    /// The envelope.
    #[error(transparent)]
    Envelope(#[from] EnvelopeError),
    /// What stands in it.
    #[error("{refusal}, in the message of type {message_type} at byte {offset}")]
    Message {
        /// Where the message begins, with its envelope.
        offset: usize,
        /// Its type: `RTM_*` of `linux/rtnetlink.h`.
        message_type: u16,
        /// What is wrong, and where in the datagram.
        refusal: Located,
    },
}

impl<H: Header> Message<H, H::Attribute> {
    /// The canonical bytes.
    ///
    /// # Errors
    /// Why there are none.
    pub fn to_bytes(&self) -> Result<Vec<u8>, WriteError> {
        to_vec(Global, self)
    }
}

impl<H: Header> TryFrom<&[u8]> for Message<H, H::Attribute> {
    type Error = DecodeError;

    fn try_from(bytes: &[u8]) -> Result<Self, DecodeError> {
        Message::parse(Global, bytes)
    }
}

impl<H: Header> Default for Message<H, H::Attribute> {
    fn default() -> Self {
        Message::new(Global)
    }
}

#[cfg(not(upstream))]
macro_rules! headers {
    ($($header:ty)*) => {$(
        impl $header {
            /// The header in front of the bytes.
            ///
            /// # Errors
            /// `HeaderTooShort` where there are too few.
            pub fn parse(bytes: &[u8]) -> Result<Self, DecodeError> {
                Header::parse(bytes)
            }
        }
    )*};
}
#[cfg(not(upstream))]
headers!(AddressHeader RouteHeader RuleHeader NeighbourHeader LinkHeader);

impl TcMessage {
    /// The message of these parts.
    pub fn from_parts(header: TcHeader, attributes: Vec<TcAttribute>) -> Self {
        Self { header, attributes }
    }

    /// Its header and its attributes.
    pub fn into_parts(self) -> (TcHeader, Vec<TcAttribute>) {
        (self.header, self.attributes)
    }

    /// A message of this interface, of which nothing else is said.
    pub fn with_index(index: i32) -> Self {
        let mut message = Self::default();
        message.header.index = index;
        message
    }
}

impl<I: NetlinkInner> NetlinkMessage<I> {
    /// The bytes that are sent.
    ///
    /// # Errors
    /// Why there are none.
    pub fn to_bytes(&self) -> Result<Vec<u8>, WriteError> {
        to_vec(Global, self)
    }
}

impl NetlinkMessage<RouteNetlinkMessage> {
    /// The messages of a datagram, one by one. One that can't be read is told with its type and its place, and
    /// the next follows; the fault of an envelope is the last item.
    pub fn all(datagram: &[u8]) -> impl Iterator<Item = Result<Self, Fault>> {
        let mut walk = NetlinkIterator::new(datagram);
        std::iter::from_fn(move || {
            let offset = walk.offset();
            let found = match walk.next()? {
                Ok(found) => found,
                Err(fault) => return Some(Err(fault.into())),
            };
            let message_type = found.header().message_type;
            Some(Self::try_from(&found).map_err(|refusal| Fault::Message {
                offset,
                message_type,
                refusal: located(offset + NETLINK_HEADER_LEN, &found, refusal),
            }))
        })
    }
}

/// A refusal of what stands in this envelope, whose payload begins so many bytes from the first of a datagram.
fn located(payload: usize, envelope: &NetlinkBuffer<'_>, refusal: DecodeError) -> Located {
    let kind = MessageType::of(envelope.header().message_type).kind();
    let found = kind.and_then(|kind| locate(kind, envelope.payload()).err());
    let place = found.unwrap_or(Located {
        refusal,
        offset: 0,
        holder: None,
        wanted: None,
    });
    Located {
        offset: payload + place.offset,
        ..place
    }
}

impl<I: NetlinkInner> TryFrom<&NetlinkBuffer<'_>> for NetlinkMessage<I> {
    type Error = DecodeError;

    fn try_from(envelope: &NetlinkBuffer<'_>) -> Result<Self, DecodeError> {
        NetlinkMessage::parse(Global, envelope)
    }
}

macro_rules! defaults {
    ($($of:ident)*) => {$(
        impl Default for $of {
            fn default() -> Self {
                $of::new(Global)
            }
        }
    )*};
}
defaults!(RouteGeneveOpt RouteNextHop RplSrh Seg6Header Seg6LocalSrh TcAction TcU32Selector);

impl From<NeighbourState> for u16 {
    fn from(state: NeighbourState) -> u16 {
        state.bits()
    }
}

impl From<u16> for NeighbourState {
    fn from(bits: u16) -> NeighbourState {
        NeighbourState::from_bits_retain(bits)
    }
}

/// The names of the states, of none `none`.
impl fmt::Display for NeighbourState {
    fn fmt(&self, f: &mut fmt::Formatter<'_>) -> fmt::Result {
        let mut names = String::new();
        bitflags::parser::to_writer(self, &mut names)?;
        match self.is_empty() {
            true => f.write_str("none"),
            false => f.write_str(&names.to_lowercase()),
        }
    }
}

/// The name of a kind is a constant of a type without values of its own.
macro_rules! kinds {
    ($($kind:ident)*) => {$(
        impl Clone for $kind {
            fn clone(&self) -> Self {
                *self
            }
        }

        impl Copy for $kind {}

        impl fmt::Debug for $kind {
            fn fmt(&self, f: &mut fmt::Formatter<'_>) -> fmt::Result {
                f.write_str(stringify!($kind))
            }
        }

        impl PartialEq for $kind {
            fn eq(&self, _other: &Self) -> bool {
                true
            }
        }

        impl Eq for $kind {}
    )*};
}
kinds! {
    TcActionMirror TcActionNat TcActionTunnelKey TcFilterFlower TcFilterMatchAll TcFilterU32 TcQdiscFqCodel TcQdiscIngress
}
