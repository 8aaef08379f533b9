//! What upstream has besides, each one call of the proved text or of a field.

use crate::RouteNetlinkMessage;
use crate::default_nla::DefaultNla;
use crate::envelope::NetlinkInner;
use crate::framing::{self, EmitError};
use crate::link::*;
use crate::memory::Global;
use crate::message_buffer::RouteNetlinkMessageBuffer;
use crate::tc::*;
use netlink_packet_core::{self as core, DecodeError, Parseable, ParseableParametrized};
use std::cmp::Ordering;
use std::fmt;
use std::hash::{Hash, Hasher};

fn length(checked: Result<usize, EmitError>) -> usize {
    checked.unwrap_or_else(|cause| panic!("it can't be written: {cause}"))
}

/// Whether a message is of a kind.
macro_rules! is {
    ($($call:ident $variant:ident;)*) => {
        impl RouteNetlinkMessage {
            $(pub fn $call(&self) -> bool {
                matches!(self, Self::$variant(_))
            })*

            pub fn message_type(&self) -> u16 {
                NetlinkInner::message_type(self)
            }
        }
    };
}
is! {
    is_new_qdisc NewQueueDiscipline;
    is_del_qdisc DelQueueDiscipline;
    is_get_qdisc GetQueueDiscipline;
    is_new_class NewTrafficClass;
    is_del_class DelTrafficClass;
    is_get_class GetTrafficClass;
    is_new_filter NewTrafficFilter;
    is_del_filter DelTrafficFilter;
    is_get_filter GetTrafficFilter;
    is_new_chain NewTrafficChain;
    is_del_chain DelTrafficChain;
    is_get_chain GetTrafficChain;
    is_new_action NewTrafficAction;
    is_del_action DelTrafficAction;
    is_get_action GetTrafficAction;
}

impl core::Emitable for RouteNetlinkMessage {
    fn buffer_len(&self) -> usize {
        length(framing::Emitable::check(self))
    }

    fn emit(&self, buffer: &mut [u8]) {
        framing::Emitable::emit(self, buffer);
    }
}

impl<'a, T: AsRef<[u8]> + ?Sized> ParseableParametrized<RouteNetlinkMessageBuffer<&'a T>, u16>
    for RouteNetlinkMessage
{
    fn parse_with_param(
        buffer: &RouteNetlinkMessageBuffer<&'a T>,
        message_type: u16,
    ) -> Result<Self, DecodeError> {
        let mut header = core::NetlinkHeader::default();
        header.message_type = message_type;
        Ok(core::NetlinkDeserializable::deserialize(
            &header,
            buffer.inner(),
        )?)
    }
}

/// A value of bytes: its length, and what writes it.
macro_rules! emitable {
    ($($value:ty: |$x:ident, $out:ident| $length:expr, $write:expr;)*) => {$(
        impl core::Emitable for $value {
            fn buffer_len(&self) -> usize {
                let $x = self;
                $length
            }

            fn emit(&self, $out: &mut [u8]) {
                let $x = self;
                $write;
            }
        }
    )*};
}
emitable! {
    Icmp6Stats: |x, out| x.len(), x.write(out);
    Inet6DevConf: |x, out| x.len(), x.write(out);
    Inet6Stats: |x, out| x.len(), x.write(out);
    InetDevConf: |x, out| x.len(), x.write(out);
    Stats: |x, out| x.len(), x.write(out);
    Stats64: |x, out| x.len(), x.write(out);
    LinkEvent: |x, out| 4, out[..4].copy_from_slice(&u32::from(*x).to_ne_bytes());
    TcXstats: |x, out| length(x.check()), x.write(out);
    TcFqCodelXstats: |x, out| x.len(), x.write(out);
}

/// A value that is written as an attribute: its kind, its length, and what writes it.
macro_rules! nla {
    ($($value:ty: $kind:literal |$x:ident, $out:ident| $length:expr, $write:expr;)*) => {$(
        impl core::Nla for $value {
            fn kind(&self) -> u16 {
                $kind
            }

            fn value_len(&self) -> usize {
                let $x = self;
                $length
            }

            fn emit_value(&self, $out: &mut [u8]) {
                let $x = self;
                $write;
            }
        }
    )*};
}
nla! {
    InfoKind: 1 |x, out| x.len(), x.write(out);
    InfoData: 2 |x, out| length(x.check()), x.write(out);
    InfoPortKind: 4 |x, out| x.len(), x.write(out);
    InfoPortData: 5 |x, out| length(x.check()), x.write(out);
    TcActionMessageFlagsWithSelector: 2 |x, out| 8, out[..8].copy_from_slice(&x.to_bytes());
}

/// A value of an attribute.
macro_rules! kinds {
    ($($value:ident)*) => {$(
        impl<'a, T: AsRef<[u8]> + ?Sized> Parseable<core::NlaBuffer<&'a T>> for $value {
            fn parse(buffer: &core::NlaBuffer<&'a T>) -> Result<Self, DecodeError> {
                Ok($value::parse(Global, buffer.value())?)
            }
        }
    )*};
}
kinds!(InfoKind InfoPortKind);

impl<'a, T: AsRef<[u8]> + ?Sized> Parseable<core::NlaBuffer<&'a T>>
    for TcActionMessageFlagsWithSelector
{
    fn parse(buffer: &core::NlaBuffer<&'a T>) -> Result<Self, DecodeError> {
        Ok(Self::parse(buffer.value())?)
    }
}

impl<T: AsRef<[u8]>> Parseable<T> for BridgeBooleanOptions {
    fn parse(bytes: &T) -> Result<Self, DecodeError> {
        Ok(Self::parse(bytes.as_ref())?)
    }
}

impl<T: AsRef<[u8]>> Parseable<T> for TcFqCodelXstats {
    fn parse(bytes: &T) -> Result<Self, DecodeError> {
        Self::parse(Global, bytes.as_ref()).map_err(|_| "out of memory".into())
    }
}

impl<T: AsRef<[u8]>> Parseable<T> for LinkEvent {
    fn parse(bytes: &T) -> Result<Self, DecodeError> {
        Ok(core::parse_u32(bytes.as_ref())?.into())
    }
}

/// How many bytes it has.
macro_rules! lengths {
    ($($of:ident $length:literal;)*) => {$(
        impl $of {
            pub const LENGTH: usize = $length;
        }
    )*};
}
lengths! {
    BridgeFlag 2;
    BridgeMode 2;
    BridgeVlanInfo 4;
    BridgeVlanInfoFlags 2;
}

impl From<LinkExtentMask> for u32 {
    fn from(mask: LinkExtentMask) -> u32 {
        mask.bits()
    }
}

impl From<u32> for LinkExtentMask {
    fn from(bits: u32) -> LinkExtentMask {
        LinkExtentMask::from_bits_retain(bits)
    }
}

impl fmt::Display for HsrProtocol {
    fn fmt(&self, f: &mut fmt::Formatter<'_>) -> fmt::Result {
        match self {
            HsrProtocol::Hsr => f.write_str("hsr"),
            HsrProtocol::Prp => f.write_str("prp"),
            other => write!(f, "{}", u8::from(*other)),
        }
    }
}

impl LinkLayerType {
    pub const Cisco: LinkLayerType = LinkLayerType::Hdlc;
}

impl PartialOrd for TcActionMessageFlags {
    fn partial_cmp(&self, other: &Self) -> Option<Ordering> {
        Some(self.cmp(other))
    }
}

impl Ord for TcActionMessageFlags {
    fn cmp(&self, other: &Self) -> Ordering {
        self.bits().cmp(&other.bits())
    }
}

impl PartialOrd for TcActionMessageFlagsWithSelector {
    fn partial_cmp(&self, other: &Self) -> Option<Ordering> {
        Some(self.cmp(other))
    }
}

impl Ord for TcActionMessageFlagsWithSelector {
    fn cmp(&self, other: &Self) -> Ordering {
        (self.flags, self.selector).cmp(&(other.flags, other.selector))
    }
}

impl Hash for TcActionMessageFlagsWithSelector {
    fn hash<H: Hasher>(&self, state: &mut H) {
        (self.flags, self.selector).hash(state);
    }
}

/// A structure of its fields.
macro_rules! of_fields {
    ($($of:ident { $($field:ident: $number:ty),* })*) => {$(
        impl $of {
            pub fn new($($field: $number),*) -> Self {
                Self { $($field),* }
            }
        }
    )*};
}
of_fields! {
    VfInfoGuid { vf_id: u32, guid: u64 }
    VfInfoLinkState { vf_id: u32, state: VfLinkState }
    VfInfoRate { vf_id: u32, min_tx_rate: u32, max_tx_rate: u32 }
    VfInfoTxRate { vf_id: u32, rate: u32 }
    VfInfoVlan { vf_id: u32, vlan_id: u32, qos: u32 }
    VfVlanInfo { vf_id: u32, vlan_id: u32, qos: u32, protocol: VlanProtocol }
}

/// An address in front, and zeros behind it.
fn padded(address: &[u8]) -> [u8; 32] {
    let mut bytes = [0; 32];
    let length = address.len().min(bytes.len());
    bytes[..length].copy_from_slice(&address[..length]);
    bytes
}

impl VfInfoMac {
    pub fn new(vf_id: u32, mac: &[u8]) -> Self {
        Self {
            vf_id,
            mac: padded(mac),
        }
    }
}

impl VfInfoBroadcast {
    pub fn new(addr: &[u8]) -> Self {
        Self { addr: padded(addr) }
    }
}

impl VfInfoSetting {
    pub fn new(vf_id: u32, enabled: bool) -> Self {
        Self {
            vf_id,
            setting: enabled.into(),
        }
    }
}
