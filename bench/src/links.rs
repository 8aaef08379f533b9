//! Upstream's link messages, read by their type, as each version of that crate reads them.

use netlink_packet_core::{DecodeError, Emitable, NetlinkDeserializable, NetlinkHeader, Parseable};
use netlink_packet_route::RouteNetlinkMessage;

/// `RTM_NEWLINK`.
pub const NEW_LINK: u16 = 16;

/// A link message, with what stands around it.
pub struct Link(RouteNetlinkMessage);

impl Parseable<[u8]> for Link {
    fn parse(bytes: &[u8]) -> Result<Self, DecodeError> {
        let mut header = NetlinkHeader::default();
        header.message_type = NEW_LINK;
        RouteNetlinkMessage::deserialize(&header, bytes).map(Link)
    }
}

impl Emitable for Link {
    fn buffer_len(&self) -> usize {
        Emitable::buffer_len(&self.0)
    }

    fn emit(&self, out: &mut [u8]) {
        Emitable::emit(&self.0, out);
    }
}
