//! The other end of a pair: a message of a link, as upstream types it. What is read of it is what a request for a pair has.

use crate::memory::Global;
use crate::npr_base::{
    DecodeError, EmitError, Emitable as _, Looks, check_list, parse_list, write_list,
};
use crate::npr_link::header::IFINFOMSG_SIZE;
use crate::npr_link::peer_attribute::PeerAttribute;
use crate::npr_link::{InfoData, InfoVeth, LinkAttribute, LinkHeader, LinkMessage};
use std::slice;

pub type LinkPeer = LinkMessage;

/// What the proved text calls on it.
pub(crate) trait Peer: Sized {
    fn read(alloc: Global, bytes: &[u8], looks: &mut Looks) -> Result<Self, DecodeError>;
    fn write(&self, out: &mut [u8]) -> usize;
    fn try_clone(&self, alloc: Global) -> Result<Self, crate::memory::AllocError>;
}

impl Peer for LinkMessage {
    fn read(alloc: Global, bytes: &[u8], looks: &mut Looks) -> Result<Self, DecodeError> {
        if bytes.len() < IFINFOMSG_SIZE {
            return Err(DecodeError::HeaderTooShort {
                got: bytes.len(),
                want: IFINFOMSG_SIZE,
            });
        }
        let header = LinkHeader::at_front(bytes);
        let list = parse_list(alloc, (), &bytes[IFINFOMSG_SIZE..], looks)?;
        Ok(LinkMessage {
            header,
            attributes: list.into_iter().map(of_peer).collect(),
        })
    }

    fn write(&self, out: &mut [u8]) -> usize {
        self.emit(out);
        self.check().unwrap_or(0)
    }

    fn try_clone(&self, _alloc: Global) -> Result<Self, crate::memory::AllocError> {
        Ok(self.clone())
    }
}

macro_rules! same {
    ($attribute:expr; $($variant:ident)*) => {
        match $attribute {
            $(PeerAttribute::$variant(x) => LinkAttribute::$variant(x),)*
        }
    };
}

fn of_peer(attribute: PeerAttribute) -> LinkAttribute {
    same!(attribute; Address Broadcast IfName Mtu TxQueueLen OperState Mode NetNsPid Group NetNsFd NumTxQueues NumRxQueues
        GsoMaxSegs GsoMaxSize IfNetnsId GroMaxSize GsoIpv4MaxSize GroIpv4MaxSize Other)
}

/// The data of a pair: one attribute. Others are kept as they stand.
pub(crate) fn pair(mut list: Vec<InfoVeth>, bytes: &[u8]) -> Result<InfoData, DecodeError> {
    match (list.pop(), list.is_empty()) {
        (Some(end), true) => Ok(InfoData::Veth(end)),
        _ => Ok(InfoData::Other(bytes.to_vec())),
    }
}

pub(crate) fn check_pair(end: &InfoVeth) -> Result<usize, EmitError> {
    check_list(slice::from_ref(end))
}

pub(crate) fn write_pair(end: &InfoVeth, out: &mut [u8]) -> usize {
    write_list(slice::from_ref(end), out)
}
