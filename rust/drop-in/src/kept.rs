//! What upstream has a type for, where the proved text keeps bytes. No byte is lost.

use crate::memory::{AllocError, Global, VecIn as _};
use netlink_packet_core::{self as core, DecodeError, NlaBuffer, Parseable, ParseableParametrized};

/// How long the identifier of a port or a switch is at most: `MAX_PHYS_ITEM_ID_LEN` of `linux/netdevice.h`.
const MAX_PHYS_ITEM_ID_LEN: usize = 32;

/// What identifies the port or the switch of a device.
#[derive(Clone, Debug, PartialEq, Eq)]
#[non_exhaustive]
pub struct LinkPhysId {
    /// Its bytes, and zeros.
    pub id: [u8; MAX_PHYS_ITEM_ID_LEN],
    /// How many bytes it has.
    pub len: usize,
    /// Those that no kernel gives.
    more: Vec<u8>,
}

impl LinkPhysId {
    pub(crate) fn read(_alloc: Global, bytes: &[u8]) -> Result<Self, AllocError> {
        let (front, more) = bytes.split_at(bytes.len().min(MAX_PHYS_ITEM_ID_LEN));
        let mut id = [0; MAX_PHYS_ITEM_ID_LEN];
        id[..front.len()].copy_from_slice(front);
        Ok(Self {
            id,
            len: front.len(),
            more: more.to_vec(),
        })
    }

    pub(crate) fn try_clone(&self, _alloc: Global) -> Result<Self, AllocError> {
        Ok(self.clone())
    }

    pub(crate) fn len(&self) -> usize {
        self.len.min(MAX_PHYS_ITEM_ID_LEN) + self.more.len()
    }

    pub(crate) fn write(&self, out: &mut [u8]) -> usize {
        let (front, behind) = out[..self.len()].split_at_mut(self.len.min(MAX_PHYS_ITEM_ID_LEN));
        front.copy_from_slice(&self.id[..front.len()]);
        behind.copy_from_slice(&self.more);
        front.len() + behind.len()
    }
}

impl Parseable<[u8]> for LinkPhysId {
    fn parse(bytes: &[u8]) -> Result<Self, DecodeError> {
        Self::read(Global, bytes).map_err(|_| "out of memory".into())
    }
}

impl core::Emitable for LinkPhysId {
    fn buffer_len(&self) -> usize {
        self.len()
    }

    fn emit(&self, buffer: &mut [u8]) {
        self.write(buffer);
    }
}

/// The counters of a driver.
#[derive(Clone, Debug, PartialEq, Eq)]
#[non_exhaustive]
pub enum LinkXstats {
    /// As they stand.
    Other(Vec<u8>),
}

impl LinkXstats {
    pub(crate) fn as_slice(&self) -> &[u8] {
        let LinkXstats::Other(bytes) = self;
        bytes
    }

    pub(crate) fn len(&self) -> usize {
        self.as_slice().len()
    }
}

impl core::Emitable for LinkXstats {
    fn buffer_len(&self) -> usize {
        self.len()
    }

    fn emit(&self, buffer: &mut [u8]) {
        buffer[..self.len()].copy_from_slice(self.as_slice());
    }
}

impl<'a, T: AsRef<[u8]> + ?Sized> ParseableParametrized<NlaBuffer<&'a T>, &crate::link::InfoKind>
    for LinkXstats
{
    fn parse_with_param(
        buffer: &NlaBuffer<&'a T>,
        _kind: &crate::link::InfoKind,
    ) -> Result<Self, DecodeError> {
        Ok(LinkXstats::Other(buffer.value().to_vec()))
    }
}
