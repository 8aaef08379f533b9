//! An attribute that is kept as it stands: `netlink_packet_core`'s, with what the proved text calls on its own.

use crate::memory::{AllocError, Global, VecIn as _};
use crate::npr_base::{DecodeError, EmitError, Nla, NlaBuffer, Parseable};
use netlink_packet_core as core;

pub use netlink_packet_core::DefaultNla;

/// What the proved text calls on it.
pub(crate) trait Kept: Sized {
    fn read(alloc: Global, item: &NlaBuffer<'_>) -> Result<Self, DecodeError>;
    fn try_clone(&self, alloc: Global) -> Result<Self, AllocError>;
    fn value(&self) -> Vec<u8>;
}

impl Kept for DefaultNla {
    fn read(alloc: Global, item: &NlaBuffer<'_>) -> Result<Self, DecodeError> {
        let value = Vec::from_slice(alloc, item.value())?;
        Ok(DefaultNla::new(item.raw_kind(), value))
    }

    fn try_clone(&self, _alloc: Global) -> Result<Self, AllocError> {
        Ok(self.clone())
    }

    fn value(&self) -> Vec<u8> {
        let mut value = vec![0; core::Nla::value_len(self)];
        core::Nla::emit_value(self, &mut value);
        value
    }
}

impl<'a> Parseable<&'a NlaBuffer<'a>> for DefaultNla {
    fn parse(alloc: Global, input: &'a NlaBuffer<'a>) -> Result<Self, DecodeError> {
        Kept::read(alloc, input)
    }
}

impl Nla for DefaultNla {
    fn kind(&self) -> u16 {
        core::Nla::kind(self)
    }

    fn is_nested(&self) -> bool {
        false
    }

    fn check_value(&self) -> Result<usize, EmitError> {
        Ok(core::Nla::value_len(self))
    }

    fn write_value(&self, out: &mut [u8]) -> usize {
        let length = core::Nla::value_len(self);
        core::Nla::emit_value(self, &mut out[..length]);
        length
    }
}
