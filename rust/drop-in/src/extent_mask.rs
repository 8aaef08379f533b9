//! What an answer is to say of a link besides: a list of names, as upstream types it.

use crate::npr_base::{At, AttributeSet, DecodeError, NlaBuffer, Place, read_u32, write_array};
use crate::npr_link::{LinkAttribute, LinkExtentMask};

/// The number of the attribute, `IFLA_EXT_MASK` of `linux/if_link.h`.
pub(crate) const IFLA_EXT_MASK: u16 = 29;

pub(crate) fn put<P: Place<LinkAttribute>>(
    place: &mut P,
    item: &NlaBuffer<'_>,
) -> Result<(), DecodeError> {
    let number = read_u32(item.value(), AttributeSet::Link.at(IFLA_EXT_MASK))?;
    // each name, and the other bits as one
    let names = LinkExtentMask::from_bits_retain(number).iter().collect();
    place.put(LinkAttribute::ExtMask(names));
    Ok(())
}

pub(crate) fn write(names: &[LinkExtentMask], out: &mut [u8]) -> usize {
    let number = names.iter().fold(0, |number, name| number | name.bits());
    write_array(number.to_ne_bytes(), out)
}
