//! Upstream's generic buffers, each by a table of its fields, and what is read of one by the proved text.

use crate::framing::{Attribute, Header, Looks, parse_list};
use crate::memory::Global;
use netlink_packet_core::DecodeError;

/// Bytes, and what stands for them.
pub trait AsBytes {
    /// The bytes.
    fn as_bytes(&self) -> &[u8];
}

impl AsBytes for [u8] {
    fn as_bytes(&self) -> &[u8] {
        self
    }
}

impl<const N: usize> AsBytes for [u8; N] {
    fn as_bytes(&self) -> &[u8] {
        self
    }
}

impl AsBytes for Vec<u8> {
    fn as_bytes(&self) -> &[u8] {
        self
    }
}

/// Of an attribute, its value.
impl<T: AsRef<[u8]> + ?Sized> AsBytes for netlink_packet_core::NlaBuffer<&T> {
    fn as_bytes(&self) -> &[u8] {
        self.value()
    }
}

/// The header in front of a buffer.
pub(crate) fn header<H: Header>(bytes: &[u8]) -> Result<H, DecodeError> {
    Ok(H::parse(bytes)?)
}

/// The attributes behind a header, in a context.
pub(crate) fn list<A: Attribute>(bytes: &[u8], context: A::Context) -> Result<Vec<A>, DecodeError> {
    Ok(parse_list(Global, context, bytes, &mut Looks::new())?)
}

/// A buffer by its fields, one behind the other: numbers of this machine, `[N]` bytes, `..` all others, and `- N` bytes that no
/// field has. It asks for as many bytes as these have, where it isn't `unchecked`.
macro_rules! layout {
    ($buffer:ident unchecked { $($fields:tt)* }) => {
        crate::buffers::layout!(@ [$buffer] [] [0] $($fields)*, );
    };
    ($buffer:ident { $($fields:tt)* }) => {
        crate::buffers::layout!(@ [$buffer checked] [] [0] $($fields)*, );
    };
    (@ [$buffer:ident] [$($made:tt)*] [$at:expr] $(,)?) => {
        buffer!($buffer { $($made)* });
        crate::buffers::as_bytes!($buffer);
    };
    (@ [$buffer:ident checked] [$($made:tt)*] [$at:expr] $(,)?) => {
        buffer!($buffer($at) { $($made)* });
        crate::buffers::as_bytes!($buffer);
    };
    (@ [$($to:tt)*] [$($made:tt)*] [$at:expr] - $skip:literal, $($rest:tt)*) => {
        crate::buffers::layout!(@ [$($to)*] [$($made)*] [$at + $skip] $($rest)*);
    };
    (@ [$($to:tt)*] [$($made:tt)*] [$at:expr] $name:ident: u8, $($rest:tt)*) => {
        crate::buffers::layout!(@ [$($to)*] [$($made)* $name: (u8, $at),] [$at + 1] $($rest)*);
    };
    (@ [$($to:tt)*] [$($made:tt)*] [$at:expr] $name:ident: .., $($rest:tt)*) => {
        crate::buffers::layout!(@ [$($to)*] [$($made)* $name: (slice, $at..),] [$at] $($rest)*);
    };
    (@ [$($to:tt)*] [$($made:tt)*] [$at:expr] $name:ident: [$len:literal], $($rest:tt)*) => {
        crate::buffers::layout!(@ [$($to)*] [$($made)* $name: (slice, $at..$at + $len),] [$at + $len] $($rest)*);
    };
    (@ [$($to:tt)*] [$($made:tt)*] [$at:expr] $name:ident: $number:tt, $($rest:tt)*) => {
        crate::buffers::layout!(@ [$($to)*] [$($made)* $name: ($number, $at..$at + size_of::<$number>()),]
            [$at + size_of::<$number>()] $($rest)*);
    };
}
pub(crate) use layout;

/// A buffer's bytes.
macro_rules! as_bytes {
    ($buffer:ident) => {
        impl<T: AsRef<[u8]>> crate::buffers::AsBytes for $buffer<T> {
            fn as_bytes(&self) -> &[u8] {
                self.buffer.as_ref()
            }
        }
    };
}
pub(crate) use as_bytes;

/// A message by its buffer, its header, and a walk over its attributes.
macro_rules! message {
    ($buffer:ident: $message:ident, $header:ident) => {
        impl<'a, T: AsRef<[u8]> + ?Sized> $buffer<&'a T> {
            pub fn attributes(
                &self,
            ) -> impl Iterator<
                Item = Result<
                    netlink_packet_core::NlaBuffer<&'a [u8]>,
                    netlink_packet_core::DecodeError,
                >,
            > {
                netlink_packet_core::NlasIterator::new(self.payload())
            }
        }

        impl<'a, T: AsRef<[u8]> + ?Sized + 'a> netlink_packet_core::Parseable<$buffer<&'a T>>
            for $message
        {
            fn parse(buffer: &$buffer<&'a T>) -> Result<Self, netlink_packet_core::DecodeError> {
                Ok($message::try_from(buffer.inner())?)
            }
        }

        impl<T: AsRef<[u8]>> netlink_packet_core::Parseable<$buffer<T>> for $header {
            fn parse(buffer: &$buffer<T>) -> Result<Self, netlink_packet_core::DecodeError> {
                crate::buffers::header(buffer.buffer.as_ref())
            }
        }
    };
}
pub(crate) use message;

/// The attributes behind a header by its buffer.
macro_rules! attributes {
    ($buffer:ident: $attribute:ident) => {
        impl<'a, T: AsRef<[u8]> + 'a> netlink_packet_core::Parseable<$buffer<&'a T>>
            for Vec<$attribute>
        {
            fn parse(buffer: &$buffer<&'a T>) -> Result<Self, netlink_packet_core::DecodeError> {
                crate::buffers::list(buffer.payload(), ())
            }
        }
    };
}
pub(crate) use attributes;

/// A value of a fixed layout by its buffer.
macro_rules! value {
    ($($buffer:ident: $value:ident;)*) => {$(
        impl<T: AsRef<[u8]>> netlink_packet_core::Parseable<$buffer<T>> for $value {
            fn parse(buffer: &$buffer<T>) -> Result<Self, netlink_packet_core::DecodeError> {
                Ok($value::parse(buffer.buffer.as_ref())?)
            }
        }
    )*};
}
pub(crate) use value;

/// Counters and settings by their buffers.
macro_rules! numbers {
    ($($buffer:ident: $value:ident;)*) => {$(
        impl<T: AsRef<[u8]>> netlink_packet_core::Parseable<$buffer<T>> for $value {
            fn parse(buffer: &$buffer<T>) -> Result<Self, netlink_packet_core::DecodeError> {
                let read = $value::read(crate::memory::Global, buffer.buffer.as_ref());
                read.map_err(|_| "out of memory".into())
            }
        }
    )*};
}
pub(crate) use numbers;

/// Counters that are kept as their bytes, and how many there are of them.
macro_rules! counters {
    ($($buffer:ident: $value:ident, $len:literal;)*) => {$(
        impl<T: AsRef<[u8]>> netlink_packet_core::Parseable<$buffer<T>> for $value {
            fn parse(buffer: &$buffer<T>) -> Result<Self, netlink_packet_core::DecodeError> {
                Ok($value::new(buffer.buffer.as_ref().to_vec()))
            }
        }

        impl netlink_packet_core::Emitable for $value {
            fn buffer_len(&self) -> usize {
                self.bytes.len()
            }

            fn emit(&self, buffer: &mut [u8]) {
                buffer[..self.bytes.len()].copy_from_slice(&self.bytes);
            }
        }

        impl Default for $value {
            fn default() -> Self {
                $value::new(vec![0; $len])
            }
        }
    )*};
}
pub(crate) use counters;

/// Modules with all that this one has.
#[cfg(upstream_tests)]
macro_rules! same_as_this {
    ($($module:ident)*) => {$(
        mod $module {
            pub(crate) use super::*;
        }
    )*};
}
#[cfg(upstream_tests)]
pub(crate) use same_as_this;

/// Lists that are read of an attribute's value.
#[cfg(upstream_tests)]
macro_rules! lists {
    ($($list:ident $attribute:ident;)*) => {$(
        pub(crate) struct $list(pub(crate) Vec<$attribute>);

        impl<'a, T: AsRef<[u8]> + ?Sized>
            netlink_packet_core::Parseable<netlink_packet_core::NlaBuffer<&'a T>> for $list
        {
            fn parse(
                buffer: &netlink_packet_core::NlaBuffer<&'a T>,
            ) -> Result<Self, netlink_packet_core::DecodeError> {
                Ok($list(crate::buffers::list(buffer.into_inner().as_ref(), ())?))
            }
        }
    )*};
}
#[cfg(upstream_tests)]
pub(crate) use lists;
