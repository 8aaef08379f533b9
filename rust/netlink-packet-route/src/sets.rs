//! Calls and operators of sets of flags, as the macro of `bitflags` makes them, written by hand. The
//! proved text calls its trait, and nothing of this.

use bitflags::Flags;
use bitflags::iter::{Iter, IterNames};
use std::fmt;
use std::hash::{Hash, Hasher};
use std::ops;

/// The names of the flags of a set, and its other bits.
struct Names<'a, F>(&'a F);

impl<F: Flags> fmt::Debug for Names<'_, F>
where
    F::Bits: bitflags::parser::WriteHex,
{
    fn fmt(&self, f: &mut fmt::Formatter<'_>) -> fmt::Result {
        match self.0.is_empty() {
            true => f.write_str("0x0"),
            false => bitflags::parser::to_writer(self.0, f),
        }
    }
}

/// Calls of the type itself.
macro_rules! calls {
    ($set:path, $bits:ty) => {
        impl $set {
            /// No flag.
            pub const fn empty() -> Self {
                Self(0)
            }

            /// Every bit.
            pub const fn all() -> Self {
                Self(<$bits>::MAX)
            }

            /// The number.
            pub const fn bits(&self) -> $bits {
                self.0
            }

            /// The set of this number: each bit is known.
            pub const fn from_bits(bits: $bits) -> Option<Self> {
                Some(Self(bits))
            }

            /// The set of this number.
            pub const fn from_bits_truncate(bits: $bits) -> Self {
                Self(bits)
            }

            /// The set of this number.
            pub const fn from_bits_retain(bits: $bits) -> Self {
                Self(bits)
            }

            /// The flag of this name.
            pub fn from_name(name: &str) -> Option<Self> {
                <Self as Flags>::from_name(name)
            }

            /// Whether it has no flag.
            pub const fn is_empty(&self) -> bool {
                self.0 == 0
            }

            /// Whether it has every bit.
            pub const fn is_all(&self) -> bool {
                self.0 == <$bits>::MAX
            }

            /// Whether both have a bit.
            pub const fn intersects(&self, other: Self) -> bool {
                self.0 & other.0 != 0
            }

            /// Whether it has all bits of the other.
            pub const fn contains(&self, other: Self) -> bool {
                self.0 & other.0 == other.0
            }

            /// Puts in the bits of the other.
            pub fn insert(&mut self, other: Self) {
                Flags::insert(self, other);
            }

            /// Takes out the bits of the other.
            pub fn remove(&mut self, other: Self) {
                Flags::remove(self, other);
            }

            /// Turns the bits of the other.
            pub fn toggle(&mut self, other: Self) {
                Flags::toggle(self, other);
            }

            /// Puts in the bits of the other, or takes them out.
            pub fn set(&mut self, other: Self, value: bool) {
                Flags::set(self, other, value);
            }

            /// The bits of either.
            pub const fn union(self, other: Self) -> Self {
                Self(self.0 | other.0)
            }

            /// The bits of both.
            pub const fn intersection(self, other: Self) -> Self {
                Self(self.0 & other.0)
            }

            /// The bits that the other has not.
            pub const fn difference(self, other: Self) -> Self {
                Self(self.0 & !other.0)
            }

            /// The bits of one alone.
            pub const fn symmetric_difference(self, other: Self) -> Self {
                Self(self.0 ^ other.0)
            }

            /// The bits that it has not.
            pub const fn complement(self) -> Self {
                Self(!self.0)
            }

            /// Each flag that is set, and what is left of the bits.
            pub fn iter(&self) -> Iter<Self> {
                Flags::iter(self)
            }

            /// Each flag that is set, with its name.
            pub fn iter_names(&self) -> IterNames<Self> {
                Flags::iter_names(self)
            }
        }
    };
}

/// An operator, and the one that assigns.
macro_rules! operator {
    ($set:path, $of:ident $name:ident, $assign:ident $assigns:ident, $call:ident) => {
        impl ops::$of for $set {
            type Output = Self;

            fn $name(self, other: Self) -> Self {
                self.$call(other)
            }
        }

        impl ops::$assign for $set {
            fn $assigns(&mut self, other: Self) {
                *self = self.$call(other);
            }
        }
    };
}

macro_rules! operators {
    ($set:path) => {
        operator!($set, BitOr bitor, BitOrAssign bitor_assign, union);
        operator!($set, BitAnd bitand, BitAndAssign bitand_assign, intersection);
        operator!($set, BitXor bitxor, BitXorAssign bitxor_assign, symmetric_difference);
        operator!($set, Sub sub, SubAssign sub_assign, difference);

        impl ops::Not for $set {
            type Output = Self;

            fn not(self) -> Self {
                self.complement()
            }
        }
    };
}

/// As a collection of sets.
macro_rules! collection {
    ($set:path) => {
        impl Extend<$set> for $set {
            fn extend<I: IntoIterator<Item = Self>>(&mut self, sets: I) {
                sets.into_iter().for_each(|set| self.insert(set));
            }
        }

        impl FromIterator<$set> for $set {
            fn from_iter<I: IntoIterator<Item = Self>>(sets: I) -> Self {
                sets.into_iter().fold(Self::empty(), Self::union)
            }
        }

        impl IntoIterator for $set {
            type Item = Self;
            type IntoIter = Iter<Self>;

            fn into_iter(self) -> Iter<Self> {
                self.iter()
            }
        }
    };
}

/// The texts of its number.
macro_rules! texts {
    ($set:path: $($text:ident)*) => {$(
        impl fmt::$text for $set {
            fn fmt(&self, f: &mut fmt::Formatter<'_>) -> fmt::Result {
                fmt::$text::fmt(&self.bits(), f)
            }
        }
    )*};
}

macro_rules! sets {
    ($($module:ident::$set:ident $bits:ty;)*) => {$(
        calls!(crate::$module::$set, $bits);
        operators!(crate::$module::$set);
        collection!(crate::$module::$set);
        texts!(crate::$module::$set: Binary Octal LowerHex UpperHex);

        impl Hash for crate::$module::$set {
            fn hash<H: Hasher>(&self, state: &mut H) {
                self.bits().hash(state);
            }
        }

        #[cfg(feature = "serde")]
        impl serde::Serialize for crate::$module::$set {
            fn serialize<S: serde::Serializer>(&self, serializer: S) -> Result<S::Ok, S::Error> {
                self.bits().serialize(serializer)
            }
        }

        #[cfg(not(test))]
        impl fmt::Debug for crate::$module::$set {
            fn fmt(&self, f: &mut fmt::Formatter<'_>) -> fmt::Result {
                f.debug_tuple(stringify!($set)).field(&Names(self)).finish()
            }
        }
    )*};
}
sets! {
    address::AddressFlags u32;
    address::AddressHeaderFlags u8;
    link::BridgeBooleanOptionFlags u32;
    link::BridgeVlanInfoFlags u16;
    link::GreEncapFlags u16;
    link::GreIOFlags u16;
    link::Inet6IfaceFlags u32;
    link::Ip6TunnelFlags u32;
    link::IpVlanFlags u16;
    link::LinkExtentMask u32;
    link::LinkFlags u32;
    link::MacVlanFlags u16;
    link::TunnelEncapFlags u16;
    link::VlanFlags u32;
    neighbour::NeighbourExtFlags u32;
    neighbour::NeighbourFdbNotify u8;
    neighbour::NeighbourFlags u8;
    neighbour::NeighbourState u16;
    nexthop::NextHopOpFlags u32;
    route::RouteFlags u32;
    route::RouteIp6TunnelFlags u16;
    route::RouteIpTunnelFlags u16;
    route::RouteNextHopFlags u8;
    rule::RuleFlags u32;
    tc::TcActionMessageFlags u32;
    tc::TcCsumFlags u32;
    tc::TcCtFlags u16;
    tc::TcNatFlags u32;
    tc::TcU32OptionFlags u32;
    tc::TcU32SelectorFlags u8;
}
