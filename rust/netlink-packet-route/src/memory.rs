//! What the proved text calls by other names than Rust. What takes memory is handed an allocator, and
//! may refuse: here it is Rust's own `Vec` and `String`, by their ways that may fail.

use std::collections::TryReserveError;
use std::fmt;

/// The allocator, which is Rust's.
#[derive(Clone, Copy, Debug, Default, PartialEq, Eq)]
pub struct Global;

/// Memory was refused.
#[derive(Clone, Copy, Debug, Default, PartialEq, Eq)]
pub struct AllocError;

impl fmt::Display for AllocError {
    fn fmt(&self, f: &mut fmt::Formatter<'_>) -> fmt::Result {
        f.write_str("out of memory")
    }
}

impl std::error::Error for AllocError {}

impl From<TryReserveError> for AllocError {
    fn from(_cause: TryReserveError) -> Self {
        AllocError
    }
}

/// Memory was refused for a value, which comes back.
#[derive(Debug)]
pub struct AllocFailed<T> {
    /// The value.
    pub value: T,
}

impl<T> From<AllocFailed<T>> for AllocError {
    fn from(_fault: AllocFailed<T>) -> Self {
        AllocError
    }
}

/// Whether a request for memory is refused: in tests alone.
#[cfg(not(test))]
#[inline(always)]
fn is_refused() -> bool {
    false
}
#[cfg(test)]
use crate::refused::is_refused;

/// Room for so many more, and no more where `exact`.
#[inline(always)]
fn room<T>(list: &mut Vec<T>, count: usize, exact: bool) -> Result<(), AllocError> {
    if count <= list.capacity() - list.len() {
        return Ok(());
    }
    if is_refused() {
        return Err(AllocError);
    }
    match exact {
        true => list.try_reserve_exact(count)?,
        false => list.try_reserve(count)?,
    }
    Ok(())
}

/// Lists whose memory may be refused.
pub(crate) trait VecIn<T>: Sized {
    fn new_within(alloc: Global) -> Self;

    fn from_slice(alloc: Global, items: &[T]) -> Result<Self, AllocError>
    where
        T: Copy;

    fn reserve_in(&mut self, count: usize) -> Result<(), AllocError>;

    fn reserve_exact_in(&mut self, count: usize) -> Result<(), AllocError>;

    fn push_in(&mut self, item: T) -> Result<(), AllocFailed<T>>;

    /// Behind the last, where there is room.
    ///
    /// # Panics
    /// Where there is none, with debug assertions.
    fn push_reserved(&mut self, item: T);
}

impl<T> VecIn<T> for Vec<T> {
    #[inline(always)]
    fn new_within(_alloc: Global) -> Self {
        Vec::new()
    }

    #[inline]
    fn from_slice(_alloc: Global, items: &[T]) -> Result<Self, AllocError>
    where
        T: Copy,
    {
        let mut list = Vec::new();
        room(&mut list, items.len(), true)?;
        list.extend_from_slice(items);
        Ok(list)
    }

    #[inline]
    fn reserve_in(&mut self, count: usize) -> Result<(), AllocError> {
        room(self, count, false)
    }

    #[inline]
    fn reserve_exact_in(&mut self, count: usize) -> Result<(), AllocError> {
        room(self, count, true)
    }

    #[inline]
    fn push_in(&mut self, item: T) -> Result<(), AllocFailed<T>> {
        match room(self, 1, false) {
            Ok(()) => self.push(item),
            Err(AllocError) => return Err(AllocFailed { value: item }),
        }
        Ok(())
    }

    #[inline(always)]
    fn push_reserved(&mut self, item: T) {
        debug_assert!(self.len() < self.capacity());
        self.push(item);
    }
}

/// Texts whose memory may be refused.
pub(crate) trait StringIn: Sized {
    fn from_str(alloc: Global, text: &str) -> Result<Self, AllocError>;
}

impl StringIn for String {
    fn from_str(_alloc: Global, text: &str) -> Result<Self, AllocError> {
        if !text.is_empty() && is_refused() {
            return Err(AllocError);
        }
        let mut copy = String::new();
        copy.try_reserve_exact(text.len())?;
        copy.push_str(text);
        Ok(copy)
    }
}

/// Sets of flags, by their proved trait: the calls of these names without `_in` are those of `sets`.
pub(crate) trait SetIn: bitflags::Flags {
    fn bits_in(&self) -> Self::Bits {
        bitflags::Flags::bits(self)
    }

    fn contains_in(&self, other: Self) -> bool {
        bitflags::Flags::contains(self, other)
    }

    fn from_bits_retain_in(bits: Self::Bits) -> Self {
        bitflags::Flags::from_bits_retain(bits)
    }
}

impl<F: bitflags::Flags> SetIn for F {}

/// A list of so many times the same.
macro_rules! filled {
    (in $alloc:expr; $item:expr; $count:expr) => {
        $crate::memory::repeated($alloc, $item, $count)
    };
}
pub(crate) use filled;

pub(crate) fn repeated<T: Copy>(
    _alloc: Global,
    item: T,
    count: usize,
) -> Result<Vec<T>, AllocError> {
    let mut list = Vec::new();
    room(&mut list, count, true)?;
    list.resize(count, item);
    Ok(list)
}
