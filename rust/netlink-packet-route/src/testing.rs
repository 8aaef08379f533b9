//! What the project's own tests ask of the runtime of Rattle, over that of Rust.

use crate::envelope::EnvelopeError;
use crate::framing::{DecodeError, EmitError, WriteError};
use crate::memory::AllocFailed;
pub(crate) use crate::memory::{AllocError, Global, SetIn as _, StringIn as _, VecIn as _};
use std::array::TryFromSliceError;
use std::fmt;
use std::num::{ParseIntError, TryFromIntError};

/// The runtime: it gives the allocator.
#[derive(Clone, Copy)]
pub(crate) struct HostRuntime;

pub(crate) trait AllocGlobal {
    fn alloc(&self) -> Global;
}

impl AllocGlobal for HostRuntime {
    fn alloc(&self) -> Global {
        Global
    }
}

/// Why a test fails.
#[derive(Debug)]
pub(crate) struct Fail(#[allow(dead_code)] String);

impl Fail {
    pub(crate) fn new(text: impl fmt::Display) -> Fail {
        Fail(text.to_string())
    }
}

impl<T> From<AllocFailed<T>> for Fail {
    fn from(_fault: AllocFailed<T>) -> Fail {
        Fail::new(AllocError)
    }
}

macro_rules! faults {
    ($($fault:ty)*) => {$(
        impl From<$fault> for Fail {
            fn from(fault: $fault) -> Fail {
                Fail::new(fault)
            }
        }
    )*};
}
faults! {
    &str AllocError DecodeError EmitError EnvelopeError WriteError fmt::Error hex::NoHex
    TryFromIntError ParseIntError TryFromSliceError
}

impl From<AllocError> for fmt::Error {
    fn from(_cause: AllocError) -> fmt::Error {
        fmt::Error
    }
}

/// A text that is made of parts.
macro_rules! formatted {
    (in $alloc:expr; $($parts:tt)+) => {
        Ok::<String, $crate::memory::AllocError>({
            let _ = $alloc;
            std::format!($($parts)+)
        })
    };
}
pub(crate) use formatted;

/// A list of so many times the same, or of these.
macro_rules! list {
    (in $alloc:expr; $item:expr; $count:expr) => {
        $crate::memory::repeated($alloc, $item, $count)
    };
    (in $alloc:expr; $($item:expr),* $(,)?) => {
        Ok::<_, $crate::memory::AllocError>({
            let _ = $alloc;
            std::vec![$($item),*]
        })
    };
}
pub(crate) use list;

pub(crate) trait SliceIn<T> {
    fn copied_in(&self, alloc: Global) -> Result<Vec<T>, AllocError>;
}

impl<T: Copy> SliceIn<T> for [T] {
    fn copied_in(&self, alloc: Global) -> Result<Vec<T>, AllocError> {
        Vec::from_slice(alloc, self)
    }
}

pub(crate) trait ExtendIn<T> {
    fn extend_from_slice_in(&mut self, items: &[T]) -> Result<(), AllocError>;
}

impl<T: Copy> ExtendIn<T> for Vec<T> {
    fn extend_from_slice_in(&mut self, items: &[T]) -> Result<(), AllocError> {
        self.extend_from_slice(items);
        Ok(())
    }
}

/// Texts that grow.
pub(crate) trait TextIn {
    fn new_within(alloc: Global) -> Self;

    fn push_str_in(&mut self, text: &str) -> Result<(), AllocError>;
}

impl TextIn for String {
    fn new_within(_alloc: Global) -> Self {
        String::new()
    }

    fn push_str_in(&mut self, text: &str) -> Result<(), AllocError> {
        self.push_str(text);
        Ok(())
    }
}

/// Hexadecimal digits.
pub(crate) mod hex {
    use crate::memory::{AllocError, Global};

    #[derive(Debug, thiserror::Error)]
    #[error("no pairs of hexadecimal digits")]
    pub(crate) struct NoHex;

    pub(crate) fn decode(_alloc: Global, text: &str) -> Result<Vec<u8>, NoHex> {
        let digits: Option<Vec<u32>> = text.chars().map(|digit| digit.to_digit(16)).collect();
        let digits = digits.filter(|digits| digits.len() % 2 == 0).ok_or(NoHex)?;
        let pairs = digits.chunks(2);
        Ok(pairs.map(|pair| (16 * pair[0] + pair[1]) as u8).collect())
    }

    pub(crate) fn encode(_alloc: Global, bytes: impl AsRef<[u8]>) -> Result<String, AllocError> {
        let digits = bytes.as_ref().iter().map(|byte| format!("{byte:02x}"));
        Ok(digits.collect())
    }
}
