//! The calls as C makes them. Each asks that its pointers are those of so many bytes, none null, of which
//! room for writing is read by nobody else meanwhile, as the header says.
#![allow(unsafe_code, clippy::missing_safety_doc)]

/// So many bytes at a pointer.
unsafe fn bytes_at<'a>(first: *const u8, count: usize) -> &'a [u8] {
    unsafe { std::slice::from_raw_parts(first, count) }
}

/// Room for so many bytes at a pointer.
unsafe fn room_at<'a>(first: *mut u8, count: usize) -> &'a mut [u8] {
    unsafe { std::slice::from_raw_parts_mut(first, count) }
}

include!(concat!(env!("OUT_DIR"), "/exported.rs"));
