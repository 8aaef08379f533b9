//! Hears what a kernel tells of changes.

use crate::receive::receive;
use netlink_sys::{Socket, protocols::NETLINK_ROUTE};
use std::error::Error;
use std::fs::File;
use std::io::Write;

/// The groups of `linux/rtnetlink.h` up to that of tunnels; a kernel may have none of these numbers.
const GROUPS: std::ops::RangeInclusive<u32> = 1..=35;

/// Bytes that the kernel keeps for who is slow.
const ROOM: usize = 1 << 24;

/// `ENOBUFS`: more was told than the kernel keeps.
const LOST: i32 = 105;

/// Writes each datagram into the file as it comes.
pub fn hear(file: &str) -> Result<(), Box<dyn Error>> {
    let mut socket = Socket::new(NETLINK_ROUTE)?;
    socket.bind_auto()?;
    socket.set_rx_buf_sz(ROOM)?;
    for group in GROUPS {
        let _ = socket.add_membership(group);
    }
    let mut kept = File::create(file)?;
    loop {
        match receive(&socket) {
            Ok(datagram) => kept.write_all(&datagram)?,
            Err(fault) if fault.raw_os_error() == Some(LOST) => {}
            Err(fault) => return Err(fault.into()),
        }
    }
}
