//! Receives a datagram of a kernel.

use netlink_sys::Socket;
use std::io;

/// The bytes that a datagram may have. A kernel fills a datagram with as many messages of a table as there is room for, and `ip` gives
/// as much; with less, some kernels leave out a part of the tables of neighbours.
const ROOM: usize = 1 << 15;

/// `MSG_TRUNC`: the length is that of the datagram, even where it is longer.
const WHOLE_LENGTH: i32 = 0x20;

/// The next datagram, whole.
pub fn receive(socket: &Socket) -> io::Result<Vec<u8>> {
    let mut datagram = Vec::with_capacity(ROOM);
    let (length, _sender) = socket.recv_from(&mut datagram, WHOLE_LENGTH)?;
    if length > datagram.len() {
        return Err(io::Error::other(format!("a datagram of {length} bytes")));
    }
    Ok(datagram)
}
