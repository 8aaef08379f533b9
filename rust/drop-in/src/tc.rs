//! Traffic control.

use crate::buffers::{counters, layout, message, value};
use crate::memory::Global;
pub use crate::netlink_packet_route::tc::*;
use netlink_packet_core::{DecodeError, Parseable};

layout!(TcMessageBuffer {
    family: u8,
    pad1: u8,
    pad2: u16,
    index: i32,
    handle: u32,
    parent: u32,
    info: u32,
    payload: ..
});
layout!(TcActionGenericBuffer {
    index: u32,
    capab: u32,
    action: i32,
    refcnt: i32,
    bindcnt: i32
});
layout!(TcActionMessageBuffer {
    family: u8,
    pad1: u8,
    pad2: u16,
    payload: ..
});
layout!(TcMirrorBuffer {
    generic: [20],
    eaction: i32,
    ifindex: u32
});
layout!(TcNatBuffer {
    generic: [20],
    old_addr: [4],
    new_addr: [4],
    mask: [4],
    flags: u32
});
layout!(TcU32SelectorBuffer unchecked {
    flags: u8, offshift: u8, nkeys: u8, - 1, offmask: u16, off: u16, offoff: u16, hoff: u16,
    hmask: u32, keys: ..
});
layout!(TcFqCodelQdStatsBuffer {
    maxpacket: u32,
    drop_overlimit: u32,
    ecn_mark: u32,
    new_flow_count: u32,
    new_flows_len: u32,
    old_flows_len: u32,
    ce_mark: u32,
    memory_usage: u32,
    drop_overmemory: u32
});
layout!(TcFqCodelClStatsBuffer {
    deficit: i32,
    ldelay: u32,
    count: u32,
    lastcount: u32,
    dropping: u32,
    drop_next: i32
});
layout!(TcStatsBasicBuffer { bytes: u64, packets: u32, - 4 });
layout!(TcStatsBuffer {
    bytes: u64, packets: u32, drops: u32, overlimits: u32, bps: u32, pps: u32, qlen: u32,
    backlog: u32, - 4
});
layout!(TcStatsQueueBuffer {
    qlen: u32,
    backlog: u32,
    drops: u32,
    requeues: u32,
    overlimits: u32
});

message!(TcMessageBuffer: TcMessage, TcHeader);
message!(TcActionMessageBuffer: TcActionMessage, TcActionMessageHeader);
value! {
    TcActionGenericBuffer: TcActionGeneric;
    TcMirrorBuffer: TcMirror;
    TcNatBuffer: TcNat;
    TcStatsBasicBuffer: TcStatsBasic;
    TcStatsBuffer: TcStats;
    TcStatsQueueBuffer: TcStatsQueue;
}
counters! {
    TcFqCodelClStatsBuffer: TcFqCodelClStats, 24;
    TcFqCodelQdStatsBuffer: TcFqCodelQdStats, 36;
}

impl<T: AsRef<[u8]>> TcU32SelectorBuffer<T> {
    /// Where each key that it tells is there.
    pub fn new_checked(buffer: T) -> Result<Self, DecodeError> {
        let selector = TcU32Selector::parse(Global, buffer.as_ref())?;
        match selector.keys.len() < usize::from(selector.nkeys) {
            true => Err("there are fewer keys than it tells".into()),
            false => Ok(Self { buffer }),
        }
    }
}

impl<T: AsRef<[u8]> + ?Sized> Parseable<TcU32SelectorBuffer<&T>> for TcU32Selector {
    fn parse(buffer: &TcU32SelectorBuffer<&T>) -> Result<Self, DecodeError> {
        Ok(TcU32Selector::parse(Global, buffer.inner())?)
    }
}

impl<'a, T: AsRef<[u8]> + 'a> Parseable<TcMessageBuffer<&'a T>> for Vec<TcAttribute> {
    fn parse(buffer: &TcMessageBuffer<&'a T>) -> Result<Self, DecodeError> {
        Ok(TcMessage::parse(buffer)?.attributes)
    }
}

#[cfg(upstream_tests)]
include!(concat!(env!("OUT_DIR"), "/upstream/tc.rs"));

// Private modules that these name.
#[cfg(upstream_tests)]
crate::buffers::same_as_this!(filters);

#[cfg(upstream_tests)]
mod actions {
    pub(crate) use super::*;

    crate::buffers::same_as_this!(message);
    include!(concat!(env!("OUT_DIR"), "/upstream/actions.rs"));
}
