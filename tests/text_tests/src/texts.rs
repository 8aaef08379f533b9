//! The texts of refusals.

use netlink_packet_route::framing::{At, AttributeSet, DecodeError, EmitError, WriteError};
use npr_testing::says;
use std::test::Fail;

/// Those that no bytes of a message end in; the others stand where they are refused.
#[test]
fn of_reading(rt: HostRuntime) -> Result<(), Fail> {
    let at = At {
        set: AttributeSet::Route,
        number: 2,
    };
    says(&rt, DecodeError::OutOfMemory, "out of memory")?;
    let fault = DecodeError::NotUtf8 { at };
    says(&rt, fault, "no UTF-8 at attribute 2 of Route")?;
    let fault = DecodeError::Unsupported { at };
    let text = "an unsupported header at attribute 2 of Route";
    says(&rt, fault, text)
}

#[test]
fn of_what_is_written(rt: HostRuntime) -> Result<(), Fail> {
    let kind = 3;
    let len = 65_532;
    let fault = EmitError::TooLong { kind, len };
    says(&rt, fault, "attribute 3 with a value of 65532 bytes")?;
    let fault = EmitError::NextHopTooLong { len: 65_536 };
    says(&rt, fault, "a next hop of 65536 bytes")?;
    says(
        &rt,
        EmitError::TooManySegments { count: 128 },
        "128 segments",
    )?;
    says(
        &rt,
        EmitError::IpProtocol { number: 262 },
        "IP protocol 262",
    )?;
    says(&rt, EmitError::Total, "too many bytes in all")
}

#[test]
fn of_writing(rt: HostRuntime) -> Result<(), Fail> {
    says(&rt, WriteError::OutOfMemory, "out of memory")?;
    let cause = EmitError::TooManySegments { count: 128 };
    says(&rt, WriteError::from(cause), "128 segments")
}
