//! Reports: lines, words, texts, and readers and writers that fail.

use netlink_packet_route::MessageKind;
use netlink_packet_route::framing::{DecodeError, EmitError};
use netlink_report::{Command, Counted, RunError, Which, finish, read_all, run, write_text};
use npr_testing::{holds, same, shows};
use std::alloc::Global;
use std::io;
use std::io::{ErrorKind, Read, Write};
use std::test::Fail;

/// The fault has this status, and is told in this line.
fn tells(rt: &impl AllocGlobal, fault: RunError, status: u8, text: &str) -> Result<(), Fail> {
    same(fault.status(), status)?;
    let (label, name) = fault.line();
    let line = format!(in rt.alloc(); "{label}{name}")?;
    same(line.as_str(), text)
}

#[test]
fn each_error_has_its_status_and_line(rt: HostRuntime) -> Result<(), Fail> {
    let refused = RunError::Refused(DecodeError::AttributeTooShort { got: 3 });
    tells(&rt, refused, 1, "refused: AttributeTooShort")?;
    tells(&rt, RunError::BadHex, 2, "bad hex")?;
    let unfit = RunError::Unfit(EmitError::IpProtocol { number: 300 });
    tells(&rt, unfit, 3, "unfit: IpProtocol")?;
    tells(&rt, RunError::Memory, 4, "out of memory")?;
    tells(&rt, RunError::Read, 5, "read failed")?;
    tells(&rt, RunError::Write, 5, "write failed")
}

/// Each line is words, and the kind that they name.
#[test]
fn one_known_word_is_wanted(rt: HostRuntime) -> Result<(), Fail> {
    let lines = "
        address => Some(Address)
        route => Some(Route)
        rule => Some(Rule)
        neighbour => Some(Neighbour)
        => None
        Address => None
        addresses => None
        address address => None";
    for line in lines.lines() {
        if let Some((words, kind)) = line.split_once("=>") {
            let mut owned = Vec::new(rt.alloc());
            for word in words.split_whitespace() {
                owned.push(String::from_str(rt.alloc(), word)?)?;
            }
            shows(&rt, Which::of(owned.as_slice()), kind.trim())?;
        }
    }
    Ok(())
}

/// Each line is words, and what they ask for.
#[test]
fn words_ask_for_a_report(rt: HostRuntime) -> Result<(), Fail> {
    let lines = "
        --help => Some(Help)
        -h => Some(Help)
        --version => Some(Version)
        link => Some(Report(Link, false))
        --where link => Some(Report(Link, true))
        link --where => Some(Report(Link, true))
        --where => None
        --where links => None
        --where link link => None
        --where --where => None
        --help link => None
        => None";
    for line in lines.lines() {
        if let Some((words, command)) = line.split_once("=>") {
            let mut owned = Vec::new(rt.alloc());
            for word in words.split_whitespace() {
                owned.push(String::from_str(rt.alloc(), word)?)?;
            }
            shows(&rt, Command::of(owned.as_slice()), command.trim())?;
        }
    }
    Ok(())
}

/// Gives its byte again and again, `left` times, and fails at the call `failing`, from 1 on.
#[derive(Drop)]
struct Source {
    byte: u8,
    left: usize,
    failing: usize,
    kind: ErrorKind,
}

impl Read for Source {
    fn read(&mut self, buf: &mut [u8]) -> io::Result<usize> {
        self.failing = self.failing.saturating_sub(1);
        if self.failing == 0 {
            return Err(io::Error::from(self.kind));
        }
        if self.left == 0 || buf.is_empty() {
            return Ok(0);
        }
        self.left -= 1;
        buf[0] = self.byte;
        Ok(1)
    }
}

/// Reading from a source that gives three sevens and fails so at this call.
fn sevens(alloc: Global, failing: usize, kind: ErrorKind) -> Result<Vec<u8>, RunError> {
    let mut reader = Counted::new(Source {
        byte: b'7',
        left: 3,
        failing,
        kind,
    });
    read_all(alloc, &mut reader)
}

#[test]
fn reads_to_the_end(rt: HostRuntime) -> Result<(), Fail> {
    let text = vec![in rt.alloc(); b'7'; 10_000]?;
    let all = read_all(rt.alloc(), &mut Counted::new(text.as_slice()))?;
    holds(all == text)?;
    for kind in [ErrorKind::Interrupted, ErrorKind::Other] {
        for failing in 1usize..=4 {
            same(sevens(rt.alloc(), failing, kind), Err(RunError::Read))?;
        }
        let all = sevens(rt.alloc(), 5, kind)?;
        same(all.as_slice(), b"777".as_slice())?;
    }
    Ok(())
}

/// Takes `step` bytes a call, and fails at the call `failing`, from 1 on. A flush is a call.
#[derive(Drop)]
struct Sink {
    taken: Vec<u8>,
    step: usize,
    failing: usize,
}

impl Sink {
    fn new(alloc: Global, step: usize, failing: usize) -> Counted<Sink> {
        Counted::new(Sink {
            taken: Vec::new(alloc),
            step,
            failing,
        })
    }

    fn turn(&mut self) -> io::Result<()> {
        self.failing = self.failing.saturating_sub(1);
        if self.failing == 0 {
            return Err(io::Error::from(ErrorKind::Interrupted));
        }
        Ok(())
    }
}

impl Write for Sink {
    fn write(&mut self, buf: &[u8]) -> io::Result<usize> {
        self.turn()?;
        let count = buf.len().min(self.step);
        self.taken.extend_from_slice(&buf[..count])?;
        Ok(count)
    }

    fn flush(&mut self) -> io::Result<()> {
        self.turn()
    }
}

#[test]
fn writes_the_whole_text(rt: HostRuntime) -> Result<(), Fail> {
    let mut writer = Sink::new(rt.alloc(), 1, usize::MAX);
    write_text(&mut writer, b"report")?;
    finish(&mut writer)?;
    same(writer.into_inner().taken.as_slice(), b"report".as_slice())?;
    let mut writer = Sink::new(rt.alloc(), 0, usize::MAX);
    same(write_text(&mut writer, b""), Ok(()))
}

/// A writer that takes so many bytes a call, and fails at this call, fails and has got this.
fn fails(rt: &impl AllocGlobal, step: usize, failing: usize, taken: &str) -> Result<(), Fail> {
    let mut writer = Sink::new(rt.alloc(), step, failing);
    let answer = write_text(&mut writer, b"report");
    same(answer, Err(RunError::Write))?;
    same(writer.into_inner().taken.as_slice(), taken.as_bytes())
}

#[test]
fn writes_a_beginning(rt: HostRuntime) -> Result<(), Fail> {
    fails(&rt, 0, usize::MAX, "")?;
    fails(&rt, 2, 3, "repo")?;
    let mut writer = Sink::new(rt.alloc(), 2, 4);
    write_text(&mut writer, b"report")?;
    same(finish(&mut writer), Err(RunError::Write))
}

/// The address of the loopback interface, and the report on it.
const LOOPBACK: &[u8] =
    b"02 08 80 fe 01 00 00 00\t08 00 01 00 7F 00 00 01\r\n08 00 02 00 7f 00 00 01\n07 00 03 00 6c 6f 00 00 0800080080000000 14000600FFFFFFFFffffffff9c0000009c000000\n";

const REPORT: &[u8] =
    b"address: 60 bytes, 5 attributes\nkind 1 length 4\nkind 2 length 4\nkind 3 length 3\nkind 8 length 4\nkind 6 length 16\ncanonical 60 bytes\n020880fe01000000080001007f000001080002007f000001070003006c6f0000080008008000000014000600ffffffffffffffff9c0000009c000000\n";

/// The report on this text of this kind.
fn reports(
    rt: &impl AllocGlobal,
    kind: MessageKind,
    text: &[u8],
    report: &[u8],
) -> Result<(), Fail> {
    let mut reader = Counted::new(text);
    let mut writer = Counted::new(Vec::new(rt.alloc()));
    holds(run(rt.alloc(), kind, &mut reader, &mut writer).is_ok())?;
    same(writer.into_inner().as_slice(), report)
}

/// An unknown number keeps both flags of its kind.
#[test]
fn reports_an_address(rt: HostRuntime) -> Result<(), Fail> {
    reports(&rt, MessageKind::Address, LOOPBACK, REPORT)?;
    let report =
        b"address: 16 bytes, 1 attributes\nkind 49251 length 4\ncanonical 16 bytes\n020880fe01000000080063c0deadbeef\n";
    let text = b"020880fe01000000 080063c0deadbeef";
    reports(&rt, MessageKind::Address, text, report)
}

/// The last padding of the second is not there, and is written.
#[test]
fn reports_a_route(rt: HostRuntime) -> Result<(), Fail> {
    let report =
        b"route: 20 bytes, 1 attributes\nkind 49251 length 4\ncanonical 20 bytes\n02000000fe03000100000000080063c0deadbeef\n";
    let text = b"02000000fe03000100000000080063c0deadbeef";
    reports(&rt, MessageKind::Route, text, report)?;
    let report =
        b"route: 17 bytes, 1 attributes\nkind 20 length 1\ncanonical 20 bytes\n02000000fe030001000000000500140001000000\n";
    let text = b"02000000fe03000100000000 0500140001";
    reports(&rt, MessageKind::Route, text, report)
}

#[test]
fn reports_a_rule_and_a_neighbour(rt: HostRuntime) -> Result<(), Fail> {
    let report =
        b"rule: 20 bytes, 1 attributes\nkind 3 length 5\ncanonical 24 bytes\n02000000fe00000100000000090003006574683000000000\n";
    let text = b"02000000fe00000100000000 0800030065746830";
    reports(&rt, MessageKind::Rule, text, report)?;
    let report =
        b"neighbour: 28 bytes, 2 attributes\nkind 1 length 4\nkind 4 length 4\ncanonical 28 bytes\n02000000030000001000000108000100c00002030800040001000000\n";
    let text = b"020000000300000010000001 08000100c0000203 08000400 01000000";
    reports(&rt, MessageKind::Neighbour, text, report)
}

/// How a run over the address ends with a writer that takes so many bytes a call and fails at this
/// call, and what it has got.
fn run_to(rt: &impl AllocGlobal, step: usize, failing: usize) -> (Result<(), RunError>, Vec<u8>) {
    let mut reader = Counted::new(LOOPBACK);
    let mut writer = Sink::new(rt.alloc(), step, failing);
    let ended = run(rt.alloc(), MessageKind::Address, &mut reader, &mut writer);
    let ended = ended.map_err(|ended| ended.error);
    (ended, writer.into_inner().taken)
}

/// One that fails holds a beginning of the report, at whichever call; and one takes no byte.
#[test]
fn reports_to_a_slow_writer(rt: HostRuntime) -> Result<(), Fail> {
    let (ended, taken) = run_to(&rt, 1, usize::MAX);
    ended?;
    same(taken.as_slice(), REPORT)?;
    for failing in 1..=REPORT.len() {
        let (ended, taken) = run_to(&rt, 1, failing);
        same(ended, Err(RunError::Write))?;
        holds(REPORT.starts_with(taken.as_slice()))?;
        same(taken.len(), failing.saturating_sub(1))?;
    }
    let (ended, taken) = run_to(&rt, 0, usize::MAX);
    same(ended, Err(RunError::Write))?;
    same(taken.len(), 0)
}

/// A run over this text ends so; nothing is written unless it ends well.
fn ends(rt: &impl AllocGlobal, kind: MessageKind, text: &str, wanted: &str) -> Result<(), Fail> {
    let mut reader = Counted::new(text.as_bytes());
    let mut writer = Counted::new(Vec::new(rt.alloc()));
    let ended = run(rt.alloc(), kind, &mut reader, &mut writer);
    holds(ended.is_ok() || writer.into_inner().is_empty())?;
    shows(rt, ended.map_err(|ended| ended.error), wanted)
}

#[test]
fn writes_nothing_after_a_fault(rt: HostRuntime) -> Result<(), Fail> {
    let kind = MessageKind::Address;
    let short = "Err(Refused(HeaderTooShort { got: 0, want: 8 }))";
    ends(&rt, kind, "", short)?;
    ends(&rt, kind, "0 2", "Err(BadHex)")?;
    let rest = "Err(Refused(AttributeTooShort { got: 2 }))";
    ends(&rt, kind, "020880fe01000000 0000", rest)?;
    let kind = MessageKind::Route;
    let short = "Err(Refused(HeaderTooShort { got: 0, want: 12 }))";
    ends(&rt, kind, "", short)?;
    let text = "02000000fe03000100000000 0a00120002010a0000010000";
    ends(&rt, kind, text, "Err(Refused(ViaFamily(258)))")
}

/// A run over this text ends at a place that is told so, and with this hint or none.
fn stands(
    rt: &impl AllocGlobal,
    kind: MessageKind,
    text: &str,
    place: &str,
    hint: bool,
) -> Result<(), Fail> {
    let mut reader = Counted::new(text.as_bytes());
    let mut writer = Counted::new(Vec::new(rt.alloc()));
    match run(rt.alloc(), kind, &mut reader, &mut writer) {
        Ok(()) => Err(Fail::new("a report is printed")),
        Err(ended) => {
            let line = format!(in rt.alloc(); "{}", ended.place)?;
            same(line.as_str(), place)?;
            same(ended.hint().is_some(), hint)
        }
    }
}

#[test]
fn tells_where_a_fault_stands(rt: HostRuntime) -> Result<(), Fail> {
    let kind = MessageKind::Route;
    stands(&rt, kind, "02 0x00\n0g", "at line 2, column 2", false)?;
    let place = "0 bytes, where a header of 12 is wanted, at byte 0";
    stands(&rt, kind, "", place, false)?;
    let text = "02000000fe03000100000000 04006300 06000f0001020000";
    let place = "a value of 2 bytes at RTA_TABLE (15), where 4 are wanted, at byte 16";
    stands(&rt, kind, text, place, false)?;
    // A route in its envelope, and one whose envelope states another length or type.
    let route = "02000000fe03000100000000";
    for (front, hint) in [
        ("1c000000180000000000000000000000", true),
        ("1d000000180000000000000000000000", false),
        ("1c000000030000000000000000000000", false),
    ] {
        let text = format!(in rt.alloc(); "{front}{route}")?;
        let place = "an attribute of length 0 with 16 bytes left, at byte 12";
        stands(&rt, kind, text.as_str(), place, hint)?;
    }
    Ok(())
}

/// A name of 65,531 letters, which has no room for its zero, behind this front.
fn says_that_a_name_is_too_long(
    rt: &impl AllocGlobal,
    kind: MessageKind,
    front: &str,
) -> Result<(), Fail> {
    let mut text = String::from_str(rt.alloc(), front)?;
    for _ in 0..65_531u32 {
        text.push_str("66")?;
    }
    ends(
        rt,
        kind,
        text.as_str(),
        "Err(Unfit(TooLong { kind: 3, len: 65532 }))",
    )
}

#[test]
fn says_that_names_are_too_long(rt: HostRuntime) -> Result<(), Fail> {
    says_that_a_name_is_too_long(&rt, MessageKind::Address, "020880fe01000000ffff0300")?;
    says_that_a_name_is_too_long(&rt, MessageKind::Rule, "02000000fe00000100000000ffff0300")
}

/// How a run ends that reads eight zeros and fails so at this call, and how many bytes it writes.
fn run_from(
    rt: &impl AllocGlobal,
    failing: usize,
    kind: ErrorKind,
) -> (Result<(), RunError>, usize) {
    let mut reader = Counted::new(Source {
        byte: b'0',
        left: 16,
        failing,
        kind,
    });
    let mut writer = Counted::new(Vec::new(rt.alloc()));
    let ended = run(rt.alloc(), MessageKind::Address, &mut reader, &mut writer);
    let ended = ended.map_err(|ended| ended.error);
    (ended, writer.into_inner().len())
}

#[test]
fn tells_a_failed_read(rt: HostRuntime) -> Result<(), Fail> {
    for kind in [ErrorKind::Interrupted, ErrorKind::Other] {
        for failing in [1usize, 2] {
            let wanted = (Err(RunError::Read), 0);
            same(run_from(&rt, failing, kind), wanted)?;
        }
    }
    Ok(())
}
