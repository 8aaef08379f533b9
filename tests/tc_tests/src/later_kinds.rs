//! Kinds whose data hold lists of their own: tins, extended matches, keys and options of tunnels; and counters.

use npr_tc::{TcActionMessage, TcMessage};
use npr_tc_qdiscs::TcMqprio;
use npr_testing::{bytes_of, messages, shows};
use std::test::Fail;

/// The header of a queueing discipline: the interface 4, the handle 1:0, at the root.
const QDISC: &str = "00000000 04000000 00000100 ffffffff 00000000";

/// Of a filter at the way out: preference 1, IP.
const FILTER: &str = "00000000 04000000 00000000 f3ffffff 08000100";

/// Of a message of actions.
const ACTIONS: &str = "00000000";

/// The settings of `cake` and its counters: each tin by its place.
#[test]
fn reads_cake(rt: HostRuntime) -> Result<(), Fail> {
    let lines = "
        09000100 63616b65 00000000 28000200 0c000200 20bcbe00 00000000 08000300 01000000 08000600 fcffffff \
            08000c00 00000000 38000700 34000400 08000300 00004000 28000a00 24000100 0c000c00 c2eb0b00 \
            00000000 0c000300 a4150000 00000000 08000200 14000000 => [Kind(\"cake\"), \
            Options(Cake([BaseRate64(12500000), DiffservMode(Diffserv4), Overhead(-4), Raw(0)])), \
            Stats2([App(Cake([MemoryLimit(4194304), TinStats([TcCakeTin { tab: 1, stats: \
            [ThresholdRate64(781250), SentBytes64(5540), SentPackets(20)] }])]))])]
        09000100 63616b65 00000000 0c000200 06000300 01000000 => a value of 2 bytes at attribute 3 of \
            TcQdiscCake";
    messages::<TcMessage>(&rt, QDISC, lines)
}

/// Numbers of a structure that grew, as many as stand there.
#[test]
fn reads_fields(rt: HostRuntime) -> Result<(), Fail> {
    let lines = "
        08000100 73667100 18000200 ea050000 0a000000 7f000000 00040000 80000000 => [Kind(\"sfq\"), \
            Options(Sfq(TcSfqQopt { bytes: [234, 5, 0, 0, 10, 0, 0, 0, 127, 0, 0, 0, 0, 4, 0, 0, 128, 0, 0, \
            0] }))]";
    messages::<TcMessage>(&rt, QDISC, lines)
}

/// A structure of 82 bytes; the two behind it are not looked at. A message keeps the data of `mqprio` as they stand.
#[test]
fn reads_mqprio(rt: HostRuntime) -> Result<(), Fail> {
    let texts = [
        "02000001 01000000 00000000 00000000 00000200 02000000 00000000 00000000 00000000 00000000 00000000",
        "00000000 00000000 02000000 00000000 00000000 00000000 00000000 00000000 00000000 0000ffff 14000580",
        "08000100 00000000 08000200 01000000",
    ];
    let bytes = bytes_of(&rt, &texts)?;
    let found = TcMqprio::parse(rt.alloc(), bytes.as_slice())?;
    shows(&rt, found.options, "[TcEntry([Index(0), Fp(1)])]")?;
    let found = TcMqprio::parse(rt.alloc(), &bytes.as_slice()[..82])?;
    shows(&rt, found.options, "[]")?;
    let lines = "
        0b000100 6d717072 696f0000 06000200 01000000 => [Kind(\"mqprio\"), OptionsUnknown(DefaultNla { kind: 2, \
            value: [1, 0] })]";
    messages::<TcMessage>(&rt, QDISC, lines)
}

/// The matches of `basic`: their data are bytes.
#[test]
fn reads_matches(rt: HostRuntime) -> Result<(), Fail> {
    let lines = "
        0a000100 62617369 63000000 38000200 08000100 01000800 2c000200 08000100 01000000 20000200 1c000100 \
            00000300 0000aabb ffff0000 22110000 04000000 ffffffff -> 0a000100 62617369 63000000 38000200 \
            08000100 01000800 2c000200 08000100 01000000 20000200 1c000100 00000300 00000000 ffff0000 \
            22110000 04000000 ffffffff => [Kind(\"basic\"), Options(Basic([ClassId(TcHandle { major: 8, \
            minor: 1 }), Ematches([Header(TcEmatchTreeHeader { nmatches: 1, progid: 0 }), List([TcEmatch { \
            tab: 1, header: TcEmatchHeader { matchid: 0, kind: 3, flags: 0 }, data: [255, 255, 0, 0, 34, 17, \
            0, 0, 4, 0, 0, 0, 255, 255, 255, 255] }])])]))]
        0a000100 62617369 63000000 18000200 14000200 10000200 0b000100 00000000 00000000 => 7 bytes, where a \
            header of 8 is wanted";
    messages::<TcMessage>(&rt, FILTER, lines)
}

/// Options of tunnels, of which all but those of Geneve are marked as lists.
#[test]
fn reads_flower(rt: HostRuntime) -> Result<(), Fail> {
    let lines = "
        0b000100 666c6f77 65720000 70000200 58005480 1c000100 06000100 01020000 05000200 80000000 08000300 \
            00880022 0c000200 08000100 07000000 1c000380 05000100 02000000 05000300 01000000 05000400 \
            05000000 10000500 0c000200 01234567 89abcdef 0c006b00 05000100 05000000 08006e00 00000008 -> \
            0b000100 666c6f77 65720000 70000200 58005400 1c000100 06000100 01020000 05000200 80000000 08000300 \
            00880022 0c000280 08000100 07000000 1c000380 05000100 02000000 05000300 01000000 05000400 05000000 \
            10000580 0c000200 01234567 89abcdef 0c006b80 05000100 05000000 08006e00 00000008 => \
            [Kind(\"flower\"), Options(Flower([EncOpts([Geneve([Class(258), Type(128), Data([0, 136, 0, \
            34])]), Vxlan([Gbp(7)]), Erspan([Ver(2), Dir(1), Hwid(5)]), Pfcp([Seid(81985529216486895)])]), \
            Cfm([MdLevel(5)]), EncFlags(8)]))]";
    messages::<TcMessage>(&rt, FILTER, lines)
}

/// What `pedit` changes: keys, and what each is besides.
#[test]
fn reads_pedit(rt: HostRuntime) -> Result<(), Fail> {
    let lines = "
        64000100 60000100 0a000100 70656469 74000000 50000280 34000400 00000000 00000000 00000000 00000000 \
            00000000 01000000 ffff0000 00001f90 00000000 00000000 00000000 00000000 18000580 14000680 \
            06000100 04000000 06000200 00000000 -> 64000100 60000100 0a000100 70656469 74000000 50000280 \
            34000400 00000000 00000000 00000000 00000000 00000000 01000000 ffff0000 00001f90 00000000 00000000 \
            00000000 00000000 18000500 14000600 06000100 04000000 06000200 00000000 => [Actions([TcAction { \
            tab: 1, attributes: [Kind(\"pedit\"), Options(Pedit([ParmsEx(TcPeditSelector { generic: \
            TcActionGeneric { index: 0, capab: 0, action: Ok, refcnt: 0, bindcnt: 0 }, nkeys: 1, flags: 0, \
            keys: [TcPeditKey { mask: 4294901760, val: 8080, off: 0, at: 0, offmask: 0, shift: 0 }] }), \
            KeysEx([KeyEx([Htype(Tcp), Cmd(Set)])])]))] }])]";
    messages::<TcActionMessage>(&rt, ACTIONS, lines)
}
