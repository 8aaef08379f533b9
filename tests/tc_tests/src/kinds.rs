//! Kinds of queueing disciplines, filters and actions, each with its data.

use npr_tc::{TcActionMessage, TcMessage};
use npr_testing::messages;
use std::test::Fail;

/// The header of a queueing discipline: the interface 4, the handle 1:0, at the root.
const QDISC: &str = "00000000 04000000 00000100 ffffffff 00000000";

/// Of a class: the handle 1:10, the parent 1:1.
const CLASS: &str = "00000000 04000000 10000100 01000100 00000000";

/// Of a filter at the way out: preference 1, IP.
const FILTER: &str = "00000000 04000000 00000000 f3ffffff 08000100";

/// Of a message of actions.
const ACTIONS: &str = "00000000";

/// The settings of a discipline and of a class, a pad, and the counters of the class.
#[test]
fn reads_htb(rt: HostRuntime) -> Result<(), Fail> {
    let lines = "
        08000100 68746200 1c000200 18000200 03000000 0a000000 30000000 00000000 00000000 => \
            [Kind(\"htb\"), Options(Htb([Init(TcHtbGlob { version: 3, rate2quantum: 10, defcls: 48, debug: \
            0, direct_pkts: 0 })]))]";
    messages::<TcMessage>(&rt, QDISC, lines)?;
    let lines = "
        08000100 68746200 44000200 30000100 00010000 00000000 80f0fa02 00010000 00000000 a0bf9b0b 88130000 \
            983a0000 b80b0000 00000000 01000000 04000800 0c000600 00f2052a 01000000 18000400 01000000 \
            02000000 00000000 f0ffffff 09000000 => [Kind(\"htb\"), Options(Htb([Parms(TcHtbOpt { rate: \
            TcRateSpec { cell_log: 0, linklayer: 1, overhead: 0, cell_align: 0, mpu: 0, rate: 50000000 }, \
            ceil: TcRateSpec { cell_log: 0, linklayer: 1, overhead: 0, cell_align: 0, mpu: 0, rate: \
            194756512 }, buffer: 5000, cbuffer: 15000, quantum: 3000, level: 0, prio: 1 }), \
            Other(DefaultNla { kind: 8, value: [] }), Rate64(5000000000)])), Xstats(Htb(TcHtbXstats { \
            bytes: [1, 0, 0, 0, 2, 0, 0, 0, 0, 0, 0, 0, 240, 255, 255, 255, 9, 0, 0, 0] }))]
        08000100 68746200 34000200 2f000100 00000000 00000000 00000000 00000000 00000000 00000000 00000000 \
            00000000 00000000 00000000 00000000 => 43 bytes, where a header of 44 is wanted";
    messages::<TcMessage>(&rt, CLASS, lines)
}

/// A structure with a list behind it. A list of losses loses its mark.
#[test]
fn reads_netem(rt: HostRuntime) -> Result<(), Fail> {
    let lines = "
        0a000100 6e657465 6d000000 40000200 e8030000 f4010000 00000000 05000000 00000000 0a000000 0c000a00 \
            a0860100 00000000 18000580 14000200 295c8f02 9a999919 00000000 00000000 -> 0a000100 6e657465 \
            6d000000 40000200 e8030000 f4010000 00000000 05000000 00000000 0a000000 0c000a00 a0860100 \
            00000000 18000500 14000200 295c8f02 9a999919 00000000 00000000 => [Kind(\"netem\"), \
            Options(Netem(TcNetem { qopt: TcNetemQopt { latency: 1000, limit: 500, loss: 0, gap: 5, \
            duplicate: 0, jitter: 10 }, options: [Latency64(100000), Loss([Ge(TcNetemGeModel { p: \
            42949673, r: 429496730, h: 0, k1: 0 })])] }))]
        0a000100 6e657465 6d000000 18000200 01000000 02000000 03000000 04000000 05000000 => 20 bytes, \
            where a header of 24 is wanted
        0a000100 6e657465 6d000000 1d000200 01000000 02000000 03000000 04000000 05000000 06000000 04000000 \
            => 1 bytes, where an attribute begins with 4";
    messages::<TcMessage>(&rt, QDISC, lines)
}

/// Structures alone, behind which nothing stays, and limits.
#[test]
fn reads_structures_of_disciplines(rt: HostRuntime) -> Result<(), Fail> {
    let lines = "
        09000100 7072696f 00000000 1c000200 03000000 01020202 01020000 01010101 01010101 04000200 -> \
            09000100 7072696f 00000000 18000200 03000000 01020202 01020000 01010101 01010101 => \
            [Kind(\"prio\"), Options(Prio(TcPrioQopt { bands: 3, priomap: [1, 2, 2, 2, 1, 2, 0, 0, 1, 1, \
            1, 1, 1, 1, 1, 1] }))]
        0a000100 62666966 6f000000 08000200 88130000 08000700 04000400 => [Kind(\"bfifo\"), \
            Options(Fifo(TcFifoQopt { limit: 5000 })), Stats2([App(Other([]))])]
        08000100 74626600 34000200 28000100 00010000 00000000 48e80100 00000000 00000000 00000000 50d30000 \
            00fa0000 00000000 08000600 00100000 => [Kind(\"tbf\"), Options(Tbf([Parms(TcTbfQopt { rate: \
            TcRateSpec { cell_log: 0, linklayer: 1, overhead: 0, cell_align: 0, mpu: 0, rate: 125000 }, \
            peakrate: TcRateSpec { cell_log: 0, linklayer: 0, overhead: 0, cell_align: 0, mpu: 0, rate: 0 \
            }, limit: 54096, buffer: 64000, mtu: 0 }), Burst(4096)]))]";
    messages::<TcMessage>(&rt, QDISC, lines)
}

/// Weights of bands, and counters of a structure that grows.
#[test]
fn reads_fq_and_red(rt: HostRuntime) -> Result<(), Fail> {
    let lines = "
        07000100 66710000 1c000200 10001100 905f0100 409c0000 204e0000 05000f00 01000000 58000700 54000400 \
            00000000 00000000 00000000 00000000 00000000 00000000 00000000 00000000 00000000 00000000 \
            00000000 00000000 00000000 00000000 ffffffff ffffffff 03000000 01000000 00000000 00000000 => \
            [Kind(\"fq\"), Options(Fq([Weights(TcFqWeights { numbers: [90000, 40000, 20000] }), \
            HorizonDrop(1)])), Stats2([App(Fq(TcFqQdStats { bytes: [0, 0, 0, 0, 0, 0, 0, 0, 0, 0, 0, 0, 0, 0, 0, 0, 0, 0, 0, \
            0, 0, 0, 0, 0, 0, 0, 0, 0, 0, 0, 0, 0, 0, 0, 0, 0, 0, 0, 0, 0, 0, 0, 0, 0, 0, 0, 0, 0, 0, 0, \
            0, 0, 0, 0, 0, 0, 255, 255, 255, 255, 255, 255, 255, 255, 3, 0, 0, 0, 1, 0, 0, 0, 0, 0, 0, 0, \
            0, 0, 0, 0] }))])]
        08000100 72656400 18000200 0c000400 01000000 01000000 08000300 51b81e05 14000400 01000000 00000000 \
            00000000 02000000 => [Kind(\"red\"), Options(Red([Flags(TcBitfield { value: 1, selector: 1 }), \
            MaxP(85899345)])), Xstats(Red(TcRedXstats { bytes: [1, 0, 0, 0, 0, 0, 0, 0, 0, 0, 0, 0, 2, 0, 0, 0] }))]";
    messages::<TcMessage>(&rt, QDISC, lines)
}

/// Two instructions, behind which two bytes are dropped; and a filter with an action.
#[test]
fn reads_bpf_and_fw(rt: HostRuntime) -> Result<(), Fail> {
    let lines = "
        08000100 62706600 2c000200 06000400 02000000 16000500 30000000 09000000 06000000 01000000 00000000 \
            08000800 01000000 -> 08000100 62706600 28000200 06000400 02000000 14000500 30000000 09000000 \
            06000000 01000000 08000800 01000000 => [Kind(\"bpf\"), Options(Bpf([OpsLen(2), \
            Ops([TcBpfInstruction { code: 48, jt: 0, jf: 0, k: 9 }, TcBpfInstruction { code: 6, jt: 0, jf: \
            0, k: 1 }]), Flags(1)]))]
        07000100 66770000 44000200 08000100 30000100 08000500 ff000000 30000400 2c000100 09000100 67616374 \
            00000000 1c000280 18000200 00000000 00000000 02000000 00000000 00000000 => [Kind(\"fw\"), \
            Options(Fw([ClassId(TcHandle { major: 1, minor: 48 }), Mask(255), Action([TcAction { tab: 1, \
            attributes: [Kind(\"gact\"), Options(Gact([Parms(TcActionGeneric { index: 0, capab: 0, action: \
            Shot, refcnt: 0, bindcnt: 0 })]))] }])]))]";
    messages::<TcMessage>(&rt, FILTER, lines)
}

/// A limit of a rate of the old form: a list without a name.
#[test]
fn reads_police_of_u32(rt: HostRuntime) -> Result<(), Fail> {
    let lines = "
        08000100 75333200 4c000200 48000600 3c000100 00000000 02000000 00000000 093d0000 00080000 00010000 \
            00000000 48e80100 00000000 00000000 00000000 01000000 01000000 00000000 08000500 ffffffff => \
            [Kind(\"u32\"), Options(U32([Police([Tbf(TcPolice { index: 0, action: Shot, limit: 0, burst: \
            15625, mtu: 2048, rate: TcRateSpec { cell_log: 0, linklayer: 1, overhead: 0, cell_align: 0, \
            mpu: 0, rate: 125000 }, peakrate: TcRateSpec { cell_log: 0, linklayer: 0, overhead: 0, \
            cell_align: 0, mpu: 0, rate: 0 }, refcnt: 1, bindcnt: 1, capab: 0 }), Result(Unspec)])]))]";
    messages::<TcMessage>(&rt, FILTER, lines)
}

/// An action that jumps has a number of its own.
#[test]
fn reads_gact_and_police(rt: HostRuntime) -> Result<(), Fail> {
    let lines = "
        60000100 5c000100 09000100 67616374 00000000 4c000280 18000200 65000000 00000000 02000010 01000000 \
            00000000 0c000300 02000500 00000000 24000100 04000000 00000000 04000000 00000000 00000000 \
            00000000 00000000 00000000 => [Actions([TcAction { tab: 1, attributes: [Kind(\"gact\"), \
            Options(Gact([Parms(TcActionGeneric { index: 101, capab: 0, action: Other(268435458), refcnt: \
            1, bindcnt: 0 }), Prob(TcGactProbability { ptype: 2, pval: 5, paction: Ok }), Tm(Tcf { \
            install: 4, lastuse: 4, expires: 0, firstuse: 0 })]))] }])]
        68000100 64000100 0b000100 706f6c69 63650000 54000280 3c000100 01000000 02000000 00000000 5a620200 \
            d0070000 00020a00 00000000 48e80100 00020a00 00000000 90d00300 01000000 00000000 00000000 \
            08000500 03000000 0c000b00 46040000 00000000 => [Actions([TcAction { tab: 1, attributes: \
            [Kind(\"police\"), Options(Police([Tbf(TcPolice { index: 1, action: Shot, limit: 0, burst: \
            156250, mtu: 2000, rate: TcRateSpec { cell_log: 0, linklayer: 2, overhead: 10, cell_align: 0, \
            mpu: 0, rate: 125000 }, peakrate: TcRateSpec { cell_log: 0, linklayer: 2, overhead: 10, \
            cell_align: 0, mpu: 0, rate: 250000 }, refcnt: 1, bindcnt: 0, capab: 0 }), Result(Pipe), \
            Pktburst64(1094)]))] }])]";
    messages::<TcActionMessage>(&rt, ACTIONS, lines)
}

/// Protocols and ports are big endian; a name gets its zero.
#[test]
fn reads_vlan_and_ct(rt: HostRuntime) -> Result<(), Fail> {
    let lines = "
        4c000100 48000100 09000100 766c616e 00000000 38000280 1c000200 01000000 00000000 03000000 00000000 \
            00000000 02000000 06000300 64000000 06000400 88a80000 05000600 03000000 => [Actions([TcAction \
            { tab: 1, attributes: [Kind(\"vlan\"), Options(Vlan([Parms(TcVlan { generic: TcActionGeneric { \
            index: 1, capab: 0, action: Pipe, refcnt: 0, bindcnt: 0 }, v_action: Push }), PushVlanId(100), \
            PushVlanProtocol(34984), PushVlanPriority(3)]))] }])]
        3c000100 38000100 07000100 63740000 2c000280 06000300 19000000 08000900 0a000001 06000d00 03e80000 \
            05000700 ff000000 07001000 66747000 -> 3c000100 38000100 07000100 63740000 2c000280 06000300 \
            19000000 08000900 0a000001 06000d00 03e80000 05000700 ff000000 08001000 66747000 => \
            [Actions([TcAction { tab: 1, attributes: [Kind(\"ct\"), Options(Ct([Action(TcCtFlags(25)), \
            NatIpv4Min(10.0.0.1), NatPortMin(1000), Labels([255]), HelperName(\"ftp\")]))] }])]";
    messages::<TcActionMessage>(&rt, ACTIONS, lines)
}

/// Each by its own kind.
#[test]
fn reads_four_actions(rt: HostRuntime) -> Result<(), Fail> {
    let lines = "
        98000100 28000100 0c000100 736b6265 64697400 18000280 08000300 02000100 0c000900 20000000 00000000 \
            30000200 09000100 6373756d 00000000 20000280 1c000100 01000000 00000000 00000000 01000000 \
            00000000 19000000 1c000300 0b000100 73616d70 6c650000 0c000280 08000300 64000000 20000400 \
            08000100 62706600 14000280 07000600 61320000 08000900 03000000 => [Actions([TcAction { tab: 1, \
            attributes: [Kind(\"skbedit\"), Options(Skbedit([Priority(TcHandle { major: 1, minor: 2 }), \
            Flags(32)]))] }, TcAction { tab: 2, attributes: [Kind(\"csum\"), Options(Csum([Parms(TcCsum { \
            generic: TcActionGeneric { index: 1, capab: 0, action: Ok, refcnt: 1, bindcnt: 0 }, \
            update_flags: TcCsumFlags(25) })]))] }, TcAction { tab: 3, attributes: [Kind(\"sample\"), \
            Options(Sample([Rate(100)]))] }, TcAction { tab: 4, attributes: [Kind(\"bpf\"), \
            Options(Bpf([Name(\"a2\"), Id(3)]))] }])]";
    messages::<TcActionMessage>(&rt, ACTIONS, lines)
}
