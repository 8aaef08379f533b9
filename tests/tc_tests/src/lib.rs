//! Messages of traffic control: what `tc` asks and Linux tells.
#![tactic(auto)]

#[cfg(test)]
mod kinds;
#[cfg(test)]
mod later_kinds;

use npr_tc::{TcActionMessage, TcMessage};
use npr_testing::messages;
use std::test::Fail;

/// The first kind governs the data, wherever it stands, one final zero taken off; unknown data stay as they stand.
#[test]
fn reads_kinds(rt: HostRuntime) -> Result<(), Fail> {
    let lines = "
        00ffffff 04000000 00000100 ffffffff 00000000 07000100 6d710000 -> 00000000 04000000 00000100 \
            ffffffff 00000000 07000100 6d710000 => [Kind(\"mq\")]
        00000000 04000000 00000100 ffffffff 00000000 06000100 6d710000 -> 00000000 04000000 00000100 \
            ffffffff 00000000 07000100 6d710000 => [Kind(\"mq\")]
        00000000 04000000 00000100 ffffffff 00000000 0d000100 66715f63 6f64656c 00000000 1c000200 08000200 \
            e8030000 08000100 b80b0000 08000400 00000000 => [Kind(\"fq_codel\"), \
            Options(FqCodel([Limit(1000), Target(3000), Ecn(0)]))]
        00000000 04000000 00000100 ffffffff 00000000 0c000200 08000100 b80b0000 0d000100 66715f63 6f64656c \
            00000000 => [Options(FqCodel([Target(3000)])), Kind(\"fq_codel\")]
        00000000 04000000 00000100 ffffffff 00000000 0d000100 66715f63 6f64656c 00000000 0c000200 08000200 \
            07000000 08000100 75333200 0c000200 08000200 08000000 => [Kind(\"fq_codel\"), \
            Options(FqCodel([Limit(7)])), Kind(\"u32\"), Options(FqCodel([Limit(8)]))]
        00000000 04000000 00000100 ffffffff 00000000 0c000200 08000100 b80b0000 => \
            [OptionsUnknown(DefaultNla { kind: 2, value: [8, 0, 1, 0, 184, 11, 0, 0] })]
        00000000 04000000 00000100 ffffffff 00000000 0b000100 66715f70 69650000 0c000280 08000100 e8030000 \
            => [Kind(\"fq_pie\"), OptionsUnknown(DefaultNla { kind: 32770, value: [8, 0, 1, 0, 232, 3, 0, \
            0] })]
        00000000 04000000 00000100 ffffffff 00000000 0e000100 66715f63 6f64656c 00000000 0c000200 08000100 \
            b80b0000 => [Kind(\"fq_codel\\0\"), OptionsUnknown(DefaultNla { kind: 2, value: [8, 0, 1, 0, \
            184, 11, 0, 0] })]";
    messages::<TcMessage>(&rt, "", lines)
}

/// Values of a wrong length, names that are no UTF-8, and lists that end inside an attribute.
#[test]
fn refuses_messages(rt: HostRuntime) -> Result<(), Fail> {
    let lines = "
        00000000 04000000 00000100 ffffffff 00000000 0d000100 66715f63 6f64656c 00000000 0c000200 06000100 \
            01000000 => a value of 2 bytes at attribute 1 of TcQdiscFqCodel
        00000000 04000000 00000100 ffffffff 00000000 06000100 ff000000 => no UTF-8 at attribute 1 of Tc
        00000000 04000000 00000100 ffffffff 00000000 0d000100 66715f63 6f64656c 00000000 0e000200 08000100 \
            01000000 05000000 => 2 bytes, where an attribute begins with 4
        00000000 04000000 00000100 ffffffff 00000000 14000700 10000100 dc2c0000 00000000 44000000 => 12 \
            bytes, where a header of 16 is wanted
        00000000 04000000 00000100 ffffffff 00000000 28000300 00000000 00000000 00000000 00000000 00000000 \
            00000000 00000000 00000000 00000000 => 36 bytes, where a header of 40 is wanted
        00000000 04000000 00000000 f3ffffff 08000100 08000100 75333200 18000200 13000500 00000000 00000000 \
            00000000 00000000 => 15 bytes, where a header of 16 is wanted
        00000000 04000000 00000000 f3ffffff 08000100 0b000100 666c6f77 65720000 0c000200 05006100 ff000000 \
            => a value of 1 bytes at attribute 97 of TcFilterFlower";
    messages::<TcMessage>(&rt, "", lines)
}

/// Counters of each kind, those of older kernels too.
#[test]
fn reads_counters(rt: HostRuntime) -> Result<(), Fail> {
    let lines = "
        00000000 04000000 10000100 01000100 00000000 0d000100 66715f63 6f64656c 00000000 2c000400 01000000 \
            38ffffff 0c000000 03000000 02000000 01000000 ffffffff 00000000 00000000 00000000 => \
            [Kind(\"fq_codel\"), Xstats(FqCodel(Class(TcFqCodelClStats { bytes: [56, 255, 255, 255, 12, 0, \
            0, 0, 3, 0, 0, 0, 2, 0, 0, 0, 1, 0, 0, 0, 255, 255, 255, 255, 0, 0, 0, 0, 0, 0, 0, 0, 0, 0, 0, \
            0] })))]
        00000000 04000000 00000100 ffffffff 00000000 0d000100 66715f63 6f64656c 00000000 14000700 10000400 \
            00000000 ea050000 02000000 => [Kind(\"fq_codel\"), Stats2([App(FqCodel(Qdisc(TcFqCodelQdStats { \
            bytes: [234, 5, 0, 0, 2, 0, 0, 0] })))])]
        00000000 04000000 00000100 ffffffff 00000000 0d000100 66715f63 6f64656c 00000000 07000400 00000000 \
            0c000400 05000000 09000000 => [Kind(\"fq_codel\"), Xstats(FqCodel(Other([0, 0, 0]))), \
            Xstats(FqCodel(Other([5, 0, 0, 0, 9, 0, 0, 0])))]
        00000000 04000000 00000100 ffffffff 00000000 08000100 68746200 1c000700 18000400 01000000 02000000 \
            00000000 09000000 09000000 => [Kind(\"htb\"), Stats2([App(Htb(TcHtbXstats { bytes: [1, 0, 0, \
            0, 2, 0, 0, 0, 0, 0, 0, 0, 9, 0, 0, 0, 9, 0, 0, 0] }))])]
        00000000 04000000 00000100 ffffffff 00000000 34000700 14000100 dc2c0000 00000000 44000000 aabbccdd \
            1c000300 00000000 00000000 03000000 00000000 05000000 09000000 -> 00000000 04000000 00000100 \
            ffffffff 00000000 30000700 14000100 dc2c0000 00000000 44000000 00000000 18000300 00000000 \
            00000000 03000000 00000000 05000000 => [Stats2([Basic(TcStatsBasic { bytes: 11484, packets: 68 \
            }), Queue(TcStatsQueue { qlen: 0, backlog: 0, drops: 3, requeues: 0, overlimits: 5 })])]";
    messages::<TcMessage>(&rt, "", lines)
}

/// Pads stay, numbers of 8 bytes stand at any multiple of 4, and tables of sizes drop half a number.
#[test]
fn reads_sizes_and_pads(rt: HostRuntime) -> Result<(), Fail> {
    let lines = "
        00000000 04000000 00000100 ffffffff 00000000 04000900 1c000700 04000600 14000500 48e80100 00000000 \
            5a000000 00000000 05000c00 00000000 => [Other(DefaultNla { kind: 9, value: [] }), \
            Stats2([Other(DefaultNla { kind: 6, value: [] }), RateEst64(TcStatsRateEst64 { bps: 125000, \
            pps: 90 })]), HwOffload(0)]
        00000000 04000000 00000100 ffffffff 00000000 08000100 74626600 2c000800 1c000100 00000000 12000000 \
            01000000 40000000 00080000 00000000 09000200 01020304 05000000 -> 00000000 04000000 00000100 \
            ffffffff 00000000 08000100 74626600 28000800 1c000100 00000000 12000000 01000000 40000000 \
            00080000 00000000 08000200 01020304 => [Kind(\"tbf\"), Stab([Base(TcSizeSpec { cell_log: 0, \
            size_log: 0, cell_align: 0, overhead: 18, linklayer: 1, mpu: 64, mtu: 2048, tsize: 0 }), \
            Data(TcStabData { numbers: [513, 1027] })])]
        00000000 04000000 00000100 ffffffff 00000000 0a000100 70666966 6f000000 06000500 fe010000 => \
            [Kind(\"pfifo\"), Rate(TcEstimator { interval: -2, ewma_log: 1 })]
        00000000 00000000 00000000 00000000 00000000 08000a00 01000000 -> 00000000 00000000 00000000 \
            00000000 00000000 04000a00 => [DumpInvisible]";
    messages::<TcMessage>(&rt, "", lines)
}

/// Keys are bytes of packets, the highest first; how many there are is a number as any other.
#[test]
fn reads_u32(rt: HostRuntime) -> Result<(), Fail> {
    let lines = "
        00000000 04000000 00000000 f3ffffff 08000100 08000100 75333200 30000200 08000100 10000100 24000500 \
            01000100 00000000 00000000 00000000 0000ffff 00000050 14000000 00000000 => [Kind(\"u32\"), \
            Options(U32([ClassId(TcHandle { major: 1, minor: 16 }), Selector(TcU32Selector { flags: \
            TcU32SelectorFlags(1), offshift: 0, nkeys: 1, offmask: 0, off: 0, offoff: 0, hoff: 0, hmask: 0, \
            keys: [TcU32Key { mask: 65535, val: 80, off: 20, offmask: 0 }] })]))]
        00000000 04000000 00000000 f3ffffff 08000100 08000100 75333200 2c000200 27000500 01000200 0f000000 \
            00000000 ff000000 00000011 00000006 08000000 00000000 01020300 -> 00000000 04000000 00000000 \
            f3ffffff 08000100 08000100 75333200 28000200 24000500 01000200 0f000000 00000000 ff000000 \
            00000011 00000006 08000000 00000000 => [Kind(\"u32\"), Options(U32([Selector(TcU32Selector { \
            flags: TcU32SelectorFlags(1), offshift: 0, nkeys: 2, offmask: 3840, off: 0, offoff: 0, hoff: 0, \
            hmask: 4278190080, keys: [TcU32Key { mask: 17, val: 6, off: 8, offmask: 0 }] })]))]
        00000000 04000000 00000000 f3ffffff 08000100 08000100 75333200 40000200 08000800 65746830 1c000900 \
            07000000 00000000 02000000 00000000 02000000 00000000 10000a00 11000000 ff000000 00000000 \
            08000b00 09000000 -> 00000000 04000000 00000000 f3ffffff 08000100 08000100 75333200 44000200 \
            09000800 65746830 00000000 1c000900 07000000 00000000 02000000 00000000 02000000 00000000 \
            10000a00 11000000 ff000000 00000000 08000b00 09000000 => [Kind(\"u32\"), \
            Options(U32([Indev(\"eth0\"), Pnct(TcU32Pcnt { numbers: [7, 2, 2] }), Mark(TcU32Mark { val: 17, \
            mask: 255, success: 0 }), Flags(TcU32OptionFlags(9))]))]";
    messages::<TcMessage>(&rt, "", lines)
}

/// Numbers of packets are big endian; no bit is cut.
#[test]
fn reads_flower(rt: HostRuntime) -> Result<(), Fail> {
    let lines = "
        00000000 04000000 00000000 f3ffffff 08000100 0b000100 666c6f77 65720000 64000200 06000800 81000000 \
            05000900 06000000 08000a00 0a000000 08000b00 ff000000 06001300 00500000 06002400 ffff0000 \
            06001700 64000000 06001900 08000000 08001a00 0000002a 08002f00 00000002 06005b00 09000000 \
            08001600 08000000 => [Kind(\"flower\"), Options(Flower([EthType(33024), IpProto(6), \
            Ipv4Src(10.0.0.0), Ipv4SrcMask(255.0.0.0), TcpDst(80), TcpDstMask(65535), VlanId(100), \
            VlanEthType(2048), EncKeyId(42), KeyFlags(2), CtState(9), Flags(8)]))]
        00000000 04000000 00000000 f3ffffff 08000100 0b000100 666c6f77 65720000 24000200 07000200 76300000 \
            08000100 10000100 05004400 03000000 08004600 6400f0ff => [Kind(\"flower\"), \
            Options(Flower([InDev(\"v0\"), ClassId(TcHandle { major: 1, minor: 16 }), MplsBos(3), \
            MplsLabel(4293918820)]))]
        00000000 04000000 00000000 f3ffffff 08000100 0b000100 666c6f77 65720000 1c000200 18006300 14000100 \
            05000100 01000000 08000500 64000000 -> 00000000 04000000 00000000 f3ffffff 08000100 0b000100 \
            666c6f77 65720000 1c000200 18006380 14000180 05000100 01000000 08000500 64000000 => \
            [Kind(\"flower\"), Options(Flower([MplsOpts([Lse([LseDepth(1), LseLabel(100)])])]))]";
    messages::<TcMessage>(&rt, "", lines)
}

/// Each action is governed by its own first kind.
#[test]
fn reads_actions_of_filters(rt: HostRuntime) -> Result<(), Fail> {
    let lines = "
        00000000 04000000 00000000 f3ffffff 08000100 0d000100 6d617463 68616c6c 00000000 84000200 08000100 \
            02000100 70000200 34000100 0b000100 6d697272 65640000 24000200 20000200 01000000 00000000 \
            03000000 01000000 01000000 02000000 18000000 38000200 08000100 6e617400 2c000280 28000100 \
            00000000 00000000 00000000 00000000 00000000 0a000000 c0000201 ffffff00 01000000 08000300 \
            08000000 -> 00000000 04000000 00000000 f3ffffff 08000100 0d000100 6d617463 68616c6c 00000000 \
            84000200 08000100 02000100 70000200 34000100 0b000100 6d697272 65640000 24000280 20000200 \
            01000000 00000000 03000000 01000000 01000000 02000000 18000000 38000200 08000100 6e617400 \
            2c000280 28000100 00000000 00000000 00000000 00000000 00000000 0a000000 c0000201 ffffff00 \
            01000000 08000300 08000000 => [Kind(\"matchall\"), Options(MatchAll([ClassId(TcHandle { major: \
            1, minor: 2 }), Action([TcAction { tab: 1, attributes: [Kind(\"mirred\"), \
            Options(Mirror([Parms(TcMirror { generic: TcActionGeneric { index: 1, capab: 0, action: Pipe, \
            refcnt: 1, bindcnt: 1 }, eaction: EgressMirror, ifindex: 24 })]))] }, TcAction { tab: 2, \
            attributes: [Kind(\"nat\"), Options(Nat([Parms(TcNat { generic: TcActionGeneric { index: 0, \
            capab: 0, action: Ok, refcnt: 0, bindcnt: 0 }, old_addr: 10.0.0.0, new_addr: 192.0.2.1, mask: \
            255.255.255.0, flags: TcNatFlags(1) })]))] }]), Flags(8)]))]
        00000000 04000000 00000000 f3ffffff 08000100 0d000100 6d617463 68616c6c 00000000 20000200 1c000200 \
            18000100 08000300 05000000 0c000280 08000100 07000000 => [Kind(\"matchall\"), \
            Options(MatchAll([Action([TcAction { tab: 1, attributes: [Index(5), Options(Other([8, 0, 1, 0, \
            7, 0, 0, 0]))] }])]))]";
    messages::<TcMessage>(&rt, "", lines)
}

/// Messages of actions: each by its place, and by its own first kind.
#[test]
fn reads_actions(rt: HostRuntime) -> Result<(), Fail> {
    let lines = "
        00000000 28000100 24000100 0c000280 08000400 15000000 0b000100 6d697272 65640000 08000100 6e617400 \
            => [Actions([TcAction { tab: 1, attributes: [Options(Mirror([BlockId(21)])), Kind(\"mirred\"), \
            Kind(\"nat\")] }])]
        00000000 2c000100 18000000 09000100 67616374 00000000 08000300 09000000 10002cc1 09000100 67616374 \
            00000000 -> 00000000 2c000100 18000000 09000100 67616374 00000000 08000300 09000000 10002c01 \
            09000100 67616374 00000000 => [Actions([TcAction { tab: 0, attributes: [Kind(\"gact\"), \
            Index(9)] }, TcAction { tab: 300, attributes: [Kind(\"gact\")] }])]
        00000000 28000100 24000100 0d000100 66715f63 6f64656c 00000000 10000400 0c000400 00000000 07000000 \
            => [Actions([TcAction { tab: 1, attributes: [Kind(\"fq_codel\"), Stats([App(Other([0, 0, 0, 0, \
            7, 0, 0, 0]))])] }])]
        00000000 64000100 60000100 0f000100 74756e6e 656c5f6b 65790000 4c000280 1c000200 00000000 00000000 \
            03000000 00000000 00000000 01000000 08000400 c0000202 08000700 0000002a 06000900 12b50000 \
            05000a00 02000000 05000d00 40000000 04000e00 -> 00000000 64000100 60000100 0f000100 74756e6e \
            656c5f6b 65790000 4c000280 1c000200 00000000 00000000 03000000 00000000 00000000 01000000 \
            08000400 c0000202 08000700 0000002a 06000900 12b50000 05000a00 01000000 05000d00 40000000 \
            04000e00 => [Actions([TcAction { tab: 1, attributes: [Kind(\"tunnel_key\"), \
            Options(TunnelKey([Parms(TcTunnelKey { generic: TcActionGeneric { index: 0, capab: 0, action: \
            Pipe, refcnt: 0, bindcnt: 0 }, t_action: 1 }), EncIpv4Dst(192.0.2.2), EncKeyId(42), \
            EncDstPort(4789), NoCsum(true), EncTtl(64), NoFrag]))] }])]
        00000000 14000100 10000100 0b000100 6d697272 65640000 0c000200 01000000 01000000 08000400 88130000 \
            => [Actions([TcAction { tab: 1, attributes: [Kind(\"mirred\")] }]), \
            Flags(TcActionMessageFlagsWithSelector { flags: TcActionMessageFlags(1), selector: \
            TcActionMessageFlags(1) }), RootTimeDelta(5000)]
        00000000 08000300 07000000 08000500 736c6f77 -> 00000000 08000300 07000000 09000500 736c6f77 \
            00000000 => [RootCount(7), RootExtWarnMsg(\"slow\")]
        00000000 48000100 44000100 09000100 766c616e 00000000 06000600 dead0000 0c000700 01000000 01000000 \
            0c000800 02000000 03000000 08000a00 00000000 0c000280 05000600 03000000 => [Actions([TcAction { \
            tab: 1, attributes: [Kind(\"vlan\"), Cookie([222, 173]), Flags(TcBitfield { value: 1, selector: \
            1 }), HwStats(TcBitfield { value: 2, selector: 3 }), InHwCount(0), \
            Options(Vlan([PushVlanPriority(3)]))] }])]";
    messages::<TcActionMessage>(&rt, "", lines)
}

/// What is refused in an action.
#[test]
fn refuses_actions(rt: HostRuntime) -> Result<(), Fail> {
    let lines = "
        00000000 18000100 14000100 08000300 05000000 0c000200 01000000 => an attribute of length 12 with 8 \
            bytes left
        00000000 3c000100 38000100 08000100 6e617400 2c000280 27000100 00000000 00000000 00000000 00000000 \
            00000000 00000000 00000000 00000000 00000000 => 35 bytes, where a header of 36 is wanted";
    messages::<TcActionMessage>(&rt, "", lines)
}
