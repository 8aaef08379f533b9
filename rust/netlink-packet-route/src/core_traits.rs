//! The traits of `netlink-packet-core` 0.8, written by hand: each line is one call of the proved text.
//! Its lengths can't fail, so each asks that the value can be written, and panics else.

use crate::framing::{self, Attribute, EmitError, Header, Looks, Message, NlaBuffer, marked_kind};
use crate::memory::Global;
use crate::route::RouteProtocol;
use crate::{
    AddressFamily, RouteNetlinkMessage, address, address_label, envelope, link, neighbour,
    neighbour_table, netconf, nexthop, nsid, prefix, route, rule, stats, tc,
};
use netlink_packet_core as core;

fn length(checked: Result<usize, EmitError>) -> usize {
    checked.unwrap_or_else(|cause| panic!("it can't be written: {cause}"))
}

impl From<framing::DecodeError> for core::DecodeError {
    fn from(cause: framing::DecodeError) -> Self {
        cause.to_string().into()
    }
}

#[cfg(not(upstream))]
impl From<core::DefaultNla> for framing::DefaultNla {
    fn from(nla: core::DefaultNla) -> Self {
        let mut value = vec![0; core::Nla::value_len(&nla)];
        core::Nla::emit_value(&nla, &mut value);
        framing::DefaultNla::new(core::Nla::kind(&nla), value)
    }
}

#[cfg(not(upstream))]
impl From<framing::DefaultNla> for core::DefaultNla {
    fn from(nla: framing::DefaultNla) -> Self {
        core::DefaultNla::new(framing::Nla::kind(&nla), nla.value().to_vec())
    }
}

impl core::NetlinkSerializable for RouteNetlinkMessage {
    fn message_type(&self) -> u16 {
        envelope::NetlinkInner::message_type(self)
    }

    /// # Panics
    /// Where the message can't be written.
    fn buffer_len(&self) -> usize {
        length(framing::Emitable::check(self))
    }

    /// # Panics
    /// Where the buffer is shorter than `buffer_len`.
    fn serialize(&self, buffer: &mut [u8]) {
        framing::Emitable::emit(self, buffer);
    }
}

impl core::NetlinkDeserializable for RouteNetlinkMessage {
    type Error = framing::DecodeError;

    fn deserialize(header: &core::NetlinkHeader, payload: &[u8]) -> Result<Self, Self::Error> {
        let header = envelope::NetlinkHeader {
            length: header.length,
            message_type: header.message_type,
            flags: header.flags,
            sequence_number: header.sequence_number,
            port_number: header.port_number,
        };
        envelope::NetlinkInner::deserialize(Global, &header, payload)
    }
}

impl From<RouteNetlinkMessage> for core::NetlinkPayload<RouteNetlinkMessage> {
    fn from(message: RouteNetlinkMessage) -> Self {
        core::NetlinkPayload::InnerMessage(message)
    }
}

impl<H: Header> core::Parseable<[u8]> for Message<H, H::Attribute> {
    fn parse(bytes: &[u8]) -> Result<Self, core::DecodeError> {
        Ok(Self::try_from(bytes)?)
    }
}

impl core::Parseable<[u8]> for RouteProtocol {
    fn parse(bytes: &[u8]) -> Result<Self, core::DecodeError> {
        Ok(RouteProtocol::parse(bytes)?)
    }
}

/// What the attributes of a next hop are read in.
type HopContext = (AddressFamily, route::RouteType, route::RouteLwEnCapType);

impl core::ParseableParametrized<[u8], HopContext> for route::RouteNextHop {
    fn parse_with_param(bytes: &[u8], context: HopContext) -> Result<Self, core::DecodeError> {
        let parse = framing::ParseableParametrized::parse_with_param;
        Ok(parse(Global, bytes, context)?)
    }
}

/// A value that is written as bytes.
macro_rules! emitable {
    ($([$($params:tt)*] $value:ty;)*) => {$(
        impl<$($params)*> core::Emitable for $value {
            /// # Panics
            /// Where the value can't be written.
            fn buffer_len(&self) -> usize {
                length(framing::Emitable::check(self))
            }

            /// # Panics
            /// Where the buffer is shorter than `buffer_len`.
            fn emit(&self, buffer: &mut [u8]) {
                framing::Emitable::emit(self, buffer);
            }
        }
    )*};
}
emitable! {
    [H: Header] Message<H, H::Attribute>;
}

/// The same of those of a module.
macro_rules! all_emitable {
    ($($module:ident: $($value:ident)+;)*) => {$(
        emitable! { $([] $module::$value;)+ }
    )*};
}
all_emitable! {
    address: AddressHeader CacheInfo;
    address_label: AddressLabelHeader;
    link: BridgeBooleanOptions BridgeId Inet6CacheInfo LinkHeader Map VfInfoBroadcast
        VfInfoGuid VfInfoLinkState VfInfoMac VfInfoRate VfInfoSetting VfInfoTxRate VfInfoVlan
        VfVlanInfo;
    neighbour: NeighbourAddress NeighbourCacheInfo NeighbourHeader;
    neighbour_table: NeighbourTableConfig NeighbourTableHeader NeighbourTableStats;
    netconf: NetconfHeader;
    nexthop: NextHopGroupEntry NextHopHeader;
    nsid: NsidHeader;
    prefix: CacheInfo PrefixHeader;
    route: MplsLabel RouteAddress RouteCacheInfo RouteHeader RouteLwEnCapType RouteMfcStats
        RouteNextHop RouteProtocol RouteRealm RouteVia;
    rule: RuleHeader RulePortRange RuleUidRange;
    stats: BridgeStpXstats BridgeVlanXstats HwStats64 MplsLinkStats StatsHeader;
    tc: TcActionGeneric TcActionMessageHeader TcBitfield TcBpfInstruction TcCsum TcEmatchHeader TcEmatchTreeHeader TcEstimator TcFifoQopt
        TcGactProbability TcHandle TcHeader TcHtbGlob TcHtbOpt TcMirror TcMqprioQopt TcNat
        TcNetemCorr TcNetemCorrupt TcNetemGeModel TcNetemGiModel TcNetemQopt TcNetemRate
        TcNetemReorder TcNetemSlot TcPeditKey TcPeditSelector TcPolice TcPrioQopt TcRateSpec
        TcRedQopt TcSizeSpec TcStats TcStatsBasic TcStatsQueue TcStatsRateEst64 TcStatsRateEst
        TcTbfQopt TcTunnelKey TcU32Key TcU32Mark TcU32Selector TcVlan Tcf;
}

/// A value that is written as an attribute, whose frame is that of the other crate.
macro_rules! nla {
    ($($attribute:ty;)*) => {$(
        impl core::Nla for $attribute {
            /// # Panics
            /// Where the value can't be written.
            fn value_len(&self) -> usize {
                length(framing::Nla::check_value(self))
            }

            fn kind(&self) -> u16 {
                framing::Nla::kind(self)
            }

            /// # Panics
            /// Where the buffer is shorter than `value_len`.
            fn emit_value(&self, buffer: &mut [u8]) {
                framing::Nla::emit_value(self, buffer);
            }

            fn is_nested(&self) -> bool {
                let kind = marked_kind(framing::Nla::kind(self), framing::Nla::is_nested(self));
                kind & framing::NLA_F_NESTED != 0
            }
        }
    )*};
}

/// An attribute under the other crate's buffer, in its context.
fn read<A: Attribute, T: AsRef<[u8]> + ?Sized>(
    buffer: &core::NlaBuffer<&T>,
    context: A::Context,
) -> Result<A, core::DecodeError> {
    let item = NlaBuffer::new_checked(buffer.into_inner().as_ref())?;
    Ok(A::read(Global, context, &item, &mut Looks::new())?)
}

/// Attributes that are read in a context.
macro_rules! under_context {
    ($($attribute:ty, $context:ty;)*) => {$(
        nla!($attribute;);

        impl<'a, T: AsRef<[u8]> + ?Sized>
            core::ParseableParametrized<core::NlaBuffer<&'a T>, $context> for $attribute
        {
            fn parse_with_param(
                buffer: &core::NlaBuffer<&'a T>,
                context: $context,
            ) -> Result<Self, core::DecodeError> {
                read(buffer, context)
            }
        }
    )*};
}

/// Attributes that are read in none.
macro_rules! alone {
    ($($attribute:ty;)*) => {$(
        nla!($attribute;);

        impl<'a, T: AsRef<[u8]> + ?Sized> core::Parseable<core::NlaBuffer<&'a T>> for $attribute {
            fn parse(buffer: &core::NlaBuffer<&'a T>) -> Result<Self, core::DecodeError> {
                read(buffer, ())
            }
        }
    )*};
}

/// Headers that are read of an attribute's value.
macro_rules! headers {
    ($($header:ty;)*) => {$(
        nla!($header;);

        impl<'a, T: AsRef<[u8]> + ?Sized> core::Parseable<core::NlaBuffer<&'a T>> for $header {
            fn parse(buffer: &core::NlaBuffer<&'a T>) -> Result<Self, core::DecodeError> {
                let item = NlaBuffer::new_checked(buffer.into_inner().as_ref())?;
                Ok(framing::Parseable::parse(Global, &item)?)
            }
        }
    )*};
}

#[cfg(not(upstream))]
emitable! {
    [] link::LinkPeer;
    [] tc::TcActionMessageFlagsWithSelector;
}
#[cfg(not(upstream))]
nla! {
    framing::DefaultNla;
}
nla! {
    route::Seg6Header;
}
headers! {
    route::Ioam6TraceHdr;
    route::RplSrh;
    route::Seg6LocalSrh;
}
under_context! {
    link::InfoIpTunnel, link::InfoForm;
    link::LinkAttribute, AddressFamily;
    link::LinkInfo, (link::InfoForm, link::InfoPortForm);
    neighbour::NeighbourAttribute, AddressFamily;
    nexthop::NextHopAttribute, (AddressFamily, route::RouteLwEnCapType);
    route::RouteAttribute, HopContext;
    route::RouteLwTunnelEncap, route::RouteLwEnCapType;
    tc::TcActionAttribute, tc::TcActionForm;
    tc::TcAttribute, tc::TcForm;
    tc::TcStats2, tc::TcForm;
}
alone! {
    address::AddressAttribute;
    address_label::AddressLabelAttribute;
    link::AfSpecBridge;
    link::AfSpecInet6;
    link::AfSpecInet;
    link::AfSpecMctp;
    link::AfSpecUnspec;
    link::BondAdInfo;
    link::BridgeMst;
    link::BridgeMstEntry;
    link::BridgeQuerierState;
    link::BridgeVlanTunnelInfo;
    link::InfoBond;
    link::InfoBondPort;
    link::InfoBridge;
    link::InfoBridgePort;
    link::InfoGeneve;
    link::InfoGre6;
    link::InfoGre;
    link::InfoGtp;
    link::InfoHsr;
    link::InfoIpVlan;
    link::InfoIpoib;
    link::InfoMacSec;
    link::InfoMacVlan;
    link::InfoNetkit;
    link::InfoOvpn;
    link::InfoTun;
    link::InfoVeth;
    link::InfoVlan;
    link::InfoVrf;
    link::InfoVti;
    link::InfoVxlan;
    link::InfoXfrm;
    link::LinkDpllPin;
    link::LinkProtocolDownReason;
    link::LinkVfInfo;
    link::LinkVfPort;
    link::LinkXdp;
    link::MacVlanAddress;
    link::PeerAttribute;
    link::Prop;
    link::VfInfo;
    link::VfPort;
    link::VfStats;
    link::VfVlan;
    link::VlanQosMapping;
    neighbour::NeighbourFdbAttribute;
    neighbour_table::NeighbourTableAttribute;
    neighbour_table::NeighbourTableParameter;
    netconf::NetconfAttribute;
    nexthop::NextHopGroupStats;
    nexthop::NextHopGroupStatsEntry;
    nexthop::NextHopResBucket;
    nexthop::NextHopResGroup;
    nsid::NsidAttribute;
    prefix::PrefixAttribute;
    route::RouteErspanOpt;
    route::RouteIoam6Tunnel;
    route::RouteIp6Tunnel;
    route::RouteIpTunnel;
    route::RouteLwTunnelOpt;
    route::RouteMetric;
    route::RouteMplsIpTunnel;
    route::RouteRplIpTunnel;
    route::RouteSeg6IpTunnel;
    route::RouteSeg6LocalTunnel;
    route::RouteVxlanOpt;
    route::RouteXfrmTunnel;
    rule::RuleAttribute;
    stats::BondAdStat;
    stats::BondXstats;
    stats::BridgeXstats;
    stats::LinkXstats;
    stats::MplsStats;
    stats::OffloadHwInfo;
    stats::OffloadHwState;
    stats::OffloadXstats;
    stats::StatsAfSpec;
    stats::StatsAttribute;
    tc::TcAction;
    tc::TcActionBpfOption;
    tc::TcActionCsumOption;
    tc::TcActionCtOption;
    tc::TcActionGactOption;
    tc::TcActionMessageAttribute;
    tc::TcActionMirrorOption;
    tc::TcActionNatOption;
    tc::TcActionPeditOption;
    tc::TcActionPoliceOption;
    tc::TcActionSampleOption;
    tc::TcActionSkbeditOption;
    tc::TcActionTunnelKeyOption;
    tc::TcActionVlanOption;
    tc::TcCakeStat;
    tc::TcCakeTin;
    tc::TcCakeTinStat;
    tc::TcEmatch;
    tc::TcEmatchTree;
    tc::TcEncErspan;
    tc::TcEncGeneve;
    tc::TcEncGtp;
    tc::TcEncOption;
    tc::TcEncPfcp;
    tc::TcEncVxlan;
    tc::TcFilterBasicOption;
    tc::TcFilterBpfOption;
    tc::TcFilterFlowerMplsLseOption;
    tc::TcFilterFlowerMplsOption;
    tc::TcFilterFlowerOption;
    tc::TcFilterFwOption;
    tc::TcFilterMatchAllOption;
    tc::TcFilterU32Option;
    tc::TcFlowerCfmOption;
    tc::TcMqprioEntry;
    tc::TcNetemLoss;
    tc::TcPeditKeyEx;
    tc::TcPeditKeysEx;
    tc::TcQdiscCakeOption;
    tc::TcQdiscFqCodelOption;
    tc::TcQdiscFqOption;
    tc::TcQdiscHtbOption;
    tc::TcQdiscIngressOption;
    tc::TcQdiscMqprioOption;
    tc::TcQdiscNetemOption;
    tc::TcQdiscRedOption;
    tc::TcQdiscTbfOption;
    tc::TcStab;
}
