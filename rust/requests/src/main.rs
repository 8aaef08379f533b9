//! The bytes of eighteen requests that `rtnetlink` builds; none is sent. It opens a socket, since there
//! is no handle without.

use netlink_packet_core::Emitable;
use rtnetlink::packet_route::neighbour::{NeighbourFlags, NeighbourState};
use rtnetlink::packet_route::route::{
    MplsLabel, RouteNextHop, RouteNextHopFlags, RouteProtocol, RouteScope, RouteType,
};
use rtnetlink::packet_route::rule::RuleAction;
use rtnetlink::packet_route::AddressFamily;
use rtnetlink::{
    new_connection, AddressMessageBuilder, Handle, RouteMessageBuilder, RouteNextHopBuilder,
};
use std::error::Error;
use std::net::{IpAddr, Ipv4Addr, Ipv6Addr};

const V4: Ipv4Addr = Ipv4Addr::new(192, 0, 2, 1);
const V6: Ipv6Addr = Ipv6Addr::new(0x2001, 0xdb8, 0, 0, 0, 0, 0, 1);
const ALL: Ipv6Addr = Ipv6Addr::new(0xff02, 0, 0, 0, 0, 0, 0, 9);
const MAC: [u8; 6] = [2, 0, 0, 0, 0, 1];

fn show(what: &str, message: &impl Emitable) {
    let mut bytes = vec![0; message.buffer_len()];
    message.emit(&mut bytes);
    let digits: String = bytes.iter().map(|byte| format!("{byte:02x}")).collect();
    println!("{what}: {digits}");
}

fn label(label: u32) -> MplsLabel {
    MplsLabel {
        label,
        traffic_class: 0,
        bottom_of_stack: true,
        ttl: 9,
    }
}

fn addresses(handle: &Handle) {
    let v4 = AddressMessageBuilder::<Ipv4Addr>::new().index(3);
    show("address 4", &v4.address(V4, 24).build());
    let v6 = || AddressMessageBuilder::<Ipv6Addr>::new().index(3);
    show("address 6", &v6().address(V6, 64).build());
    show("address of a group", &v6().address(ALL, 64).build());
    let mut add = handle.address().add(7, V4.into(), 32);
    show("address added", add.message_mut());
    let mut replace = handle.address().add(7, V6.into(), 128).replace();
    show("address replaced", replace.message_mut());
}

fn routes() -> Result<(), Box<dyn Error>> {
    let v4 = || RouteMessageBuilder::<Ipv4Addr>::new();
    let route = v4()
        .destination_prefix(Ipv4Addr::new(203, 0, 113, 0), 24)
        .gateway(V4)
        .pref_source(V4)
        .source_prefix(V4, 32)
        .output_interface(2)
        .input_interface(1)
        .priority(100)
        .table_id(1000)
        .mark(7)
        .protocol(RouteProtocol::Static)
        .scope(RouteScope::Link)
        .kind(RouteType::Unicast)
        .onlink();
    show("route 4", &route.build());
    let by_v6 = v4().destination_prefix(V4, 32).via(V6);
    show("route 4 via 6", &by_v6.build());
    let v6 = RouteMessageBuilder::<Ipv6Addr>::new()
        .destination_prefix(V6, 64)
        .gateway(V6)
        .pref_source(V6)
        .source_prefix(V6, 128)
        .table_id(20);
    show("route 6", &v6.build());
    let either = RouteMessageBuilder::<IpAddr>::new()
        .destination_prefix(V4.into(), 32)?
        .gateway(V6.into())?
        .pref_source(V4.into())?;
    show("route of either version", &either.build());
    let hops = v4().destination_prefix(V4, 32).multipath(next_hops()?);
    show("route by next hops", &hops.build());
    let hop = RouteNextHopBuilder::new_ipv6()
        .interface(4)
        .via(V6.into())?;
    show("next hop 6", &hop.build());
    Ok(())
}

fn labels() {
    let labels = vec![label(100), label(200)];
    let out = RouteMessageBuilder::<Ipv4Addr>::new()
        .destination_prefix(V4, 32)
        .output_mpls(labels);
    show("route with labels", &out.build());
    let mpls = RouteMessageBuilder::<MplsLabel>::new()
        .label(label(300))
        .via(V6.into())
        .output_mpls(vec![label(400)]);
    show("route of a label", &mpls.build());
}

fn next_hops() -> Result<Vec<RouteNextHop>, Box<dyn Error>> {
    let first = RouteNextHopBuilder::new_ipv4()
        .interface(2)
        .via(V4.into())?;
    let second = RouteNextHopBuilder::new_ipv4()
        .interface(3)
        .via(V6.into())?;
    let flags = RouteNextHopFlags::Dead | RouteNextHopFlags::Linkdown;
    Ok(vec![
        first.weight(3).onlink().build(),
        second.mpls(vec![label(5)]).build(),
        RouteNextHopBuilder::new(AddressFamily::Inet)
            .flags(flags)
            .build(),
    ])
}

fn rules(handle: &Handle) {
    let mut v4 = handle
        .rule()
        .add()
        .v4()
        .source_prefix(V4, 32)
        .destination_prefix(V4, 24)
        .input_interface("lo".into())
        .output_interface("eth0".into())
        .table_id(1000)
        .tos(4)
        .action(RuleAction::ToTable)
        .priority(5)
        .fw_mark(6);
    show("rule 4", v4.message_mut());
    let mut v6 = handle
        .rule()
        .add()
        .v6()
        .source_prefix(V6, 64)
        .destination_prefix(V6, 128)
        .table_id(10);
    show("rule 6", v6.message_mut());
}

fn neighbours(handle: &Handle) {
    let mut v4 = handle
        .neighbours()
        .add(3, V4.into())
        .link_local_address(&MAC)
        .state(NeighbourState::Permanent)
        .flags(NeighbourFlags::Proxy)
        .kind(RouteType::Unicast);
    show("neighbour 4", v4.message_mut());
    let v6 = handle.neighbours().add(3, V6.into());
    show(
        "neighbour 6",
        v6.state(NeighbourState::Reachable).message_mut(),
    );
    let bridge = handle.neighbours().add_bridge(5, &MAC);
    show(
        "neighbour of a bridge",
        bridge.destination(V4.into()).message_mut(),
    );
}

#[tokio::main(flavor = "current_thread")]
async fn main() -> Result<(), Box<dyn Error>> {
    let (_connection, handle, _events) = new_connection()?;
    addresses(&handle);
    routes()?;
    labels();
    rules(&handle);
    neighbours(&handle);
    Ok(())
}
