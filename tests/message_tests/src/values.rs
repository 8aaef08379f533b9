//! Values that are seen where they stand, without memory.

use netlink_packet_route::address::AddressMessage;
use netlink_packet_route::framing::{
    At, AttributeSet, DecodeError, NlaBuffer, NlasIterator, Value, Values,
};
use netlink_packet_route::link::InfoForm;
use netlink_packet_route::route::{RouteLwTunnelEncap, RouteMessage, RouteMetric, RouteType};
use netlink_packet_route::{MessageKind, Nest, validate};
use npr_testing::{INET, bytes_of, holds, same, shows};
use std::test::Fail;

/// What a kernel says of 127.0.0.1/8, whose label is `lo`, valid for ever.
const LOOPBACK: [&str; 5] = [
    "020880fe 01000000",
    "08000100 7f000001",
    "07000300 6c6f0000",
    "08000800 80000000",
    "14000600 ffffffff ffffffff 9c000000 9c000000",
];

#[test]
fn values_stand_one_after_the_other(rt: HostRuntime) -> Result<(), Fail> {
    let bytes = bytes_of(&rt, &LOOPBACK)?;
    let (header, mut values) = AddressMessage::values(bytes.as_slice())?;
    same(header.prefix_len, 8)?;
    let address = "Some(Ok((At { set: Address, number: 1 }, Address(127.0.0.1))))";
    shows(&rt, &values.next(), address)?;
    let label = "Some(Ok((At { set: Address, number: 3 }, Name(\"lo\"))))";
    shows(&rt, &values.next(), label)?;
    let flags = "Some(Ok((At { set: Address, number: 8 }, U32(128))))";
    shows(&rt, &values.next(), flags)?;
    let times = "Some(Ok((At { set: Address, number: 6 }, Structure([255, 255, 255, 255, \
        255, 255, 255, 255, 156, 0, 0, 0, 156, 0, 0, 0]))))";
    shows(&rt, &values.next(), times)?;
    holds(values.next().is_none())?;
    holds(values.rest().is_empty())
}

/// Metrics, an encapsulation, and the type behind it that governs it.
const ROUTE: [&str; 4] = [
    INET,
    "0c000800 08000200 78050000",
    "0c001600 08000100 000641ff",
    "06001500 01000000",
];

#[test]
fn a_list_is_entered_in_its_context(rt: HostRuntime) -> Result<(), Fail> {
    let bytes = bytes_of(&rt, &ROUTE)?;
    let (_, mut values) = RouteMessage::values(bytes.as_slice())?;
    let mut metrics = Values::<RouteMetric>::new((), inside(&values.next())?);
    let mtu = "Some(Ok((At { set: Metric, number: 2 }, U32(1400))))";
    shows(&rt, &metrics.next(), mtu)?;
    let (_, _, encap_type) = values.context();
    let mut members = Values::<RouteLwTunnelEncap>::new(encap_type, inside(&values.next())?);
    let labels = "Some(Ok((At { set: Mpls, number: 1 }, Bytes([0, 6, 65, 255]))))";
    shows(&rt, &members.next(), labels)?;
    let governing = "Some(Ok((At { set: Route, number: 21 }, U16(1))))";
    shows(&rt, &values.next(), governing)
}

/// The bytes of a list.
fn inside<'a>(seen: &Option<Result<(At, Value<'a>), DecodeError>>) -> Result<&'a [u8], Fail> {
    match seen {
        Some(Ok((_, Value::Inside(bytes)))) => Ok(bytes),
        _ => Err(Fail::new("no list")),
    }
}

#[test]
fn a_value_that_is_wrong_is_the_last(rt: HostRuntime) -> Result<(), Fail> {
    let bytes = bytes_of(&rt, &[INET, "07000f00 fe000000", "08000f00 fe000000"])?;
    let (_, mut values) = RouteMessage::values(bytes.as_slice())?;
    let fault = "Some(Err(ValueLength { at: At { set: Route, number: 15 }, got: 3 }))";
    shows(&rt, &values.next(), fault)?;
    holds(values.next().is_none())
}

/// A link whose driver says VLAN 5, and behind it that this is the data of a VLAN.
const VLAN: [&str; 4] = [
    "00000100 02000000 43100100 00000000",
    "1c001200",
    "0c000200 06000100 05000000",
    "09000100 766c616e 00000000",
];

/// The first attribute of a list.
fn first(bytes: &[u8]) -> Result<NlaBuffer<'_>, Fail> {
    match NlasIterator::new(bytes).next() {
        Some(Ok(item)) => Ok(item),
        _ => Err(Fail::new("no attribute")),
    }
}

#[test]
fn a_nest_leads_into_the_lists_of_values(rt: HostRuntime) -> Result<(), Fail> {
    let bytes = bytes_of(&rt, &VLAN)?;
    let (nest, attributes) = Nest::begin(MessageKind::Link, bytes.as_slice())?;
    let told = first(attributes)?;
    let Some((driver, list)) = nest.inside(told.kind(), told.value()) else {
        return Err(Fail::new("no list"));
    };
    same(driver.set, AttributeSet::LinkInfo)?;
    same(driver.context.link, InfoForm::Vlan)?;
    let data = first(list)?;
    let Some((vlan, members)) = driver.inside(data.kind(), data.value()) else {
        return Err(Fail::new("no data"));
    };
    let member = first(members)?;
    let number = "Ok((At { set: InfoVlan, number: 1 }, U16(5)))";
    shows(&rt, &vlan.value(&member), number)?;
    holds(vlan.inside(member.kind(), member.value()).is_none())?;
    same(vlan.check(members), Ok(()))?;
    same(driver.check_attribute(&data), Ok(()))
}

#[test]
fn a_fault_at_any_depth_is_told_without_memory(rt: HostRuntime) -> Result<(), Fail> {
    let bytes = bytes_of(&rt, &VLAN)?;
    same(validate(MessageKind::Link, bytes.as_slice()), Ok(()))?;
    // a next hop with a gateway of three bytes
    let bytes = bytes_of(&rt, &[INET, "14000900 10000000 02000000 07000500 c0000200"])?;
    let (nest, attributes) = Nest::begin(MessageKind::Route, bytes.as_slice())?;
    let Some(inside) = attributes.get(12..) else {
        return Err(Fail::new("no next hop"));
    };
    same(nest.of_next_hop(inside), nest)?;
    same(nest.context.route_type, RouteType::Unicast)?;
    let at = AttributeSet::Route.at(5);
    let fault = Err(DecodeError::ValueLength { at, got: 3 });
    same(validate(MessageKind::Route, bytes.as_slice()), fault)
}
