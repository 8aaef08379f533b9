//! What is shown of a message: its line, its object and its count.

use netlink_packet_route::MessageKind;
use netlink_packet_route::framing::AttributeSet;
use netlink_show::{
    Counts, Interfaces, Manner, Shown, append_lines, append_object, attribute_name,
};
use npr_testing::{INET, bytes_of, same};
use std::alloc::Global;
use std::test::Fail;

/// Two labels, 100 of class 3 and 200 with a time to live of 255 at the end of the stack.
const LABELS: &str = "10001600 0c000100 00064600 000c81ff 0600150001000000";

const SHOWN: &str = "default encap mpls 100[tc 3]/200[ttl 255] proto boot
{\"dst\":\"default\",\"encap\":\"mpls\",\"encap_info\":{\"dst\":\"100[tc 3]/200[ttl 255]\"},\"family\":\"inet\",\"flags\":[],\"message\":\"route\",\"protocol\":\"boot\",\"scope\":\"global\",\"table\":\"main\",\"type\":\"unicast\"}
bytes 0
addresses 0
routes 1
rules 0
neighbours 0
links 0
nexthops 0
nsids 0
netconfs 0
address-labels 0
neighbour-tables 0
prefixes 0
tc 0
tc-actions 0
stats 0
others 0
controls 0
refused 0
";

/// A message as a line, as an object and as counts.
fn shown(alloc: Global, message: Shown<'_>) -> Result<String, Fail> {
    let interfaces = Interfaces::new(alloc);
    let manner = Manner {
        alloc,
        numeric: false,
        tells_family: false,
        interfaces: &interfaces,
    };
    let mut counts = Counts::default();
    counts.add(message);
    let mut text = String::new(alloc);
    append_lines(manner, message, &mut text)?;
    append_object(manner, message, &mut text)?;
    counts.write(&mut text)?;
    Ok(text)
}

#[test]
fn nothing_of_a_label_is_lost(rt: HostRuntime) -> Result<(), Fail> {
    let bytes = bytes_of(&rt, &[INET, LABELS])?;
    let message = Shown::lone(MessageKind::Route, bytes.as_slice());
    message.check()?;
    let text = shown(rt.alloc(), message)?;
    same(text.as_str(), SHOWN)
}

#[test]
fn an_attribute_has_its_name() -> Result<(), Fail> {
    let name = attribute_name(AttributeSet::Rule, 24);
    same(name, Some("FRA_DPORT_RANGE"))?;
    same(attribute_name(AttributeSet::Rule, 31), None)
}
