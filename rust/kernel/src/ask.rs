//! Asks a kernel for its tables, in the exact form that it tests where it is told to be strict.

use crate::receive::receive;
use crate::tables::{NUMBER, Table, classes, filters, first};
use netlink_packet_route::RouteNetlinkMessage::{NewLink, NewQueueDiscipline};
use netlink_packet_route::envelope::{
    Answer, Conversation, End, NetlinkIterator, NetlinkMessage, NetlinkPayload,
};
use netlink_packet_route::link::LinkAttribute;
use netlink_packet_route::tc::TcAttribute;
use netlink_sys::{Socket, SocketAddr, protocols::NETLINK_ROUTE};
use std::collections::BTreeMap;
use std::error::Error;
use std::fmt::Write;

/// How often a table that changes meanwhile is asked for.
const TRIES: usize = 5;

/// How an answer ended: well, or in these words.
type Ended = Result<(), String>;

/// The datagrams of an answer, one behind the other.
fn ask(socket: &Socket, table: &Table) -> Result<(Vec<u8>, Ended), Box<dyn Error>> {
    socket.send(&table.request.to_bytes()?, 0)?;
    let mut talk = Conversation::new(NUMBER, 0);
    let mut datagrams = Vec::new();
    loop {
        let datagram = receive(socket)?;
        datagrams.extend_from_slice(&datagram);
        let mut walk = NetlinkIterator::new(&datagram);
        while let Some(answer) = talk.next(&mut walk) {
            if let Answer::Ended(end) = answer {
                let ended = match end {
                    End::Done => Ok(()),
                    other => Err(format!("{other:?}")),
                };
                return Ok((datagrams, ended));
            }
        }
    }
}

/// Asks for a table and keeps the answer. It says what came of it.
fn keep(
    socket: &Socket,
    folder: &str,
    table: &Table,
    commands: &mut String,
) -> Result<Vec<u8>, Box<dyn Error>> {
    let mut answer = ask(socket, table)?;
    for _ in 1..TRIES {
        if answer.1.as_ref().is_err_and(|end| end == "Interrupted") {
            answer = ask(socket, table)?;
        }
    }
    let (datagrams, ended) = answer;
    match ended {
        Ok(()) => {
            std::fs::write(format!("{folder}/{}.bin", table.name), &datagrams)?;
            writeln!(commands, "{}\t{}", table.name, table.command)?;
            println!("asked {}: {} bytes", table.name, datagrams.len());
        }
        Err(words) => println!("unanswered {}: {words}", table.name),
    }
    Ok(datagrams)
}

/// The names of devices by their numbers.
fn devices(datagrams: &[u8]) -> BTreeMap<u32, String> {
    let mut names = BTreeMap::new();
    for message in NetlinkMessage::all(datagrams).flatten() {
        if let NetlinkPayload::InnerMessage(NewLink(link)) = message.payload {
            for attribute in link.attributes {
                if let LinkAttribute::IfName(name) = attribute {
                    names.insert(link.header.index, name);
                }
            }
        }
    }
    names
}

/// The filters of each queueing discipline that has a handle.
fn filters_of(datagrams: &[u8], names: &BTreeMap<u32, String>) -> Vec<Table> {
    let mut tables = Vec::new();
    for message in NetlinkMessage::all(datagrams).flatten() {
        if let NetlinkPayload::InnerMessage(NewQueueDiscipline(it)) = message.payload {
            let kind = it.attributes.iter().find_map(|attribute| match attribute {
                TcAttribute::Kind(kind) => Some(kind.clone()),
                _ => None,
            });
            let device = names.get(&(it.header.index as u32));
            if let (Some(kind), Some(device), true) = (kind, device, it.header.handle.major != 0) {
                tables.extend(filters(&it, &kind, device));
            }
        }
    }
    tables
}

/// Asks for every table, and for those that the first ones name.
pub fn ask_all(folder: &str) -> Result<(), Box<dyn Error>> {
    let mut socket = Socket::new(NETLINK_ROUTE)?;
    socket.bind_auto()?;
    socket.connect(&SocketAddr::new(0, 0))?;
    socket.set_netlink_get_strict_chk(true)?;
    let (mut commands, mut more) = (String::new(), Vec::new());
    let mut names = BTreeMap::new();
    for table in first() {
        let answer = keep(&socket, folder, &table, &mut commands)?;
        match table.name.as_str() {
            "link" => {
                names = devices(&answer);
                more.extend(names.iter().map(|(index, name)| classes(*index, name)));
            }
            "qdisc" => more.extend(filters_of(&answer, &names)),
            _ => {}
        }
    }
    for table in more {
        keep(&socket, folder, &table, &mut commands)?;
    }
    Ok(std::fs::write(format!("{folder}/commands"), commands)?)
}
