//! More senders than there is room for, as one that forges sources would be: the endpoint 9 has room for the answers to
//! two sources, and for one open message of several packets. The bytes that it has to write are those of the tables of
//! DSP0236 and DSP0240, written by hand.

use std::fmt::{self, Write};

use needleoat::{Answer, Command, Endpoint, EndpointSettings, Packets, Step};

mod shared;
use shared::{from_hex, moment, serve, with_memory, write_packets};

const SETTINGS: EndpointSettings = EndpointSettings {
    own: 9,
    first_start: true,
    keep_ms: 1000,
    sources: 2,
    open_messages: 1,
    pending_commands: 1,
    ..EndpointSettings::ZERO
};

/// The device: it answers GetTID alone.
fn perform(command: &Command) -> Answer {
    Answer { pldm_type: command.pldm_type, command: command.command, tid: 7, ..Answer::ZERO }
}

const RECEIVED: [(&str, &str); 14] = [
    ("GetTID from 8", "010908c801800002"),
    ("GetTID from 10", "01090ac801800002"),
    ("GetTID from 11", "01090bc801800002"),
    ("the same again", "01090bc801800002"),
    ("a copy from 8", "010908c801800002"),
    ("another from 10", "01090ac901810002"),
    ("first packet from 8", "0109088a0182"),
    ("GetTID from 10 meanwhile", "01090acc01840002"),
    ("last packet from 8", "0109085a0002"),
    ("first packet from 11, that never ends", "01090b8b0183"),
    ("first packet from 10", "01090a8b0183"),
    ("last packet from 11", "01090b5b0002"),
    ("last packet from 10", "01090a5b0002"),
    ("GetTID from 11 at the end", "01090bc801800002"),
];

/// Writes what the example in C writes.
pub fn run(_input: &str, out: &mut String) -> fmt::Result {
    let mut endpoint = with_memory(|| Endpoint::new(&SETTINGS, moment(0))).expect("an endpoint");
    let mut packets = Packets::new();
    for (name, packet) in RECEIVED {
        write!(out, "{name}: ")?;
        match serve(&mut endpoint, 0, &from_hex(packet), &mut packets, perform) {
            Step::Refused(refusal) => write!(out, "lost, refusal {}", refusal.number())?,
            Step::Dropped(reason) => write!(out, "dropped, reason {}", reason.number())?,
            Step::Partial => write!(out, "open")?,
            _ => write_packets(out, &packets)?,
        }
        writeln!(out)?;
    }
    Ok(())
}

#[allow(dead_code)]
fn main() -> fmt::Result {
    let mut out = String::new();
    run("", &mut out)?;
    print!("{out}");
    Ok(())
}
