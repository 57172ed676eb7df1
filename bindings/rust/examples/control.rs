//! A bus owner finds the endpoint 9 by control messages (DSP0236, "MCTP control protocol"), and assigns endpoint IDs
//! to another that has none: 10, then 11. Late copies change nothing. The bytes that it has to write are those of the
//! tables of DSP0236 and DSP0240, written by hand.

use std::fmt::{self, Write};

use needleoat::{Endpoint, EndpointSettings, Packets, Step};

mod shared;
use shared::{from_hex, hex, moment, number, receive, with_memory};

const OWN: u8 = 9;

/// The versions 1.3.1 of the base specification and of the control protocol, and 1.0.0 of PLDM over MCTP.
const SETTINGS: EndpointSettings = EndpointSettings {
    own: OWN,
    first_start: true,
    keep_ms: 1000,
    sources: 1,
    open_messages: 1,
    pending_commands: 1,
    answers_control: true,
    uuid: [0x4e, 0x65, 0x65, 0x64, 0x6c, 0x65, 0x8f, 0x61, 0x80, 0x74, 0, 0, 0, 0, 0, OWN],
    base_version: [0xf1, 0xf3, 0xf1, 0x00],
    control_version: [0xf1, 0xf3, 0xf1, 0x00],
    pldm_version: [0xf1, 0xf0, 0xf0, 0x00],
    ..EndpointSettings::ZERO
};

/// A packet that comes: its name, its moment and its bytes.
type Row = (&'static str, u64, &'static str);

/// The endpoint 9 has a static endpoint ID, and takes no other.
const FOUND: [Row; 18] = [
    ("Get Endpoint ID, by the physical address", 0, "010008c8008002"),
    ("Set Endpoint ID to its own", 0, "010008c80081010009"),
    ("Set Endpoint ID to another", 0, "010008c8008201000a"),
    ("Get Endpoint UUID", 0, "010908c9008303"),
    ("versions of the base specification", 0, "010908ca008404ff"),
    ("versions of PLDM over MCTP", 0, "010908ca00860401"),
    ("versions of another type", 0, "010908ca00870405"),
    ("Get Message Type Support", 0, "010908cb008805"),
    ("an unknown command", 0, "010908cc0089ff"),
    ("a wrong length", 0, "010908cc008a0200"),
    ("to another endpoint", 0, "010a08c8008002"),
    ("Get Endpoint ID, from the null endpoint ID", 0, "010900c8008002"),
    ("from a reserved endpoint ID", 0, "010907c8008002"),
    ("from its own endpoint ID", 0, "010909c8008002"),
    ("from the broadcast endpoint ID", 0, "0100ffc8008002"),
    ("a response", 0, "010908c8000002"),
    ("GetTID of PLDM, by the physical address", 0, "010008c801800002"),
    ("GetTID of PLDM", 0, "010908c801800002"),
];

/// Another has none at first, and gets 10, then 11. After the move it is busy for the keeping time.
const ASSIGNED: [Row; 11] = [
    ("no endpoint ID yet, GetTID to 10", 0, "010a08c801800002"),
    ("no endpoint ID yet, Get Endpoint ID", 0, "010008c8008002"),
    ("Set Endpoint ID to 10", 0, "010008c8008101000a"),
    ("GetTID to 10", 0, "010a08c801800002"),
    ("Set Endpoint ID to 11", 400, "010a08c8008201000b"),
    ("a late copy of the first assignment", 500, "010008c8008101000a"),
    ("a late copy of GetTID to 10", 500, "010a08c801800002"),
    ("Get Endpoint ID at 11", 500, "010b08c9008302"),
    ("GetTID to 11, in the busy time", 1399, "010b08c801800002"),
    ("GetTID to 11, past the busy time", 1400, "010b08c801800002"),
    ("Reset where there is no static endpoint ID", 1400, "010b08c80084010200"),
];

/// One that has a static endpoint ID goes back to it.
const RESET: [Row; 3] = [
    ("a static endpoint ID that it does not have yet", 0, "010008c8008002"),
    ("Force Endpoint ID 10", 0, "010008c8008101010a"),
    ("Reset to the static endpoint ID", 0, "010a08c80082010200"),
];

const SILENT: [Row; 1] = [("control messages are not answered", 0, "010008c8008002")];

/// Receives packets, and writes what comes of each, and the endpoint ID at the end.
fn receive_all(settings: &EndpointSettings, rows: &[Row], name: &str, out: &mut String) -> fmt::Result {
    let mut endpoint = with_memory(|| Endpoint::new(settings, moment(0))).expect("an endpoint");
    let mut packets = Packets::new();
    for (name, now_ms, packet) in rows {
        write!(out, "{name}: ")?;
        match receive(&mut endpoint, *now_ms, &from_hex(packet), &mut packets) {
            Step::Perform(_, command) => write!(out, "command {:02x} of PLDM is to be performed", command.command)?,
            Step::Refused(refusal) => write!(out, "lost, refusal {}", refusal.number())?,
            Step::Dropped(reason) => write!(out, "dropped, reason {}", reason.number())?,
            Step::Answered(_) => write!(out, "PLDM ")?,
            Step::Partial | Step::Respond(_) | Step::Control => {}
        }
        packets.iter().try_for_each(|packet| write!(out, "{}", hex(packet)))?;
        writeln!(out)?;
    }
    writeln!(out, "{name}: endpoint ID {}", endpoint.eid().unwrap_or(0))
}

/// Writes what the example in C writes.
pub fn run(_input: &str, out: &mut String) -> fmt::Result {
    receive_all(&SETTINGS, &FOUND, "found", out)?;
    receive_all(&EndpointSettings { own: 0, assigned: true, ..SETTINGS }, &ASSIGNED, "assigned", out)?;
    receive_all(&EndpointSettings { assigned: true, ..SETTINGS }, &RESET, "reset", out)?;
    receive_all(&EndpointSettings { answers_control: false, ..SETTINGS }, &SILENT, "not answered", out)?;
    let wrong = EndpointSettings { assigned: true, answers_control: false, ..SETTINGS };
    let refused = number(with_memory(|| Endpoint::none().make(&wrong, moment(0))));
    writeln!(out, "assigned, and control messages are not answered: refusal {refused}")
}

#[allow(dead_code)]
fn main() -> fmt::Result {
    let mut out = String::new();
    run("", &mut out)?;
    print!("{out}");
    Ok(())
}
