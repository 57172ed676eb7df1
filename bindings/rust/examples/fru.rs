//! A device with FRU data (PLDM type 4, DSP0257) beside a sensor: requests of type 4 are handed on as bytes, and
//! answered by bytes. It is asked over a line that loses each fourth frame, in both directions; the asker sends the
//! very same packet again until the whole answer has come. The bytes that it has to write are those of the tables of
//! the standards, written by hand, with a CRC-32 of another program's. `examples/c/fru.c` says what the table has.

use std::fmt::{self, Write};

use needleoat::bounds::{PACKET_BYTES, RESPONSE_DATA};
use needleoat::{
    busy, command, packet_write, Answer, Answered, Command, Endpoint, EndpointSettings, Packets, Refusal, Request, Step,
};

mod shared;
use shared::{from_hex, hex, moment, number, receive, with_memory};

const OWN: u8 = 9;
const ASKER: u8 = 8;
const AGAIN_MS: u64 = 100;
const FRU: u8 = 4;
const GET_TABLE_METADATA: u8 = 1;
const GET_TABLE: u8 = 2;
const SUCCESS: u8 = 0;
const INVALID_DATA: u8 = 2;
const INVALID_LENGTH: u8 = 3;
const UNSUPPORTED_COMMAND: u8 = 5;

const TABLE: &[u8] = b"\x01\x00\x01\x03\x01\
    \x03\x10NLO-FAN-60-12-V1\
    \x04\x18SN-2026-0000000000000017\
    \x05\x1fNeedleoat Example Works, Hall 3\
    \x00\x00"; // 84 bytes, padded to four

fn crc32(bytes: &[u8]) -> u32 {
    !bytes.iter().fold(u32::MAX, |crc, &byte| {
        (0..8).fold(crc ^ u32::from(byte), |crc, _| (crc >> 1) ^ if crc & 1 == 1 { 0xedb8_8320 } else { 0 })
    })
}

/// Responds to a request of type 4: the completion code, and the data.
fn respond(request: &Request) -> (u8, Vec<u8>) {
    let size = (TABLE.len() as u32).to_le_bytes();
    match (request.command, request.bytes()) {
        (GET_TABLE_METADATA, []) => {
            let mut data = vec![1, 0];
            data.extend(size);
            data.extend(size);
            data.extend([1, 0, 1, 0]);
            data.extend(crc32(TABLE).to_le_bytes());
            (SUCCESS, data)
        }
        (GET_TABLE, [_, _, _, _, 1]) => (SUCCESS, [&[0, 0, 0, 0, 5], TABLE].concat()),
        (GET_TABLE, [_, _, _, _, _]) => (INVALID_DATA, Vec::new()), // there is no next part
        (GET_TABLE_METADATA | GET_TABLE, _) => (INVALID_LENGTH, Vec::new()),
        _ => (UNSUPPORTED_COMMAND, Vec::new()),
    }
}

/// The sensor reads 40.
fn perform(command: &Command) -> Answer {
    let is_reading = command.command == command::GET_SENSOR_READING;
    Answer {
        pldm_type: command.pldm_type,
        command: command.command,
        code: if is_reading { SUCCESS } else { UNSUPPORTED_COMMAND },
        present: 1,
        previous: 1,
        event: 1,
        value: 40,
        ..Answer::ZERO
    }
}

struct Line<'a> {
    endpoint: Endpoint,
    packets: Packets,
    now_ms: u64,
    /// How often the device was asked something.
    asked: u32,
    /// How many frames went over the line.
    frames: u32,
    out: &'a mut String,
}

fn answered(given: Result<Answered, Refusal>) -> Step {
    given.map_or_else(Step::Refused, Step::Answered)
}

impl Line<'_> {
    /// The device receives a packet. What is asked is given at once.
    fn serve(&mut self, packet: &[u8]) -> Step {
        match receive(&mut self.endpoint, self.now_ms, packet, &mut self.packets) {
            Step::Perform(handle, command) => {
                self.asked += 1;
                answered(self.endpoint.answer(&handle, &perform(&command), &mut self.packets))
            }
            Step::Respond(handle) => {
                let request = self.endpoint.request(&handle).expect("a pending request");
                self.asked += 1;
                let (code, data) = respond(&request);
                answered(self.endpoint.answer_bytes(&handle, code, &data, &mut self.packets))
            }
            step => step,
        }
    }

    /// The line loses each fourth frame, from the third one on.
    fn is_lost(&mut self) -> bool {
        self.frames += 1;
        self.frames % 4 == 3
    }

    /// Sends a request until its whole answer has come, and writes that and how often it was sent.
    fn ask(&mut self, name: &str, message: &str) -> fmt::Result {
        let mut packet = [0; PACKET_BYTES];
        let sent = packet_write(OWN, ASKER, true, 0, &from_hex(message), 0, &mut packet).expect("a packet");
        let (mut tries, before, mut is_whole) = (0, self.asked, false);
        while !is_whole {
            tries += 1;
            self.now_ms += AGAIN_MS;
            if self.is_lost() {
                continue;
            }
            is_whole = matches!(self.serve(&packet[..sent]), Step::Answered(_));
            for _ in 0..self.packets.len() {
                is_whole &= !self.is_lost();
            }
        }
        writeln!(self.out, "{name}, sent {tries} times, asked {} times:", self.asked - before)?;
        self.packets.iter().try_for_each(|packet| writeln!(self.out, "{}", hex(packet)))
    }

    /// What the two ways to answer refuse.
    fn refusals(&mut self) -> fmt::Result {
        let metadata = [1, OWN, ASKER, 0xc8, 1, 0x90, FRU, GET_TABLE_METADATA];
        let reading = [1, OWN, ASKER, 0xc9, 1, 0x91, 2, 0x11, 1, 0, 0];
        let much = [0; RESPONSE_DATA + 1];
        let answer = Answer { pldm_type: FRU, command: GET_TABLE_METADATA, ..Answer::ZERO };
        let step = receive(&mut self.endpoint, self.now_ms, &metadata, &mut self.packets);
        let Step::Respond(bytes) = step else { panic!("the metadata gave {step:?}") };
        let step = receive(&mut self.endpoint, self.now_ms, &reading, &mut self.packets);
        let Step::Perform(fields, _) = step else { panic!("the reading gave {step:?}") };
        let refused = |given: Result<Answered, Refusal>| number(given.map(|_| ()));
        let given = self.endpoint.answer_bytes(&bytes, 0, &much, &mut self.packets);
        writeln!(self.out, "316 bytes: {}", refused(given))?;
        let given = self.endpoint.answer(&bytes, &answer, &mut self.packets);
        writeln!(self.out, "fields for bytes: {}", refused(given))?;
        let given = self.endpoint.answer_bytes(&fields, 0, &much[..1], &mut self.packets);
        writeln!(self.out, "bytes for a command: {}", refused(given))?;
        let given = self.endpoint.answer_bytes(&bytes, 0, &much[1..], &mut self.packets);
        assert_eq!(refused(given), 0);
        let (count, last) = (self.packets.len(), self.packets.iter().last().map_or(0, <[u8]>::len));
        writeln!(self.out, "315 bytes: {count} packets, the last of {last} bytes")?;
        let given = self.endpoint.answer_bytes(&fields, 0, &[], &mut self.packets);
        writeln!(self.out, "again: {}", refused(given))
    }
}

/// Writes what the example in C writes.
pub fn run(_input: &str, out: &mut String) -> fmt::Result {
    let settings = EndpointSettings {
        own: OWN,
        first_start: true,
        keep_ms: 1000,
        sources: 1,
        open_messages: 1,
        pending_commands: 2,
        busy: busy::SETS,
        pldm_types: 1 << FRU,
        ..EndpointSettings::ZERO
    };
    let endpoint = with_memory(|| Endpoint::new(&settings, moment(0))).expect("an endpoint");
    let mut line = Line { endpoint, packets: Packets::new(), now_ms: 0, asked: 0, frames: 0, out };
    line.ask("GetFRURecordTableMetadata", "01800401")?;
    line.ask("GetSensorReading", "01810211010000")?;
    line.ask("GetFRURecordTable", "018204020000000001")?;
    line.ask("a further part", "018304020000000000")?;
    line.ask("another command of type 4", "01840403")?;
    line.ask("type 5", "01850501")?;
    line.refusals()?;
    let restarted = number(line.endpoint.restart(moment(line.now_ms)));
    writeln!(line.out, "restarted {restarted}")?;
    line.ask("GetFRURecordTableMetadata in the busy time", "01860401")?;
    line.ask("GetSensorReading in the busy time", "01870211010000")
}

#[allow(dead_code)]
fn main() -> fmt::Result {
    let mut out = String::new();
    run("", &mut out)?;
    print!("{out}");
    Ok(())
}
