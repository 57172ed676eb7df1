//! Both ends of one exchange, with the codecs alone: no memory is taken and nothing is kept.

use std::fmt::{self, Write};

use needleoat::bounds::{MESSAGE_BYTES, PACKET_BYTES, REQUEST_BYTES};
use needleoat::{
    answer_read, answer_write, command, command_read, command_write, crc8, data_size, packet_read, packet_write,
    request_read, Answer, Command, NotACommand,
};

mod shared;
use shared::hex;

const DEVICE: u8 = 9;
const REQUESTER: u8 = 8;

/// One fan, effecter 1, whose speed is a uint8.
struct Fan {
    speed: i64,
}

impl Fan {
    fn perform(&mut self, command: &Command, answer: &mut Answer) {
        if command.pldm_type != command::PLATFORM || command.effecter != 1 {
            answer.code = 0x80; // INVALID_EFFECTER_ID
        } else if command.command == command::SET_NUMERIC_EFFECTER_VALUE {
            match command.size {
                data_size::UINT8 => self.speed = command.value,
                _ => answer.code = 0x02, // ERROR_INVALID_DATA
            }
        } else if command.command == command::GET_NUMERIC_EFFECTER_VALUE {
            answer.size = data_size::UINT8;
            answer.operational = 1;
            answer.value = self.speed;
            answer.pending_value = self.speed;
        } else {
            answer.code = 0x05; // ERROR_UNSUPPORTED_PLDM_CMD
        }
    }

    /// Answers a packet with a packet in `out`. Returns its length; `None` where the packet is dropped.
    fn answer(&mut self, bytes: &[u8], out: &mut [u8; PACKET_BYTES]) -> Option<usize> {
        let packet = packet_read(DEVICE, bytes).ok().filter(|packet| packet.start && packet.end && packet.owner)?;
        let header = request_read(packet.payload).ok()?;
        let mut answer = Answer {
            instance_id: header.instance_id,
            pldm_type: header.pldm_type,
            command: header.command,
            ..Answer::ZERO
        };
        match command_read(packet.payload) {
            Ok(command) => self.perform(&command, &mut answer),
            Err(NotACommand::Refuse(code)) => answer.code = code,
            Err(NotACommand::NoRequest(_)) => return None,
        }
        let mut response = [0; MESSAGE_BYTES];
        let count = answer_write(&answer, &mut response)?;
        packet_write(packet.source, DEVICE, false, packet.tag, &response[..count], 0, out)
    }
}

/// Asks the device, and writes both packets and what came of it.
fn ask(fan: &mut Fan, command: &Command, out: &mut String) -> fmt::Result {
    let (mut request, mut there, mut back) = ([0; REQUEST_BYTES], [0; PACKET_BYTES], [0; PACKET_BYTES]);
    let count = command_write(command, &mut request).expect("a command");
    let tag = command.instance_id % 8;
    let length = packet_write(DEVICE, REQUESTER, true, tag, &request[..count], 0, &mut there).expect("a packet");
    writeln!(out, "request {}", hex(&there[..length]))?;
    let length = fan.answer(&there[..length], &mut back).expect("an answer");
    writeln!(out, "answer {}", hex(&back[..length]))?;
    let packet = packet_read(REQUESTER, &back[..length]).expect("a packet");
    match answer_read(&request[..count], packet.payload) {
        Err(fault) => writeln!(out, "no answer: {}", fault.number()),
        Ok(answer) if answer.code != 0 => writeln!(out, "refused with {:02x}", answer.code),
        Ok(answer) if answer.command == command::GET_NUMERIC_EFFECTER_VALUE => writeln!(out, "value {}", answer.value),
        Ok(_) => writeln!(out, "done"),
    }
}

/// Writes what the example in C writes.
pub fn run(_input: &str, out: &mut String) -> fmt::Result {
    let mut fan = Fan { speed: 10 };
    let set = Command {
        instance_id: 1,
        pldm_type: command::PLATFORM,
        command: command::SET_NUMERIC_EFFECTER_VALUE,
        effecter: 1,
        size: data_size::UINT8,
        value: 40,
        ..Command::ZERO
    };
    ask(&mut fan, &set, out)?;
    let get = Command {
        instance_id: 2,
        pldm_type: command::PLATFORM,
        command: command::GET_NUMERIC_EFFECTER_VALUE,
        effecter: 1,
        ..Command::ZERO
    };
    ask(&mut fan, &get, out)?;
    ask(&mut fan, &Command { instance_id: 3, effecter: 2, ..get }, out)?;

    // A record of 300 bytes, and the checksum that its last part carries.
    let mut record = [0; 300];
    record[..10].copy_from_slice(&[1, 0, 0, 0, 1, 1, 0, 0, 0x22, 1]);
    writeln!(out, "checksum {:02x}", crc8(&record))
}

#[allow(dead_code)]
fn main() -> fmt::Result {
    let mut out = String::new();
    run("", &mut out)?;
    print!("{out}");
    Ok(())
}
