//! The fan of fan.rs, endpoint 9, on I2C. It is a slave while it is asked, and a master when it answers. What is
//! written to the fan's address goes into a ring of frames, which the main loop serves. The bus is a list of
//! transfers here; the output is each frame that the fan sends, and the fault of each transfer that is no frame.

use std::collections::VecDeque;
use std::fmt::{self, Write};

use needleoat::bounds::I2C_FRAME_BYTES;
use needleoat::{
    command, data_size, i2c_read, i2c_write, Answer, Command, Endpoint, EndpointSettings, Packets, Refusal, Step,
};

mod shared;
use shared::{from_hex, hex, moment, serve, with_memory};

const OWN: u8 = 9;
const OWN_ADDRESS: u8 = 0x1d;
const SEND_TRIES: u32 = 3;
const FRAMES: usize = 2;
const ERROR_INVALID_DATA: u8 = 2;
const ERROR_UNSUPPORTED_COMMAND: u8 = 5;
const INVALID_EFFECTER_ID: u8 = 0x80;
const FULL_SPEED: i64 = 100;
const ENABLED_NO_UPDATE_PENDING: u8 = 1;

const SETTINGS: EndpointSettings = EndpointSettings {
    own: OWN,
    first_start: true,
    keep_ms: 1000,
    sources: 2,
    open_messages: 1,
    pending_commands: 1,
    answers_control: true,
    uuid: [0x4e, 0x65, 0x65, 0x64, 0x6c, 0x65, 0x8f, 0x61, 0x80, 0x74, 0, 0, 0, 0, 0, OWN],
    base_version: [0xf1, 0xf3, 0xf1, 0x00],
    control_version: [0xf1, 0xf3, 0xf1, 0x00],
    pldm_version: [0xf1, 0xf0, 0xf0, 0x00],
    ..EndpointSettings::ZERO
};

struct Fan {
    speed: i64,
}

impl Fan {
    fn perform(&mut self, command: &Command) -> Answer {
        let mut answer = Answer { pldm_type: command.pldm_type, command: command.command, ..Answer::ZERO };
        let sets = command.command == command::SET_NUMERIC_EFFECTER_VALUE;
        let gets = command.command == command::GET_NUMERIC_EFFECTER_VALUE;
        if command.pldm_type != command::PLATFORM || (!sets && !gets) {
            answer.code = ERROR_UNSUPPORTED_COMMAND;
        } else if command.effecter != 1 {
            answer.code = INVALID_EFFECTER_ID;
        } else if gets {
            answer.size = data_size::UINT8;
            answer.operational = ENABLED_NO_UPDATE_PENDING;
            answer.value = self.speed;
            answer.pending_value = self.speed;
        } else if command.size != data_size::UINT8 || command.value > FULL_SPEED {
            answer.code = ERROR_INVALID_DATA;
        } else {
            self.speed = command.value;
        }
        answer
    }
}

/// A transfer: its bytes, how many zeros come after them, and how many collisions the answer has.
struct Transfer {
    now_ms: u64,
    name: &'static str,
    bytes: &'static str,
    zeros: usize,
    collisions: u32,
    /// The next transfer comes before the main loop gets its turn.
    is_followed: bool,
}

const fn transfer(now_ms: u64, name: &'static str, bytes: &'static str) -> Transfer {
    Transfer { now_ms, name, bytes, zeros: 0, collisions: 0, is_followed: false }
}

fn transfers() -> [Transfer; 18] {
    [
        transfer(0, "effecter 1 is set to 40", "3a0f0d21010908c9018102310100002861"),
        transfer(10, "and asked for", "3a0f0b21010908ca01820232010070"),
        transfer(20, "also by another device", "3a0f0b4501090acb018302320100ab"),
        transfer(30, "a bus owner asks for the endpoint ID", "3a0f0821010008c800800256"),
        transfer(40, "a wrong PEC", "3a0f0d21010908cc018402310100003218"),
        Transfer { collisions: 2, ..transfer(50, "set to 50: two collisions", "3a0f0d21010908cc018402310100003217") },
        Transfer { collisions: 3, ..transfer(60, "asked for: three collisions", "3a0f0b21010908cd0185023201004a") },
        transfer(70, "so once more", "3a0f0b21010908cd0185023201004a"),
        transfer(80, "no packet", "3a0f012180"),
        transfer(90, "for another address", "3c0f0b21010908ca01820232010020"),
        transfer(100, "another command code", "3a0e0b21010908ca018202320100e4"),
        transfer(110, "another count", "3a0f0c21010908ca018202320100e4"),
        transfer(120, "no source", "3a0f0b20010908ca0182023201006f"),
        transfer(130, "for another endpoint", "3a0f0b21010a08ca018202320100fb"),
        Transfer { zeros: 256, ..transfer(140, "one byte more than the longest frame", "3a0fff21") },
        Transfer {
            is_followed: true,
            ..transfer(150, "three at once: the third finds no room", "3a0f0b21010908ce0186023201008a")
        },
        Transfer { is_followed: true, ..transfer(150, "the second", "3a0f0b4501090acb018302320100ab") },
        transfer(150, "the third", "3a0f0b21010908cd0185023201004a"),
    ]
}

/// The frames that were received and are not served, and how many of the next transfers lose the bus.
struct Bus {
    frames: VecDeque<Vec<u8>>,
    collisions: u32,
}

impl Bus {
    /// What the controller of the fan does as it is written to. A transfer for which there is no room, or which has
    /// more bytes than a frame, is lost: its sender repeats it.
    fn take(&mut self, transfer: &Transfer) {
        let mut bytes = from_hex(transfer.bytes);
        bytes.resize(bytes.len() + transfer.zeros, 0);
        if self.frames.len() < FRAMES && bytes.len() <= I2C_FRAME_BYTES {
            self.frames.push_back(bytes);
        }
    }

    /// Sends a packet to the slave of an address. Where it can't be sent it is lost: who asked asks again.
    fn send(&mut self, address: u8, packet: &[u8], out: &mut String) -> fmt::Result {
        let mut frame = [0; I2C_FRAME_BYTES];
        let Some(count) = i2c_write(OWN_ADDRESS, address, packet, &mut frame) else { return Ok(()) };
        for _ in 0..SEND_TRIES {
            if self.collisions == 0 {
                return writeln!(out, "{}", hex(&frame[..count]));
            }
            self.collisions -= 1;
        }
        Ok(())
    }
}

/// Writes what the example in C writes.
pub fn run(_input: &str, out: &mut String) -> fmt::Result {
    let mut fan = Fan { speed: 10 };
    let mut bus = Bus { frames: VecDeque::new(), collisions: 0 };
    let mut packets = Packets::new();
    let mut endpoint = with_memory(|| Endpoint::new(&SETTINGS, moment(0))).expect("an endpoint");
    for transfer in transfers() {
        writeln!(out, "# {}", transfer.name)?;
        bus.take(&transfer);
        bus.collisions = transfer.collisions;
        if transfer.is_followed {
            continue;
        }
        while let Some(bytes) = bus.frames.pop_front() {
            let frame = match i2c_read(OWN_ADDRESS, &bytes) {
                Ok(frame) => frame,
                Err(fault) => {
                    writeln!(out, "fault {}", fault.number())?;
                    continue;
                }
            };
            let perform = |command: &Command| fan.perform(command);
            let step = serve(&mut endpoint, transfer.now_ms, frame.packet, &mut packets, perform);
            assert_ne!(step, Step::Refused(Refusal::BadMoment));
            packets.iter().try_for_each(|packet| bus.send(frame.source_address, packet, out))?;
        }
    }
    Ok(())
}

#[allow(dead_code)]
fn main() -> fmt::Result {
    let mut out = String::new();
    run("", &mut out)?;
    print!("{out}");
    Ok(())
}
