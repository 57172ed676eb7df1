//! The requesting end: a request whose answer is lost, its retry, a second request, one that is given up, and requests
//! of another PLDM type by their bytes. The device is a fan that keeps one answer.

use std::fmt::{self, Write};

use needleoat::bounds::{MESSAGE_BYTES, PACKETS, PACKET_BYTES, REQUEST_BYTES, REQUEST_DATA};
use needleoat::{
    answer_write, command, command_read, command_write, data_size, packet_read, packet_write, Answer, Command, Opening,
    Receiving, Refusal, Requester, RequesterSettings, Status,
};

mod shared;
use shared::{hex, moment, number, with_memory};

/// The device at endpoint 9.
struct Device {
    speed: i64,
    request: Vec<u8>,
    answer: Vec<u8>,
}

impl Device {
    /// Answers a packet with a packet in `answer`; the same packet once more has the same answer.
    fn take(&mut self, bytes: &[u8]) -> &'static str {
        if bytes == self.request {
            return "copy";
        }
        let Ok(packet) = packet_read(9, bytes) else { return "dropped" };
        let Ok(command) = command_read(packet.payload) else { return "dropped" };
        if command.command == command::SET_NUMERIC_EFFECTER_VALUE {
            self.speed = command.value;
        }
        let answer = Answer {
            instance_id: command.instance_id,
            pldm_type: command.pldm_type,
            command: command.command,
            size: data_size::UINT8,
            operational: 1,
            value: self.speed,
            pending_value: self.speed,
            ..Answer::ZERO
        };
        let (mut response, mut out) = ([0; MESSAGE_BYTES], [0; PACKET_BYTES]);
        let count = answer_write(&answer, &mut response).expect("a response");
        let length = packet_write(packet.source, 9, false, packet.tag, &response[..count], 0, &mut out);
        self.answer = out[..length.expect("a packet")].to_vec();
        self.request = bytes.to_vec();
        "fresh"
    }
}

/// The requester at endpoint 8, and what is written.
struct Asker<'a> {
    requester: Requester,
    out: &'a mut String,
}

fn make(requester: &mut Requester, own: u8) -> u8 {
    let settings =
        RequesterSettings { own, device: 9, tries: 3, keep_ms: 1000, timeout_ms: 200, ..RequesterSettings::ZERO };
    number(with_memory(|| requester.make(&settings)))
}

impl Asker<'_> {
    fn open(&mut self, now: u64, command: &Command) -> fmt::Result {
        let mut request = [0; REQUEST_BYTES];
        let length = command_write(command, &mut request).unwrap_or(0);
        let opening = with_memory(|| self.requester.open(moment(now), &request[..length]));
        self.write_opening(now, opening)
    }

    /// Opens a request of any PLDM type, by its data.
    fn open_request(&mut self, now: u64, pldm_type: u8, command: u8, data: &[u8]) -> fmt::Result {
        let opening = with_memory(|| self.requester.open_request(moment(now), pldm_type, command, data));
        self.write_opening(now, opening)
    }

    fn write_opening(&mut self, now: u64, opening: Result<Opening, Refusal>) -> fmt::Result {
        match opening {
            Err(refusal) => writeln!(self.out, "{now} not opened: {}", refusal.number()),
            Ok(opening) => {
                write!(self.out, "{now} opened {}, ", opening.number)?;
                writeln!(self.out, "instance ID {}, tag {}", opening.instance_id, opening.tag)
            }
        }
    }

    /// FRU data (PLDM type 4, DSP0257): GetFRURecordTable (0x02), its answer, and a request of all that a message has.
    fn ask_by_bytes(&mut self) -> fmt::Result {
        const FIRST_PART: [u8; 5] = [0, 0, 0, 0, 1];
        const ANSWER: [u8; 16] = [1, 8, 9, 0xc3, 1, 3, 4, 2, 0, 0, 0, 0, 0, 5, b'a', b'b'];
        let data: Vec<u8> = (0..=REQUEST_DATA).map(|byte| byte as u8).collect();
        self.open_request(1000, 64, 2, &FIRST_PART)?;
        self.open_request(1000, 4, 2, &data)?;
        self.open_request(1000, 4, 2, &FIRST_PART)?;
        let mut packet = [0; PACKET_BYTES];
        let length = self.requester.packet(3, &mut packet).unwrap_or(0);
        writeln!(self.out, "packet {}", hex(&packet[..length]))?;
        self.receive(1010, &ANSWER)?;
        self.status(3)?;
        self.open_request(1020, 4, 1, &data[..REQUEST_DATA])?;
        for index in 0..=PACKETS as u32 {
            let length = self.requester.packet_at(4, index, &mut packet);
            writeln!(self.out, "packet {index}: {} bytes", length.unwrap_or(0))?;
            if length.is_some() {
                writeln!(self.out, "it begins {}", hex(&packet[..8]))?;
            }
        }
        Ok(())
    }

    /// Sends the packet of a request to the device, and writes what that says.
    fn send(&mut self, now: u64, number: u64, device: &mut Device) -> fmt::Result {
        let mut packet = [0; PACKET_BYTES];
        let length = self.requester.packet(number, &mut packet).unwrap_or(0);
        writeln!(self.out, "packet {}", hex(&packet[..length]))?;
        writeln!(self.out, "{now} {}", device.take(&packet[..length]))
    }

    fn tick(&mut self, now: u64) -> fmt::Result {
        match self.requester.tick(moment(now)) {
            Err(refusal) => writeln!(self.out, "{now} no tick: {}", refusal.number()),
            Ok(due) => {
                due.again().iter().try_for_each(|number| writeln!(self.out, "{now} again {number}"))?;
                due.given_up().iter().try_for_each(|number| writeln!(self.out, "{now} gave up {number}"))
            }
        }
    }

    /// Writes how long the requester may sleep.
    fn write_deadline(&mut self) -> fmt::Result {
        match self.requester.next_deadline() {
            Some(deadline) => writeln!(self.out, "nothing is due before {}", deadline.ms()),
            None => writeln!(self.out, "nothing is due"),
        }
    }

    fn receive(&mut self, now: u64, packet: &[u8]) -> fmt::Result {
        let received = with_memory(|| match self.requester.receive(moment(now), packet) {
            Receiving::Refused(refusal) => Err(refusal),
            receiving => Ok(receiving),
        });
        match received.unwrap_or_else(Receiving::Refused) {
            Receiving::Answered(number) => writeln!(self.out, "{now} answered {number}"),
            Receiving::Partial => writeln!(self.out, "{now} kind 2 reason 0"),
            Receiving::Dropped(reason) => writeln!(self.out, "{now} kind 1 reason {}", reason.number()),
            Receiving::Refused(refusal) => writeln!(self.out, "{now} kind 0 reason {}", refusal.number()),
        }
    }

    fn status(&mut self, number: u64) -> fmt::Result {
        let mut response = [0; MESSAGE_BYTES];
        let status = self.requester.status(number, &mut response);
        let kind = match status {
            Status::Unknown => 0,
            Status::Open => 1,
            Status::Answered(_) => 2,
            Status::GaveUp => 3,
        };
        writeln!(self.out, "request {number}: kind {kind}")?;
        match status {
            Status::Answered(length) => writeln!(self.out, "response {}", hex(&response[..length])),
            _ => Ok(()),
        }
    }
}

/// Writes what the example in C writes.
pub fn run(_input: &str, out: &mut String) -> fmt::Result {
    let get = Command {
        pldm_type: command::PLATFORM,
        command: command::GET_NUMERIC_EFFECTER_VALUE,
        effecter: 1,
        ..Command::ZERO
    };
    let set = Command { command: command::SET_NUMERIC_EFFECTER_VALUE, size: data_size::UINT8, value: 40, ..get };
    let get_tid = Command { pldm_type: command::BASE, command: command::GET_TID, ..Command::ZERO };
    let mut device = Device { speed: 10, request: Vec::new(), answer: Vec::new() };
    let mut asker = Asker { requester: Requester::none(), out };
    for _ in 0..2 {
        writeln!(asker.out, "made {}", make(&mut asker.requester, 8))?;
    }
    writeln!(asker.out, "made {}", make(&mut Requester::none(), 9))?;

    asker.open(0, &set)?;
    asker.send(0, 0, &mut device)?; // this answer is lost
    asker.status(0)?;
    asker.write_deadline()?;
    asker.tick(199)?;
    asker.tick(200)?;
    asker.send(200, 0, &mut device)?;
    asker.receive(210, &device.answer)?;
    asker.write_deadline()?;
    asker.receive(211, &device.answer)?;
    asker.status(0)?;

    asker.open(300, &get)?;
    asker.send(300, 1, &mut device)?;
    asker.receive(310, &device.answer)?;
    asker.status(1)?;

    asker.open(399, &Command { pldm_type: 1, ..Command::ZERO })?;
    asker.open(400, &get_tid)?;
    asker.write_deadline()?;
    asker.tick(399)?;
    asker.tick(1000)?;
    asker.status(2)?;
    asker.status(3)?;
    asker.ask_by_bytes()?;
    asker.requester.free();
    asker.status(2)?;
    asker.tick(1001)
}

#[allow(dead_code)]
fn main() -> fmt::Result {
    let mut out = String::new();
    run("", &mut out)?;
    print!("{out}");
    Ok(())
}
