//! A fan behind numeric effecter 1 of the endpoint 9: its speed is 0 to 100 percent, and 10 at first. A BMC finds it by
//! its platform data records. The input is lines of a moment and a packet in hexadecimal, after a line `%%`
//! (examples/copies.txt); the output is each packet of each answer, also to the control messages of a bus owner.

use std::fmt::{self, Write};
use std::io::Read;

use needleoat::{
    command, data_size, records_answer, Answer, Command, Conversion, Endpoint, EndpointSettings, Entity,
    NumericEffecter, Packets, Record, Refusal, Step, TerminusLocator, Units,
};

mod shared;
use shared::{from_hex, hex, moment, serve, with_memory};

const OWN: u8 = 9;
const ERROR_INVALID_DATA: u8 = 2;
const ERROR_UNSUPPORTED_COMMAND: u8 = 5;
const INVALID_EFFECTER_ID: u8 = 0x80;
const FULL_SPEED: i64 = 100;
const ENABLED_NO_UPDATE_PENDING: u8 = 1;

const LOCATOR: TerminusLocator =
    TerminusLocator { record_handle: 1, terminus_handle: 1, is_valid: 1, tid: 1, eid: OWN, ..TerminusLocator::ZERO };
const FAN: NumericEffecter = NumericEffecter {
    record_handle: 2,
    terminus_handle: 1,
    effecter_id: 1,
    entity: Entity { entity_type: 29, instance: 1, container_id: 0 },
    units: Units { base_unit: 65, ..Units::ZERO },
    conversion: Conversion { resolution: 1.0f32.to_bits(), is_linear: 1, size: data_size::UINT8, ..Conversion::ZERO },
    max_settable: FULL_SPEED,
    ..NumericEffecter::ZERO
};

/// A bus owner is given the versions 1.3.1 of the base specification and of the control protocol, and 1.0.0.
const SETTINGS: EndpointSettings = EndpointSettings {
    own: OWN,
    first_start: true,
    keep_ms: 1000,
    sources: 2,
    open_messages: 1,
    pending_commands: 1,
    answers_control: true,
    uuid: [0x4e, 0x65, 0x65, 0x64, 0x6c, 0x65, 0x8f, 0x61, 0x80, 0x74, 0, 0, 0, 0, 0, OWN],
    base_version: [0xf1, 0xf3, 0xf1, 0x00],
    control_version: [0xf1, 0xf3, 0xf1, 0x00],
    pldm_version: [0xf1, 0xf0, 0xf0, 0x00],
    ..EndpointSettings::ZERO
};

struct Fan {
    speed: i64,
    records: Vec<u8>,
}

impl Fan {
    fn new() -> Self {
        let mut records = vec![0; 128];
        let first = LOCATOR.record_write(&mut records).expect("a record");
        let second = FAN.record_write(&mut records[first..]).expect("a record");
        records.truncate(first + second);
        Self { speed: 10, records }
    }

    /// Performs a command, and returns the answer.
    fn perform(&mut self, command: &Command) -> Answer {
        let never = [0; 13]; // when the records were last changed
        if let Ok(answer) = records_answer(&self.records, &never, &never, command) {
            return answer;
        }
        let mut answer = Answer { pldm_type: command.pldm_type, command: command.command, ..Answer::ZERO };
        let sets = command.command == command::SET_NUMERIC_EFFECTER_VALUE;
        let gets = command.command == command::GET_NUMERIC_EFFECTER_VALUE;
        if command.pldm_type != command::PLATFORM || (!sets && !gets) {
            answer.code = ERROR_UNSUPPORTED_COMMAND;
        } else if command.effecter != 1 {
            answer.code = INVALID_EFFECTER_ID;
        } else if gets {
            answer.size = data_size::UINT8;
            answer.operational = ENABLED_NO_UPDATE_PENDING;
            answer.value = self.speed;
            answer.pending_value = self.speed;
        } else if command.size != data_size::UINT8 || command.value > FULL_SPEED {
            answer.code = ERROR_INVALID_DATA;
        } else {
            self.speed = command.value;
        }
        answer
    }
}

/// Writes what the example in C writes.
pub fn run(input: &str, out: &mut String) -> fmt::Result {
    let mut fan = Fan::new();
    let mut packets = Packets::new();
    let mut endpoint = with_memory(|| Endpoint::new(&SETTINGS, moment(0))).expect("an endpoint");
    for line in input.lines().skip_while(|line| *line != "%%").skip(1) {
        let Some((Ok(now_ms), packet)) = line.split_once(' ').map(|(ms, packet)| (ms.parse(), packet)) else {
            continue; // a comment
        };
        let step = serve(&mut endpoint, now_ms, &from_hex(packet), &mut packets, |command| fan.perform(command));
        assert_ne!(step, Step::Refused(Refusal::BadMoment));
        packets.iter().try_for_each(|packet| writeln!(out, "{}", hex(packet)))?;
    }
    Ok(())
}

#[allow(dead_code)]
fn main() -> std::io::Result<()> {
    let (mut input, mut out) = (String::new(), String::new());
    std::io::stdin().read_to_string(&mut input)?;
    run(&input, &mut out).map_err(std::io::Error::other)?;
    print!("{out}");
    Ok(())
}
