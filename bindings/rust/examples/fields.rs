//! Passes other values through each field of each struct, and through each number that a call returns. The bytes that
//! it has to write are those of the tables of DSP0236, DSP0240, DSP0248, DSP0237 and DSP0233, written by hand, the
//! PECs by another program.

use std::fmt::{self, Write};

use needleoat::bounds::{
    I2C_FRAME_BYTES, I3C_FRAME_BYTES, MESSAGE_BYTES, PACKETS, PACKET_BYTES, PART_BYTES, REQUEST_BYTES,
};
use needleoat::{
    answer_check, answer_read, answer_write, base_answer, busy, command, command_read, command_write, crc32, crc8,
    data_size, i2c_read, i2c_write, i3c_read, i3c_write, packet_count, packet_read, packet_write, request_read,
    response_read, Answer, Answered, Command, CommandHandle, EffecterState, Endpoint, EndpointSettings, Message,
    NotACommand, Packets, Reason, Refusal, SensorState, SetState, Step, TypeCommand, TypeVersion,
};

mod shared;
use shared::{from_hex, hex, moment, number};

const UNTOUCHED: u8 = 0xee;

/// Whether each of these bytes is as it was.
fn rest(bytes: &[u8]) -> &'static str {
    match bytes.iter().all(|&byte| byte == UNTOUCHED) {
        true => "untouched",
        false => "overwritten",
    }
}

// ---- Packets ----

fn read_packet(own: u8, packet: &str, out: &mut String) -> fmt::Result {
    write!(out, "packet at {own}: reason ")?;
    match packet_read(own, &from_hex(packet)) {
        Err(reason) => writeln!(out, "{}", reason.number()),
        Ok(p) => {
            write!(out, "0 destination {} source {} tag {} seq {}", p.destination, p.source, p.tag, p.seq)?;
            write!(out, " owner {} start {} end {}", u8::from(p.owner), u8::from(p.start), u8::from(p.end))?;
            writeln!(out, " payload {}", p.payload.len())
        }
    }
}

fn packets(out: &mut String) -> fmt::Result {
    let long = format!("010908c8{}", "01".repeat(65));
    let rows = [
        (9, "010908c801800002"),
        (30, "f11e1d5daabbcc"),
        (254, "01fe0827aabb"),
        (8, "0108feb001"),
        (9, ""),
        (9, "020908c801800002"),
        (9, "010b08c801800002"),
        (9, "010907c801800002"),
        (9, "010909c801800002"),
        (9, "010908c8"),
        (9, long.as_str()),
        (7, "010708c801800002"),
        (255, "01ff08c801800002"),
    ];
    rows.into_iter().try_for_each(|(own, packet)| read_packet(own, packet, out))?;
    write!(out, "counts")?;
    let lengths = [0, 1, 64, 65, 128, 320, 321, u32::MAX];
    lengths.into_iter().try_for_each(|length| write!(out, " {}", packet_count(length)))?;
    writeln!(out)
}

/// Destination, source, whether the source is the tag's owner, tag, length of the message, and which packet of it.
type Written = (u8, u8, bool, u8, usize, u32);

fn write_packet((destination, source, owner, tag, length, index): Written, out: &mut String) -> fmt::Result {
    let message: Vec<u8> = (0..length).map(|i| i as u8).collect();
    let mut packet = [UNTOUCHED; PACKET_BYTES];
    let count = packet_write(destination, source, owner, tag, &message, index, &mut packet).unwrap_or(0);
    let front = hex(&packet[..count.min(6)]);
    writeln!(out, "packet {index} of {length} bytes: {count} {front} {}", rest(&packet[count..]))
}

fn written_packets(out: &mut String) -> fmt::Result {
    let rows = [(8, 9, false, 0, 64, 0), (30, 29, true, 5, 65, 0), (30, 29, true, 5, 65, 1)];
    let parts = (0..6).map(|index| (254, 10, false, 7, 320, index));
    let refused = [
        (8, 9, false, 0, 0, 0),
        (8, 9, false, 0, 321, 0),
        (7, 9, false, 0, 1, 0),
        (8, 255, false, 0, 1, 0),
        (8, 9, false, 8, 1, 0),
    ];
    rows.into_iter().chain(parts).chain(refused).try_for_each(|row| write_packet(row, out))
}

// ---- Messages ----

fn write_message(name: &str, read: Result<Message, Reason>, out: &mut String) -> fmt::Result {
    match read {
        Err(reason) => writeln!(out, "{name}: reason {}", reason.number()),
        Ok(m) => {
            write!(out, "{name}: reason 0 id {} type {} command {}", m.instance_id, m.pldm_type, m.command)?;
            writeln!(out, " code {} data {}", m.code, m.data.len())
        }
    }
}

fn messages(out: &mut String) -> fmt::Result {
    let requests =
        ["01800002", "019d3f7a0102030405", "02800002", "81800002", "0180", "", "01804002", "01000002", "01c00002"];
    let responses = [
        "010000020001",
        "011d025182aabbcc",
        "020000020001",
        "810000020001",
        "01000002",
        "",
        "010040020001",
        "018000020001",
        "014000020001",
    ];
    requests.into_iter().try_for_each(|bytes| write_message("request", request_read(&from_hex(bytes)), out))?;
    responses.into_iter().try_for_each(|bytes| write_message("response", response_read(&from_hex(bytes)), out))
}

// ---- Commands ----

const fn base(instance_id: u8, command: u8) -> Command {
    Command { instance_id, pldm_type: command::BASE, command, ..Command::ZERO }
}

const fn platform(instance_id: u8, command: u8) -> Command {
    Command { instance_id, pldm_type: command::PLATFORM, command, ..Command::ZERO }
}

/// Eight fields, each made of its place.
fn eight<T>(make: impl Fn(u8) -> T) -> [T; 8] {
    std::array::from_fn(|place| make(place as u8))
}

fn commands() -> [Command; 14] {
    let set = platform(1, command::SET_NUMERIC_EFFECTER_VALUE);
    [
        Command { tid: 40, ..base(1, command::SET_TID) },
        base(2, command::GET_TID),
        Command {
            data_transfer_handle: 0x0403_0201,
            transfer_operation_flag: 6,
            asked_type: 5,
            ..base(3, command::GET_PLDM_VERSION)
        },
        base(4, command::GET_PLDM_TYPES),
        Command { asked_type: 2, version: [0xf1, 0xf2, 0xf3, 0xf4], ..base(5, command::GET_PLDM_COMMANDS) },
        Command { sensor: 0x0201, rearm: 3, ..platform(6, command::GET_SENSOR_READING) },
        Command { sensor: 3, rearm: 0xff, ..platform(0, command::GET_STATE_SENSOR_READINGS) },
        Command { effecter: 1, size: data_size::SINT16, value: -2, ..set },
        Command { instance_id: 8, effecter: 1, size: data_size::UINT32, value: 4_294_967_295, ..set },
        Command { effecter: 0x0605, ..platform(9, command::GET_NUMERIC_EFFECTER_VALUE) },
        Command {
            effecter: 2,
            count: 8,
            sets: eight(|i| SetState { set_request: i, state: 10 + i }),
            ..platform(10, command::SET_STATE_EFFECTER_STATES)
        },
        Command { effecter: 2, ..platform(11, command::GET_STATE_EFFECTER_STATES) },
        platform(12, command::GET_PDR_REPOSITORY_INFO),
        Command {
            record_handle: 0x4433_2211,
            data_transfer_handle: 0x8877_6655,
            transfer_operation_flag: 1,
            request_count: 0xaa99,
            record_change_number: 0xccbb,
            ..platform(31, command::GET_PDR)
        },
    ]
}

/// Each has a field that is out of range.
fn no_commands() -> [Command; 9] {
    let set = platform(1, command::SET_NUMERIC_EFFECTER_VALUE);
    let states = platform(1, command::SET_STATE_EFFECTER_STATES);
    [
        base(32, command::GET_TID),
        base(1, 0x06),
        platform(1, 0x10),
        Command { pldm_type: 1, ..base(1, command::GET_TID) },
        Command { size: 6, ..set },
        Command { size: data_size::UINT8, value: 256, ..set },
        Command { size: data_size::SINT8, value: -129, ..set },
        Command { count: 0, ..states },
        Command { count: 9, ..states },
    ]
}

/// A command that is refused. Its fields are nowhere then.
fn read_command(bytes: &str, out: &mut String) -> fmt::Result {
    let (reason, code) = match command_read(&from_hex(bytes)) {
        Ok(_) => (0, 0),
        Err(NotACommand::NoRequest(reason)) => (reason.number(), 0),
        Err(NotACommand::Refuse(code)) => (0, code),
    };
    writeln!(out, "command: reason {reason} code {code:02x} untouched")
}

fn written_commands(out: &mut String) -> fmt::Result {
    for command in commands() {
        let mut bytes = [UNTOUCHED; REQUEST_BYTES];
        let count = command_write(&command, &mut bytes).unwrap_or(0);
        let same = command_read(&bytes[..count]) == Ok(command);
        write!(out, "command {} {}, ", hex(&bytes[..count]), rest(&bytes[count..]))?;
        writeln!(out, "read back {}", if same { "the same" } else { "OTHERWISE" })?;
    }
    for command in no_commands() {
        let mut bytes = [UNTOUCHED; REQUEST_BYTES];
        let count = command_write(&command, &mut bytes).unwrap_or(0);
        writeln!(out, "no command {count} {}", rest(&bytes))?;
    }
    let refused = [
        "01800231010006",
        "0180023101000628",
        "0180023101000228",
        "01800239020000",
        "0180023902000201",
        "01800502",
        "01810010",
        "0182000200",
        "01000002",
        "01c00002",
    ];
    refused.into_iter().try_for_each(|bytes| read_command(bytes, out))
}

// ---- Answers ----

const fn to_base(instance_id: u8, command: u8) -> Answer {
    Answer { instance_id, pldm_type: command::BASE, command, ..Answer::ZERO }
}

const fn to_platform(instance_id: u8, command: u8) -> Answer {
    Answer { instance_id, pldm_type: command::PLATFORM, command, ..Answer::ZERO }
}

/// A part of a record, or versions.
fn part(bytes: &[u8], answer: Answer) -> Answer {
    let mut answer = Answer { length: bytes.len() as u32, ..answer };
    answer.bytes[..bytes.len()].copy_from_slice(bytes);
    answer
}

/// Bytes that go up from the first one.
fn from<const N: usize>(first: u8) -> [u8; N] {
    std::array::from_fn(|place| first + place as u8)
}

fn answers() -> [Answer; 16] {
    let value = to_platform(3, command::GET_NUMERIC_EFFECTER_VALUE);
    [
        to_base(1, command::SET_TID),
        Answer { tid: 40, ..to_base(2, command::GET_TID) },
        part(
            &[0xa1, 0xa2, 0xa3, 0xa4, 0xb1, 0xb2, 0xb3, 0xb4],
            Answer { next_data_transfer_handle: 0x0403_0201, ..to_base(3, command::GET_PLDM_VERSION) },
        ),
        Answer { types: from(1), ..to_base(4, command::GET_PLDM_TYPES) },
        Answer { commands: from(0x20), ..to_base(5, command::GET_PLDM_COMMANDS) },
        Answer {
            size: data_size::SINT32,
            operational: 2,
            sensor_event_message_enable: 3,
            present: 4,
            previous: 5,
            event: 6,
            value: -2,
            ..to_platform(6, command::GET_SENSOR_READING)
        },
        Answer {
            count: 8,
            sensor_states: eight(|i| SensorState {
                operational: 0x10 + i,
                present: 0x20 + i,
                previous: 0x30 + i,
                event: 0x40 + i,
            }),
            ..to_platform(7, command::GET_STATE_SENSOR_READINGS)
        },
        to_platform(8, command::SET_NUMERIC_EFFECTER_VALUE),
        Answer { size: data_size::UINT8, operational: 1, value: 40, pending_value: 40, ..value },
        Answer { instance_id: 9, size: data_size::SINT16, operational: 1, value: 300, pending_value: -2, ..value },
        to_platform(10, command::SET_STATE_EFFECTER_STATES),
        Answer {
            count: 8,
            effecter_states: eight(|i| EffecterState { operational: 0x50 + i, pending: 0x60 + i, present: 0x70 + i }),
            ..to_platform(11, command::GET_STATE_EFFECTER_STATES)
        },
        Answer {
            repository_state: 1,
            update_time: from(0x80),
            oem_update_time: from(0x90),
            record_count: 0x0403_0201,
            repository_size: 0x0807_0605,
            largest_record_size: 0x0c0b_0a09,
            timeout: 0x0d,
            ..to_platform(12, command::GET_PDR_REPOSITORY_INFO)
        },
        part(
            &[0xe1, 0xe2, 0xe3, 0xe4, 0xe5],
            Answer {
                next_record_handle: 0x4433_2211,
                next_data_transfer_handle: 0x8877_6655,
                transfer_flag: 4,
                transfer_crc: 0xf5,
                ..to_platform(31, command::GET_PDR)
            },
        ),
        part(&[0xe6], Answer { transfer_flag: 5, ..to_platform(30, command::GET_PDR) }),
        Answer { code: 0x82, ..to_platform(4, command::GET_PDR) },
    ]
}

/// Each has a field that is out of range.
fn no_answers() -> [Answer; 14] {
    let value = to_platform(1, command::GET_NUMERIC_EFFECTER_VALUE);
    let record = to_platform(1, command::GET_PDR);
    let version = to_base(1, command::GET_PLDM_VERSION);
    let tid = to_base(1, command::GET_TID);
    [
        to_base(32, command::GET_TID),
        Answer { pldm_type: 64, code: 5, ..tid },
        Answer { pldm_type: 1, ..tid },
        to_base(1, 0x06),
        Answer { length: 5, ..version },
        Answer { length: 36, ..version },
        Answer { length: u32::MAX, ..version },
        Answer { size: 6, ..to_platform(1, command::GET_SENSOR_READING) },
        Answer { size: data_size::UINT8, value: 256, ..value },
        Answer { size: data_size::UINT8, pending_value: -1, ..value },
        Answer { count: 9, ..to_platform(1, command::GET_STATE_SENSOR_READINGS) },
        Answer { count: 0, ..to_platform(1, command::GET_STATE_EFFECTER_STATES) },
        Answer { transfer_flag: 3, ..record },
        Answer { transfer_flag: 5, length: 304, ..record },
    ]
}

/// The bytes of a request that the answer is one to.
fn request_for(answer: &Answer) -> Vec<u8> {
    let command = Command {
        instance_id: answer.instance_id,
        pldm_type: answer.pldm_type,
        command: answer.command,
        count: 1,
        ..Command::ZERO
    };
    let mut request = [0; REQUEST_BYTES];
    let length = command_write(&command, &mut request).unwrap_or(0);
    request[..length].to_vec()
}

/// An answer that is looked at by both calls. The fields of one that is refused are nowhere.
fn check((request, response): (&str, &str), out: &mut String) -> fmt::Result {
    let (request, response) = (from_hex(request), from_hex(response));
    let checked = answer_check(&request, &response).err().map_or(0, |fault| fault.number());
    match answer_read(&request, &response) {
        Ok(answer) => writeln!(out, "answer 0 {checked} code {:02x}", answer.code),
        Err(fault) => writeln!(out, "answer {} {checked} untouched", fault.number()),
    }
}

fn written_answers(out: &mut String) -> fmt::Result {
    for answer in answers() {
        let mut bytes = [UNTOUCHED; MESSAGE_BYTES];
        let count = answer_write(&answer, &mut bytes).unwrap_or(0);
        let same = answer_read(&request_for(&answer), &bytes[..count]) == Ok(answer);
        write!(out, "answer {} {}, ", hex(&bytes[..count]), rest(&bytes[count..]))?;
        writeln!(out, "read back {}", if same { "the same" } else { "OTHERWISE" })?;
    }
    for answer in no_answers() {
        let mut bytes = [UNTOUCHED; MESSAGE_BYTES];
        let count = answer_write(&answer, &mut bytes).unwrap_or(0);
        writeln!(out, "no answer {count} {}", rest(&bytes))?;
    }
    let checks = [
        ("01800002", "010000020001"),
        ("01800002", "0100000203ff"),
        ("01800502", "010000020001"),
        ("01000002", "010000020001"),
        ("01800002", "018000020001"),
        ("01800002", "010100020001"),
        ("01800002", "010000010001"),
        ("01800002", "0100000200"),
        ("01800002", "010000020001ff"),
        ("01800211010000", "010002110006000001010128"),
        ("01800211010000", "010002110002000001010128"),
        ("018002510000000000000000012f010000", "01000251000000000000000000030000"),
        ("018002510000000000000000012f010000", "01000251000000000000000000053001"),
    ];
    checks.into_iter().try_for_each(|row| check(row, out))
}

// ---- Control messages ----

/// The number of a step in the header, and its reason.
fn numbers(step: &Step) -> (u8, u8) {
    match step {
        Step::Refused(refusal) => (0, refusal.number()),
        Step::Dropped(reason) => (1, reason.number()),
        Step::Partial => (2, 0),
        Step::Answered(_) => (3, 0),
        Step::Perform(..) => (4, 0),
        Step::Respond(_) => (5, 0),
        Step::Control => (6, 0),
    }
}

/// What an endpoint answers that answers control messages. What follows the answer cannot be read.
fn control((what, packet): (&str, &str), out: &mut String) -> fmt::Result {
    let settings = EndpointSettings {
        own: 200,
        keep_ms: 1000,
        answers_control: true,
        uuid: from(0x10),
        base_version: from(0xa1),
        control_version: from(0xb1),
        pldm_version: from(0xc1),
        ..EndpointSettings::ZERO
    };
    let mut endpoint = Endpoint::none();
    let mut packets = Packets::new();
    let refusal = number(endpoint.make(&settings, moment(0)));
    let (kind, reason) = numbers(&endpoint.receive(moment(0), &from_hex(packet), &mut packets));
    write!(out, "by the endpoint {}, {what}: ", endpoint.eid().unwrap_or(0))?;
    write!(out, "{refusal} {kind} {reason} {} ", packets.len())?;
    let answer = packets.iter().next().map(hex).unwrap_or_default();
    writeln!(out, "{answer} untouched")
}

fn controls(out: &mut String) -> fmt::Result {
    let rows = [
        ("endpoint ID", "01c808cb008302"),
        ("UUID", "01c808cc008403"),
        ("versions of the base specification", "01c808cd008504ff"),
        ("versions of the control protocol", "01c808ce00860400"),
        ("versions of PLDM over MCTP", "01c808cf00870401"),
        ("message types", "01c808c8008805"),
        ("to be the endpoint 200", "01c8fec900890100c8"),
        ("to be the endpoint 201", "01c8feca009f0100c9"),
        ("to the null endpoint ID", "010008c8008002"),
        ("from the null endpoint ID", "010000c8008002"),
        ("from the null endpoint ID to this one", "01c800c8008002"),
        ("to another endpoint", "01c908c8008002"),
        ("from a reserved endpoint ID", "01c807c8008002"),
        ("from this one to itself", "01c8c8c8008002"),
        ("a response", "01c808c8000002"),
        ("no bytes", ""),
    ];
    rows.into_iter().try_for_each(|row| control(row, out))
}

// ---- Packets on I2C and I3C ----

/// The bytes before a packet and its first four, and the PEC.
fn write_frame(frame: &[u8], count: Option<usize>, front: usize, out: &mut String) -> fmt::Result {
    let count = count.unwrap_or(0);
    write!(out, "{count} {}", hex(&frame[..count.min(front)]))?;
    if count > 0 {
        write!(out, " .. {:02x}", frame[count - 1])?;
    }
    writeln!(out, " {}", rest(&frame[count..]))
}

/// The bytes of the packet are 0, 1, 2 ..
fn write_frames((first, second, length): (u8, u8, usize), out: &mut String) -> fmt::Result {
    let packet: Vec<u8> = (0..length).map(|i| i as u8).collect();
    let mut frame = [UNTOUCHED; I2C_FRAME_BYTES];
    write!(out, "I2C from {first:02x} to {second:02x}, {length} bytes: ")?;
    let count = i2c_write(first, second, &packet, &mut frame);
    write_frame(&frame, count, 8, out)?;
    for (is_read, way) in [(false, "to"), (true, "from")] {
        let mut frame = [UNTOUCHED; I3C_FRAME_BYTES];
        write!(out, "I3C {way} {first:02x}, {length} bytes: ")?;
        let count = i3c_write(first, is_read, &packet, &mut frame);
        write_frame(&frame, count, 4, out)?;
    }
    Ok(())
}

fn read_i2c((own, frame): (u8, &str), out: &mut String) -> fmt::Result {
    let bytes = from_hex(frame);
    match i2c_read(own, &bytes) {
        Err(fault) => writeln!(out, "I2C at {own:02x}: fault {}", fault.number()),
        Ok(frame) => {
            let start = frame.packet.as_ptr() as usize - bytes.as_ptr() as usize;
            write!(out, "I2C at {own:02x}: fault 0 source {:02x}", frame.source_address)?;
            writeln!(out, " packet at {start} of {}", frame.packet.len())
        }
    }
}

fn read_i3c((address, is_read, frame): (u8, bool, &str), out: &mut String) -> fmt::Result {
    write!(out, "I3C {} {address:02x}: ", if is_read { "from" } else { "to" })?;
    match i3c_read(address, is_read, &from_hex(frame)) {
        Err(fault) => writeln!(out, "fault {}", fault.number()),
        Ok(packet) => writeln!(out, "fault 0 packet of {}", packet.len()),
    }
}

fn bus_frames(out: &mut String) -> fmt::Result {
    let written = [
        (0x10, 0x1d, 4),
        (0x08, 0x77, 254),
        (0x77, 0x08, 5),
        (0x10, 0x1d, 3),
        (0x10, 0x1d, 255),
        (0x07, 0x1d, 4),
        (0x78, 0x1d, 4),
        (0x10, 0x07, 4),
        (0x10, 0x78, 4),
        (0x7f, 0x1d, 4),
        (0x80, 0x1d, 4),
    ];
    written.into_iter().try_for_each(|row| write_frames(row, out))?;
    let on_i2c = [
        (0x1d, "3a0f0921010908c801800002ca"),
        (0x77, "ee0f0211aa70"),
        (0x1d, "3a0f012180"),
        (0x1e, "3a0f0921010908c801800002ca"),
        (0x1d, "3a0e0921010908c801800002d5"),
        (0x1d, "3a0f0a21010908c80180000272"),
        (0x1d, "3a0f0920010908c801800002b3"),
        (0x1d, "3a0f0921010908c801800002cc"),
        (0x07, "0e0f0921010908c801800002ca"),
        (0x78, "f00f0921010908c801800002ca"),
    ];
    on_i2c.into_iter().try_for_each(|row| read_i2c(row, out))?;
    let on_i3c = [
        (0x30, false, "010908c8018000022b"),
        (0x30, true, "010908c80180000252"),
        (0x30, true, "010908c8018000022b"),
        (0x31, false, "010908c8018000022b"),
        (0x7f, true, "010908c8cb"),
        (0x30, false, "01090800"),
        (0x80, false, "010908c8018000022b"),
    ];
    on_i3c.into_iter().try_for_each(|row| read_i3c(row, out))
}

// ---- Steps of an endpoint ----

struct Steps<'a> {
    endpoint: Endpoint,
    packets: Packets,
    out: &'a mut String,
}

const SET_OF_8: &str = "010908c80180023101000028";
const OTHER_SET_OF_8: &str = "010908c90186023101000032";
const SET: Answer = to_platform(0, command::SET_NUMERIC_EFFECTER_VALUE);

impl Steps<'_> {
    /// The numbers of a step as the header has them, and the first five bytes of each packet.
    fn write(&mut self, what: &str, step: Step) -> fmt::Result {
        let (kind, reason) = numbers(&step);
        let answered = match step {
            Step::Answered(answered) => answered,
            _ => Answered { fresh: false, changed: false },
        };
        let handle = match step {
            Step::Perform(handle, _) | Step::Respond(handle) => handle,
            _ => CommandHandle::ZERO,
        };
        let (fresh, changed) = (u8::from(answered.fresh), u8::from(answered.changed));
        write!(self.out, "{what}: kind {kind} reason {reason} fresh {fresh} changed {changed}")?;
        write!(self.out, " count {} lengths", self.packets.len())?;
        let lengths = self.packets.iter().map(<[u8]>::len).chain(std::iter::repeat(0)).take(PACKETS);
        for length in lengths {
            write!(self.out, " {length}")?;
        }
        write!(self.out, " handle {} {} {}", handle.number, handle.source, handle.instance_id)?;
        self.packets.iter().try_for_each(|packet| write!(self.out, " {}", hex(&packet[..5])))?;
        writeln!(self.out)
    }

    /// Receives a packet, and returns the handle of its command.
    fn receive(&mut self, what: &str, now_ms: u64, packet: &str) -> Result<CommandHandle, fmt::Error> {
        let step = self.endpoint.receive(moment(now_ms), &from_hex(packet), &mut self.packets);
        self.write(what, step)?;
        Ok(match step {
            Step::Perform(handle, _) | Step::Respond(handle) => handle,
            _ => CommandHandle::ZERO,
        })
    }

    fn answer(&mut self, what: &str, handle: CommandHandle, answer: &Answer) -> fmt::Result {
        let given = self.endpoint.answer(&handle, answer, &mut self.packets);
        self.write(what, given.map_or_else(Step::Refused, Step::Answered))
    }

    /// Answers a request for a part of a record with so many bytes, each of which is its own place.
    fn part(&mut self, flags: &str, id: &str, transfer_flag: u8, length: usize) -> fmt::Result {
        let bytes: [u8; PART_BYTES] = std::array::from_fn(|place| place as u8);
        let answer = Answer { transfer_flag, ..to_platform(0, command::GET_PDR) };
        let handle = self.receive("part", 6, &part_of_8(flags, id))?;
        self.answer("answer with a part", handle, &part(&bytes[..length], answer))
    }

    /// The device has two commands at a time, and answers the second one first.
    fn two_commands(&mut self) -> fmt::Result {
        let of_another = to_base(0, command::SET_TID);
        let out_of_range = to_platform(32, command::SET_NUMERIC_EFFECTER_VALUE);
        let forged = |number, source, instance_id| CommandHandle { number, source, instance_id };
        let first = self.receive("set", 5, SET_OF_8)?;
        self.receive("set again", 5, SET_OF_8)?;
        self.receive("first half of the set", 5, "0109088801800231")?;
        self.receive("second half of the set", 5, "0109085801000028")?;
        self.receive("set to another value", 5, "010908c80180023101000029")?;
        self.receive("set by another", 5, "01090ac80180023101000028")?;
        let second = self.receive("set with another instance ID", 5, OTHER_SET_OF_8)?;
        self.receive("set with another instance ID again", 5, OTHER_SET_OF_8)?;
        self.receive("set with a third instance ID", 5, "010908ca0187023101000028")?;
        self.receive("for another endpoint meanwhile", 5, "010a08c80180023101000028")?;
        self.answer("answer to another command", first, &of_another)?;
        self.answer("answer out of range", first, &out_of_range)?;
        self.answer("answer under another number", forged(1, 8, 0), &SET)?;
        self.answer("answer to another instance ID", forged(0, 8, 6), &SET)?;
        self.answer("answer to another source", forged(0, 10, 0), &SET)?;
        self.answer("answer to no source", forged(0, 0, 0), &SET)?;
        self.answer("answer to the second", second, &SET)?;
        self.answer("answer to the first", first, &SET)?;
        self.answer("answer to the first again", first, &SET)?;
        self.receive("copy of the first", 6, SET_OF_8)?;
        self.receive("copy of the second", 6, OTHER_SET_OF_8)?;
        Ok(())
    }

    fn all(&mut self) -> fmt::Result {
        let settings = EndpointSettings {
            own: 9,
            first_start: true,
            keep_ms: 1000,
            sources: 1,
            open_messages: 3,
            pending_commands: 2,
            ..EndpointSettings::ZERO
        };
        let none = CommandHandle { number: 0, source: 8, instance_id: 0 };
        self.receive("nothing there", 0, SET_OF_8)?;
        self.answer("nothing there", none, &SET)?;
        let made = number(self.endpoint.make(&settings, moment(4)));
        let again = number(self.endpoint.make(&settings, moment(4)));
        writeln!(self.out, "made {made} again {again}")?;
        self.answer("nothing pending", none, &SET)?;
        self.receive("before the first moment", 3, SET_OF_8)?;
        self.two_commands()?;
        self.receive("before the last moment", 5, SET_OF_8)?;
        self.receive("for another endpoint", 6, "010a08c80180023101000028")?;
        self.receive("first packet", 6, "0109088d0180023101000028")?;
        self.receive("a second open message", 6, "0109088e01800231")?;
        self.receive("a third open message", 6, "0109088f01800231")?;
        self.receive("middle of the first", 6, "0109081d0000000000000000")?;
        self.receive("a fourth open message", 6, "0109088801800231")?;
        self.receive("middle of the first again", 6, "0109082d0000000000000000")?;
        self.receive("another source", 6, "01090ac80180023101000028")?;
        self.part("c9", "81", 4, 300)?;
        self.part("ca", "82", 0, 60)?;
        self.part("cb", "83", 0, 130)?;
        self.part("cc", "84", 0, 200)?;
        let refused = Answer { code: 0x82, ..to_platform(0, command::GET_PDR) };
        let handle = self.receive("part", 6, &part_of_8("cd", "85"))?;
        self.answer("answer with a code", handle, &refused)?;
        let last = self.receive("set before the restart", 6, "010908ce0188023101000028")?;
        let restarted = number(self.endpoint.restart(moment(7)));
        let before = number(self.endpoint.restart(moment(6)));
        writeln!(self.out, "restarted {restarted} before {before}")?;
        self.answer("answer after the restart", last, &SET)?;
        self.endpoint.free();
        writeln!(self.out, "freed {}", number(self.endpoint.restart(moment(8))))
    }
}

fn part_of_8(flags: &str, id: &str) -> String {
    format!("010908{flags}01{id}025100000000000000000100010000")
}

/// The numbers of a window and of a busy time, whole, and each in its own field.
fn windows(out: &mut String) -> fmt::Result {
    let rows = [
        (0, busy::ALL),
        (1, busy::SETS),
        (32, busy::SETS),
        (33, busy::ALL),
        (0x101, busy::ALL),
        (u32::MAX, busy::ALL),
        (1, 2),
        (32, 0x100),
        (32, 0x10000),
    ];
    rows.into_iter().try_for_each(|(window, busy)| {
        let settings = EndpointSettings { own: 9, keep_ms: 1000, window, busy, ..EndpointSettings::ZERO };
        let made = Endpoint::new(&settings, moment(4)).err().map_or(0, Refusal::number);
        writeln!(out, "window {window} busy {busy}: {made}")
    })
}

// ---- What a device says of itself ----

const TYPES: [TypeVersion; 2] = [
    TypeVersion { pldm_type: command::BASE, version: [0x31, 0x32, 0x33, 0x34] },
    TypeVersion { pldm_type: command::PLATFORM, version: [0x00, 0xf2, 0xf1, 0xf1] },
];
const COMMANDS: [TypeCommand; 7] = [
    TypeCommand { pldm_type: command::BASE, command: command::GET_TID },
    TypeCommand { pldm_type: command::BASE, command: command::GET_PLDM_VERSION },
    TypeCommand { pldm_type: command::BASE, command: command::GET_PLDM_TYPES },
    TypeCommand { pldm_type: command::BASE, command: command::GET_PLDM_COMMANDS },
    TypeCommand { pldm_type: command::PLATFORM, command: command::GET_PDR },
    TypeCommand { pldm_type: command::PLATFORM, command: command::GET_SENSOR_READING },
    TypeCommand { pldm_type: command::PLATFORM, command: 0xff },
];

fn ask_device(number: u8, asked_type: u8, operation: u8, out: &mut String) -> fmt::Result {
    let command =
        Command { instance_id: 5, command: number, asked_type, transfer_operation_flag: operation, ..Command::ZERO };
    write!(out, "command {number} of type {asked_type}: ")?;
    let mut response = [0; MESSAGE_BYTES];
    match base_answer(7, &TYPES, &COMMANDS, &command) {
        None => writeln!(out, "fault 1, code 77"),
        Some(answer) => {
            let length = answer_write(&answer, &mut response).unwrap_or(0);
            writeln!(out, "{}", hex(&response[..length]))
        }
    }
}

fn base_answers(out: &mut String) -> fmt::Result {
    ask_device(command::GET_TID, 0, 0, out)?;
    ask_device(command::GET_PLDM_VERSION, 0, 1, out)?;
    ask_device(command::GET_PLDM_VERSION, 2, 1, out)?;
    ask_device(command::GET_PLDM_VERSION, 4, 1, out)?;
    ask_device(command::GET_PLDM_VERSION, 0, 0, out)?;
    ask_device(command::GET_PLDM_VERSION, 0, 2, out)?;
    ask_device(command::GET_PLDM_TYPES, 0, 0, out)?;
    ask_device(command::GET_PLDM_COMMANDS, 0, 0, out)?;
    ask_device(command::GET_PLDM_COMMANDS, 2, 0, out)?;
    ask_device(command::GET_PLDM_COMMANDS, 4, 0, out)?;
    ask_device(command::SET_TID, 0, 0, out)
}

/// Writes what the example in C writes.
pub fn run(_input: &str, out: &mut String) -> fmt::Result {
    packets(out)?;
    written_packets(out)?;
    messages(out)?;
    written_commands(out)?;
    written_answers(out)?;
    controls(out)?;
    bus_frames(out)?;
    Steps { endpoint: Endpoint::none(), packets: Packets::new(), out }.all()?;
    windows(out)?;
    writeln!(out, "checksum {:02x}", crc8(b"123456789"))?;
    writeln!(out, "checksum {:02x}", crc8(b""))?;
    writeln!(out, "checksum {:08x}", crc32(b"123456789"))?;
    base_answers(out)
}

#[allow(dead_code)]
fn main() -> fmt::Result {
    let mut out = String::new();
    run("", &mut out)?;
    print!("{out}");
    Ok(())
}
