//! The calls of `needleoat.h` as they are there. The other files keep what the header asks of their pointers.

use crate::fields::{
    Answer, Command, CommandHandle, EndpointSettings, PeerSettings, Request, RequesterSettings, TypeCommand,
    TypeVersion,
};
use crate::numbers::bounds::{PACKETS, PACKET_BYTES, RESPONSE_DATA};
use crate::record_fields::{
    EffecterName, EntityName, NumericEffecter, NumericSensor, SensorName, StateEffecter, StateSensor, TerminusLocator,
};

/// What `needleoat_packet_read` returns.
#[repr(C)]
#[derive(Clone, Copy)]
pub struct Packet {
    pub reason: u8,
    pub destination: u8,
    pub source: u8,
    pub tag: u8,
    pub seq: u8,
    pub owner: bool,
    pub start: bool,
    pub end: bool,
    pub payload_length: u32,
}

/// What reads a header returns.
#[repr(C)]
#[derive(Clone, Copy)]
pub struct Message {
    pub reason: u8,
    pub instance_id: u8,
    pub pldm_type: u8,
    pub command: u8,
    pub code: u8,
    pub data_length: u32,
}

/// What `needleoat_command_read` returns.
#[repr(C)]
#[derive(Clone, Copy)]
pub struct CommandReading {
    pub reason: u8,
    pub code: u8,
}

/// What `needleoat_i2c_read` returns.
#[repr(C)]
#[derive(Clone, Copy)]
pub struct I2cFrame {
    pub fault: u8,
    pub source_address: u8,
    pub packet_start: u32,
    pub packet_length: u32,
}

/// What `needleoat_i3c_read` returns.
#[repr(C)]
#[derive(Clone, Copy)]
pub struct I3cFrame {
    pub fault: u8,
    pub packet_length: u32,
}

/// A handle, of an end or of the machine of firmware update: all are alike.
#[repr(C)]
pub struct Handle {
    pub at: u64,
    pub is_live: bool,
}

/// What becomes of a packet or of an answer.
#[repr(C)]
#[derive(Clone, Copy)]
pub struct Step {
    pub kind: u8,
    pub reason: u8,
    pub fresh: bool,
    pub changed: bool,
    pub count: u32,
    pub lengths: [u32; PACKETS],
    pub handle: CommandHandle,
}

/// What `needleoat_requester_open` returns.
#[repr(C)]
#[derive(Clone, Copy)]
pub struct Opening {
    pub refusal: u8,
    pub instance_id: u8,
    pub tag: u8,
    pub number: u64,
}

/// What `needleoat_requester_tick` writes.
#[repr(C)]
#[derive(Clone, Copy)]
pub struct Due {
    pub again_count: u32,
    pub given_up_count: u32,
    pub again: [u64; 8],
    pub given_up: [u64; 8],
}

/// What `needleoat_requester_receive` returns.
#[repr(C)]
#[derive(Clone, Copy)]
pub struct Receiving {
    pub kind: u8,
    pub reason: u8,
    pub number: u64,
}

/// What `needleoat_requester_status` returns.
#[repr(C)]
#[derive(Clone, Copy)]
pub struct Status {
    pub kind: u8,
    pub length: u32,
}

/// What `needleoat_terminus_receive` returns.
#[repr(C)]
#[derive(Clone, Copy)]
pub struct Coming {
    pub half: u8,
    pub step: Step,
    pub receiving: Receiving,
}

/// A step of the flash, or none.
#[repr(C)]
#[derive(Clone, Copy)]
pub struct FlashStep {
    pub number: u64,
    pub size: u32,
    pub offset: u32,
    pub refusal: u8,
    pub action: u8,
}

/// What `needleoat_firmware_component` writes.
#[repr(C)]
#[derive(Clone, Copy)]
pub struct Component {
    pub classification: u16,
    pub identifier: u16,
    pub index: u8,
}

/// What `needleoat_firmware_receive` writes.
#[repr(C)]
#[derive(Clone, Copy)]
pub struct FirmwareAnswer {
    pub code: u8,
    pub length: u32,
    pub data: [u8; RESPONSE_DATA],
}

/// What `needleoat_firmware_stage` returns.
#[repr(C)]
#[derive(Clone, Copy)]
pub struct Stage {
    pub stage: u8,
    pub stored: u32,
}

/// A block of memory. Its address has 8 bytes of room on each processor.
#[cfg_attr(not(feature = "alloc"), allow(dead_code))]
#[repr(C, align(8))]
#[derive(Clone, Copy)]
pub struct Block {
    pub is_there: bool,
    pub between: [u8; 7],
    pub at: *mut u8,
}

extern "C" {
    pub fn needleoat_packet_read(own: u8, bytes: *const u8, length: u64) -> Packet;
    pub fn needleoat_packet_count(message_length: u32) -> u32;
    pub fn needleoat_packet_write(
        destination: u8,
        source: u8,
        owner: bool,
        tag: u8,
        message: *const u8,
        length: u64,
        index: u32,
        out: *mut u8,
    ) -> u32;
    pub fn needleoat_request_read(message: *const u8, length: u64) -> Message;
    pub fn needleoat_response_read(message: *const u8, length: u64) -> Message;
    pub fn needleoat_command_read(message: *const u8, length: u64, fields: *mut Command) -> CommandReading;
    pub fn needleoat_command_write(fields: *const Command, out: *mut u8) -> u32;
    pub fn needleoat_answer_read(
        request: *const u8,
        request_length: u64,
        response: *const u8,
        response_length: u64,
        fields: *mut Answer,
    ) -> u8;
    pub fn needleoat_answer_check(
        request: *const u8,
        request_length: u64,
        response: *const u8,
        response_length: u64,
    ) -> u8;
    pub fn needleoat_answer_write(fields: *const Answer, out: *mut u8) -> u32;
    pub fn needleoat_crc8(bytes: *const u8, length: u64) -> u8;
    pub fn needleoat_base_answer(
        tid: u8,
        types: *const TypeVersion,
        type_count: u64,
        commands: *const TypeCommand,
        command_count: u64,
        command: *const Command,
        fields: *mut Answer,
    ) -> u8;
    pub fn needleoat_crc32(bytes: *const u8, length: u64) -> u32;

    pub fn needleoat_terminus_locator_record_write(fields: *const TerminusLocator, out: *mut u8, room: u64) -> u32;
    pub fn needleoat_numeric_sensor_record_write(fields: *const NumericSensor, out: *mut u8, room: u64) -> u32;
    pub fn needleoat_numeric_effecter_record_write(fields: *const NumericEffecter, out: *mut u8, room: u64) -> u32;
    pub fn needleoat_state_sensor_record_write(fields: *const StateSensor, out: *mut u8, room: u64) -> u32;
    pub fn needleoat_state_effecter_record_write(fields: *const StateEffecter, out: *mut u8, room: u64) -> u32;
    pub fn needleoat_sensor_name_record_write(fields: *const SensorName, out: *mut u8, room: u64) -> u32;
    pub fn needleoat_effecter_name_record_write(fields: *const EffecterName, out: *mut u8, room: u64) -> u32;
    pub fn needleoat_entity_name_record_write(fields: *const EntityName, out: *mut u8, room: u64) -> u32;
    pub fn needleoat_records_answer(
        records: *const u8,
        length: u64,
        update_time: *const u8,
        oem_update_time: *const u8,
        command: *const Command,
        fields: *mut Answer,
    ) -> u8;

    pub fn needleoat_i2c_write(
        source_address: u8,
        destination_address: u8,
        packet: *const u8,
        length: u64,
        out: *mut u8,
    ) -> u32;
    pub fn needleoat_i2c_read(own_address: u8, bytes: *const u8, length: u64) -> I2cFrame;
    pub fn needleoat_i3c_write(address: u8, is_read: bool, packet: *const u8, length: u64, out: *mut u8) -> u32;
    pub fn needleoat_i3c_read(address: u8, is_read: bool, bytes: *const u8, length: u64) -> I3cFrame;

    pub fn needleoat_endpoint_new(settings: *const EndpointSettings, now_ms: u64, endpoint: *mut Handle) -> u8;
    pub fn needleoat_endpoint_receive(
        endpoint: *mut Handle,
        now_ms: u64,
        packet: *const u8,
        length: u64,
        command: *mut Command,
        packets: *mut [u8; PACKET_BYTES],
    ) -> Step;
    pub fn needleoat_endpoint_eid(endpoint: *mut Handle) -> u8;
    pub fn needleoat_endpoint_answer(
        endpoint: *mut Handle,
        handle: *const CommandHandle,
        answer: *const Answer,
        packets: *mut [u8; PACKET_BYTES],
    ) -> Step;
    pub fn needleoat_endpoint_request(
        endpoint: *mut Handle,
        handle: *const CommandHandle,
        request: *mut Request,
    ) -> bool;
    pub fn needleoat_endpoint_answer_bytes(
        endpoint: *mut Handle,
        handle: *const CommandHandle,
        code: u8,
        data: *const u8,
        length: u64,
        packets: *mut [u8; PACKET_BYTES],
    ) -> Step;
    pub fn needleoat_endpoint_restart(endpoint: *mut Handle, now_ms: u64) -> u8;
    pub fn needleoat_endpoint_free(endpoint: *mut Handle);

    pub fn needleoat_requester_new(settings: *const RequesterSettings, requester: *mut Handle) -> u8;
    pub fn needleoat_requester_open(requester: *mut Handle, now_ms: u64, request: *const u8, length: u64) -> Opening;
    pub fn needleoat_requester_open_request(
        requester: *mut Handle,
        now_ms: u64,
        pldm_type: u8,
        command: u8,
        data: *const u8,
        length: u64,
    ) -> Opening;
    pub fn needleoat_requester_tick(requester: *mut Handle, now_ms: u64, due: *mut Due) -> u8;
    pub fn needleoat_requester_next_deadline(requester: *mut Handle, deadline_ms: *mut u64) -> bool;
    pub fn needleoat_requester_receive(
        requester: *mut Handle,
        now_ms: u64,
        packet: *const u8,
        length: u64,
    ) -> Receiving;
    pub fn needleoat_requester_packet(requester: *mut Handle, number: u64, out: *mut u8) -> u32;
    pub fn needleoat_requester_packet_at(requester: *mut Handle, number: u64, index: u32, out: *mut u8) -> u32;
    pub fn needleoat_requester_status(requester: *mut Handle, number: u64, message: *mut u8) -> Status;
    pub fn needleoat_requester_free(requester: *mut Handle);

    pub fn needleoat_terminus_new(
        settings: *const EndpointSettings,
        peer: *const PeerSettings,
        now_ms: u64,
        rest_ms: u64,
        terminus: *mut Handle,
    ) -> u8;
    pub fn needleoat_terminus_receive(
        terminus: *mut Handle,
        now_ms: u64,
        packet: *const u8,
        length: u64,
        command: *mut Command,
        packets: *mut [u8; PACKET_BYTES],
    ) -> Coming;
    pub fn needleoat_terminus_answer(
        terminus: *mut Handle,
        handle: *const CommandHandle,
        answer: *const Answer,
        packets: *mut [u8; PACKET_BYTES],
    ) -> Step;
    pub fn needleoat_terminus_request(
        terminus: *mut Handle,
        handle: *const CommandHandle,
        request: *mut Request,
    ) -> bool;
    pub fn needleoat_terminus_answer_bytes(
        terminus: *mut Handle,
        handle: *const CommandHandle,
        code: u8,
        data: *const u8,
        length: u64,
        packets: *mut [u8; PACKET_BYTES],
    ) -> Step;
    pub fn needleoat_terminus_open(terminus: *mut Handle, now_ms: u64, request: *const u8, length: u64) -> Opening;
    pub fn needleoat_terminus_open_request(
        terminus: *mut Handle,
        now_ms: u64,
        pldm_type: u8,
        command: u8,
        data: *const u8,
        length: u64,
    ) -> Opening;
    pub fn needleoat_terminus_tick(terminus: *mut Handle, now_ms: u64, due: *mut Due) -> u8;
    pub fn needleoat_terminus_next_deadline(terminus: *mut Handle, deadline_ms: *mut u64) -> bool;
    pub fn needleoat_terminus_packet(terminus: *mut Handle, number: u64, index: u32, out: *mut u8) -> u32;
    pub fn needleoat_terminus_status(terminus: *mut Handle, number: u64, message: *mut u8) -> Status;
    pub fn needleoat_terminus_restart(terminus: *mut Handle, now_ms: u64) -> u8;
    pub fn needleoat_terminus_free(terminus: *mut Handle);

    pub fn needleoat_firmware_new(latest: u64, firmware: *mut Handle) -> u8;
    pub fn needleoat_firmware_component(command: u8, data: *const u8, length: u64, component: *mut Component) -> bool;
    pub fn needleoat_firmware_receive(
        firmware: *mut Handle,
        source: u8,
        now_ms: u64,
        command: u8,
        data: *const u8,
        length: u64,
        room: u32,
        answer: *mut FirmwareAnswer,
    ) -> FlashStep;
    pub fn needleoat_firmware_wish(firmware: *mut Handle, now_ms: u64, request: *mut Request) -> bool;
    pub fn needleoat_firmware_opened(firmware: *mut Handle, number: u64, now_ms: u64) -> u8;
    pub fn needleoat_firmware_answered(
        firmware: *mut Handle,
        number: u64,
        now_ms: u64,
        code: u8,
        data: *const u8,
        length: u64,
    ) -> FlashStep;
    pub fn needleoat_firmware_gave_up(firmware: *mut Handle, number: u64) -> FlashStep;
    pub fn needleoat_firmware_done(firmware: *mut Handle, number: u64, well: bool);
    pub fn needleoat_firmware_tick(firmware: *mut Handle, now_ms: u64) -> FlashStep;
    pub fn needleoat_firmware_stage(firmware: *mut Handle) -> Stage;
    pub fn needleoat_firmware_free(firmware: *mut Handle);
}

/// The bytes and their number as the calls take them: one byte at least is there, also where there are none.
pub fn given(bytes: &[u8]) -> (*const u8, u64) {
    const ONE: &[u8; 1] = &[0];
    let place = if bytes.is_empty() { ONE.as_ptr() } else { bytes.as_ptr() };
    (place, bytes.len() as u64)
}

/// How many bytes a call wrote; `None` where it wrote nothing.
pub fn written(length: u32) -> Option<usize> {
    (length != 0).then_some(length as usize)
}
