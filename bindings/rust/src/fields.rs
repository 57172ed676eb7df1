//! The structs of the header that go in and come out as they are there.

use crate::numbers::bounds::{PART_BYTES, REQUEST_DATA, STATES};

/// One field of SetStateEffecterStates (DSP0248).
#[repr(C)]
#[derive(Clone, Copy, Debug, PartialEq, Eq, Hash)]
pub struct SetState {
    /// 0 noChange, 1 requestSet; any byte is read and written.
    pub set_request: u8,
    /// The state.
    pub state: u8,
}

impl SetState {
    /// Each field 0.
    pub const ZERO: Self = Self { set_request: 0, state: 0 };
}

impl Default for SetState {
    fn default() -> Self {
        Self::ZERO
    }
}

/// A PLDM type that a device has (DSP0240, "GetPLDMVersion command").
#[repr(C)]
#[derive(Clone, Copy, Debug, PartialEq, Eq, Hash)]
pub struct TypeVersion {
    /// The type, 0 to 63.
    pub pldm_type: u8,
    /// Its version as on the wire, the lowest byte first: 1.1.0 is `[0x00, 0xf0, 0xf1, 0xf1]`.
    pub version: [u8; 4],
}

/// A command that a device has (DSP0240, "GetPLDMCommands command").
#[repr(C)]
#[derive(Clone, Copy, Debug, PartialEq, Eq, Hash)]
pub struct TypeCommand {
    /// Its PLDM type, 0 to 63.
    pub pldm_type: u8,
    /// Its number in that type.
    pub command: u8,
}

/// A request's instance ID and its command (DSP0240, DSP0248). Beside each field stand the commands that have it.
/// Those that a command does not have mean nothing after reading, and are not looked at in writing.
#[repr(C)]
#[derive(Clone, Copy, Debug, PartialEq, Eq, Hash)]
pub struct Command {
    /// Each command: 0 to 31.
    pub instance_id: u8,
    /// Each command.
    pub pldm_type: u8,
    /// Each command.
    pub command: u8,
    /// SetTID: the terminus ID, any byte.
    pub tid: u8,
    /// GetPLDMVersion, GetPLDMCommands: the PLDM type asked about.
    pub asked_type: u8,
    /// GetPLDMVersion, GetPDR: 0 next part, 1 first part, any byte.
    pub transfer_operation_flag: u8,
    /// GetSensorReading, GetStateSensorReadings: any byte.
    pub rearm: u8,
    /// SetNumericEffecterValue: the data size of `value`.
    pub size: u8,
    /// SetStateEffecterStates: how many of `sets`, 1 to 8.
    pub count: u8,
    /// GetSensorReading, GetStateSensorReadings: the sensor ID.
    pub sensor: u16,
    /// The four commands of effecters: the effecter ID.
    pub effecter: u16,
    /// GetPDR: the most bytes asked for.
    pub request_count: u16,
    /// GetPDR: 0 for the first part.
    pub record_change_number: u16,
    /// GetPLDMVersion, GetPDR: which part, as the last answer had it.
    pub data_transfer_handle: u32,
    /// GetPDR: 0 asks for the first record.
    pub record_handle: u32,
    /// SetNumericEffecterValue: it fits `size`.
    pub value: i64,
    /// GetPLDMCommands.
    pub version: [u8; 4],
    /// SetStateEffecterStates: the first `count`.
    pub sets: [SetState; STATES],
}

impl Command {
    /// Each field 0.
    pub const ZERO: Self = Self {
        instance_id: 0,
        pldm_type: 0,
        command: 0,
        tid: 0,
        asked_type: 0,
        transfer_operation_flag: 0,
        rearm: 0,
        size: 0,
        count: 0,
        sensor: 0,
        effecter: 0,
        request_count: 0,
        record_change_number: 0,
        data_transfer_handle: 0,
        record_handle: 0,
        value: 0,
        version: [0; 4],
        sets: [SetState::ZERO; STATES],
    };
}

impl Default for Command {
    fn default() -> Self {
        Self::ZERO
    }
}

/// One field of GetStateSensorReadings' answer (DSP0248).
#[repr(C)]
#[derive(Clone, Copy, Debug, PartialEq, Eq, Hash)]
pub struct SensorState {
    /// The sensor's operational state.
    pub operational: u8,
    /// The state that it reports now.
    pub present: u8,
    /// The state before that one.
    pub previous: u8,
    /// The state of its latest event.
    pub event: u8,
}

impl SensorState {
    /// Each field 0.
    pub const ZERO: Self = Self { operational: 0, present: 0, previous: 0, event: 0 };
}

impl Default for SensorState {
    fn default() -> Self {
        Self::ZERO
    }
}

/// One field of GetStateEffecterStates' answer (DSP0248).
#[repr(C)]
#[derive(Clone, Copy, Debug, PartialEq, Eq, Hash)]
pub struct EffecterState {
    /// The effecter's operational state.
    pub operational: u8,
    /// The state that it is going to.
    pub pending: u8,
    /// The state that it is in.
    pub present: u8,
}

impl EffecterState {
    /// Each field 0.
    pub const ZERO: Self = Self { operational: 0, pending: 0, present: 0 };
}

impl Default for EffecterState {
    fn default() -> Self {
        Self::ZERO
    }
}

/// A response's instance ID, the command that it answers, and the answer (DSP0240, DSP0248). Beside each field stand
/// the commands whose answers have it; an answer whose `code` is not 0 has none of them. Those that an answer does
/// not have mean nothing after reading, and are not looked at in writing.
#[repr(C)]
#[derive(Clone, Copy, Debug, PartialEq, Eq, Hash)]
pub struct Answer {
    /// Each command: 0 to 31.
    pub instance_id: u8,
    /// Each command: of the command.
    pub pldm_type: u8,
    /// Each command.
    pub command: u8,
    /// Each command: the completion code, 0 for success.
    pub code: u8,
    /// GetTID.
    pub tid: u8,
    /// GetPDR: 0 start, 1 middle (2 is one too), 4 end, 5 whole.
    pub transfer_flag: u8,
    /// GetPDR with flag 4: the whole record's checksum.
    pub transfer_crc: u8,
    /// GetSensorReading, GetNumericEffecterValue: the data size.
    pub size: u8,
    /// The same two: the operational state.
    pub operational: u8,
    /// GetSensorReading: which of its events are enabled.
    pub sensor_event_message_enable: u8,
    /// GetSensorReading: the state that it reports now.
    pub present: u8,
    /// GetSensorReading: the state before that one.
    pub previous: u8,
    /// GetSensorReading: the state of its latest event.
    pub event: u8,
    /// GetStateSensorReadings, GetStateEffecterStates: 1 to 8.
    pub count: u8,
    /// GetPDRRepositoryInfo: 0 available.
    pub repository_state: u8,
    /// GetPDRRepositoryInfo: how long a transfer may pause, a code.
    pub timeout: u8,
    /// GetPDR: the record after this one, or 0.
    pub next_record_handle: u32,
    /// GetPLDMVersion, GetPDR: which part is next, or 0.
    pub next_data_transfer_handle: u32,
    /// GetPDRRepositoryInfo.
    pub record_count: u32,
    /// GetPDRRepositoryInfo: in bytes.
    pub repository_size: u32,
    /// GetPDRRepositoryInfo: in bytes.
    pub largest_record_size: u32,
    /// GetSensorReading: the reading; GetNumericEffecterValue: present.
    pub value: i64,
    /// GetNumericEffecterValue: the value that it is going to.
    pub pending_value: i64,
    /// GetPLDMVersion, GetPDR: how many of `bytes` there are.
    pub length: u32,
    /// GetStateSensorReadings.
    pub sensor_states: [SensorState; STATES],
    /// GetStateEffecterStates.
    pub effecter_states: [EffecterState; STATES],
    /// GetPLDMTypes: type t is bit t mod 8 of byte t / 8.
    pub types: [u8; 8],
    /// GetPLDMCommands: command c is bit c mod 8 of byte c / 8.
    pub commands: [u8; 32],
    /// GetPDRRepositoryInfo: when it was last changed.
    pub update_time: [u8; 13],
    /// GetPDRRepositoryInfo: when its OEM records were last changed.
    pub oem_update_time: [u8; 13],
    /// GetPLDMVersion: 4 to 32, four a version; GetPDR: the part.
    pub bytes: [u8; PART_BYTES],
}

impl Answer {
    /// Each field 0.
    pub const ZERO: Self = Self {
        instance_id: 0,
        pldm_type: 0,
        command: 0,
        code: 0,
        tid: 0,
        transfer_flag: 0,
        transfer_crc: 0,
        size: 0,
        operational: 0,
        sensor_event_message_enable: 0,
        present: 0,
        previous: 0,
        event: 0,
        count: 0,
        repository_state: 0,
        timeout: 0,
        next_record_handle: 0,
        next_data_transfer_handle: 0,
        record_count: 0,
        repository_size: 0,
        largest_record_size: 0,
        value: 0,
        pending_value: 0,
        length: 0,
        sensor_states: [SensorState::ZERO; STATES],
        effecter_states: [EffecterState::ZERO; STATES],
        types: [0; 8],
        commands: [0; 32],
        update_time: [0; 13],
        oem_update_time: [0; 13],
        bytes: [0; PART_BYTES],
    };
}

impl Default for Answer {
    fn default() -> Self {
        Self::ZERO
    }
}

/// What an endpoint is made with. `docs/C.md` says which window is right for which requester.
#[repr(C)]
#[derive(Clone, Copy, Debug, PartialEq, Eq, Hash)]
pub struct EndpointSettings {
    /// Its endpoint ID, 8 to 254, which is static. Where `assigned`, the static one that Reset goes back to, or 0:
    /// there is none.
    pub own: u8,
    /// True only where this endpoint never ran before.
    pub first_start: bool,
    /// How long an answer is kept for copies, 1 to 60,000 milliseconds.
    pub keep_ms: u32,
    /// How many other endpoints have room for answers at most, `window` for each.
    pub sources: u32,
    /// How many messages of several packets have begun and not ended at most; for one more the oldest ends.
    pub open_messages: u32,
    /// How many commands are pending at most; with 0 none is ever performed.
    pub pending_commands: u32,
    /// For how many instance IDs of a source answers are kept, 1 to 32; 0 stands for 32.
    pub window: u32,
    /// Enum needleoat_busy.
    pub busy: u32,
    /// Whether of PLDM types 0 and 2 the requests are handed on as bytes whose command is none of this profile; else
    /// they are refused with code 0x05.
    pub unknown_commands: bool,
    /// The PLDM types of which each request is handed on as bytes: bit t stands for type t. Those of the others are
    /// refused with code 0x20; bits 0 and 2 stand for nothing.
    pub pldm_types: u64,
    /// Whether control messages are answered (DSP0236, message type 0), as what follows says; else they are dropped.
    pub answers_control: bool,
    /// Whether a bus owner assigns the endpoint ID: there is none at first.
    pub assigned: bool,
    /// The UUID, in the order of RFC 4122.
    pub uuid: [u8; 16],
    /// The version of the base specification that it keeps to, as on the wire.
    pub base_version: [u8; 4],
    /// The version of the control protocol that it keeps to.
    pub control_version: [u8; 4],
    /// The version of PLDM over MCTP (DSP0241) that it keeps to.
    pub pldm_version: [u8; 4],
}

impl EndpointSettings {
    /// Each field 0.
    pub const ZERO: Self = Self {
        own: 0,
        first_start: false,
        keep_ms: 0,
        sources: 0,
        open_messages: 0,
        pending_commands: 0,
        window: 0,
        busy: 0,
        unknown_commands: false,
        pldm_types: 0,
        answers_control: false,
        assigned: false,
        uuid: [0; 16],
        base_version: [0; 4],
        control_version: [0; 4],
        pldm_version: [0; 4],
    };
}

impl Default for EndpointSettings {
    fn default() -> Self {
        Self::ZERO
    }
}

/// The handle of a pending command: its number, and whose request it is of. Keep it as it is until the answer, one
/// for each command.
#[repr(C)]
#[derive(Clone, Copy, Debug, PartialEq, Eq, Hash)]
pub struct CommandHandle {
    /// How many commands were handed out before.
    pub number: u64,
    /// Where the request came from, 8 to 254: the packets of its answer go there.
    pub source: u8,
    /// The request's, 0 to 31.
    pub instance_id: u8,
}

impl CommandHandle {
    /// Each field 0.
    pub const ZERO: Self = Self { number: 0, source: 0, instance_id: 0 };
}

impl Default for CommandHandle {
    fn default() -> Self {
        Self::ZERO
    }
}

/// A request that is pending, as bytes.
#[repr(C)]
#[derive(Clone, Copy, Debug, PartialEq, Eq, Hash)]
pub struct Request {
    /// 0 to 63.
    pub pldm_type: u8,
    /// Its command's number in that type.
    pub command: u8,
    /// How many bytes of data it has, at most 316.
    pub length: u32,
    /// Its data: the first of these, as [`Request::bytes`] has them.
    pub data: [u8; REQUEST_DATA],
}

impl Request {
    /// Each field 0.
    pub const ZERO: Self = Self { pldm_type: 0, command: 0, length: 0, data: [0; REQUEST_DATA] };
}

impl Default for Request {
    fn default() -> Self {
        Self::ZERO
    }
}

/// What a requester is made with.
#[repr(C)]
#[derive(Clone, Copy, Debug, PartialEq, Eq, Hash)]
pub struct RequesterSettings {
    /// Its endpoint ID, 8 to 254.
    pub own: u8,
    /// That of the device, 8 to 254.
    pub device: u8,
    /// How often a request is sent at most, 1 to 8.
    pub tries: u8,
    /// Whether the packets and the answer of the last 8 requests alone are kept, and not of 32.
    pub brief: bool,
    /// How long the device keeps an answer for copies, 1 to 60,000 milliseconds.
    pub keep_ms: u32,
    /// How long after it was sent a request is sent again, 1 millisecond or more.
    pub timeout_ms: u32,
    /// The line's lifetime: how late a packet of a request may arrive, 1 to `keep_ms` milliseconds; 0 stands for
    /// `keep_ms`. With a shorter one an instance ID is used again after twice that time, once as many requests as
    /// `window` says were answered of those that were opened at least that time after the request before with it.
    pub lifetime_ms: u32,
    /// The device's window: for how many instance IDs it keeps answers, 1 to 32; 0 stands for all 32.
    pub window: u32,
}

/// Whom a [`Terminus`](crate::Terminus) asks, and how (`struct needleoat_peer_settings`).
#[repr(C)]
#[derive(Clone, Copy, Debug, PartialEq, Eq, Hash)]
pub struct PeerSettings {
    /// The endpoint ID of the peer, 8 to 254.
    pub device: u8,
    /// How often a request is sent at most, 1 to 8.
    pub tries: u8,
    /// As of [`RequesterSettings`].
    pub brief: bool,
    /// How long the peer keeps an answer for copies, 1 to 60,000 milliseconds.
    pub keep_ms: u32,
    /// How long after it was sent a request is sent again, 1 millisecond or more.
    pub timeout_ms: u32,
    /// The line's lifetime, as of [`RequesterSettings`]; 0 stands for `keep_ms`.
    pub lifetime_ms: u32,
    /// The peer's window, as of [`RequesterSettings`]; 0 stands for all 32.
    pub window: u32,
}

impl RequesterSettings {
    /// Each field 0, and `brief` false.
    pub const ZERO: Self = Self {
        own: 0,
        device: 0,
        tries: 0,
        brief: false,
        keep_ms: 0,
        timeout_ms: 0,
        lifetime_ms: 0,
        window: 0,
    };
}

impl Default for RequesterSettings {
    fn default() -> Self {
        Self::ZERO
    }
}

impl Request {
    /// The data of the request.
    pub fn bytes(&self) -> &[u8] {
        self.data.get(..self.length as usize).unwrap_or(&self.data)
    }
}
