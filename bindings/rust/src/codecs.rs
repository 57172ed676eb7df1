//! Packets, messages, commands and answers, read and written.

use crate::fields::{Answer, Command, TypeCommand, TypeVersion};
use crate::numbers::bounds::{MESSAGE_BYTES, PACKET_BYTES, REQUEST_BYTES};
use crate::numbers::{AnswerFault, Reason};
use crate::raw::{self, given, written};

const PACKET_HEADER: usize = 4;
const REQUEST_HEADER: usize = 4;
const RESPONSE_HEADER: usize = 5;

/// A packet (DSP0236, "MCTP packet fields").
#[derive(Clone, Copy, Debug, PartialEq, Eq)]
pub struct Packet<'a> {
    /// The endpoint ID that it is sent to, 8 to 254.
    pub destination: u8,
    /// The endpoint ID that it comes from, 8 to 254.
    pub source: u8,
    /// The message tag, 0 to 7.
    pub tag: u8,
    /// The packet sequence number, 0 to 3.
    pub seq: u8,
    /// TO: the source chose the tag, so it is a request's packet.
    pub owner: bool,
    /// SOM: the packet starts a message.
    pub start: bool,
    /// EOM: the packet ends a message.
    pub end: bool,
    /// Its payload, 1 to 64 bytes.
    pub payload: &'a [u8],
}

/// Reads a packet at the endpoint `own`.
///
/// # Errors
/// The first [`Reason`] to drop it: 1 to 6, or 255 where `own` is not 8 to 254.
pub fn packet_read(own: u8, bytes: &[u8]) -> Result<Packet<'_>, Reason> {
    let (place, length) = given(bytes);
    // SAFETY: `place` has `length` bytes that may be read, and one at least.
    let packet = unsafe { raw::needleoat_packet_read(own, place, length) };
    if packet.reason != 0 {
        return Err(Reason::of(packet.reason));
    }
    Ok(Packet {
        destination: packet.destination,
        source: packet.source,
        tag: packet.tag,
        seq: packet.seq,
        owner: packet.owner,
        start: packet.start,
        end: packet.end,
        payload: bytes.get(PACKET_HEADER..).unwrap_or_default(),
    })
}

/// How many packets a message of so many bytes has: 1 to 5, and 0 of no bytes or of more than 320.
pub fn packet_count(message_length: u32) -> u32 {
    // SAFETY: the call takes no pointer.
    unsafe { raw::needleoat_packet_count(message_length) }
}

/// Writes packet `index` of a message, counted from 0, to the front of `out`, and returns its length in bytes, 5 to 68.
///
/// `owner` is true in a request and false in a response. The result is `None`, with `out` as it was, where
/// `destination` or `source` is not 8 to 254, where `tag` is above 7, where the message has more than 320 bytes, and
/// where `index` is not below [`packet_count`] of its length (DSP0236).
pub fn packet_write(
    destination: u8,
    source: u8,
    owner: bool,
    tag: u8,
    message: &[u8],
    index: u32,
    out: &mut [u8; PACKET_BYTES],
) -> Option<usize> {
    let (place, length) = given(message);
    // SAFETY: `place` has `length` bytes that may be read; `out` has the bytes of a packet, and is borrowed alone.
    written(unsafe {
        raw::needleoat_packet_write(destination, source, owner, tag, place, length, index, out.as_mut_ptr())
    })
}

/// A message's header and its data (DSP0240, "PLDM base messaging").
#[derive(Clone, Copy, Debug, PartialEq, Eq)]
pub struct Message<'a> {
    /// 0 to 31.
    pub instance_id: u8,
    /// 0 to 63.
    pub pldm_type: u8,
    /// The command's number in that type.
    pub command: u8,
    /// A response's completion code; of a request 0.
    pub code: u8,
    /// What follows the header and, in a response, the completion code.
    pub data: &'a [u8],
}

fn message(header: raw::Message, message: &[u8], front: usize) -> Result<Message<'_>, Reason> {
    if header.reason != 0 {
        return Err(Reason::of(header.reason));
    }
    Ok(Message {
        instance_id: header.instance_id,
        pldm_type: header.pldm_type,
        command: header.command,
        code: header.code,
        data: message.get(front..).unwrap_or_default(),
    })
}

/// Reads a request's header.
///
/// # Errors
/// The first [`Reason`] why the message is no request, 12 to 17.
pub fn request_read(bytes: &[u8]) -> Result<Message<'_>, Reason> {
    let (place, length) = given(bytes);
    // SAFETY: `place` has `length` bytes that may be read, and one at least.
    message(unsafe { raw::needleoat_request_read(place, length) }, bytes, REQUEST_HEADER)
}

/// Reads a response's header.
///
/// # Errors
/// The first [`Reason`] why the message is no response, 12 to 18.
pub fn response_read(bytes: &[u8]) -> Result<Message<'_>, Reason> {
    let (place, length) = given(bytes);
    // SAFETY: `place` has `length` bytes that may be read, and one at least.
    message(unsafe { raw::needleoat_response_read(place, length) }, bytes, RESPONSE_HEADER)
}

/// Why a message carries no command of this profile.
#[derive(Clone, Copy, Debug, PartialEq, Eq)]
pub enum NotACommand {
    /// It is no request.
    NoRequest(Reason),
    /// It is a request to refuse with this completion code: 0x20, 0x05, 0x03 or 0x02.
    Refuse(u8),
}

/// Reads a message as a request and its command.
///
/// # Errors
/// [`NotACommand`].
pub fn command_read(message: &[u8]) -> Result<Command, NotACommand> {
    let (place, length) = given(message);
    let mut command = Command::ZERO;
    // SAFETY: `place` has `length` bytes that may be read, and one at least; `command` is borrowed alone.
    let reading = unsafe { raw::needleoat_command_read(place, length, &mut command) };
    match (reading.reason, reading.code) {
        (0, 0) => Ok(command),
        (0, code) => Err(NotACommand::Refuse(code)),
        (reason, _) => Err(NotACommand::NoRequest(Reason::of(reason))),
    }
}

/// Writes the request of a command to the front of `out`, and returns its length in bytes, 4 to 23.
///
/// The result is `None`, with `out` as it was, where `instance_id` is above 31, where there is no such `pldm_type` and
/// `command`, and where a field that the command has is out of range: `size` above 5, a `value` that does not fit it, a
/// `count` other than 1 to 8.
pub fn command_write(command: &Command, out: &mut [u8; REQUEST_BYTES]) -> Option<usize> {
    // SAFETY: `out` has the bytes of a request, and is borrowed alone.
    written(unsafe { raw::needleoat_command_write(command, out.as_mut_ptr()) })
}

/// Reads a response as the answer to a request. A refusal is an answer: look at `code`.
///
/// Whether the packets came from the device that was asked, and with the tag of the request, is for the caller to see.
///
/// # Errors
/// The first [`AnswerFault`].
pub fn answer_read(request: &[u8], response: &[u8]) -> Result<Answer, AnswerFault> {
    let (request_place, request_length) = given(request);
    let (place, length) = given(response);
    let mut answer = Answer::ZERO;
    // SAFETY: both places have so many bytes that may be read, and one at least; `answer` is borrowed alone.
    let fault = unsafe { raw::needleoat_answer_read(request_place, request_length, place, length, &mut answer) };
    match fault {
        0 => Ok(answer),
        fault => Err(AnswerFault::of(fault)),
    }
}

/// As [`answer_read`], without the fields.
///
/// # Errors
/// The first [`AnswerFault`].
pub fn answer_check(request: &[u8], response: &[u8]) -> Result<(), AnswerFault> {
    let (request_place, request_length) = given(request);
    let (place, length) = given(response);
    // SAFETY: both places have so many bytes that may be read, and one at least.
    match unsafe { raw::needleoat_answer_check(request_place, request_length, place, length) } {
        0 => Ok(()),
        fault => Err(AnswerFault::of(fault)),
    }
}

/// Writes the response of an answer to the front of `out`, and returns its length in bytes, 5 to 320.
///
/// The result is `None`, with `out` as it was, where `instance_id` is above 31 or `pldm_type` above 63, and, where
/// `code` is 0, where there is no such command and where a field that its answer has is out of range: `size` above 5,
/// a value that does not fit it, a `count` other than 1 to 8, a `length` above 303 (of versions: other than 4, 8 and
/// so on to 32), a `transfer_flag` other than 0, 1, 2, 4 and 5. Where `code` is not 0, the response has no data, and
/// is written for any command.
pub fn answer_write(answer: &Answer, out: &mut [u8; MESSAGE_BYTES]) -> Option<usize> {
    // SAFETY: `out` has the bytes of a message, and is borrowed alone.
    written(unsafe { raw::needleoat_answer_write(answer, out.as_mut_ptr()) })
}

/// The checksum of a whole record, as the last part of a GetPDR answer carries it (DSP0248): CRC-8 by
/// x^8 + x^2 + x + 1, from 0, the highest bit first.
pub fn crc8(bytes: &[u8]) -> u8 {
    let (place, length) = given(bytes);
    // SAFETY: `place` has `length` bytes that may be read, and one at least.
    unsafe { raw::needleoat_crc8(place, length) }
}

/// Answers GetTID, GetPLDMVersion, GetPLDMTypes and GetPLDMCommands (DSP0240) of a device with this terminus ID; `None`
/// of another command, SetTID among them.
///
/// `types` is what the device has, type 0 among it, and `commands` those of all these types, in any order. A type's
/// first entry counts. A version goes out with its checksum, in one part. The answer may be a refusal, as of a type that
/// is not there. Which version GetPLDMCommands asks about is not looked at.
pub fn base_answer(tid: u8, types: &[TypeVersion], commands: &[TypeCommand], command: &Command) -> Option<Answer> {
    let mut answer = Answer::ZERO;
    let (type_count, command_count) = (types.len() as u64, commands.len() as u64);
    const NO_TYPE: &TypeVersion = &TypeVersion { pldm_type: 0, version: [0; 4] };
    const NO_COMMAND: &TypeCommand = &TypeCommand { pldm_type: 0, command: 0 };
    let first_type = if types.is_empty() { NO_TYPE } else { types.as_ptr() };
    let first_command = if commands.is_empty() { NO_COMMAND } else { commands.as_ptr() };
    // SAFETY: each place has as many entries as its count, and one at least; `answer` is borrowed alone.
    let fault = unsafe {
        raw::needleoat_base_answer(tid, first_type, type_count, first_command, command_count, command, &mut answer)
    };
    (fault == 0).then_some(answer)
}

/// The checksum that follows the versions of a GetPLDMVersion answer (DSP0240), lowest byte first: CRC-32 of IEEE 802.3.
pub fn crc32(bytes: &[u8]) -> u32 {
    let (place, length) = given(bytes);
    // SAFETY: `place` has `length` bytes that may be read, and one at least.
    unsafe { raw::needleoat_crc32(place, length) }
}
