//! MCTP packets (DSP0236) and PLDM messages (DSP0240, DSP0248), platform data records, frames on I2C (DSP0237) and
//! I3C (DSP0233), and both ends: safe calls over the C libraries `needleoat_wire_c` and `needleoat_c`.
//!
//! What the libraries promise stands in `include/needleoat.h` and `docs/C.md` of the repository. What the header asks
//! of pointers and of handles is kept here: slices and references are what it wants pointers to be, a handle is used
//! by one thread at a time (it is not [`Sync`]), its moments never go back ([`Moment`]), and it is freed on drop.
//!
//! ```
//! use needleoat::{command_read, packet_read};
//!
//! let bytes = [0x01, 9, 8, 0xc9, 0x01, 0x81, 2, 0x31, 1, 0, 0, 40];
//! let command = packet_read(9, &bytes).ok().and_then(|packet| command_read(packet.payload).ok());
//! assert_eq!(command.map(|command| (command.effecter, command.value)), Some((1, 40)));
//! ```
//!
//! The caller still sees to these, which are no matter of memory safety. No call is made from a signal handler, or in
//! the child of a fork of a process with threads. An endpoint is restarted and never freed and made anew while a
//! command is pending: the numbers of a new one begin at 0. Without the feature `alloc` the program links the three
//! functions of memory of `needleoat.h`, and they keep what the header says of them.
#![no_std]
#![warn(clippy::unwrap_used, clippy::expect_used, clippy::indexing_slicing, clippy::panic)]

#[cfg(feature = "alloc")]
extern crate alloc;

mod codecs;
mod endpoint;
mod fields;
mod firmware;
mod frames;
mod layout;
#[cfg(feature = "alloc")]
mod memory;
mod moment;
mod numbers;
mod raw;
mod record_fields;
mod records;
mod requester;
mod terminus;

pub use codecs::{
    answer_check, answer_read, answer_write, base_answer, command_read, command_write, crc32, crc8, packet_count,
    packet_read, packet_write, request_read, response_read, Message, NotACommand, Packet,
};
pub use endpoint::{Answered, Endpoint, Packets, Step};
pub use fields::{
    Answer, Command, CommandHandle, EffecterState, EndpointSettings, PeerSettings, Request, RequesterSettings,
    SensorState, SetState, TypeCommand, TypeVersion,
};
pub use firmware::{component_of, Component, Firmware, FirmwareAnswer, FlashAction, FlashStep, Stage};
pub use frames::{i2c_read, i2c_write, i3c_read, i3c_write, I2cFrame};
pub use moment::{Clock, Moment};
pub use numbers::{
    bounds, busy, command, completion_code, data_size, AnswerFault, I2cFault, I3cFault, Reason, RecordsFault, Refusal,
    UpdateStage,
};
pub use record_fields::{
    Conversion, EffecterName, EffecterRange, Entity, EntityName, NumericEffecter, NumericSensor, PossibleStates,
    SensorName, SensorRange, StateEffecter, StateSensor, TerminusLocator, Units,
};
pub use records::{records_answer, Record};
pub use requester::{Due, Opening, Receiving, Requester, Status};
pub use terminus::{Coming, Terminus};
