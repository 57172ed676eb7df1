//! The least and the most bytes that calls take, and places without room.

use needleoat::bounds::{NAME_UNITS, RECORD_BYTES};
use needleoat::{
    answer_check, base_answer, command, command_read, crc32, crc8, i2c_read, i3c_read, packet_read, records_answer,
    request_read, response_read, AnswerFault, Command, EntityName, I2cFault, I3cFault, NotACommand, Reason, Record,
    RecordsFault, TerminusLocator,
};

#[test]
fn no_bytes_are_read_as_none() {
    assert_eq!(packet_read(9, &[]), Err(Reason::Short));
    assert_eq!(request_read(&[]), Err(Reason::ShortHeader));
    assert_eq!(response_read(&[]), Err(Reason::ShortHeader));
    assert_eq!(command_read(&[]), Err(NotACommand::NoRequest(Reason::ShortHeader)));
    assert_eq!(answer_check(&[], &[]), Err(AnswerFault::NoRequest));
    assert_eq!(i2c_read(0x1d, &[]), Err(I2cFault::Short));
    assert_eq!(i3c_read(0x30, false, &[]), Err(I3cFault::Short));
    assert_eq!(crc8(&[]), 0);
    assert_eq!(crc32(&[]), 0);
    let types = base_answer(1, &[], &[], &Command { command: command::GET_PLDM_TYPES, ..Command::ZERO });
    assert_eq!(types.map(|answer| (answer.code, answer.types)), Some((0, [0; 8])));
    assert_eq!(base_answer(1, &[], &[], &Command::ZERO), None);
    let asked = records_answer(&[], &[0; 13], &[0; 13], &Command::ZERO);
    assert_eq!(asked, Err(RecordsFault::OtherCommand));
}

#[test]
fn a_record_needs_its_room() {
    // The header of 10 bytes, and the 9 of a terminus locator with an endpoint ID (DSP0248).
    let locator = TerminusLocator { record_handle: 1, ..TerminusLocator::ZERO };
    let mut out = [0xee; 19];
    assert_eq!(locator.record_write(&mut []), None);
    assert_eq!(locator.record_write(&mut out[..18]), None);
    assert_eq!(out, [0xee; 19]);
    assert_eq!(locator.record_write(&mut out), Some(19));
}

#[test]
fn a_name_has_127_units_at_most() {
    let mut out = [0; RECORD_BYTES];
    let longest = EntityName { record_handle: 1, length: 127, text: [0x41; NAME_UNITS], ..EntityName::ZERO };
    // The header of 10 bytes, the entity's 6, a byte that counts, "en" and its end, the name and its end of 2
    // (DSP0248).
    assert_eq!(longest.record_write(&mut out), Some(10 + 6 + 1 + 1 + 3 + 254 + 2));
    for length in [128, 140, u32::MAX] {
        assert_eq!(EntityName { length, ..longest }.record_write(&mut out), None);
    }
}
