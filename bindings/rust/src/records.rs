//! Platform data records (DSP0248), written and answered for.

use crate::fields::{Answer, Command};
use crate::numbers::RecordsFault;
use crate::raw::{self, given, written};
use crate::record_fields::{
    EffecterName, EntityName, NumericEffecter, NumericSensor, SensorName, StateEffecter, StateSensor, TerminusLocator,
};

/// The fields of a platform data record.
pub trait Record {
    /// Writes the record to the front of `out`, and returns how many bytes it has, at most 305; the next record is
    /// written after them.
    ///
    /// The result is `None`, with `out` as it was, where the record has more bytes than `out`, or a field is out of
    /// range: `record_handle` 0, a flag that is neither 0 nor 1, a data size above 5, a range format above 6, a number
    /// that does not fit its data size or its format, a `count` other than 1 to 8, a `size` of possible states other
    /// than 1 to 32, a `length` above 127, a code unit of a name that is 0.
    fn record_write(&self, out: &mut [u8]) -> Option<usize>;
}

/// A place with room for `out.len()` bytes, and one at least.
fn room(out: &mut [u8], one: &mut u8) -> (*mut u8, u64) {
    let length = out.len() as u64;
    let place = if out.is_empty() { one } else { out.as_mut_ptr() };
    (place, length)
}

macro_rules! records {
    ($($name:ident by $call:ident,)*) => {
        $(impl Record for $name {
            fn record_write(&self, out: &mut [u8]) -> Option<usize> {
                let mut one = 0;
                let (place, length) = room(out, &mut one);
                // SAFETY: `place` has room for `length` bytes, and is borrowed alone.
                written(unsafe { raw::$call(self, place, length) })
            }
        })*
    };
}

records! {
    TerminusLocator by needleoat_terminus_locator_record_write,
    NumericSensor by needleoat_numeric_sensor_record_write,
    NumericEffecter by needleoat_numeric_effecter_record_write,
    StateSensor by needleoat_state_sensor_record_write,
    StateEffecter by needleoat_state_effecter_record_write,
    SensorName by needleoat_sensor_name_record_write,
    EffecterName by needleoat_effecter_name_record_write,
    EntityName by needleoat_entity_name_record_write,
}

/// Answers GetPDRRepositoryInfo and GetPDR for the records that stand one after another in `records`.
///
/// A record is sent in parts of at most `request_count` bytes and 303. `update_time` and `oem_update_time` are times
/// of GetPDRRepositoryInfo (timestamp104 of DSP0240). The answer may be a refusal, as of a record that is not there.
/// All of the records are looked at in each call with one of the two commands.
///
/// # Errors
/// Of another command [`RecordsFault::OtherCommand`], whatever the bytes are; else [`RecordsFault::Malformed`] where
/// the bytes are anything but whole records, each with the header version 1 and a handle that is not 0 and no
/// other's, and at most 1,000.
pub fn records_answer(
    records: &[u8],
    update_time: &[u8; 13],
    oem_update_time: &[u8; 13],
    command: &Command,
) -> Result<Answer, RecordsFault> {
    let (place, length) = given(records);
    let mut answer = Answer::ZERO;
    // SAFETY: `place` has `length` bytes that may be read, and one at least; each time has its 13; `answer` is borrowed
    // alone.
    let fault = unsafe {
        raw::needleoat_records_answer(
            place,
            length,
            update_time.as_ptr(),
            oem_update_time.as_ptr(),
            command,
            &mut answer,
        )
    };
    match fault {
        0 => Ok(answer),
        fault => Err(RecordsFault::of(fault)),
    }
}
