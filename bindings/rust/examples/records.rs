//! The platform data records of a small board: each kind is written once, into one array; then the array is asked, as a
//! BMC asks a device. The bytes that it has to write are those of the layouts of DSP0248.

use std::fmt::{self, Write};

use needleoat::bounds::{MESSAGE_BYTES, NAME_UNITS, RECORD_BYTES};
use needleoat::{
    answer_write, command, data_size, records_answer, Answer, Command, Conversion, EffecterName, EffecterRange, Entity,
    EntityName, NumericEffecter, NumericSensor, PossibleStates, Record, RecordsFault, SensorName, SensorRange,
    StateEffecter, StateSensor, TerminusLocator, Units,
};

mod shared;
use shared::hex;

const TERMINUS: u16 = 1;
const PART: u16 = 40;
const BOARD: Entity = Entity { entity_type: 64, instance: 1, container_id: 100 };
const ONE: u32 = 0x3f80_0000; // 1.0
const NO_STATES: PossibleStates = PossibleStates::ZERO;

/// The states of one set, in the first bytes of its field.
const fn states<const N: usize>(state_set: u16, bytes: [u8; N]) -> PossibleStates {
    let mut states = [0; 32];
    let mut i = 0;
    while i < N {
        states[i] = bytes[i];
        i += 1;
    }
    PossibleStates { state_set, size: N as u8, states }
}

/// A name in UTF-16, and how many code units it has.
fn name(text: &str) -> ([u16; NAME_UNITS], u32) {
    let mut units = [0; NAME_UNITS];
    let count = text.encode_utf16().zip(&mut units).map(|(unit, place)| *place = unit).count();
    (units, count as u32)
}

const LOCATOR: TerminusLocator = TerminusLocator {
    record_handle: 1,
    terminus_handle: TERMINUS,
    container_id: 100,
    is_valid: 1,
    tid: 5,
    eid: 9,
    ..TerminusLocator::ZERO
};

/// A temperature in tenths of a degree C.
const TEMPERATURE: NumericSensor = NumericSensor {
    record_handle: 2,
    change_number: 0x0201,
    terminus_handle: TERMINUS,
    sensor_id: 0x0403,
    entity: BOARD,
    has_auxiliary_names: 1,
    supported_thresholds: 0x1b,
    threshold_and_hysteresis_volatility: 5,
    units: Units { base_unit: 2, unit_modifier: -1, ..Units::ZERO },
    conversion: Conversion {
        resolution: ONE,
        accuracy: 500,
        plus_tolerance: 1,
        minus_tolerance: 2,
        is_linear: 1,
        size: data_size::SINT16,
        ..Conversion::ZERO
    },
    state_transition_interval: 0x3f00_0000,
    update_interval: ONE,
    hysteresis: 5,
    max_readable: 1250,
    min_readable: -400,
    range: SensorRange {
        format: data_size::SINT8,
        support: 0x7f,
        nominal: 25,
        normal_max: 50,
        normal_min: -10,
        warning_high: 70,
        warning_low: -20,
        critical_high: 85,
        critical_low: -30,
        fatal_high: 100,
        fatal_low: -40,
    },
    ..NumericSensor::ZERO
};

/// Its health, and whether it is there: states 1 to 3 of the set 1, and 1 and 8 of the set 13.
const HEALTH: StateSensor = StateSensor {
    record_handle: 3,
    terminus_handle: TERMINUS,
    sensor_id: 2,
    entity: BOARD,
    init: 1,
    count: 2,
    sets: [
        states(1, [0x0e]),
        states(13, [0x02, 0x01]),
        NO_STATES,
        NO_STATES,
        NO_STATES,
        NO_STATES,
        NO_STATES,
        NO_STATES,
    ],
    ..StateSensor::ZERO
};

/// A fan in percent.
const FAN: NumericEffecter = NumericEffecter {
    record_handle: 4,
    terminus_handle: TERMINUS,
    effecter_id: 1,
    entity: Entity { entity_type: 29, instance: 2, container_id: 100 },
    semantic_id: 0x0605,
    has_auxiliary_names: 1,
    units: Units { base_unit: 65, ..Units::ZERO },
    conversion: Conversion { resolution: ONE, is_linear: 1, size: data_size::UINT8, ..Conversion::ZERO },
    transition_interval: 0x4000_0000,
    max_settable: 100,
    range: EffecterRange {
        format: data_size::REAL32,
        support: 0x1f,
        nominal: 0x4248_0000,
        normal_max: 0x42c8_0000,
        normal_min: 0x41a0_0000,
        rated_max: 0x42c8_0000,
        rated_min: 0,
    },
    ..NumericEffecter::ZERO
};

/// A lamp: states 1 and 2 of the set 196.
const LAMP: StateEffecter = StateEffecter {
    record_handle: 5,
    terminus_handle: TERMINUS,
    effecter_id: 2,
    entity: BOARD,
    has_description: 1,
    count: 1,
    sets: [states(196, [0x06]), NO_STATES, NO_STATES, NO_STATES, NO_STATES, NO_STATES, NO_STATES, NO_STATES],
    ..StateEffecter::ZERO
};

fn temperature_name() -> SensorName {
    let (text, length) = name("Inlet");
    SensorName { record_handle: 6, terminus_handle: TERMINUS, sensor_id: 0x0403, text, length, ..SensorName::ZERO }
}

fn fan_name() -> EffecterName {
    let (text, length) = name("Fan \u{2160}");
    EffecterName { record_handle: 7, terminus_handle: TERMINUS, effecter_id: 1, text, length, ..EffecterName::ZERO }
}

fn board_name() -> EntityName {
    let (text, length) = name("Board");
    EntityName { record_handle: 8, entity: BOARD, text, length, ..EntityName::ZERO }
}

/// Writes each kind of record, and returns them all.
fn write_all(out: &mut String) -> Result<Vec<u8>, fmt::Error> {
    let (temperature_name, fan_name, board_name) = (temperature_name(), fan_name(), board_name());
    let all: [(&str, &dyn Record); 8] = [
        ("locator", &LOCATOR),
        ("numeric sensor", &TEMPERATURE),
        ("state sensor", &HEALTH),
        ("numeric effecter", &FAN),
        ("state effecter", &LAMP),
        ("sensor name", &temperature_name),
        ("effecter name", &fan_name),
        ("entity name", &board_name),
    ];
    let mut records = Vec::new();
    for (name, fields) in all {
        let mut record = [0; RECORD_BYTES];
        let length = fields.record_write(&mut record).unwrap_or(0);
        writeln!(out, "{name}: {}", hex(&record[..length]))?;
        records.extend_from_slice(&record[..length]);
    }
    Ok(records)
}

/// What is out of range is not written.
fn write_none(out: &mut String) -> fmt::Result {
    let mut sensor = TEMPERATURE;
    sensor.range.fatal_high = 128;
    let mut effecter = FAN;
    effecter.conversion.size = 6;
    let mut sensors = HEALTH;
    sensors.sets[1].size = 33;
    let no_sets = StateEffecter { count: 0, ..LAMP };
    let name = EntityName { length: 6, ..board_name() };
    let handle = TerminusLocator { record_handle: 0, ..LOCATOR };
    let refused: [(&dyn Record, usize); 8] = [
        (&sensor, RECORD_BYTES),
        (&effecter, RECORD_BYTES),
        (&sensors, RECORD_BYTES),
        (&no_sets, RECORD_BYTES),
        (&name, RECORD_BYTES),
        (&handle, RECORD_BYTES),
        (&LOCATOR, 18),
        (&LOCATOR, 19),
    ];
    write!(out, "refused:")?;
    for (fields, room) in refused {
        let mut record = [0; RECORD_BYTES];
        write!(out, " {}", fields.record_write(&mut record[..room]).unwrap_or(0))?;
    }
    writeln!(out)
}

/// Another value in each field, of records that are sent to nobody.
fn write_each_field(out: &mut String) -> fmt::Result {
    let entity = Entity { entity_type: 0x0c0b, instance: 0x0e0d, container_id: 0x100f };
    let sensor = NumericSensor {
        record_handle: 0x0403_0201,
        change_number: 0x0605,
        terminus_handle: 0x0807,
        sensor_id: 0x0a09,
        entity,
        init: 0x11,
        has_auxiliary_names: 1,
        rel: 0x19,
        auxiliary_oem_unit_handle: 0x1a,
        supported_thresholds: 0x28,
        threshold_and_hysteresis_volatility: 0x29,
        units: Units {
            base_unit: 0x12,
            unit_modifier: 0x13,
            rate_unit: 0x14,
            base_oem_unit_handle: 0x15,
            auxiliary_unit: 0x16,
            auxiliary_unit_modifier: -0x17,
            auxiliary_rate_unit: 0x18,
        },
        conversion: Conversion {
            resolution: 0x1e1d_1c1b,
            offset: 0x2221_201f,
            accuracy: 0x2423,
            plus_tolerance: 0x25,
            minus_tolerance: 0x26,
            is_linear: 1,
            size: data_size::UINT8,
        },
        state_transition_interval: 0x2d2c_2b2a,
        update_interval: 0x3130_2f2e,
        hysteresis: 0x27,
        max_readable: 0x32,
        min_readable: 0x33,
        range: SensorRange {
            format: data_size::UINT16,
            support: 0x34,
            nominal: 0x3635,
            normal_max: 0x3837,
            normal_min: 0x3a39,
            warning_high: 0x3c3b,
            warning_low: 0x3e3d,
            critical_high: 0x403f,
            critical_low: 0x4241,
            fatal_high: 0x4443,
            fatal_low: 0x4645,
        },
    };
    let effecter = NumericEffecter {
        record_handle: 0x0403_0201,
        change_number: 0x0605,
        terminus_handle: 0x0807,
        effecter_id: 0x0a09,
        entity,
        semantic_id: 0x1211,
        init: 0x13,
        has_auxiliary_names: 0,
        auxiliary_oem_unit_handle: 0x1b,
        units: Units {
            base_unit: 0x14,
            unit_modifier: 0x15,
            rate_unit: 0x16,
            base_oem_unit_handle: 0x17,
            auxiliary_unit: 0x18,
            auxiliary_unit_modifier: 0x19,
            auxiliary_rate_unit: 0x1a,
        },
        conversion: Conversion {
            resolution: 0x1f1e_1d1c,
            offset: 0x2322_2120,
            accuracy: 0x2524,
            plus_tolerance: 0x26,
            minus_tolerance: 0x27,
            is_linear: 0,
            size: data_size::SINT32,
        },
        state_transition_interval: 0x2b2a_2928,
        transition_interval: 0x2f2e_2d2c,
        max_settable: 0x3332_3130,
        min_settable: -2,
        range: EffecterRange {
            format: data_size::UINT32,
            support: 0x34,
            nominal: 0x3837_3635,
            normal_max: 0x3c3b_3a39,
            normal_min: 0x403f_3e3d,
            rated_max: 0x4443_4241,
            rated_min: 0x4847_4645,
        },
    };
    let mut sets = [NO_STATES; 8];
    sets[0] = states(0x1514, [0x16, 0x17, 0x18]);
    let state_effecter = StateEffecter {
        record_handle: 0x0403_0201,
        change_number: 0x0605,
        terminus_handle: 0x0807,
        effecter_id: 0x0a09,
        entity,
        semantic_id: 0x1211,
        init: 0x13,
        has_description: 0,
        count: 1,
        sets,
    };
    let locator = TerminusLocator {
        record_handle: 0x0403_0201,
        change_number: 0x0605,
        terminus_handle: 0x0807,
        container_id: 0x0b0a,
        is_valid: 0,
        tid: 0x09,
        eid: 0x0c,
    };
    let all: [&dyn Record; 4] = [&sensor, &effecter, &state_effecter, &locator];
    for fields in all {
        let mut record = [0; RECORD_BYTES];
        let length = fields.record_write(&mut record).unwrap_or(0);
        writeln!(out, "{}", hex(&record[..length]))?;
    }
    Ok(())
}

/// Asks the records, which were last changed at 2026-01-02 03:04:05 UTC, as timestamp104 of DSP0240 has it.
fn ask(records: &[u8], command: &Command) -> Result<Answer, RecordsFault> {
    const CHANGED: [u8; 13] = [0, 0, 0, 0, 0, 5, 4, 3, 2, 1, 0xea, 0x07, 0x00];
    records_answer(records, &CHANGED, &[0; 13], command)
}

fn fault(asked: Result<Answer, RecordsFault>) -> u8 {
    asked.err().map_or(0, RecordsFault::number)
}

fn ask_info(records: &[u8], out: &mut String) -> fmt::Result {
    let info = Command {
        instance_id: 7,
        pldm_type: command::PLATFORM,
        command: command::GET_PDR_REPOSITORY_INFO,
        ..Command::ZERO
    };
    let other = Command { pldm_type: command::PLATFORM, command: command::GET_SENSOR_READING, ..Command::ZERO };
    let mut response = [0; MESSAGE_BYTES];
    let asked = ask(records, &info);
    let length = asked.ok().and_then(|answer| answer_write(&answer, &mut response)).unwrap_or(0);
    writeln!(out, "info: {} {}", fault(asked), hex(&response[..length]))?;
    let (cut, refused) = (ask(&records[..records.len() - 1], &info), ask(records, &other));
    writeln!(out, "cut short: {}, another command: {}", fault(cut), fault(refused))
}

/// Asks for a record in parts, and returns the handle of the next one.
fn ask_record(records: &[u8], handle: u32, out: &mut String) -> Result<u32, fmt::Error> {
    let mut command = Command {
        pldm_type: command::PLATFORM,
        command: command::GET_PDR,
        record_handle: handle,
        transfer_operation_flag: 1,
        request_count: PART,
        ..Command::ZERO
    };
    loop {
        write!(out, "record {handle} from {}: ", command.data_transfer_handle)?;
        let answer = match ask(records, &command) {
            Ok(answer) if answer.code == 0 => answer,
            refused => {
                let code = refused.map_or(0, |answer| answer.code);
                writeln!(out, "fault {} code {code:02x}", fault(refused))?;
                return Ok(0);
            }
        };
        write!(out, "flag {} next {}", answer.transfer_flag, answer.next_data_transfer_handle)?;
        if answer.transfer_flag == 4 {
            write!(out, " crc {:02x}", answer.transfer_crc)?;
        }
        writeln!(out, " {}", hex(&answer.bytes[..answer.length as usize]))?;
        command.transfer_operation_flag = 0;
        command.data_transfer_handle = answer.next_data_transfer_handle;
        if answer.next_data_transfer_handle == 0 {
            return Ok(answer.next_record_handle);
        }
    }
}

/// Writes what the example in C writes.
pub fn run(_input: &str, out: &mut String) -> fmt::Result {
    let records = write_all(out)?;
    write_none(out)?;
    ask_info(&records, out)?;
    let mut handle = ask_record(&records, 0, out)?; // the first one
    while handle != 0 {
        handle = ask_record(&records, handle, out)?;
    }
    ask_record(&records, 9, out)?;
    write_each_field(out)
}

#[allow(dead_code)]
fn main() -> fmt::Result {
    let mut out = String::new();
    run("", &mut out)?;
    print!("{out}");
    Ok(())
}
