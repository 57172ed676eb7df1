//! The structs of the header for the fields of platform data records (DSP0248).

use crate::numbers::bounds::{NAME_UNITS, STATES};

/// The entity that a record belongs to (DSP0249).
#[repr(C)]
#[derive(Clone, Copy, Debug, PartialEq, Eq, Hash)]
pub struct Entity {
    /// A number of DSP0249: 64 a system board.
    pub entity_type: u16,
    /// Which of its type it is.
    pub instance: u16,
    /// The entity that contains it.
    pub container_id: u16,
}

impl Entity {
    /// Each field 0.
    pub const ZERO: Self = Self { entity_type: 0, instance: 0, container_id: 0 };
}

impl Default for Entity {
    fn default() -> Self {
        Self::ZERO
    }
}

/// What a numeric sensor measures in, or a numeric effecter is set in (DSP0248).
#[repr(C)]
#[derive(Clone, Copy, Debug, PartialEq, Eq, Hash)]
pub struct Units {
    /// A number of DSP0248: 2 degrees C, 5 volts, 19 RPM, 65 percent.
    pub base_unit: u8,
    /// The power of ten that values are multiplied by.
    pub unit_modifier: i8,
    /// The time that the unit is taken per: 0 none.
    pub rate_unit: u8,
    /// The OEM unit that stands for the base unit, or 0.
    pub base_oem_unit_handle: u8,
    /// A second unit, by the same list: 0 none.
    pub auxiliary_unit: u8,
    /// The power of ten of the second unit.
    pub auxiliary_unit_modifier: i8,
    /// The time that the second unit is taken per.
    pub auxiliary_rate_unit: u8,
}

impl Units {
    /// Each field 0.
    pub const ZERO: Self = Self {
        base_unit: 0,
        unit_modifier: 0,
        rate_unit: 0,
        base_oem_unit_handle: 0,
        auxiliary_unit: 0,
        auxiliary_unit_modifier: 0,
        auxiliary_rate_unit: 0,
    };
}

impl Default for Units {
    fn default() -> Self {
        Self::ZERO
    }
}

/// How numbers become values: (number * resolution + offset) * 10 ^ unit_modifier (DSP0248). A real32 is given as its
/// bits, [`f32::to_bits`].
#[repr(C)]
#[derive(Clone, Copy, Debug, PartialEq, Eq, Hash)]
pub struct Conversion {
    /// A real32: 1.0 is 0x3f800000.
    pub resolution: u32,
    /// A real32.
    pub offset: u32,
    /// In hundredths of a percent.
    pub accuracy: u16,
    /// How far a value may be above what is measured, in steps.
    pub plus_tolerance: u8,
    /// How far it may be below.
    pub minus_tolerance: u8,
    /// Whether values go with numbers by that rule: 0 no, 1 yes.
    pub is_linear: u8,
    /// The data size of the numbers: `UINT8` to `SINT32`.
    pub size: u8,
}

impl Conversion {
    /// Each field 0.
    pub const ZERO: Self =
        Self { resolution: 0, offset: 0, accuracy: 0, plus_tolerance: 0, minus_tolerance: 0, is_linear: 0, size: 0 };
}

impl Default for Conversion {
    fn default() -> Self {
        Self::ZERO
    }
}

/// The normal range and the thresholds of a numeric sensor (DSP0248).
#[repr(C)]
#[derive(Clone, Copy, Debug, PartialEq, Eq, Hash)]
pub struct SensorRange {
    /// `UINT8` to `SINT32`, or `REAL32`.
    pub format: u8,
    /// Bit 0 nominal, 1 normal max, 2 normal min, 3 critical high, 4 low, 5 fatal high, 6 low.
    pub support: u8,
    /// The nominal value.
    pub nominal: i64,
    /// The most that is normal.
    pub normal_max: i64,
    /// The least that is normal.
    pub normal_min: i64,
    /// The upper warning threshold.
    pub warning_high: i64,
    /// The lower warning threshold.
    pub warning_low: i64,
    /// The upper critical threshold.
    pub critical_high: i64,
    /// The lower critical threshold.
    pub critical_low: i64,
    /// The upper fatal threshold.
    pub fatal_high: i64,
    /// The lower fatal threshold.
    pub fatal_low: i64,
}

impl SensorRange {
    /// Each field 0.
    pub const ZERO: Self = Self {
        format: 0,
        support: 0,
        nominal: 0,
        normal_max: 0,
        normal_min: 0,
        warning_high: 0,
        warning_low: 0,
        critical_high: 0,
        critical_low: 0,
        fatal_high: 0,
        fatal_low: 0,
    };
}

impl Default for SensorRange {
    fn default() -> Self {
        Self::ZERO
    }
}

/// The normal and the rated range of a numeric effecter (DSP0248).
#[repr(C)]
#[derive(Clone, Copy, Debug, PartialEq, Eq, Hash)]
pub struct EffecterRange {
    /// `UINT8` to `SINT32`, or `REAL32`.
    pub format: u8,
    /// Bit 0 nominal, 1 normal max, 2 normal min, 3 rated max, 4 rated min.
    pub support: u8,
    /// The nominal value.
    pub nominal: i64,
    /// The most that is normal.
    pub normal_max: i64,
    /// The least that is normal.
    pub normal_min: i64,
    /// The most that it is rated for.
    pub rated_max: i64,
    /// The least that it is rated for.
    pub rated_min: i64,
}

impl EffecterRange {
    /// Each field 0.
    pub const ZERO: Self =
        Self { format: 0, support: 0, nominal: 0, normal_max: 0, normal_min: 0, rated_max: 0, rated_min: 0 };
}

impl Default for EffecterRange {
    fn default() -> Self {
        Self::ZERO
    }
}

/// The states that one sensor or effecter of a composite one can have (DSP0248).
#[repr(C)]
#[derive(Clone, Copy, Debug, PartialEq, Eq, Hash)]
pub struct PossibleStates {
    /// A number of DSP0249.
    pub state_set: u16,
    /// How many of `states` there are, 1 to 32.
    pub size: u8,
    /// State s is bit s mod 8 of byte s / 8.
    pub states: [u8; 32],
}

impl PossibleStates {
    /// Each field 0.
    pub const ZERO: Self = Self { state_set: 0, size: 0, states: [0; 32] };
}

impl Default for PossibleStates {
    fn default() -> Self {
        Self::ZERO
    }
}

/// Where a terminus is: at an MCTP endpoint ID (DSP0248, terminus locator PDR, type 1).
#[repr(C)]
#[derive(Clone, Copy, Debug, PartialEq, Eq, Hash)]
pub struct TerminusLocator {
    /// Of each record: its handle, not 0, and another one than that of each other record.
    pub record_handle: u32,
    /// Of each record: its change number.
    pub change_number: u16,
    /// Of each record of a sensor or an effecter: the same as here.
    pub terminus_handle: u16,
    /// The entity that contains the terminus.
    pub container_id: u16,
    /// 0 no, 1 yes.
    pub is_valid: u8,
    /// The terminus ID.
    pub tid: u8,
    /// The endpoint ID.
    pub eid: u8,
}

impl TerminusLocator {
    /// Each field 0.
    pub const ZERO: Self =
        Self { record_handle: 0, change_number: 0, terminus_handle: 0, container_id: 0, is_valid: 0, tid: 0, eid: 0 };
}

impl Default for TerminusLocator {
    fn default() -> Self {
        Self::ZERO
    }
}

/// A numeric sensor (DSP0248, PDR type 2).
#[repr(C)]
#[derive(Clone, Copy, Debug, PartialEq, Eq, Hash)]
pub struct NumericSensor {
    /// Its handle, not 0, and another one than that of each other record.
    pub record_handle: u32,
    /// Its change number.
    pub change_number: u16,
    /// The terminus, as the record of its place has it.
    pub terminus_handle: u16,
    /// The ID by which the sensor is asked.
    pub sensor_id: u16,
    /// What it measures.
    pub entity: Entity,
    /// How it is made ready: 0 it needs nothing.
    pub init: u8,
    /// Whether a record of its name goes with it: 0 no, 1 yes.
    pub has_auxiliary_names: u8,
    /// What the two units make (DSP0248, "rel"): 0 the first divided by the second, 1 multiplied by it. Any byte is
    /// written.
    pub rel: u8,
    /// The OEM unit that stands for the second unit, or 0.
    pub auxiliary_oem_unit_handle: u8,
    /// Bit 0 upper warning, 1 critical, 2 fatal, 3 to 5 the lower ones.
    pub supported_thresholds: u8,
    /// When these are lost.
    pub threshold_and_hysteresis_volatility: u8,
    /// What its numbers are in.
    pub units: Units,
    /// How its numbers become values.
    pub conversion: Conversion,
    /// A real32, the longest time of a change of state in seconds.
    pub state_transition_interval: u32,
    /// A real32, the time between two readings in seconds.
    pub update_interval: u32,
    /// The hysteresis, of the data size of `conversion`.
    pub hysteresis: i64,
    /// The greatest number that it reads.
    pub max_readable: i64,
    /// The least number that it reads.
    pub min_readable: i64,
    /// Its ranges.
    pub range: SensorRange,
}

impl NumericSensor {
    /// Each field 0.
    pub const ZERO: Self = Self {
        record_handle: 0,
        change_number: 0,
        terminus_handle: 0,
        sensor_id: 0,
        entity: Entity::ZERO,
        init: 0,
        has_auxiliary_names: 0,
        rel: 0,
        auxiliary_oem_unit_handle: 0,
        supported_thresholds: 0,
        threshold_and_hysteresis_volatility: 0,
        units: Units::ZERO,
        conversion: Conversion::ZERO,
        state_transition_interval: 0,
        update_interval: 0,
        hysteresis: 0,
        max_readable: 0,
        min_readable: 0,
        range: SensorRange::ZERO,
    };
}

impl Default for NumericSensor {
    fn default() -> Self {
        Self::ZERO
    }
}

/// A numeric effecter (DSP0248, PDR type 9).
#[repr(C)]
#[derive(Clone, Copy, Debug, PartialEq, Eq, Hash)]
pub struct NumericEffecter {
    /// Its handle, not 0, and another one than that of each other record.
    pub record_handle: u32,
    /// Its change number.
    pub change_number: u16,
    /// The terminus, as the record of its place has it.
    pub terminus_handle: u16,
    /// The ID by which the effecter is asked.
    pub effecter_id: u16,
    /// What it sets.
    pub entity: Entity,
    /// What setting it means, a number of DSP0248, or 0.
    pub semantic_id: u16,
    /// How it is made ready: 0 it needs nothing.
    pub init: u8,
    /// Whether a record of its name goes with it: 0 no, 1 yes.
    pub has_auxiliary_names: u8,
    /// The OEM unit that stands for the second unit, or 0.
    pub auxiliary_oem_unit_handle: u8,
    /// What its numbers are in.
    pub units: Units,
    /// How its numbers become values.
    pub conversion: Conversion,
    /// A real32, the longest time of a change of state in seconds.
    pub state_transition_interval: u32,
    /// A real32, the longest time of a change of value in seconds.
    pub transition_interval: u32,
    /// The greatest number that it is set to.
    pub max_settable: i64,
    /// The least number that it is set to.
    pub min_settable: i64,
    /// Its ranges.
    pub range: EffecterRange,
}

impl NumericEffecter {
    /// Each field 0.
    pub const ZERO: Self = Self {
        record_handle: 0,
        change_number: 0,
        terminus_handle: 0,
        effecter_id: 0,
        entity: Entity::ZERO,
        semantic_id: 0,
        init: 0,
        has_auxiliary_names: 0,
        auxiliary_oem_unit_handle: 0,
        units: Units::ZERO,
        conversion: Conversion::ZERO,
        state_transition_interval: 0,
        transition_interval: 0,
        max_settable: 0,
        min_settable: 0,
        range: EffecterRange::ZERO,
    };
}

impl Default for NumericEffecter {
    fn default() -> Self {
        Self::ZERO
    }
}

/// A state sensor (DSP0248, PDR type 4).
#[repr(C)]
#[derive(Clone, Copy, Debug, PartialEq, Eq, Hash)]
pub struct StateSensor {
    /// Its handle, not 0, and another one than that of each other record.
    pub record_handle: u32,
    /// Its change number.
    pub change_number: u16,
    /// The terminus, as the record of its place has it.
    pub terminus_handle: u16,
    /// The ID by which the sensor is asked.
    pub sensor_id: u16,
    /// What it reports on.
    pub entity: Entity,
    /// How it is made ready: 0 it needs nothing.
    pub init: u8,
    /// Whether a record of its name goes with it: 0 no, 1 yes.
    pub has_auxiliary_names: u8,
    /// How many of `sets` there are, 1 to 8.
    pub count: u8,
    /// Its sensors or effecters: the first `count`.
    pub sets: [PossibleStates; STATES],
}

impl StateSensor {
    /// Each field 0.
    pub const ZERO: Self = Self {
        record_handle: 0,
        change_number: 0,
        terminus_handle: 0,
        sensor_id: 0,
        entity: Entity::ZERO,
        init: 0,
        has_auxiliary_names: 0,
        count: 0,
        sets: [PossibleStates::ZERO; STATES],
    };
}

impl Default for StateSensor {
    fn default() -> Self {
        Self::ZERO
    }
}

/// A state effecter (DSP0248, PDR type 11).
#[repr(C)]
#[derive(Clone, Copy, Debug, PartialEq, Eq, Hash)]
pub struct StateEffecter {
    /// Its handle, not 0, and another one than that of each other record.
    pub record_handle: u32,
    /// Its change number.
    pub change_number: u16,
    /// The terminus, as the record of its place has it.
    pub terminus_handle: u16,
    /// The ID by which the effecter is asked.
    pub effecter_id: u16,
    /// What it sets.
    pub entity: Entity,
    /// What setting it means, a number of DSP0248, or 0.
    pub semantic_id: u16,
    /// How it is made ready: 0 it needs nothing.
    pub init: u8,
    /// Whether a record that describes it goes with it: 0 no, 1 yes.
    pub has_description: u8,
    /// How many of `sets` there are, 1 to 8.
    pub count: u8,
    /// Its sensors or effecters: the first `count`.
    pub sets: [PossibleStates; STATES],
}

impl StateEffecter {
    /// Each field 0.
    pub const ZERO: Self = Self {
        record_handle: 0,
        change_number: 0,
        terminus_handle: 0,
        effecter_id: 0,
        entity: Entity::ZERO,
        semantic_id: 0,
        init: 0,
        has_description: 0,
        count: 0,
        sets: [PossibleStates::ZERO; STATES],
    };
}

impl Default for StateEffecter {
    fn default() -> Self {
        Self::ZERO
    }
}

/// The name of a sensor (DSP0248, PDR type 6): one, in English, of a sensor that is not composite.
#[repr(C)]
#[derive(Clone, Copy, Debug, PartialEq, Eq, Hash)]
pub struct SensorName {
    /// Its handle, not 0, and another one than that of each other record.
    pub record_handle: u32,
    /// How many code units of `text` there are, at most 127.
    pub length: u32,
    /// Its change number.
    pub change_number: u16,
    /// The terminus, as the record of its place has it.
    pub terminus_handle: u16,
    /// The ID by which the sensor is asked.
    pub sensor_id: u16,
    /// UTF-16; none of them is 0.
    pub text: [u16; NAME_UNITS],
}

impl SensorName {
    /// Each field 0.
    pub const ZERO: Self =
        Self { record_handle: 0, length: 0, change_number: 0, terminus_handle: 0, sensor_id: 0, text: [0; NAME_UNITS] };
}

impl Default for SensorName {
    fn default() -> Self {
        Self::ZERO
    }
}

/// The name of an effecter (DSP0248, PDR type 13): one, in English, of an effecter that is not composite.
#[repr(C)]
#[derive(Clone, Copy, Debug, PartialEq, Eq, Hash)]
pub struct EffecterName {
    /// Its handle, not 0, and another one than that of each other record.
    pub record_handle: u32,
    /// How many code units of `text` there are, at most 127.
    pub length: u32,
    /// Its change number.
    pub change_number: u16,
    /// The terminus, as the record of its place has it.
    pub terminus_handle: u16,
    /// The ID by which the effecter is asked.
    pub effecter_id: u16,
    /// UTF-16; none of them is 0.
    pub text: [u16; NAME_UNITS],
}

impl EffecterName {
    /// Each field 0.
    pub const ZERO: Self = Self {
        record_handle: 0,
        length: 0,
        change_number: 0,
        terminus_handle: 0,
        effecter_id: 0,
        text: [0; NAME_UNITS],
    };
}

impl Default for EffecterName {
    fn default() -> Self {
        Self::ZERO
    }
}

/// The name of an entity (DSP0248, PDR type 16): one, in English.
#[repr(C)]
#[derive(Clone, Copy, Debug, PartialEq, Eq, Hash)]
pub struct EntityName {
    /// Its handle, not 0, and another one than that of each other record.
    pub record_handle: u32,
    /// How many code units of `text` there are, at most 127.
    pub length: u32,
    /// Its change number.
    pub change_number: u16,
    /// Of the overall container, the name of the terminus.
    pub entity: Entity,
    /// UTF-16; none of them is 0.
    pub text: [u16; NAME_UNITS],
}

impl EntityName {
    /// Each field 0.
    pub const ZERO: Self =
        Self { record_handle: 0, length: 0, change_number: 0, entity: Entity::ZERO, text: [0; NAME_UNITS] };
}

impl Default for EntityName {
    fn default() -> Self {
        Self::ZERO
    }
}
