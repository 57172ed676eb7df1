//! Each function of `include/needleoat.h` is declared and has a safe call, each struct lies as the header asserts,
//! and the numbers are those of the header.

use std::collections::BTreeSet;

const HEADER: &str = include_str!("../../../include/needleoat.h");
const RAW: &str = include_str!("../src/raw.rs");
const MEMORY: &str = include_str!("../src/memory.rs");
const LAYOUT: &str = include_str!("../src/layout.rs");
const NUMBERS: &str = include_str!("../src/numbers.rs");

/// The safe call for each function of the header. A path that is not there does not compile.
macro_rules! calls {
    ($($function:ident => $call:expr;)*) => {{
        $(let _ = $call;)*
        BTreeSet::from([$(stringify!($function)),*])
    }};
}

fn with_a_safe_call() -> BTreeSet<&'static str> {
    use needleoat::{Endpoint, Firmware, Record, Requester, Terminus};
    calls! {
        needleoat_packet_read => needleoat::packet_read;
        needleoat_packet_count => needleoat::packet_count;
        needleoat_packet_write => needleoat::packet_write;
        needleoat_request_read => needleoat::request_read;
        needleoat_response_read => needleoat::response_read;
        needleoat_command_read => needleoat::command_read;
        needleoat_command_write => needleoat::command_write;
        needleoat_answer_read => needleoat::answer_read;
        needleoat_answer_check => needleoat::answer_check;
        needleoat_answer_write => needleoat::answer_write;
        needleoat_crc8 => needleoat::crc8;
        needleoat_base_answer => needleoat::base_answer;
        needleoat_crc32 => needleoat::crc32;
        needleoat_terminus_locator_record_write => <needleoat::TerminusLocator as Record>::record_write;
        needleoat_numeric_sensor_record_write => <needleoat::NumericSensor as Record>::record_write;
        needleoat_numeric_effecter_record_write => <needleoat::NumericEffecter as Record>::record_write;
        needleoat_state_sensor_record_write => <needleoat::StateSensor as Record>::record_write;
        needleoat_state_effecter_record_write => <needleoat::StateEffecter as Record>::record_write;
        needleoat_sensor_name_record_write => <needleoat::SensorName as Record>::record_write;
        needleoat_effecter_name_record_write => <needleoat::EffecterName as Record>::record_write;
        needleoat_entity_name_record_write => <needleoat::EntityName as Record>::record_write;
        needleoat_records_answer => needleoat::records_answer;
        needleoat_i2c_write => needleoat::i2c_write;
        needleoat_i2c_read => needleoat::i2c_read;
        needleoat_i3c_write => needleoat::i3c_write;
        needleoat_i3c_read => needleoat::i3c_read;
        needleoat_endpoint_new => Endpoint::make;
        needleoat_endpoint_receive => Endpoint::receive;
        needleoat_endpoint_eid => Endpoint::eid;
        needleoat_endpoint_answer => Endpoint::answer;
        needleoat_endpoint_request => Endpoint::request;
        needleoat_endpoint_answer_bytes => Endpoint::answer_bytes;
        needleoat_endpoint_restart => Endpoint::restart;
        needleoat_endpoint_free => Endpoint::free;
        needleoat_requester_new => Requester::make;
        needleoat_requester_open => Requester::open;
        needleoat_requester_open_request => Requester::open_request;
        needleoat_requester_tick => Requester::tick;
        needleoat_requester_next_deadline => Requester::next_deadline;
        needleoat_requester_receive => Requester::receive;
        needleoat_requester_packet => Requester::packet;
        needleoat_requester_packet_at => Requester::packet_at;
        needleoat_requester_status => Requester::status;
        needleoat_requester_free => Requester::free;
        needleoat_terminus_new => Terminus::make;
        needleoat_terminus_receive => Terminus::receive;
        needleoat_terminus_answer => Terminus::answer;
        needleoat_terminus_request => Terminus::request;
        needleoat_terminus_answer_bytes => Terminus::answer_bytes;
        needleoat_terminus_open => Terminus::open;
        needleoat_terminus_open_request => Terminus::open_request;
        needleoat_terminus_tick => Terminus::tick;
        needleoat_terminus_next_deadline => Terminus::next_deadline;
        needleoat_terminus_packet => Terminus::packet;
        needleoat_terminus_status => Terminus::status;
        needleoat_terminus_restart => Terminus::restart;
        needleoat_terminus_free => Terminus::free;
        needleoat_firmware_new => Firmware::make;
        needleoat_firmware_component => needleoat::component_of;
        needleoat_firmware_receive => Firmware::receive;
        needleoat_firmware_wish => Firmware::wish;
        needleoat_firmware_opened => Firmware::opened;
        needleoat_firmware_answered => Firmware::answered;
        needleoat_firmware_gave_up => Firmware::gave_up;
        needleoat_firmware_done => Firmware::done;
        needleoat_firmware_tick => Firmware::tick;
        needleoat_firmware_stage => Firmware::stage;
        needleoat_firmware_free => Firmware::free;
    }
}

/// The header without its comments.
fn code() -> String {
    let mut code = String::new();
    let mut rest = HEADER;
    while let Some((before, after)) = rest.split_once("/*") {
        code.push_str(before);
        rest = after.split_once("*/").map_or("", |(_, after)| after);
    }
    code + rest
}

/// The functions that the header declares: a name before a parenthesis, on a line that begins with its result's type.
fn functions(code: &str) -> BTreeSet<&str> {
    let results = ["struct needleoat_", "uint8_t ", "uint32_t ", "bool ", "void "];
    let declared = code.lines().filter(|line| results.iter().any(|result| line.starts_with(result)));
    let names = declared.filter_map(|line| line.split_once('(')).filter_map(|(front, _)| front.split(' ').next_back());
    names.collect()
}

/// The functions that a source file has.
fn in_source(source: &'static str) -> BTreeSet<&'static str> {
    source.split("fn ").skip(1).filter_map(|after| after.split_once('(')).map(|(name, _)| name).collect()
}

#[test]
fn each_function_is_declared_and_called() {
    let code = code();
    let functions = functions(&code);
    assert_eq!(functions.len(), 71, "the test reads the header: 68 calls and three of memory");
    let (memory, calls): (BTreeSet<&str>, BTreeSet<&str>) =
        functions.iter().partition(|name| name.starts_with("rattle_"));
    assert_eq!(calls, with_a_safe_call());
    let declared: BTreeSet<&str> = in_source(RAW).into_iter().filter(|name| name.starts_with("needleoat_")).collect();
    assert_eq!(calls, declared);
    assert!(memory.is_subset(&in_source(MEMORY)), "{memory:?}");
}

/// A name of the header as the crate has it: `needleoat_numeric_sensor` is `NumericSensor`.
fn in_rust(name: &str) -> String {
    let words = name.trim_start_matches("needleoat_").split('_');
    words.map(|word| word[..1].to_uppercase() + &word[1..]).collect()
}

/// The crate's name of a struct: all handles are alike.
fn struct_name(name: &str) -> String {
    match name {
        "needleoat_endpoint" | "needleoat_requester" | "needleoat_terminus" | "needleoat_firmware" => {
            "Handle".to_owned()
        }
        name => in_rust(name),
    }
}

/// The words of `src/layout.rs` for the facts that the header asserts.
#[test]
fn each_struct_lies_as_the_header_asserts() {
    let mut facts = 0;
    for line in HEADER.lines() {
        if let Some(fact) = line.strip_prefix("NEEDLEOAT_ASSERT(sizeof(struct ") {
            let (name, size) = fact.trim_end_matches(");").split_once(") == ").expect("a size");
            let name = struct_name(name);
            assert!(LAYOUT.contains(&format!("    {name} {size} {{\n")), "{name} {size}");
            facts += 1;
        } else if let Some(fact) = line.strip_prefix("NEEDLEOAT_AT(") {
            let words: Vec<&str> = fact.trim_end_matches(");").split(", ").collect();
            let [name, field, place] = words[..] else { panic!("{line}") };
            let name = struct_name(name);
            let (_, fields) = LAYOUT.split_once(&format!("    {name} ")).expect("a struct");
            let (fields, _) = fields.split_once('}').expect("its end");
            assert!(fields.contains(&format!(" {field} {place},")), "{name} {field} {place}");
            facts += 1;
        }
    }
    assert!(facts > 200, "{facts} facts");
}

/// The part of a text between two others.
fn between<'a>(text: &'a str, front: &str, end: &str) -> &'a str {
    let (_, after) = text.split_once(front).expect("its front");
    after.split_once(end).expect("its end").0
}

/// The enums of the header, the crate's name of each, and what their names begin with.
const ENUMS: [(&str, &str, &str); 7] = [
    ("needleoat_reason", "Reason", "NEEDLEOAT_"),
    ("needleoat_answer_fault", "AnswerFault", "NEEDLEOAT_"),
    ("needleoat_records_fault", "RecordsFault", "NEEDLEOAT_RECORDS_"),
    ("needleoat_i2c_fault", "I2cFault", "NEEDLEOAT_I2C_"),
    ("needleoat_i3c_fault", "I3cFault", "NEEDLEOAT_I3C_"),
    ("needleoat_refusal", "Refusal", "NEEDLEOAT_"),
    ("needleoat_update_stage", "UpdateStage", "NEEDLEOAT_UPDATE_"),
];

#[test]
fn the_numbers_are_those_of_the_header() {
    let mut numbers = 0;
    for (name, in_crate, front) in ENUMS {
        let known = between(NUMBERS, &format!("    {in_crate} {{\n"), "\n    }");
        for line in between(HEADER, &format!("enum {name} {{\n"), "};").lines() {
            let Some((name, after)) = line.trim().split_once(" = ") else { continue };
            let number: String = after.chars().take_while(char::is_ascii_digit).collect();
            let name = in_rust(&name.strip_prefix(front).expect("its front").to_lowercase());
            assert!(known.contains(&format!(" {name} = {number},")), "{in_crate}: {name} = {number}");
            numbers += 1;
        }
    }
    assert_eq!(numbers, 21 + 7 + 2 + 7 + 3 + 18 + 16);
}

/// The constants of the crate, and those of the header.
#[test]
fn the_constants_are_those_of_the_header() {
    use needleoat::{bounds, busy, command, completion_code, data_size};
    let constants = [
        ("PACKET_BYTES", bounds::PACKET_BYTES),
        ("PACKETS", bounds::PACKETS),
        ("MESSAGE_BYTES", bounds::MESSAGE_BYTES),
        ("REQUEST_BYTES", bounds::REQUEST_BYTES),
        ("REQUEST_DATA", bounds::REQUEST_DATA),
        ("RESPONSE_DATA", bounds::RESPONSE_DATA),
        ("PART_BYTES", bounds::PART_BYTES),
        ("STATES", bounds::STATES),
        ("RECORD_BYTES", bounds::RECORD_BYTES),
        ("NAME_UNITS", bounds::NAME_UNITS),
        ("I2C_FRAME_BYTES", bounds::I2C_FRAME_BYTES),
        ("I3C_FRAME_BYTES", bounds::I3C_FRAME_BYTES),
        ("BASE", command::BASE.into()),
        ("SET_TID", command::SET_TID.into()),
        ("GET_TID", command::GET_TID.into()),
        ("GET_PLDM_VERSION", command::GET_PLDM_VERSION.into()),
        ("GET_PLDM_TYPES", command::GET_PLDM_TYPES.into()),
        ("GET_PLDM_COMMANDS", command::GET_PLDM_COMMANDS.into()),
        ("PLATFORM", command::PLATFORM.into()),
        ("GET_SENSOR_READING", command::GET_SENSOR_READING.into()),
        ("GET_STATE_SENSOR_READINGS", command::GET_STATE_SENSOR_READINGS.into()),
        ("SET_NUMERIC_EFFECTER_VALUE", command::SET_NUMERIC_EFFECTER_VALUE.into()),
        ("GET_NUMERIC_EFFECTER_VALUE", command::GET_NUMERIC_EFFECTER_VALUE.into()),
        ("SET_STATE_EFFECTER_STATES", command::SET_STATE_EFFECTER_STATES.into()),
        ("GET_STATE_EFFECTER_STATES", command::GET_STATE_EFFECTER_STATES.into()),
        ("GET_PDR_REPOSITORY_INFO", command::GET_PDR_REPOSITORY_INFO.into()),
        ("GET_PDR", command::GET_PDR.into()),
        ("FIRMWARE_UPDATE", command::FIRMWARE_UPDATE.into()),
        ("FIRMWARE_ANSWER_DATA", bounds::RESPONSE_DATA),
        ("CODE_SUCCESS", completion_code::SUCCESS.into()),
        ("CODE_ERROR", completion_code::ERROR.into()),
        ("CODE_INVALID_DATA", completion_code::INVALID_DATA.into()),
        ("CODE_INVALID_LENGTH", completion_code::INVALID_LENGTH.into()),
        ("CODE_NOT_READY", completion_code::NOT_READY.into()),
        ("CODE_UNSUPPORTED_PLDM_CMD", completion_code::UNSUPPORTED_PLDM_CMD.into()),
        ("CODE_INVALID_PLDM_TYPE", completion_code::INVALID_PLDM_TYPE.into()),
        ("CODE_INVALID_DATA_TRANSFER_HANDLE", completion_code::INVALID_DATA_TRANSFER_HANDLE.into()),
        ("CODE_INVALID_TRANSFER_OPERATION_FLAG", completion_code::INVALID_TRANSFER_OPERATION_FLAG.into()),
        ("CODE_INVALID_PLDM_TYPE_IN_REQUEST_DATA", completion_code::INVALID_PLDM_TYPE_IN_REQUEST_DATA.into()),
        ("CODE_INVALID_PLDM_VERSION_IN_REQUEST_DATA", completion_code::INVALID_PLDM_VERSION_IN_REQUEST_DATA.into()),
        ("CODE_INVALID_SENSOR_ID", completion_code::INVALID_SENSOR_ID.into()),
        ("CODE_INVALID_EFFECTER_ID", completion_code::INVALID_EFFECTER_ID.into()),
        ("CODE_INVALID_STATE_VALUE", completion_code::INVALID_STATE_VALUE.into()),
        ("CODE_INVALID_RECORD_HANDLE", completion_code::INVALID_RECORD_HANDLE.into()),
        ("CODE_INVALID_RECORD_CHANGE_NUMBER", completion_code::INVALID_RECORD_CHANGE_NUMBER.into()),
        ("UINT8", data_size::UINT8.into()),
        ("SINT8", data_size::SINT8.into()),
        ("UINT16", data_size::UINT16.into()),
        ("SINT16", data_size::SINT16.into()),
        ("UINT32", data_size::UINT32.into()),
        ("SINT32", data_size::SINT32.into()),
        ("BUSY_ALL", busy::ALL as usize),
        ("BUSY_SETS", busy::SETS as usize),
    ];
    for (name, number) in constants {
        let digits = between(HEADER, &format!("    NEEDLEOAT_{name} = "), "\n");
        let digits: String = digits.chars().take_while(|c| c.is_ascii_hexdigit() || *c == 'x').collect();
        let in_header = match digits.strip_prefix("0x") {
            Some(digits) => usize::from_str_radix(digits, 16),
            None => digits.parse(),
        };
        assert_eq!(in_header, Ok(number), "{name}");
    }
    assert_eq!(between(HEADER, "enum { NEEDLEOAT_REAL32 = ", " }"), data_size::REAL32.to_string());
}
