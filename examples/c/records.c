/*
 * The platform data records of a small board: each kind is written once, into one array; then the array is asked, as a
 * BMC asks a device. The bytes in records.expected are those of the layouts of DSP0248.
 */
#include "needleoat.h"
#include <inttypes.h>
#include <stdio.h>

enum { TERMINUS = 1, PART = 40 };

#define BOARD {.entity_type = 64, .instance = 1, .container_id = 100}
#define ONE 0x3f800000 /* 1.0 */

static const struct needleoat_terminus_locator locator = {
    .record_handle = 1, .terminus_handle = TERMINUS, .container_id = 100, .is_valid = 1, .tid = 5, .eid = 9};

/* A temperature in tenths of a degree C. */
static const struct needleoat_numeric_sensor temperature = {
    .record_handle = 2,
    .change_number = 0x0201,
    .terminus_handle = TERMINUS,
    .sensor_id = 0x0403,
    .entity = BOARD,
    .has_auxiliary_names = 1,
    .supported_thresholds = 0x1b,
    .threshold_and_hysteresis_volatility = 5,
    .units = {.base_unit = 2, .unit_modifier = -1},
    .conversion = {.resolution = ONE, .accuracy = 500, .plus_tolerance = 1, .minus_tolerance = 2, .is_linear = 1,
                   .size = NEEDLEOAT_SINT16},
    .state_transition_interval = 0x3f000000,
    .update_interval = ONE,
    .hysteresis = 5,
    .max_readable = 1250,
    .min_readable = -400,
    .range = {.format = NEEDLEOAT_SINT8, .support = 0x7f, .nominal = 25, .normal_max = 50, .normal_min = -10,
              .warning_high = 70, .warning_low = -20, .critical_high = 85, .critical_low = -30, .fatal_high = 100,
              .fatal_low = -40},
};

/* Its health, and whether it is there: states 1 to 3 of the set 1, and 1 and 8 of the set 13. */
static const struct needleoat_state_sensor health = {
    .record_handle = 3,
    .terminus_handle = TERMINUS,
    .sensor_id = 2,
    .entity = BOARD,
    .init = 1,
    .count = 2,
    .sets = {{.state_set = 1, .size = 1, .states = {0x0e}}, {.state_set = 13, .size = 2, .states = {0x02, 0x01}}},
};

/* A fan in percent. */
static const struct needleoat_numeric_effecter fan = {
    .record_handle = 4,
    .terminus_handle = TERMINUS,
    .effecter_id = 1,
    .entity = {.entity_type = 29, .instance = 2, .container_id = 100},
    .semantic_id = 0x0605,
    .has_auxiliary_names = 1,
    .units = {.base_unit = 65},
    .conversion = {.resolution = ONE, .is_linear = 1, .size = NEEDLEOAT_UINT8},
    .transition_interval = 0x40000000,
    .max_settable = 100,
    .range = {.format = NEEDLEOAT_REAL32, .support = 0x1f, .nominal = 0x42480000, .normal_max = 0x42c80000,
              .normal_min = 0x41a00000, .rated_max = 0x42c80000},
};

/* A lamp: states 1 and 2 of the set 196. */
static const struct needleoat_state_effecter lamp = {
    .record_handle = 5,
    .terminus_handle = TERMINUS,
    .effecter_id = 2,
    .entity = BOARD,
    .has_description = 1,
    .count = 1,
    .sets = {{.state_set = 196, .size = 1, .states = {0x06}}},
};

static const struct needleoat_sensor_name temperature_name = {
    .record_handle = 6, .terminus_handle = TERMINUS, .sensor_id = 0x0403, .text = u"Inlet", .length = 5};
static const struct needleoat_effecter_name fan_name = {
    .record_handle = 7, .terminus_handle = TERMINUS, .effecter_id = 1, .text = u"Fan \u2160", .length = 5};
static const struct needleoat_entity_name board_name = {
    .record_handle = 8, .entity = BOARD, .text = u"Board", .length = 5};

static uint8_t records[1024];
static uint32_t used;

static void print_bytes(const uint8_t *bytes, uint32_t length) {
    for (uint32_t i = 0; i < length; i++) printf("%02x", bytes[i]);
    printf("\n");
}

/* Prints the record that was written after the others. */
static void print_record(const char *name, uint32_t length) {
    printf("%s: ", name);
    print_bytes(records + used, length);
    used += length;
}

static void write_all(void) {
    print_record("locator", needleoat_terminus_locator_record_write(&locator, records, sizeof records));
    print_record("numeric sensor",
                 needleoat_numeric_sensor_record_write(&temperature, records + used, sizeof records - used));
    print_record("state sensor", needleoat_state_sensor_record_write(&health, records + used, sizeof records - used));
    print_record("numeric effecter",
                 needleoat_numeric_effecter_record_write(&fan, records + used, sizeof records - used));
    print_record("state effecter", needleoat_state_effecter_record_write(&lamp, records + used, sizeof records - used));
    print_record("sensor name",
                 needleoat_sensor_name_record_write(&temperature_name, records + used, sizeof records - used));
    print_record("effecter name",
                 needleoat_effecter_name_record_write(&fan_name, records + used, sizeof records - used));
    print_record("entity name", needleoat_entity_name_record_write(&board_name, records + used, sizeof records - used));
}

/* What is out of range is not written. */
static void write_none(void) {
    struct needleoat_numeric_sensor sensor = temperature;
    sensor.range.fatal_high = 128;
    struct needleoat_numeric_effecter effecter = fan;
    effecter.conversion.size = 6;
    struct needleoat_state_sensor states = health;
    states.sets[1].size = 33;
    struct needleoat_state_effecter no_sets = lamp;
    no_sets.count = 0;
    struct needleoat_entity_name name = board_name;
    name.length = 6;
    struct needleoat_terminus_locator handle = locator;
    handle.record_handle = 0;
    uint8_t *out = records + used;
    const uint64_t room = sizeof records - used;
    printf("refused:");
    printf(" %" PRIu32, needleoat_numeric_sensor_record_write(&sensor, out, room));
    printf(" %" PRIu32, needleoat_numeric_effecter_record_write(&effecter, out, room));
    printf(" %" PRIu32, needleoat_state_sensor_record_write(&states, out, room));
    printf(" %" PRIu32, needleoat_state_effecter_record_write(&no_sets, out, room));
    printf(" %" PRIu32, needleoat_entity_name_record_write(&name, out, room));
    printf(" %" PRIu32, needleoat_terminus_locator_record_write(&handle, out, room));
    printf(" %" PRIu32, needleoat_terminus_locator_record_write(&locator, out, 18));
    printf(" %" PRIu32 "\n", needleoat_terminus_locator_record_write(&locator, out, 19));
}

/* Another value in each field, of records that are sent to nobody. */
static void write_each_field(void) {
    static const struct needleoat_numeric_sensor sensor = {
        .record_handle = 0x04030201, .change_number = 0x0605, .terminus_handle = 0x0807, .sensor_id = 0x0a09,
        .entity = {.entity_type = 0x0c0b, .instance = 0x0e0d, .container_id = 0x100f},
        .init = 0x11, .has_auxiliary_names = 1, .rel = 0x19, .auxiliary_oem_unit_handle = 0x1a,
        .supported_thresholds = 0x28, .threshold_and_hysteresis_volatility = 0x29,
        .units = {.base_unit = 0x12, .unit_modifier = 0x13, .rate_unit = 0x14, .base_oem_unit_handle = 0x15,
                  .auxiliary_unit = 0x16, .auxiliary_unit_modifier = -0x17, .auxiliary_rate_unit = 0x18},
        .conversion = {.resolution = 0x1e1d1c1b, .offset = 0x2221201f, .accuracy = 0x2423, .plus_tolerance = 0x25,
                       .minus_tolerance = 0x26, .is_linear = 1, .size = NEEDLEOAT_UINT8},
        .state_transition_interval = 0x2d2c2b2a, .update_interval = 0x31302f2e,
        .hysteresis = 0x27, .max_readable = 0x32, .min_readable = 0x33,
        .range = {.format = NEEDLEOAT_UINT16, .support = 0x34, .nominal = 0x3635, .normal_max = 0x3837,
                  .normal_min = 0x3a39, .warning_high = 0x3c3b, .warning_low = 0x3e3d, .critical_high = 0x403f,
                  .critical_low = 0x4241, .fatal_high = 0x4443, .fatal_low = 0x4645},
    };
    static const struct needleoat_numeric_effecter effecter = {
        .record_handle = 0x04030201, .change_number = 0x0605, .terminus_handle = 0x0807, .effecter_id = 0x0a09,
        .entity = {.entity_type = 0x0c0b, .instance = 0x0e0d, .container_id = 0x100f},
        .semantic_id = 0x1211, .init = 0x13, .auxiliary_oem_unit_handle = 0x1b,
        .units = {.base_unit = 0x14, .unit_modifier = 0x15, .rate_unit = 0x16, .base_oem_unit_handle = 0x17,
                  .auxiliary_unit = 0x18, .auxiliary_unit_modifier = 0x19, .auxiliary_rate_unit = 0x1a},
        .conversion = {.resolution = 0x1f1e1d1c, .offset = 0x23222120, .accuracy = 0x2524, .plus_tolerance = 0x26,
                       .minus_tolerance = 0x27, .size = NEEDLEOAT_SINT32},
        .state_transition_interval = 0x2b2a2928, .transition_interval = 0x2f2e2d2c,
        .max_settable = 0x33323130, .min_settable = -2,
        .range = {.format = NEEDLEOAT_UINT32, .support = 0x34, .nominal = 0x38373635, .normal_max = 0x3c3b3a39,
                  .normal_min = 0x403f3e3d, .rated_max = 0x44434241, .rated_min = 0x48474645},
    };
    static const struct needleoat_state_effecter states = {
        .record_handle = 0x04030201, .change_number = 0x0605, .terminus_handle = 0x0807, .effecter_id = 0x0a09,
        .entity = {.entity_type = 0x0c0b, .instance = 0x0e0d, .container_id = 0x100f},
        .semantic_id = 0x1211, .init = 0x13, .count = 1,
        .sets = {{.state_set = 0x1514, .size = 3, .states = {0x16, 0x17, 0x18}}},
    };
    static const struct needleoat_terminus_locator other = {
        .record_handle = 0x04030201, .change_number = 0x0605, .terminus_handle = 0x0807, .container_id = 0x0b0a,
        .tid = 0x09, .eid = 0x0c};
    uint8_t out[NEEDLEOAT_RECORD_BYTES];
    print_bytes(out, needleoat_numeric_sensor_record_write(&sensor, out, sizeof out));
    print_bytes(out, needleoat_numeric_effecter_record_write(&effecter, out, sizeof out));
    print_bytes(out, needleoat_state_effecter_record_write(&states, out, sizeof out));
    print_bytes(out, needleoat_terminus_locator_record_write(&other, out, sizeof out));
}

/* When the records were last changed: 2026-01-02 03:04:05 UTC, as timestamp104 of DSP0240 has it. */
static const uint8_t changed[13] = {0, 0, 0, 0, 0, 5, 4, 3, 2, 1, 0xea, 0x07, 0x00};
static const uint8_t never[13];

static uint8_t ask(const struct needleoat_command *command, uint32_t length, struct needleoat_answer *answer) {
    return needleoat_records_answer(records, length, changed, never, command, answer);
}

static void ask_info(void) {
    const struct needleoat_command info = {
        .instance_id = 7, .pldm_type = NEEDLEOAT_PLATFORM, .command = NEEDLEOAT_GET_PDR_REPOSITORY_INFO};
    const struct needleoat_command other = {.pldm_type = NEEDLEOAT_PLATFORM, .command = NEEDLEOAT_GET_SENSOR_READING};
    struct needleoat_answer answer;
    uint8_t response[NEEDLEOAT_MESSAGE_BYTES];
    printf("info: %u ", ask(&info, used, &answer));
    print_bytes(response, needleoat_answer_write(&answer, response));
    printf("cut short: %u, another command: %u\n", ask(&info, used - 1, &answer), ask(&other, used, &answer));
}

/* Asks for a record in parts, and returns the handle of the next one. */
static uint32_t ask_record(uint32_t handle) {
    struct needleoat_command command = {.pldm_type = NEEDLEOAT_PLATFORM,
                                        .command = NEEDLEOAT_GET_PDR,
                                        .record_handle = handle,
                                        .transfer_operation_flag = 1,
                                        .request_count = PART};
    struct needleoat_answer answer;
    do {
        uint8_t fault = ask(&command, used, &answer);
        printf("record %" PRIu32 " from %" PRIu32 ": ", handle, command.data_transfer_handle);
        if (fault != 0 || answer.code != 0) {
            printf("fault %u code %02x\n", fault, answer.code);
            return 0;
        }
        printf("flag %u next %" PRIu32, answer.transfer_flag, answer.next_data_transfer_handle);
        if (answer.transfer_flag == 4) printf(" crc %02x", answer.transfer_crc);
        printf(" ");
        print_bytes(answer.bytes, answer.length);
        command.transfer_operation_flag = 0;
        command.data_transfer_handle = answer.next_data_transfer_handle;
    } while (answer.next_data_transfer_handle != 0);
    return answer.next_record_handle;
}

int main(void) {
    write_all();
    write_none();
    ask_info();
    uint32_t handle = 0; /* the first one */
    do handle = ask_record(handle);
    while (handle != 0);
    ask_record(9);
    write_each_field();
}
