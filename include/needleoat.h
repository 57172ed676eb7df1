/*
 * Needleoat for C: MCTP packets (DSP0236) and PLDM messages (DSP0240, DSP0248) read and written, platform data
 * records (DSP0248) written and answered for, the frames of packets on I2C (DSP0237) and I3C (DSP0233), and both
 * ends.
 *
 * libneedleoat_wire_c.a has what stands before the section on the two ends. It takes no memory, keeps
 * nothing between two calls, and needs memcpy, memmove and memset alone. libneedleoat_c.a has what comes then.
 * Each call returns, whatever the bytes are. docs/PROTOCOL.md has the protocol whole, docs/C.md says
 * what is proved of these calls and how to build the libraries.
 *
 * The caller has to see to the following; nothing checks it. With both libraries:
 *
 *   - Each pointer is valid: to `length` bytes that may be read (one byte at least is there even
 *     where `length` is 0, so never NULL), or to a struct or an array that may be read and written.
 *   - What a call writes to (`fields`, `out`) overlaps nothing else that is passed to it.
 *   - What a call reads does not change until it returns. So a buffer that DMA or an interrupt
 *     writes is copied, or held back from them, before its bytes are passed.
 *   - Two threads may call at once, each with structs and arrays of its own.
 *
 * With the two ends of libneedleoat_c.a also:
 *
 *   - A handle begins as NEEDLEOAT_ENDPOINT_NONE, NEEDLEOAT_REQUESTER_NONE, NEEDLEOAT_TERMINUS_NONE or
 *     NEEDLEOAT_FIRMWARE_NONE. The caller reads and writes no field of it and uses no copy of it; it may stand
 *     anywhere, and may be moved between two calls. One that is forgotten leaks: end with needleoat_endpoint_free,
 *     needleoat_requester_free, needleoat_terminus_free or needleoat_firmware_free.
 *   - One call at a time with one handle. No call from a signal or interrupt handler, nor in the
 *     child of a fork of a process with threads.
 *   - Moments are milliseconds of one clock that never goes back, at most 4,000,000,000,000,000. A
 *     counter of 32 bits goes back after 49 days. It is extended so, where this is called once in 49
 *     days at least:
 *
 *         static uint64_t now_ms;
 *         uint64_t moment(void) {
 *             return now_ms += (uint32_t)(ticks() - (uint32_t)now_ms);    // uint32_t ticks(void)
 *         }
 *
 *   - rattle_alloc, rattle_realloc and rattle_dealloc are there (at the end of this file). Each
 *     always returns, leaves by no longjmp and no exception, and calls nothing of this library. A
 *     block is aligned as asked for and lies apart from all else, also from every other block, until
 *     it is given back. rattle_realloc keeps the first `kept` bytes, and gives the old block back
 *     where it gives another one; where it gives none, the old block is as it was. Where two threads
 *     call this library, the three functions are safe for two threads: they are over malloc
 *     (examples/c/heap.c), and are not over an array without a lock (examples/c/pool_heap.c).
 *   - While a command or a request is pending, its endpoint is restarted and never freed and made
 *     anew: the numbers of a new endpoint begin at 0, so a handle of the old one could be taken for
 *     that of another command, and the answer would go to that one.
 *
 * Numbers in structs are in the byte order of the processor. A `length` or `count` is in bytes where
 * nothing else is said. In the structs and the results it is a uint32_t, and the length that goes
 * with a pointer is a uint64_t, on every processor. Where a call says that it leaves something as it
 * was, no byte of it changed.
 */
#ifndef NEEDLEOAT_H
#define NEEDLEOAT_H

#include <stdbool.h>
#include <stddef.h>
#include <stdint.h>

#ifdef __cplusplus
#define NEEDLEOAT_ASSERT(fact) static_assert(fact, #fact)
#define NEEDLEOAT_ALIGNED alignas(8)
extern "C" {
#else
#define NEEDLEOAT_ASSERT(fact) _Static_assert(fact, #fact)
#define NEEDLEOAT_ALIGNED _Alignas(8)
#endif

enum {
    NEEDLEOAT_PACKET_BYTES = 68,   /* the most bytes of a packet: a header of 4 and a payload of 64 */
    NEEDLEOAT_PACKETS = 5,         /* the most packets of a message */
    NEEDLEOAT_MESSAGE_BYTES = 320, /* the most bytes of a message */
    NEEDLEOAT_REQUEST_BYTES = 23,  /* the most bytes of a request that needleoat_command_write writes */
    NEEDLEOAT_REQUEST_DATA = 316,  /* the most bytes of a request's data: a message without its header */
    NEEDLEOAT_RESPONSE_DATA = 315, /* the most bytes of a response's data: a message without its header and code */
    NEEDLEOAT_PART_BYTES = 303,    /* the most bytes of a record in one GetPDR answer */
    NEEDLEOAT_STATES = 8,          /* the most fields of a state sensor or effecter */
    NEEDLEOAT_RECORD_BYTES = 305,  /* the most bytes of a record that is written here */
    NEEDLEOAT_NAME_UNITS = 127,    /* the most code units of a name: 256 bytes with its end (DSP0240) */
    NEEDLEOAT_I2C_FRAME_BYTES = 259, /* the most bytes of a frame on I2C: 4, a packet of 254, and the PEC */
    NEEDLEOAT_I3C_FRAME_BYTES = 255  /* the most bytes of a frame on I3C: a packet of 254, and the PEC */
};

/* Reasons to drop a packet or a message, in the order of the checks, but 18 before 17. 0 is none. */
enum needleoat_reason {
    NEEDLEOAT_SHORT = 1,               /* the packet has fewer than 4 bytes */
    NEEDLEOAT_BAD_VERSION = 2,         /* its header version is not 1 */
    NEEDLEOAT_UNKNOWN_DESTINATION = 3, /* its destination is not 8 to 254, or not the own endpoint ID */
    NEEDLEOAT_BAD_SOURCE = 4,          /* its source is not 8 to 254, or is the own endpoint ID */
    NEEDLEOAT_NO_PAYLOAD = 5,          /* it has no payload */
    NEEDLEOAT_UNSUPPORTED_UNIT = 6,    /* its payload has more than 64 bytes */
    NEEDLEOAT_BAD_TAG = 7,             /* at a device TO is 0; at a requester TO is 1, or no open request has it */
    NEEDLEOAT_UNEXPECTED_MIDDLE_OR_END = 8,   /* a middle or end packet where no message is in progress */
    NEEDLEOAT_OUT_OF_SEQUENCE = 9,     /* its number is not the last one plus 1 modulo 4 */
    NEEDLEOAT_TOO_LONG = 10,           /* 5 packets of the message are there already */
    NEEDLEOAT_WRONG_UNIT = 11,         /* a middle packet of another length than the first, or a longer end */
    NEEDLEOAT_NOT_PLDM = 12,           /* the message type is not 1 */
    NEEDLEOAT_INTEGRITY = 13,          /* the integrity bit is set */
    NEEDLEOAT_SHORT_HEADER = 14,       /* no byte; or fewer than 4 of a request, than 5 of a response */
    NEEDLEOAT_BAD_PLDM_HEADER = 15,    /* the header version is not 0 */
    NEEDLEOAT_NOT_REQUEST = 16,        /* Rq is 0 */
    NEEDLEOAT_DATAGRAM = 17,           /* D is 1 */
    NEEDLEOAT_NOT_RESPONSE = 18,       /* Rq is 1 */
    NEEDLEOAT_NOT_MINE = 19,           /* another instance ID, PLDM type or command than the request's */
    NEEDLEOAT_NOT_READY = 20,          /* the completion code is 0x04: the request stays open */
    NEEDLEOAT_NOT_AN_ENDPOINT = 255    /* the own endpoint ID is not 8 to 254, so nothing was read */
};

/*
 * Completion codes by the names of DSP0240 ("Generic PLDM completion codes") and, from 0x80 on, of the commands that
 * have them (DSP0240, DSP0248): there one number means another thing for each command.
 */
enum needleoat_completion_code {
    NEEDLEOAT_CODE_SUCCESS = 0x00,
    NEEDLEOAT_CODE_ERROR = 0x01,
    NEEDLEOAT_CODE_INVALID_DATA = 0x02,
    NEEDLEOAT_CODE_INVALID_LENGTH = 0x03,
    NEEDLEOAT_CODE_NOT_READY = 0x04,
    NEEDLEOAT_CODE_UNSUPPORTED_PLDM_CMD = 0x05,
    NEEDLEOAT_CODE_INVALID_PLDM_TYPE = 0x20,
    NEEDLEOAT_CODE_INVALID_DATA_TRANSFER_HANDLE = 0x80,  /* GetPLDMVersion, GetPDR */
    NEEDLEOAT_CODE_INVALID_TRANSFER_OPERATION_FLAG = 0x81, /* GetPLDMVersion, GetPDR */
    NEEDLEOAT_CODE_INVALID_PLDM_TYPE_IN_REQUEST_DATA = 0x83, /* GetPLDMVersion, GetPLDMCommands */
    NEEDLEOAT_CODE_INVALID_PLDM_VERSION_IN_REQUEST_DATA = 0x84, /* GetPLDMCommands */
    NEEDLEOAT_CODE_INVALID_SENSOR_ID = 0x80,             /* GetSensorReading, GetStateSensorReadings */
    NEEDLEOAT_CODE_INVALID_EFFECTER_ID = 0x80,           /* the commands of effecters */
    NEEDLEOAT_CODE_INVALID_STATE_VALUE = 0x81,           /* SetStateEffecterStates */
    NEEDLEOAT_CODE_INVALID_RECORD_HANDLE = 0x82,         /* GetPDR */
    NEEDLEOAT_CODE_INVALID_RECORD_CHANGE_NUMBER = 0x83   /* GetPDR */
};

/* ---- Packets ---- */

/* A packet's fields. Where `reason` is not 0 the others have no meaning. The payload begins at byte 4. */
struct needleoat_packet {
    uint8_t reason;          /* 0, or enum needleoat_reason: 1 to 6, or 255 */
    uint8_t destination;     /* endpoint IDs, 8 to 254 */
    uint8_t source;
    uint8_t tag;             /* message tag, 0 to 7 */
    uint8_t seq;             /* packet sequence number, 0 to 3 */
    bool owner;              /* TO: the source chose the tag, so it is a request's packet */
    bool start;              /* SOM: the packet starts a message */
    bool end;                /* EOM: the packet ends a message */
    uint32_t payload_length; /* 1 to 64 bytes */
};

/* Reads a packet at the endpoint `own`. */
struct needleoat_packet needleoat_packet_read(uint8_t own, const uint8_t *bytes, uint64_t length);

/* How many packets a message of so many bytes has: 1 to 5, and 0 of no bytes or of more than 320. */
uint32_t needleoat_packet_count(uint32_t message_length);

/*
 * Writes packet `index` of a message, counted from 0, to the front of `out`, and returns its length
 * in bytes, 5 to 68. It returns 0 and leaves `out` as it was where `destination` or `source` is not 8
 * to 254, where `tag` is above 7, where the message has more than 320 bytes, and where `index` is not
 * below needleoat_packet_count of its length. `owner` is true in a request and false in a response.
 */
uint32_t needleoat_packet_write(uint8_t destination, uint8_t source, bool owner, uint8_t tag, const uint8_t *message,
                                uint64_t length, uint32_t index, uint8_t out[NEEDLEOAT_PACKET_BYTES]);

/* ---- Messages ---- */

/*
 * A message's header. Where `reason` is not 0 the others have no meaning. A request's data begins at
 * byte 4 of the message, a response's at byte 5.
 */
struct needleoat_message {
    uint8_t reason;       /* 0, or enum needleoat_reason: 12 to 18 */
    uint8_t instance_id;  /* 0 to 31 */
    uint8_t pldm_type;    /* 0 to 63 */
    uint8_t command;      /* the command's number in that type */
    uint8_t code;         /* a response's completion code; of a request 0 */
    uint32_t data_length; /* in bytes; UINT32_MAX where there are more */
};

struct needleoat_message needleoat_request_read(const uint8_t *message, uint64_t length);
struct needleoat_message needleoat_response_read(const uint8_t *message, uint64_t length);

/* ---- Commands ---- */

/* PLDM types and, in each, the commands of this profile. */
enum {
    NEEDLEOAT_BASE = 0,
    NEEDLEOAT_SET_TID = 0x01,
    NEEDLEOAT_GET_TID = 0x02,
    NEEDLEOAT_GET_PLDM_VERSION = 0x03,
    NEEDLEOAT_GET_PLDM_TYPES = 0x04,
    NEEDLEOAT_GET_PLDM_COMMANDS = 0x05,
    NEEDLEOAT_PLATFORM = 2,
    NEEDLEOAT_GET_SENSOR_READING = 0x11,
    NEEDLEOAT_GET_STATE_SENSOR_READINGS = 0x21,
    NEEDLEOAT_SET_NUMERIC_EFFECTER_VALUE = 0x31,
    NEEDLEOAT_GET_NUMERIC_EFFECTER_VALUE = 0x32,
    NEEDLEOAT_SET_STATE_EFFECTER_STATES = 0x39,
    NEEDLEOAT_GET_STATE_EFFECTER_STATES = 0x3a,
    NEEDLEOAT_GET_PDR_REPOSITORY_INFO = 0x50,
    NEEDLEOAT_GET_PDR = 0x51
};

/* Data sizes of numeric sensors and effecters. A value fits its size, signed in two's complement. */
enum {
    NEEDLEOAT_UINT8 = 0,
    NEEDLEOAT_SINT8 = 1,
    NEEDLEOAT_UINT16 = 2,
    NEEDLEOAT_SINT16 = 3,
    NEEDLEOAT_UINT32 = 4,
    NEEDLEOAT_SINT32 = 5
};

/* One field of SetStateEffecterStates. */
struct needleoat_set_state {
    uint8_t set_request; /* 0 noChange, 1 requestSet; any byte is read and written */
    uint8_t state;
};

/*
 * A request's instance ID and its command. Beside each field stand the commands that have it. Those
 * that a command does not have mean nothing after reading, and are not looked at in writing.
 */
struct needleoat_command {
    uint8_t instance_id;             /* all: 0 to 31 */
    uint8_t pldm_type;               /* all */
    uint8_t command;                 /* all */
    uint8_t tid;                     /* SetTID: the terminus ID, any byte */
    uint8_t asked_type;              /* GetPLDMVersion, GetPLDMCommands: the PLDM type asked about */
    uint8_t transfer_operation_flag; /* GetPLDMVersion, GetPDR: 0 next part, 1 first part, any byte */
    uint8_t rearm;                   /* GetSensorReading, GetStateSensorReadings: any byte */
    uint8_t size;                    /* SetNumericEffecterValue: the data size of `value` */
    uint8_t count;                   /* SetStateEffecterStates: how many of `sets`, 1 to 8 */
    uint16_t sensor;                 /* GetSensorReading, GetStateSensorReadings: the sensor ID */
    uint16_t effecter;               /* the four commands of effecters: the effecter ID */
    uint16_t request_count;          /* GetPDR: the most bytes asked for */
    uint16_t record_change_number;   /* GetPDR: 0 for the first part */
    uint32_t data_transfer_handle;   /* GetPLDMVersion, GetPDR: which part, as the last answer had it */
    uint32_t record_handle;          /* GetPDR: 0 asks for the first record */
    int64_t value;                   /* SetNumericEffecterValue: it fits `size` */
    uint8_t version[4];              /* GetPLDMCommands */
    struct needleoat_set_state sets[NEEDLEOAT_STATES]; /* SetStateEffecterStates: the first `count` */
};

/* Where both are 0, a command was read. */
struct needleoat_command_reading {
    uint8_t reason; /* 0, or why the message is no request: enum needleoat_reason, 12 to 17 */
    uint8_t code;   /* 0, or the completion code to refuse the request with: 0x20, 0x05, 0x03 or 0x02 */
};

/*
 * Reads a message as a request and its command into `fields`. Where either number that it returns is
 * not 0, `fields` is left as it was.
 */
struct needleoat_command_reading needleoat_command_read(const uint8_t *message, uint64_t length,
                                                        struct needleoat_command *fields);

/*
 * Writes the request of a command to the front of `out`, and returns its length in bytes, 4 to 23. It
 * returns 0 and leaves `out` as it was where `instance_id` is above 31, where there is no such
 * `pldm_type` and `command`, and where a field that the command has is out of range: `size` above 5,
 * a `value` that does not fit it, a `count` other than 1 to 8.
 */
uint32_t needleoat_command_write(const struct needleoat_command *fields, uint8_t out[NEEDLEOAT_REQUEST_BYTES]);

/* ---- Answers ---- */

/* One field of GetStateSensorReadings' answer. */
struct needleoat_sensor_state {
    uint8_t operational; /* the sensor's operational state */
    uint8_t present;     /* the state that it reports now */
    uint8_t previous;    /* the state before that one */
    uint8_t event;       /* the state of its latest event */
};

/* One field of GetStateEffecterStates' answer. */
struct needleoat_effecter_state {
    uint8_t operational; /* the effecter's operational state */
    uint8_t pending;     /* the state that it is going to */
    uint8_t present;     /* the state that it is in */
};

/*
 * A response's instance ID, the command that it answers, and the answer. Beside each field stand the
 * commands whose answers have it; an answer whose `code` is not 0 has none of them. Those that an
 * answer does not have mean nothing after reading, and are not looked at in writing.
 */
struct needleoat_answer {
    uint8_t instance_id;                 /* all: 0 to 31 */
    uint8_t pldm_type;                   /* all: of the command */
    uint8_t command;                     /* all */
    uint8_t code;                        /* all: the completion code, 0 for success */
    uint8_t tid;                         /* GetTID */
    uint8_t transfer_flag;               /* GetPDR: 0 start, 1 middle (2 is one too), 4 end, 5 whole */
    uint8_t transfer_crc;                /* GetPDR with flag 4: the whole record's checksum */
    uint8_t size;                        /* GetSensorReading, GetNumericEffecterValue: the data size */
    uint8_t operational;                 /* the same two: the operational state */
    uint8_t sensor_event_message_enable; /* GetSensorReading: which of its events are enabled */
    uint8_t present;                     /* GetSensorReading: the state that it reports now */
    uint8_t previous;                    /* GetSensorReading: the state before that one */
    uint8_t event;                       /* GetSensorReading: the state of its latest event */
    uint8_t count;                       /* GetStateSensorReadings, GetStateEffecterStates: 1 to 8 */
    uint8_t repository_state;            /* GetPDRRepositoryInfo: 0 available */
    uint8_t timeout;                     /* GetPDRRepositoryInfo: how long a transfer may pause, a code */
    uint32_t next_record_handle;         /* GetPDR: the record after this one, or 0 */
    uint32_t next_data_transfer_handle;  /* GetPLDMVersion, GetPDR: which part is next, or 0 */
    uint32_t record_count;               /* GetPDRRepositoryInfo */
    uint32_t repository_size;            /* GetPDRRepositoryInfo: in bytes */
    uint32_t largest_record_size;        /* GetPDRRepositoryInfo: in bytes */
    int64_t value;                       /* GetSensorReading: the reading; GetNumericEffecterValue: present */
    int64_t pending_value;               /* GetNumericEffecterValue: the value that it is going to */
    uint32_t length;                     /* GetPLDMVersion, GetPDR: how many of `bytes` there are */
    struct needleoat_sensor_state sensor_states[NEEDLEOAT_STATES];       /* GetStateSensorReadings */
    struct needleoat_effecter_state effecter_states[NEEDLEOAT_STATES];   /* GetStateEffecterStates */
    uint8_t types[8];            /* GetPLDMTypes: type t is bit t mod 8 of byte t / 8 */
    uint8_t commands[32];        /* GetPLDMCommands: command c is bit c mod 8 of byte c / 8 */
    uint8_t update_time[13];     /* GetPDRRepositoryInfo: when it was last changed */
    uint8_t oem_update_time[13]; /* GetPDRRepositoryInfo: when its OEM records were last changed */
    uint8_t bytes[NEEDLEOAT_PART_BYTES]; /* GetPLDMVersion: 4 to 32, four a version; GetPDR: the part */
};

/* Why a response is no answer to a request, in the order of the checks. 0: it is one. */
enum needleoat_answer_fault {
    NEEDLEOAT_NO_REQUEST = 1,     /* the first message is no request */
    NEEDLEOAT_NO_COMMAND = 2,     /* it carries no command of this profile */
    NEEDLEOAT_NO_RESPONSE = 3,    /* the second message is no response */
    NEEDLEOAT_OTHER_INSTANCE = 4, /* it has another instance ID */
    NEEDLEOAT_OTHER_COMMAND = 5,  /* it is to another command */
    NEEDLEOAT_WRONG_LENGTH = 6,   /* its data is shorter or longer than the answer's */
    NEEDLEOAT_WRONG_VALUE = 7     /* a data size, a count or a flag of it has no such value */
};

/*
 * Reads a response as the answer to a request, and returns 0 with the answer in `fields`. Otherwise it
 * returns enum needleoat_answer_fault and leaves `fields` as it was. A refusal is an answer: look at
 * `code`. Whether the packets came from the device that was asked, and with the tag of the request,
 * is for the caller to see.
 */
uint8_t needleoat_answer_read(const uint8_t *request, uint64_t request_length, const uint8_t *response,
                              uint64_t response_length, struct needleoat_answer *fields);

/* The number that needleoat_answer_read returns, without the fields. */
uint8_t needleoat_answer_check(const uint8_t *request, uint64_t request_length, const uint8_t *response,
                               uint64_t response_length);

/*
 * Writes the response of an answer to the front of `out`, and returns its length in bytes, 5 to 320.
 * It returns 0 and leaves `out` as it was where `instance_id` is above 31 or `pldm_type` above 63, and,
 * where `code` is 0, where there is no such command and where a field that its answer has is out of
 * range: `size` above 5, a value that does not fit it, a `count` other than 1 to 8, a `length` above
 * 303 (of versions: other than 4, 8 and so on to 32), a `transfer_flag` other than 0, 1, 2, 4 and 5.
 * Where `code` is not 0, the response has no data, and is written for any command.
 */
uint32_t needleoat_answer_write(const struct needleoat_answer *fields, uint8_t out[NEEDLEOAT_MESSAGE_BYTES]);

/*
 * The checksum of a whole record, as the last part of a GetPDR answer carries it: CRC-8 by
 * x^8 + x^2 + x + 1, from 0, the highest bit first.
 */
uint8_t needleoat_crc8(const uint8_t *bytes, uint64_t length);

/* ---- What a device says of itself ---- */

/* A PLDM type that a device has. */
struct needleoat_type_version {
    uint8_t pldm_type;  /* 0 to 63 */
    uint8_t version[4]; /* as on the wire, the lowest byte first: 1.1.0 is {0x00, 0xf0, 0xf1, 0xf1} */
};

/* A command that a device has. */
struct needleoat_type_command {
    uint8_t pldm_type;
    uint8_t command; /* its number in that type */
};

/* Why there is no answer. 0: there is one. */
enum needleoat_base_fault {
    NEEDLEOAT_BASE_OTHER_COMMAND = 1 /* none of GetTID, GetPLDMVersion, GetPLDMTypes and GetPLDMCommands */
};

/*
 * Answers GetTID, GetPLDMVersion, GetPLDMTypes and GetPLDMCommands (DSP0240), and returns 0 with the answer in `fields`:
 * with the command's instance ID, type and number, for needleoat_answer_write or needleoat_endpoint_answer. `tid` is
 * the terminus ID, `types` what the device has, type 0 among it, and `commands` those of all these types, in any order.
 * A type's first entry counts. A version goes out with its checksum, in one part. The answer may be a refusal: `code` is
 * NEEDLEOAT_CODE_INVALID_PLDM_TYPE_IN_REQUEST_DATA of a type that is not there, and of another part than the first
 * NEEDLEOAT_CODE_INVALID_DATA_TRANSFER_HANDLE, or ..TRANSFER_OPERATION_FLAG above 1. Which version GetPLDMCommands asks
 * about is not looked at.
 *
 * Of another command, SetTID among them, it returns NEEDLEOAT_BASE_OTHER_COMMAND, and leaves `fields` as it was.
 */
uint8_t needleoat_base_answer(uint8_t tid, const struct needleoat_type_version *types, uint64_t type_count,
                              const struct needleoat_type_command *commands, uint64_t command_count,
                              const struct needleoat_command *command, struct needleoat_answer *fields);

/*
 * The checksum that follows the versions of a GetPLDMVersion answer, lowest byte first: CRC-32 of IEEE 802.3.
 * needleoat_base_answer puts it there; a device that has several versions of a type does so itself.
 */
uint32_t needleoat_crc32(const uint8_t *bytes, uint64_t length);

/* ---- Records ----
 *
 * A BMC finds sensors and effecters by platform data records (DSP0248). Each of these calls but the last writes one
 * record: a struct of its fields goes in, and the record, its header with the length of its data among it, to the
 * front of `out`, which has room for `room` bytes. It has 305 bytes at most. The call returns how many bytes it has;
 * the next record is written after them. It returns 0 and leaves `out` as it was where
 *
 *   - a field is out of range: `record_handle` 0, a flag that is neither 0 nor 1, a data size above 5, a range format
 *     above 6, a number that does not fit its data size or its format, a `count` other than 1 to 8, a `size` of
 *     possible states other than 1 to 32, a `length` above 127, a code unit of a name that is 0;
 *   - the record has more than `room` bytes.
 *
 * A field that is a real32 is given as its bits: copy a `float` to it by memcpy. Numbers of sensors and effecters are
 * of the data size that `conversion` has, those of a `range` of the range's own format.
 */

/* The entity that a record belongs to. */
struct needleoat_entity {
    uint16_t entity_type;  /* a number of DSP0249: 64 a system board */
    uint16_t instance;     /* which of its type it is */
    uint16_t container_id; /* the entity that contains it */
};

/* What a numeric sensor measures in, or a numeric effecter is set in. */
struct needleoat_units {
    uint8_t base_unit;              /* a number of DSP0248: 2 degrees C, 5 volts, 19 RPM, 65 percent */
    int8_t unit_modifier;           /* the power of ten that values are multiplied by */
    uint8_t rate_unit;              /* the time that the unit is taken per: 0 none */
    uint8_t base_oem_unit_handle;   /* the OEM unit that stands for the base unit, or 0 */
    uint8_t auxiliary_unit;         /* a second unit, by the same list: 0 none */
    int8_t auxiliary_unit_modifier; /* the power of ten of the second unit */
    uint8_t auxiliary_rate_unit;    /* the time that the second unit is taken per */
};

/* How numbers become values: (number * resolution + offset) * 10 ^ unit_modifier. */
struct needleoat_conversion {
    uint32_t resolution;     /* a real32: 1.0 is 0x3f800000 */
    uint32_t offset;         /* a real32 */
    uint16_t accuracy;       /* in hundredths of a percent */
    uint8_t plus_tolerance;  /* how far a value may be above what is measured, in steps */
    uint8_t minus_tolerance; /* how far it may be below */
    uint8_t is_linear;       /* whether values go with numbers by that rule: 0 no, 1 yes */
    uint8_t size;            /* the data size of the numbers: NEEDLEOAT_UINT8 to NEEDLEOAT_SINT32 */
};

/* The format of range fields, where it is no data size: each is the bits of a real32. */
enum { NEEDLEOAT_REAL32 = 6 };

/* The normal range and the thresholds of a numeric sensor. */
struct needleoat_sensor_range {
    uint8_t format;  /* NEEDLEOAT_UINT8 to NEEDLEOAT_SINT32, or NEEDLEOAT_REAL32 */
    uint8_t support; /* bit 0 nominal, 1 normal max, 2 normal min, 3 critical high, 4 low, 5 fatal high, 6 low */
    int64_t nominal;
    int64_t normal_max;
    int64_t normal_min;
    int64_t warning_high;
    int64_t warning_low;
    int64_t critical_high;
    int64_t critical_low;
    int64_t fatal_high;
    int64_t fatal_low;
};

/* The normal and the rated range of a numeric effecter. */
struct needleoat_effecter_range {
    uint8_t format;  /* NEEDLEOAT_UINT8 to NEEDLEOAT_SINT32, or NEEDLEOAT_REAL32 */
    uint8_t support; /* bit 0 nominal, 1 normal max, 2 normal min, 3 rated max, 4 rated min */
    int64_t nominal;
    int64_t normal_max;
    int64_t normal_min;
    int64_t rated_max;
    int64_t rated_min;
};

/* The states that one sensor or effecter of a composite one can have. */
struct needleoat_possible_states {
    uint16_t state_set; /* a number of DSP0249 */
    uint8_t size;       /* how many of `states` there are, 1 to 32 */
    uint8_t states[32]; /* state s is bit s mod 8 of byte s / 8 */
};

/* Where a terminus is: at an MCTP endpoint ID. */
struct needleoat_terminus_locator {
    uint32_t record_handle;   /* of each record: its handle, not 0, and another one than that of each other record */
    uint16_t change_number;   /* of each record: its change number */
    uint16_t terminus_handle; /* of each record of a sensor or an effecter: the same as here */
    uint16_t container_id;    /* the entity that contains the terminus */
    uint8_t is_valid;         /* 0 no, 1 yes */
    uint8_t tid;
    uint8_t eid;
};

struct needleoat_numeric_sensor {
    uint32_t record_handle;
    uint16_t change_number;
    uint16_t terminus_handle;
    uint16_t sensor_id;
    struct needleoat_entity entity;    /* what it measures */
    uint8_t init;                      /* how it is made ready: 0 it needs nothing */
    uint8_t has_auxiliary_names;       /* whether a record of its name goes with it: 0 no, 1 yes */
    uint8_t rel;                       /* what the two units make (DSP0248, "rel"): 0 the first divided by the second,
                                          1 multiplied by it. Any byte is written */
    uint8_t auxiliary_oem_unit_handle; /* the OEM unit that stands for the second unit, or 0 */
    uint8_t supported_thresholds;      /* bit 0 upper warning, 1 critical, 2 fatal, 3 to 5 the lower ones */
    uint8_t threshold_and_hysteresis_volatility; /* when these are lost */
    struct needleoat_units units;
    struct needleoat_conversion conversion;
    uint32_t state_transition_interval; /* a real32, the longest time of a change of state in seconds */
    uint32_t update_interval;           /* a real32, the time between two readings in seconds */
    int64_t hysteresis;
    int64_t max_readable;
    int64_t min_readable;
    struct needleoat_sensor_range range;
};

struct needleoat_numeric_effecter {
    uint32_t record_handle;
    uint16_t change_number;
    uint16_t terminus_handle;
    uint16_t effecter_id;
    struct needleoat_entity entity;     /* what it sets */
    uint16_t semantic_id;               /* what setting it means, a number of DSP0248, or 0 */
    uint8_t init;                       /* how it is made ready: 0 it needs nothing */
    uint8_t has_auxiliary_names;        /* whether a record of its name goes with it: 0 no, 1 yes */
    uint8_t auxiliary_oem_unit_handle;  /* the OEM unit that stands for the second unit, or 0 */
    struct needleoat_units units;
    struct needleoat_conversion conversion;
    uint32_t state_transition_interval; /* a real32, the longest time of a change of state in seconds */
    uint32_t transition_interval;       /* a real32, the longest time of a change of value in seconds */
    int64_t max_settable;
    int64_t min_settable;
    struct needleoat_effecter_range range;
};

struct needleoat_state_sensor {
    uint32_t record_handle;
    uint16_t change_number;
    uint16_t terminus_handle;
    uint16_t sensor_id;
    struct needleoat_entity entity; /* what it reports on */
    uint8_t init;                   /* how it is made ready: 0 it needs nothing */
    uint8_t has_auxiliary_names;    /* whether a record of its name goes with it: 0 no, 1 yes */
    uint8_t count;                  /* how many of `sets` there are, 1 to 8 */
    struct needleoat_possible_states sets[NEEDLEOAT_STATES];
};

struct needleoat_state_effecter {
    uint32_t record_handle;
    uint16_t change_number;
    uint16_t terminus_handle;
    uint16_t effecter_id;
    struct needleoat_entity entity; /* what it sets */
    uint16_t semantic_id;           /* what setting it means, a number of DSP0248, or 0 */
    uint8_t init;                   /* how it is made ready: 0 it needs nothing */
    uint8_t has_description;        /* whether a record that describes it goes with it: 0 no, 1 yes */
    uint8_t count;                  /* how many of `sets` there are, 1 to 8 */
    struct needleoat_possible_states sets[NEEDLEOAT_STATES];
};

/*
 * The name of a sensor, of an effecter or of an entity: one, in English (the language tag is "en"), of a sensor or
 * effecter that is not composite. In C11 `.text = u"Fan", .length = 3`.
 */
struct needleoat_sensor_name {
    uint32_t record_handle;
    uint32_t length; /* how many code units of `text` there are, at most 127 */
    uint16_t change_number;
    uint16_t terminus_handle;
    uint16_t sensor_id;
    uint16_t text[NEEDLEOAT_NAME_UNITS]; /* UTF-16; none of them is 0 */
};

struct needleoat_effecter_name {
    uint32_t record_handle;
    uint32_t length; /* how many code units of `text` there are, at most 127 */
    uint16_t change_number;
    uint16_t terminus_handle;
    uint16_t effecter_id;
    uint16_t text[NEEDLEOAT_NAME_UNITS]; /* UTF-16; none of them is 0 */
};

struct needleoat_entity_name {
    uint32_t record_handle;
    uint32_t length; /* how many code units of `text` there are, at most 127 */
    uint16_t change_number;
    struct needleoat_entity entity; /* of the overall container, the name of the terminus */
    uint16_t text[NEEDLEOAT_NAME_UNITS]; /* UTF-16; none of them is 0 */
};

uint32_t needleoat_terminus_locator_record_write(const struct needleoat_terminus_locator *fields, uint8_t *out,
                                                 uint64_t room);
uint32_t needleoat_numeric_sensor_record_write(const struct needleoat_numeric_sensor *fields, uint8_t *out,
                                               uint64_t room);
uint32_t needleoat_numeric_effecter_record_write(const struct needleoat_numeric_effecter *fields, uint8_t *out,
                                                 uint64_t room);
uint32_t needleoat_state_sensor_record_write(const struct needleoat_state_sensor *fields, uint8_t *out, uint64_t room);
uint32_t needleoat_state_effecter_record_write(const struct needleoat_state_effecter *fields, uint8_t *out,
                                               uint64_t room);
uint32_t needleoat_sensor_name_record_write(const struct needleoat_sensor_name *fields, uint8_t *out, uint64_t room);
uint32_t needleoat_effecter_name_record_write(const struct needleoat_effecter_name *fields, uint8_t *out,
                                              uint64_t room);
uint32_t needleoat_entity_name_record_write(const struct needleoat_entity_name *fields, uint8_t *out, uint64_t room);

/* Why there is no answer. 0: there is one. */
enum needleoat_records_fault {
    NEEDLEOAT_RECORDS_OTHER_COMMAND = 1, /* the command is neither GetPDRRepositoryInfo nor GetPDR */
    NEEDLEOAT_RECORDS_MALFORMED = 2      /* the array is no records, as the call says */
};

/*
 * Answers GetPDRRepositoryInfo and GetPDR for the records that stand one after another in an array, and returns 0 with
 * the answer in `fields`: with the command's instance ID, type and number, for needleoat_answer_write or
 * needleoat_endpoint_answer. A record is sent in parts of at most `request_count` bytes and 303. With the times of
 * GetPDRRepositoryInfo (timestamp104 of DSP0240) comes what the caller says. The answer may be a refusal, as of a
 * record that is not there: `code` has its completion code. Of a GetPDR `record_change_number` is not looked at, and of
 * either command no field of the others.
 *
 * Otherwise it returns the first of enum needleoat_records_fault that holds, and leaves `fields` as it was: of another
 * command 1, whatever the array is. The array is records where it has nothing but whole ones, each with the header
 * version 1 and a handle that is not 0 and no other's, and at most 1,000. All of it is looked at in each call with one
 * of the two commands. An array without bytes is no record, and answered.
 */
uint8_t needleoat_records_answer(const uint8_t *records, uint64_t length, const uint8_t update_time[13],
                                 const uint8_t oem_update_time[13], const struct needleoat_command *command,
                                 struct needleoat_answer *fields);

/* ---- Packets on I2C and I3C ----
 *
 * A frame carries one packet, and ends with a PEC: CRC-8 as that of needleoat_crc8, over all bytes before it and the
 * address byte that the transfer begins with. No packet is looked into: what was read goes to needleoat_packet_read or
 * to an endpoint, which take 68 bytes at most, though a frame carries up to 254.
 */

/*
 * On SMBus and I2C (DSP0237) a frame is a block write of the device that sends it:
 *
 *   byte 0       the destination's 7-bit address times 2
 *   byte 1       the command code 0F
 *   byte 2       the byte count: 1 and the length of the packet
 *   byte 3       the source's 7-bit address times 2, and 1
 *   from byte 4  the packet
 *   the last     the PEC of all bytes before it
 *
 * An address is the number of seven bits here, 0x08 to 0x77. Some controllers keep byte 0 to themselves. Where one
 * does, leave it out when sending, and put the own address times 2 before the bytes that it hands over.
 */

/* Why bytes are no frame, in the order of the checks. 0: they are one. */
enum needleoat_i2c_fault {
    NEEDLEOAT_I2C_SHORT = 1,             /* fewer than 6 bytes, so not one of a packet */
    NEEDLEOAT_I2C_NOT_OURS = 2,          /* byte 0 is not the own address times 2 */
    NEEDLEOAT_I2C_OTHER_COMMAND = 3,     /* byte 1 is not 0F */
    NEEDLEOAT_I2C_WRONG_COUNT = 4,       /* byte 2 does not count the bytes after it and before the PEC */
    NEEDLEOAT_I2C_NOT_SOURCE = 5,        /* bit 0 of byte 3 is 0, or the address before it is not 0x08 to 0x77 */
    NEEDLEOAT_I2C_WRONG_PEC = 6,         /* the PEC is another than that of the bytes before it */
    NEEDLEOAT_I2C_NOT_AN_ADDRESS = 255   /* the own address is not 0x08 to 0x77, so nothing was read */
};

/* What a frame carries. Where `fault` is not 0 the others have no meaning. */
struct needleoat_i2c_frame {
    uint8_t fault;          /* 0, or enum needleoat_i2c_fault */
    uint8_t source_address; /* where it comes from, 0x08 to 0x77: an answer to the packet goes there */
    uint32_t packet_start;  /* the place of the packet's first byte among the bytes: 4 */
    uint32_t packet_length; /* 1 to 254 bytes */
};

/*
 * Writes the frame of a packet to the front of `out`, and returns its length in bytes, 9 to 259. It returns 0 and
 * leaves `out` as it was where an address is not 0x08 to 0x77, and where the packet has fewer than 4 bytes or more
 * than 254.
 */
uint32_t needleoat_i2c_write(uint8_t source_address, uint8_t destination_address, const uint8_t *packet,
                             uint64_t length, uint8_t out[NEEDLEOAT_I2C_FRAME_BYTES]);

/* Reads the bytes of a block write at the device of `own_address`, from its byte 0 to its PEC. */
struct needleoat_i2c_frame needleoat_i2c_read(uint8_t own_address, const uint8_t *bytes, uint64_t length);

/*
 * On I3C (DSP0233) a frame is the packet and its PEC, in a private write to a target or in a private read from it. The
 * address byte of the transfer is the target's dynamic address times 2, and 1 more in a read. The PEC covers it, and no
 * controller hands it over: so it is no byte of a frame, and the calls take the address, 0 to 0x7F, and `is_read`. A
 * frame of another transfer has a wrong PEC.
 */

/* Why bytes are no frame, in the order of the checks. 0: they are one. */
enum needleoat_i3c_fault {
    NEEDLEOAT_I3C_SHORT = 1,           /* fewer than 5 bytes: a packet's header and the PEC */
    NEEDLEOAT_I3C_WRONG_PEC = 2,       /* the PEC is another than that of the address byte and the bytes before it */
    NEEDLEOAT_I3C_NOT_AN_ADDRESS = 255 /* the address is above 0x7F, so nothing was read */
};

/* What a frame carries: a packet, which begins at byte 0. Where `fault` is not 0 the length has no meaning. */
struct needleoat_i3c_frame {
    uint8_t fault;          /* 0, or enum needleoat_i3c_fault */
    uint32_t packet_length; /* in bytes, 4 or more; UINT32_MAX where there are more */
};

/*
 * Writes the frame of a packet to the front of `out`, and returns its length in bytes, 5 to 255. It returns 0 and
 * leaves `out` as it was where `address` is above 0x7F, and where the packet has fewer than 4 bytes or more than
 * 254.
 */
uint32_t needleoat_i3c_write(uint8_t address, bool is_read, const uint8_t *packet, uint64_t length,
                             uint8_t out[NEEDLEOAT_I3C_FRAME_BYTES]);

/* Reads the bytes of a transfer to or from the target of this dynamic address, from the packet to the PEC. */
struct needleoat_i3c_frame needleoat_i3c_read(uint8_t address, bool is_read, const uint8_t *bytes, uint64_t length);

/* ---- Both ends: libneedleoat_c.a ----
 *
 * An endpoint answers, a requester asks. Each is behind a handle of its own. They need memory: link the
 * three functions at the end of this file, or examples/c/heap.c, which has them over malloc, or
 * examples/c/pool_heap.c, over an array. What the caller has to see to stands in the head of this file.
 *
 * A call with a moment past the last one, or before that of the last call with this handle that was accepted,
 * is refused (NEEDLEOAT_BAD_MOMENT). A call that was refused counts none: what is behind the handle is as
 * before, its last moment too.
 */

/* Why a call was refused. What is behind the handle is then as before. */
enum needleoat_refusal {
    NEEDLEOAT_NO_MEMORY = 1,         /* a growth of memory was refused, and nothing else; it may be tried again */
    NEEDLEOAT_BAD_MOMENT = 2,        /* the moment is past the last one, or before that of the last accepted call */
    NEEDLEOAT_NOTHING_THERE = 3,     /* there is nothing behind the handle */
    NEEDLEOAT_OUT_OF_TURN = 4,       /* of a packet: another command of its source and instance ID is pending */
    NEEDLEOAT_NOT_ITS_ANSWER = 5,    /* it is the answer to another command; or one of the two ways to answer, where the
                                        other is the right one */
    NEEDLEOAT_OUT_OF_RANGE = 6,      /* a number is out of its range */
    NEEDLEOAT_ALREADY_THERE = 7,     /* there is something behind the handle */
    NEEDLEOAT_BEING_PERFORMED = 8,   /* of a packet: the command of this very request is pending */
    NEEDLEOAT_TOO_MANY_COMMANDS = 9, /* of a packet: as many commands are pending as may be */
    NEEDLEOAT_NOT_PENDING = 10,      /* of an answer: no command is pending under this handle */
    NEEDLEOAT_TAG_IN_USE = 11,       /* the request 8 before this one is still open */
    NEEDLEOAT_ID_IN_USE = 12,        /* the request 32 before was opened less than twice keep_ms ago */
    NEEDLEOAT_NOT_A_COMMAND = 13,    /* the bytes are no request that carries a command */
    NEEDLEOAT_TOO_MANY_SOURCES = 14, /* of a packet: as many sources have room for answers as may have */
    NEEDLEOAT_TOO_MANY_OPEN_MESSAGES = 15, /* of a packet: it begins a message of several, and none may be open */
    NEEDLEOAT_NO_EID = 16,           /* of a terminus: it has no endpoint ID to ask from, or that of its peer */
    NEEDLEOAT_RESTING = 17,          /* of a terminus: it began to ask less than twice keep_ms ago */
    NEEDLEOAT_FIRMWARE_ANSWERS = 18  /* of a command of firmware update: the firmware itself answers it */
};

/* ---- The answering end ----
 *
 * An endpoint takes packets, has each command performed once, and gives the packets of the answers. A copy
 * of a request gets the kept answer. The device is the caller's: where needleoat_endpoint_receive says that
 * a command is to be performed, the command is pending. The caller performs it, however long that takes, and
 * hands its answer to needleoat_endpoint_answer, with the `handle` of that step: it says for which command
 * the answer is.
 *
 * A request of a PLDM type that the settings name comes out as bytes instead, and is pending in the same way: all that
 * is said here of commands holds of it. needleoat_endpoint_request has its bytes, and needleoat_endpoint_answer_bytes
 * takes the response. So a device has FRU data, firmware update, events or OEM commands.
 *
 * Meanwhile all other packets are received as ever, and more commands may have to be performed, up to the
 * number of the settings; they may be answered in any order. Refused for their sake are only: the very request
 * whose command is pending, byte for byte, in whatever packets and whenever it comes
 * (NEEDLEOAT_BEING_PERFORMED); another request of its source and instance ID (NEEDLEOAT_OUT_OF_TURN); and a
 * request whose command would pass the number (NEEDLEOAT_TOO_MANY_COMMANDS). A packet that is refused counts
 * as lost on the bus, and its sender sends it again. An answer is kept from the moment of the request's packet
 * on, so a device that takes longer than the keeping time may be asked again by a repeat that comes after the
 * answer.
 */
struct needleoat_endpoint {
    uint64_t at; /* an address */
    bool is_live;
};
#define NEEDLEOAT_ENDPOINT_NONE {0, false}

/*
 * Which requests are answered with ERROR_NOT_READY in the busy time, and neither performed nor kept. The busy time is
 * `keep_ms` from a restart on, and from a start that is not the first.
 */
enum needleoat_busy {
    NEEDLEOAT_BUSY_ALL = 0, /* each one with a good header */
    NEEDLEOAT_BUSY_SETS = 1 /* those with a good header whose command sets: SetTID, SetNumericEffecterValue,
                               SetStateEffecterStates; and those that are handed on as bytes. A command that only asks
                               is performed, also where it was performed before the restart */
};

/*
 * What an endpoint is made with. Fill it by the names of its fields: later settings will be further fields, and 0 in
 * one of them will mean what was so without it.
 *
 * What would pass one of the three bounds is refused before anything is performed, and nothing that is kept
 * makes room for it. A source has room for its answers from its first request that is no copy until a restart;
 * a request that is refused in the busy time gives none.
 *
 * A request is a copy where it repeats, byte for byte and less than `keep_ms` later, the latest fresh request of its
 * source and instance ID since the last restart, and fewer than `window` other instance IDs of that source had a fresh
 * request after that one. It is fresh where it is no copy and is not refused in the busy time. docs/C.md says which
 * window is right for which requester.
 */
struct needleoat_endpoint_settings {
    uint8_t own;               /* its endpoint ID, 8 to 254, which is static. Where `assigned`, the static one that
                                  Reset goes back to, or 0: there is none */
    bool first_start;          /* true only where this endpoint never ran before */
    uint32_t keep_ms;          /* how long an answer is kept for copies, 1 to 60,000 */
    uint32_t sources;          /* how many other endpoints have room for answers at most, `window` for each */
    uint32_t open_messages;    /* how many messages of several packets have begun and not ended at most; for one more
                                  the oldest ends */
    uint32_t pending_commands; /* how many commands are pending at most; with 0 none is ever performed */
    uint32_t window;           /* for how many instance IDs of a source answers are kept, 1 to 32; 0 stands for 32 */
    uint32_t busy;             /* enum needleoat_busy */
    bool unknown_commands;     /* whether of PLDM types 0 and 2 the requests are handed on as bytes whose command is
                                  none of this profile; else they are refused with code 0x05 */
    uint64_t pldm_types;       /* the PLDM types of which each request is handed on as bytes: bit t stands for type t.
                                  Those of the others are refused with code 0x20; bits 0 and 2 stand for nothing */
    bool answers_control;      /* whether control messages are answered (DSP0236, message type 0), as what follows says;
                                  else they are dropped */
    bool assigned;             /* whether a bus owner assigns the endpoint ID: there is none at first */
    uint8_t uuid[16];          /* the UUID, in the order of RFC 4122 */
    uint8_t base_version[4];   /* the version of the base specification that it keeps to, as on the wire */
    uint8_t control_version[4]; /* the version of the control protocol that it keeps to */
    uint8_t pldm_version[4];   /* the version of PLDM over MCTP (DSP0241) that it keeps to */
};

/*
 * Makes an endpoint: 0, or enum needleoat_refusal: 7, else 6 where `own` is not 8 to 254 (nor 0 where `assigned`),
 * `assigned` is true and `answers_control` is not, `keep_ms` is not 1 to 60,000, `window` is above 32 or `busy` is
 * neither kind; else 2 where `now_ms` is past the last moment; else 1. After a reset
 * of the processor `first_start` is false: a request that was performed before could come once more, so the busy time
 * begins at `now_ms`. At any start `now_ms` is the moment of a call that was accepted, so no moment before it may come
 * then.
 */
uint8_t needleoat_endpoint_new(const struct needleoat_endpoint_settings *settings, uint64_t now_ms,
                               struct needleoat_endpoint *endpoint);

/*
 * The handle of a command: its number, and whose request it is of. No two commands of an endpoint have one
 * number, also after a restart; those of an endpoint that was freed come again. Keep it as it is until the
 * answer, one for each command.
 */
struct needleoat_command_handle {
    uint64_t number;     /* how many commands were handed out before */
    uint8_t source;      /* where the request came from, 8 to 254: the packets of its answer go there */
    uint8_t instance_id; /* the request's, 0 to 31 */
};

/* What becomes of a packet, or of the device's answer. */
enum needleoat_step_kind {
    NEEDLEOAT_STEP_REFUSED = 0,  /* it is refused, and all is as before */
    NEEDLEOAT_STEP_DROPPED = 1,  /* the packet is dropped */
    NEEDLEOAT_STEP_PARTIAL = 2,  /* the packet begins a message of several, or goes on with one */
    NEEDLEOAT_STEP_ANSWERED = 3, /* it is answered: the packets of the answer are to be sent */
    NEEDLEOAT_STEP_PERFORM = 4,  /* the command of a request is to be performed, once */
    NEEDLEOAT_STEP_RESPOND = 5,  /* a request that is handed on as bytes is to be responded to, once */
    NEEDLEOAT_STEP_CONTROL = 6   /* a control message is answered: the one packet of the answer is to be sent */
};

struct needleoat_step {
    uint8_t kind;   /* enum needleoat_step_kind */
    uint8_t reason; /* REFUSED: enum needleoat_refusal; DROPPED: enum needleoat_reason, 1 to 17; else 0 */
    bool fresh;     /* ANSWERED: it is the first answer to this request, whose command was performed or which was
                       refused by its code without the device. Else it is a copy, or nothing is performed yet */
    bool changed;   /* ANSWERED: it is fresh, of a command that sets, and was not refused */
    uint32_t count; /* ANSWERED: how many packets the answer has, 1 to 5; CONTROL: 1; else 0 */
    uint32_t lengths[NEEDLEOAT_PACKETS];    /* the length of each in bytes, 5 to 68 */
    struct needleoat_command_handle handle; /* PERFORM: for needleoat_endpoint_answer; RESPOND: for
                                               needleoat_endpoint_request and _answer_bytes; else zeros */
};

/*
 * Receives the bytes of a packet that came at a moment: refused with the first of these, or one of the other
 * kinds.
 *
 *    3  there is nothing behind the handle
 *    2  the moment may not come next
 *   15  the packet begins a message of several, and `open_messages` is 0
 *    8  it completes the very request whose command is pending
 *    4  it completes another request of the source and instance ID of a pending command
 *    9  it completes a request that is no copy and has a command or is handed on as bytes, and `pending_commands` are
 *       pending (or 2^64 - 1 were handed out)
 *   14  it completes a request that is no copy, its source has no room for answers, and `sources` others have
 *    1  a growth of memory was refused
 *
 * 9 and 14 do not come for a request that is refused in the busy time. 4 does, before 'not ready': with
 * NEEDLEOAT_BUSY_SETS a command that only asks may be pending in the busy time, and another request of its source and
 * instance ID is refused with 4, also one that sets.
 *
 * Where a command is to be performed, its fields are in `command`, with the instance ID 0, and `handle` of the
 * step is its handle; otherwise `command` is as it was. Where a request is to be responded to, `handle` of the step is
 * its handle. Where the packet is answered, packet i of the answer is
 * in front of `packets[i]`. It goes to the source of the request. What else is in `packets` has no meaning.
 *
 * Where `answers_control`, a packet that is no message of PLDM, or is sent to or from the null endpoint ID, may be a
 * control request: its answer is in front of `packets[0]`, and goes to the physical address that the packet came from.
 * Set Endpoint ID is accepted for the present endpoint ID, where `assigned` for any from 8 to 254, and as Reset where
 * there is a static one: so also where not `assigned`, and it then changes nothing. Where an accepted one changes the
 * endpoint ID, the endpoint has the new one from then on: the kept answers, the messages that have begun and the
 * pending commands are forgotten, as by needleoat_endpoint_restart; the busy time begins where it had an endpoint ID
 * before. A later copy of one of the last 8 accepted (the same bytes of the same source, less than `keep_ms` after it)
 * gets the same answer and changes nothing, also where another was accepted between: where 10 was set and then 11, a
 * copy of the first is answered 'accepted, 10', and the endpoint ID stays 11. But the copy has to be sent to the null
 * endpoint ID or to the present one: sent to an earlier one it is dropped. While there is no endpoint ID every message
 * of PLDM is dropped.
 */
struct needleoat_step needleoat_endpoint_receive(struct needleoat_endpoint *endpoint, uint64_t now_ms,
                                                 const uint8_t *packet, uint64_t length,
                                                 struct needleoat_command *command,
                                                 uint8_t packets[NEEDLEOAT_PACKETS][NEEDLEOAT_PACKET_BYTES]);

/*
 * The endpoint ID that the endpoint has: 0 where it has none yet, or there is nothing behind the handle. It takes no
 * memory.
 */
uint8_t needleoat_endpoint_eid(struct needleoat_endpoint *endpoint);

/*
 * Hands in the answer to the command that is pending under this handle, and gives the packets of it, which go to
 * `handle->source`: NEEDLEOAT_STEP_ANSWERED, or refused with the first of these.
 *
 *    3  there is nothing behind the handle of the endpoint
 *   10  nothing is pending under the three numbers of `handle`: it was answered, or forgotten by a restart
 *    5  what is pending there was handed on as bytes, whatever the answer is
 *    6  needleoat_answer_write would write nothing for the answer
 *    5  `pldm_type` or `command` is another than the command's, also where `code` is not 0
 *
 * The answer is the one that needleoat_answer_write writes, with the request's instance ID: that in `answer` is not
 * looked at beyond its range. It takes no memory. Where it is refused with 6 or 5, what is pending still is. Where
 * `window` other instance IDs of the source had fresh requests since, the packets are the same, and the answer is not
 * kept.
 */
struct needleoat_step needleoat_endpoint_answer(struct needleoat_endpoint *endpoint,
                                                const struct needleoat_command_handle *handle,
                                                const struct needleoat_answer *answer,
                                                uint8_t packets[NEEDLEOAT_PACKETS][NEEDLEOAT_PACKET_BYTES]);

/* A request that is pending, as bytes. */
struct needleoat_request {
    uint8_t pldm_type; /* 0 to 63 */
    uint8_t command;   /* its command's number in that type */
    uint32_t length;   /* how many bytes of data it has, at most 316 */
    uint8_t data[NEEDLEOAT_REQUEST_DATA]; /* its data: the first of these. What follows is as it was */
};

/*
 * Puts the request that is pending under this handle into `request`, and returns true, also where it has a command;
 * false, with `request` as it was, where none is. It takes no memory.
 */
bool needleoat_endpoint_request(struct needleoat_endpoint *endpoint, const struct needleoat_command_handle *handle,
                                struct needleoat_request *request);

/*
 * Hands in the response to the request that is pending under this handle, which was handed on as bytes: any completion
 * code, and `length` bytes of data. It gives the packets of the response as needleoat_endpoint_answer does:
 * NEEDLEOAT_STEP_ANSWERED, or refused with the first of 3, 10, 5 (the pending one is a command, for that call) and 6
 * (there are more than 315 bytes). It counts as one that sets something (`changed`) where the code is 0. It takes no
 * memory. Where it is refused with 5 or 6, what was pending still is.
 */
struct needleoat_step needleoat_endpoint_answer_bytes(struct needleoat_endpoint *endpoint,
                                                      const struct needleoat_command_handle *handle, uint8_t code,
                                                      const uint8_t *data, uint64_t length,
                                                      uint8_t packets[NEEDLEOAT_PACKETS][NEEDLEOAT_PACKET_BYTES]);

/*
 * Restarts at a moment: 0, or 3 or 2 of enum needleoat_refusal. The kept answers, the messages that have
 * begun and the pending commands are forgotten, and the busy time begins: for the keeping time from then on nothing is
 * performed, or nothing that sets, as `busy` of the settings says. An answer to one of those commands is refused with
 * 10 from then on.
 *
 * The endpoint ID stays, also an assigned one: DSP0236 says that a device should keep it over an internal reset, and
 * the bus owner goes on asking there. So does what is known of accepted Set Endpoint ID: a copy of one still gets its
 * answer and changes nothing, as needleoat_endpoint_receive says. To be without an endpoint ID again, free the endpoint
 * while nothing is pending, and make it anew.
 */
uint8_t needleoat_endpoint_restart(struct needleoat_endpoint *endpoint, uint64_t now_ms);

/* Frees the endpoint, where there is one. The handle is then as NEEDLEOAT_ENDPOINT_NONE. */
void needleoat_endpoint_free(struct needleoat_endpoint *endpoint);

/* ---- The requesting end ----
 *
 * A requester stands at one endpoint and asks one device. It gives out instance IDs and tags, says which
 * requests are to be sent again or are given up, and finds the answer to a request among packets.
 */
struct needleoat_requester {
    uint64_t at; /* an address */
    bool is_live;
};
#define NEEDLEOAT_REQUESTER_NONE {0, false}

/* What a requester is made with. Fill it by the names of its fields: later settings will be further fields. */
struct needleoat_requester_settings {
    uint8_t own;         /* its endpoint ID, 8 to 254 */
    uint8_t device;      /* that of the device, 8 to 254 */
    uint8_t tries;       /* how often a request is sent at most, 1 to 8 */
    bool brief;          /* whether the packets and the answer of the last 8 requests alone are kept, and not of 32 */
    uint32_t keep_ms;    /* how long the device keeps an answer for copies, 1 to 60,000 */
    uint32_t timeout_ms; /* how long after it was sent a request is sent again, 1 or more */

    /*
     * How soon an instance ID is used again. With 0 in both only after twice `keep_ms`: at most 32 requests in that
     * time. Else after twice `lifetime_ms`, once as many requests as `window` says were answered of those that were
     * opened at least `lifetime_ms` after the request before with that instance ID.
     */
    uint32_t lifetime_ms; /* the line's: how late a packet of a request may arrive, 1 to `keep_ms`; 0: `keep_ms` */
    uint32_t window;      /* the device's: for how many instance IDs it keeps answers, 1 to 32; 0: for all 32 */
};

/*
 * Makes a requester: 0, or enum needleoat_refusal: 7, else 6 where a setting is out of its range, `own` and
 * `device` are the same, or `tries` times `timeout_ms` is above the lifetime; else 1. Instance IDs begin at 0:
 * after a reset of the processor let twice `keep_ms` pass before the first request. Its last moment is 0.
 */
uint8_t needleoat_requester_new(const struct needleoat_requester_settings *settings,
                                struct needleoat_requester *requester);

/* A request that was opened. Where `refusal` is not 0, the other fields have no meaning. */
struct needleoat_opening {
    uint8_t refusal;     /* 0, or the first of 3, 2, 13, 6, 11, 12 and 1 of enum needleoat_refusal */
    uint8_t instance_id; /* 0 to 31 */
    uint8_t tag;         /* 0 to 7 */
    uint64_t number;     /* counted from 0 over all requests of this requester */
};

/*
 * Opens a request for the command of a request message, as needleoat_command_write writes it; its
 * instance ID is not looked at. Its packet is to be sent at that moment. Only the first 32 want memory.
 */
struct needleoat_opening needleoat_requester_open(struct needleoat_requester *requester, uint64_t now_ms,
                                                  const uint8_t *request, uint64_t length);

/*
 * Opens a request of any PLDM type: of this type, 0 to 63, and this command, with this data, which is what follows the
 * header of its message (DSP0240, "PLDM message fields"); at most 316 bytes. A type above 63 and longer data are
 * refused with 6. All else is as in needleoat_requester_open; where the data has more than 60 bytes, the request has
 * several packets (needleoat_requester_packet_at), and all are to be sent. The data of the response begins at byte 5 of
 * the message that needleoat_requester_status writes.
 */
struct needleoat_opening needleoat_requester_open_request(struct needleoat_requester *requester, uint64_t now_ms,
                                                          uint8_t pldm_type, uint8_t command, const uint8_t *data,
                                                          uint64_t length);

/* The requests that are due, by their numbers. */
struct needleoat_due {
    uint32_t again_count;    /* at most 8 */
    uint32_t given_up_count; /* at most 8 */
    uint64_t again[8];       /* those to be sent again now: the first of these */
    uint64_t given_up[8];    /* those that were given up: the first of these */
};

/*
 * Lists the requests that are due at a moment: 0, or 3 or 2 of enum needleoat_refusal. Where it is not 0, `due`
 * is as it was.
 */
uint8_t needleoat_requester_tick(struct needleoat_requester *requester, uint64_t now_ms, struct needleoat_due *due);

/*
 * Whether there is a moment from which on needleoat_requester_tick finds something due, and nothing before: then it is
 * put into `deadline_ms`. So a caller may sleep until then, or until a packet comes; each other call may change it. It
 * may be a moment that has passed: then a tick is due at once. False where there is no such moment, as where no request
 * is open, and where nothing is there: `deadline_ms` is as it was.
 */
bool needleoat_requester_next_deadline(struct needleoat_requester *requester, uint64_t *deadline_ms);

/* What becomes of a packet. */
enum needleoat_receiving_kind {
    NEEDLEOAT_RECEIVING_REFUSED = 0, /* it is refused, and all is as before */
    NEEDLEOAT_RECEIVING_DROPPED = 1, /* it is dropped */
    NEEDLEOAT_RECEIVING_PARTIAL = 2, /* it begins a message of several packets, or goes on with one */
    NEEDLEOAT_RECEIVING_ANSWERED = 3 /* it completes the answer to a request */
};

struct needleoat_receiving {
    uint8_t kind;    /* enum needleoat_receiving_kind */
    uint8_t reason;  /* REFUSED: 3, 2 or 1 of enum needleoat_refusal; DROPPED: enum needleoat_reason, 1 to 20 but 16;
                        else 0 */
    uint64_t number; /* ANSWERED: the request that was answered */
};

/* Receives the bytes of a packet that came at a moment. */
struct needleoat_receiving needleoat_requester_receive(struct needleoat_requester *requester, uint64_t now_ms,
                                                       const uint8_t *packet, uint64_t length);

/*
 * Writes the first packet of a request to the front of `out`, and returns its length in bytes; 0, with `out` as
 * it was, where the request is not among the last 32, or, where the requester is `brief`, the last 8. The packet is the
 * same each time that it is sent. The request of a command has no other, and one of needleoat_requester_open_request
 * none where its data has at most 60 bytes.
 */
uint32_t needleoat_requester_packet(struct needleoat_requester *requester, uint64_t number,
                                    uint8_t out[NEEDLEOAT_PACKET_BYTES]);

/* The same, of packet `index`, counted from 0: 0, with `out` as it was, also where the request has no such packet. */
uint32_t needleoat_requester_packet_at(struct needleoat_requester *requester, uint64_t number, uint32_t index,
                                       uint8_t out[NEEDLEOAT_PACKET_BYTES]);

/* How a request stands. */
enum needleoat_status_kind {
    NEEDLEOAT_STATUS_UNKNOWN = 0,  /* it is not among the last 32, or, where the requester is `brief`, the last 8 */
    NEEDLEOAT_STATUS_OPEN = 1,     /* its answer may still come */
    NEEDLEOAT_STATUS_ANSWERED = 2, /* it was answered */
    NEEDLEOAT_STATUS_GAVE_UP = 3   /* it was given up */
};

struct needleoat_status {
    uint8_t kind;    /* enum needleoat_status_kind */
    uint32_t length; /* ANSWERED: the length of the response; else 0 */
};

/*
 * Reports how a request stands, and writes the response that answered it to the front of `message`, which is
 * as it was where there is none.
 */
struct needleoat_status needleoat_requester_status(struct needleoat_requester *requester, uint64_t number,
                                                   uint8_t message[NEEDLEOAT_MESSAGE_BYTES]);

/* Frees the requester, where there is one. The handle is then as NEEDLEOAT_REQUESTER_NONE. */
void needleoat_requester_free(struct needleoat_requester *requester);

/* ---- An end that answers and asks ----
 *
 * A terminus is an endpoint and a requester under one endpoint ID: it answers as an endpoint does, and asks one peer as
 * a requester does. A packet with TO 0 is a part of an answer to it, and goes to its requester; each other packet goes to
 * the answering end. A device that asks nothing needs none of it.
 *
 * Where a bus owner assigns another endpoint ID, and at a restart, the requester begins anew: its open requests are
 * forgotten, and it opens none until twice the peer's `keep_ms` has passed. While the end has no endpoint ID, or that of
 * its peer, it has no requester.
 */
struct needleoat_terminus {
    uint64_t at; /* an address */
    bool is_live;
};
#define NEEDLEOAT_TERMINUS_NONE {0, false}

/* Whom a terminus asks, and how. Fill it by the names of its fields: later settings will be further fields. */
struct needleoat_peer_settings {
    uint8_t device;      /* the endpoint ID of the peer, 8 to 254 */
    uint8_t tries;       /* how often a request is sent at most, 1 to 8 */
    bool brief;          /* this and the last two as of struct needleoat_requester_settings */
    uint32_t keep_ms;    /* how long the peer keeps an answer for copies, 1 to 60,000 */
    uint32_t timeout_ms; /* how long after it was sent a request is sent again, 1 or more */
    uint32_t lifetime_ms;
    uint32_t window;
};

/*
 * Makes a terminus: 0, or enum needleoat_refusal: 7, else 6 where needleoat_endpoint_new refuses `settings` with 6, a
 * setting of `peer` is out of its range, `peer->device` is the endpoint ID that it has at first, or `tries` times
 * `timeout_ms` is above the lifetime; else 2 where a moment is past the last one; else 1. It opens no request
 * before `rest_ms`: after a reset of the processor let that be `now_ms` and twice the peer's `keep_ms`.
 */
uint8_t needleoat_terminus_new(const struct needleoat_endpoint_settings *settings,
                               const struct needleoat_peer_settings *peer, uint64_t now_ms, uint64_t rest_ms,
                               struct needleoat_terminus *terminus);

/* The half of a terminus that took a packet, or refused it. */
enum needleoat_half {
    NEEDLEOAT_HALF_ANSWERING = 0, /* what answers */
    NEEDLEOAT_HALF_ASKING = 1     /* what asks */
};

/* What becomes of a packet at a terminus. */
struct needleoat_coming {
    uint8_t half;                         /* enum needleoat_half */
    struct needleoat_step step;           /* ANSWERING: as from needleoat_endpoint_receive; else zeros */
    struct needleoat_receiving receiving; /* ASKING: as from needleoat_requester_receive; else zeros */
};

/*
 * Receives the bytes of a packet that came at a moment: those of an answer as needleoat_requester_receive does, where
 * there is a requester, all others as needleoat_endpoint_receive does, with what that puts into `command` and `packets`.
 * A moment may come next that is not before the last one of either half. Where nothing is behind the handle, the half is
 * NEEDLEOAT_HALF_ANSWERING.
 */
struct needleoat_coming needleoat_terminus_receive(struct needleoat_terminus *terminus, uint64_t now_ms,
                                                   const uint8_t *packet, uint64_t length,
                                                   struct needleoat_command *command,
                                                   uint8_t packets[NEEDLEOAT_PACKETS][NEEDLEOAT_PACKET_BYTES]);

/* As needleoat_endpoint_answer, needleoat_endpoint_request and needleoat_endpoint_answer_bytes. */
struct needleoat_step needleoat_terminus_answer(struct needleoat_terminus *terminus,
                                                const struct needleoat_command_handle *handle,
                                                const struct needleoat_answer *answer,
                                                uint8_t packets[NEEDLEOAT_PACKETS][NEEDLEOAT_PACKET_BYTES]);
bool needleoat_terminus_request(struct needleoat_terminus *terminus, const struct needleoat_command_handle *handle,
                                struct needleoat_request *request);
struct needleoat_step needleoat_terminus_answer_bytes(struct needleoat_terminus *terminus,
                                                      const struct needleoat_command_handle *handle, uint8_t code,
                                                      const uint8_t *data, uint64_t length,
                                                      uint8_t packets[NEEDLEOAT_PACKETS][NEEDLEOAT_PACKET_BYTES]);

/*
 * As needleoat_requester_open and needleoat_requester_open_request, towards the peer: refused with 3, 2, 13 or 6, else
 * with 16, 17, 11, 12 or 1 of enum needleoat_refusal. The number counts from 0 over all requests since the requester
 * last began.
 */
struct needleoat_opening needleoat_terminus_open(struct needleoat_terminus *terminus, uint64_t now_ms,
                                                 const uint8_t *request, uint64_t length);
struct needleoat_opening needleoat_terminus_open_request(struct needleoat_terminus *terminus, uint64_t now_ms,
                                                         uint8_t pldm_type, uint8_t command, const uint8_t *data,
                                                         uint64_t length);

/*
 * As needleoat_requester_tick, needleoat_requester_next_deadline, needleoat_requester_packet_at and
 * needleoat_requester_status. Where there is no requester, nothing is due and no request is remembered.
 */
uint8_t needleoat_terminus_tick(struct needleoat_terminus *terminus, uint64_t now_ms, struct needleoat_due *due);
bool needleoat_terminus_next_deadline(struct needleoat_terminus *terminus, uint64_t *deadline_ms);
uint32_t needleoat_terminus_packet(struct needleoat_terminus *terminus, uint64_t number, uint32_t index,
                                   uint8_t out[NEEDLEOAT_PACKET_BYTES]);
struct needleoat_status needleoat_terminus_status(struct needleoat_terminus *terminus, uint64_t number,
                                                  uint8_t message[NEEDLEOAT_MESSAGE_BYTES]);

/*
 * Restarts both halves at a moment: 0, or 3 or 2 of enum needleoat_refusal. The answering end is as after
 * needleoat_endpoint_restart, and the requester begins anew.
 */
uint8_t needleoat_terminus_restart(struct needleoat_terminus *terminus, uint64_t now_ms);

/* Frees the terminus, where there is one. The handle is then as NEEDLEOAT_TERMINUS_NONE. */
void needleoat_terminus_free(struct needleoat_terminus *terminus);

/* ---- Firmware update: the device ----
 *
 * The machine of a firmware device takes the commands of one update agent (DSP0267), asks it for the image piece by
 * piece, and says what the flash is to do. It has no input or output of its own, and goes with a terminus whose
 * `pldm_types` have the bit of NEEDLEOAT_FIRMWARE_UPDATE:
 *
 *   - NEEDLEOAT_STEP_RESPOND: needleoat_terminus_request has the command, needleoat_firmware_receive its answer, which
 *     needleoat_terminus_answer_bytes sends.
 *   - At each turn: needleoat_firmware_tick, then needleoat_firmware_wish. Where it asks, open the request by
 *     needleoat_terminus_open_request, and say so by needleoat_firmware_opened.
 *   - NEEDLEOAT_RECEIVING_ANSWERED: needleoat_firmware_answered. Of each that needleoat_terminus_tick lists in
 *     `given_up`: needleoat_firmware_gave_up.
 *   - A call that brings a step of the flash returns it. Do it, then needleoat_firmware_done, at once or later. Steps
 *     are done in the order in which they come.
 *
 * A number of a request must not come twice. Those of a terminus begin anew at a restart and where it gets another
 * endpoint ID: then, as after a reset of the processor, free the machine and make it anew. What was stored and not
 * activated counts for nothing from then on. Of moments the machine refuses those past the last one alone.
 */
struct needleoat_firmware {
    uint64_t at; /* an address */
    bool is_live;
};
#define NEEDLEOAT_FIRMWARE_NONE {0, false}

enum {
    NEEDLEOAT_FIRMWARE_UPDATE = 5,       /* the PLDM type of firmware update */
    NEEDLEOAT_FIRMWARE_ANSWER_DATA = 315 /* the most bytes of the data of an answer */
};

/* What the flash is to do. The image that is active stays as it is until NEEDLEOAT_FLASH_ACTIVATE. */
enum needleoat_flash {
    NEEDLEOAT_FLASH_NONE = 0,          /* nothing: there is no step */
    NEEDLEOAT_FLASH_BEGIN = 1,         /* make room for an image of `size` bytes, beside the active one */
    NEEDLEOAT_FLASH_STORE = 2,         /* store the data of the answer that has just come from `offset` on */
    NEEDLEOAT_FLASH_VERIFY = 3,        /* verify the stored image */
    NEEDLEOAT_FLASH_APPLY = 4,         /* apply the verified image: at the next activation it is the active one */
    NEEDLEOAT_FLASH_ACTIVATE = 5,      /* make all that was applied active */
    NEEDLEOAT_FLASH_ABANDON = 6,       /* forget the image that was begun last, and nothing that was applied before */
    NEEDLEOAT_FLASH_ABANDON_UPDATE = 7 /* forget all that is not active */
};

/* A step of the flash. Where `refusal` is not 0, nothing changed, and there is no step. */
struct needleoat_flash_step {
    uint64_t number; /* by which needleoat_firmware_done is told of it */
    uint32_t size;   /* BEGIN: the image's size in bytes; else 0 */
    uint32_t offset; /* STORE: where in the image the bytes begin; else 0 */
    uint8_t refusal; /* 0, or enum needleoat_refusal: 3; of a call at a moment also 2 */
    uint8_t action;  /* enum needleoat_flash */
};

/* The answer to a command of firmware update. */
struct needleoat_firmware_answer {
    uint8_t code;    /* its completion code */
    uint32_t length; /* how many bytes of data follow the code */
    uint8_t data[NEEDLEOAT_FIRMWARE_ANSWER_DATA]; /* its data: the first of these. What follows is as it was */
};

/* Where a firmware device is in an update. */
enum needleoat_update_stage {
    NEEDLEOAT_UPDATE_NONE = 0,          /* there is no machine */
    NEEDLEOAT_UPDATE_IDLE = 1,          /* no update is under way */
    NEEDLEOAT_UPDATE_LEARNING = 2,      /* the agent passes the table of components */
    NEEDLEOAT_UPDATE_READY = 3,         /* the table has been passed; no component is transferred */
    NEEDLEOAT_UPDATE_BEGINNING = 4,     /* the flash makes room for the image */
    NEEDLEOAT_UPDATE_FETCHING = 5,      /* the next piece of the image is asked for */
    NEEDLEOAT_UPDATE_STORING = 6,       /* the flash stores a piece */
    NEEDLEOAT_UPDATE_FETCHED = 7,       /* the whole image is stored, and the agent is told so */
    NEEDLEOAT_UPDATE_FAILED = 8,        /* the transfer failed, and the agent is told so */
    NEEDLEOAT_UPDATE_VERIFYING = 9,     /* the flash verifies the image */
    NEEDLEOAT_UPDATE_VERIFIED = 10,     /* the agent is told that the image is good */
    NEEDLEOAT_UPDATE_NOT_VERIFIED = 11, /* the agent is told that it is not */
    NEEDLEOAT_UPDATE_APPLYING = 12,     /* the flash applies the image */
    NEEDLEOAT_UPDATE_APPLIED = 13,      /* the agent is told that the image was applied */
    NEEDLEOAT_UPDATE_NOT_APPLIED = 14,  /* the agent is told that it was not */
    NEEDLEOAT_UPDATE_ACTIVATING = 15    /* the flash activates what was applied */
};

struct needleoat_stage {
    uint8_t stage;   /* enum needleoat_update_stage */
    uint32_t stored; /* how many bytes of the image are stored */
};

/*
 * Makes a machine with no update under way, as it is after each restart: 0, or enum needleoat_refusal: 7, else 1. Steps
 * of the flash have the numbers after `latest`: after a reset of the processor let that be the last one before, where a
 * report of a step from before may still come, else 0. No other call takes memory.
 */
uint8_t needleoat_firmware_new(uint64_t latest, struct needleoat_firmware *firmware);

/* Which component of a device is meant (DSP0267, "PassComponentTable command"). */
struct needleoat_component {
    uint16_t classification;
    uint16_t identifier; /* the vendor's */
    uint8_t index;       /* which of several with this classification and identifier */
};

/*
 * Puts the component that a command of firmware update names into `component`, and returns true: PassComponentTable and
 * UpdateComponent name one. False, with `component` as it was, where it is another command or can't be read.
 */
bool needleoat_firmware_component(uint8_t command, const uint8_t *data, uint64_t length,
                                  struct needleoat_component *component);

/*
 * Takes a command of PLDM type NEEDLEOAT_FIRMWARE_UPDATE as it was handed on, `command` and `length` bytes of data,
 * from the endpoint `source`, and puts the answer into `answer`; also that to a command that can't be read, or is
 * refused: a completion code and no data. `room` is the most bytes that an image of the component of an UpdateComponent
 * may have, 0 where the device has no such component; where it has several, needleoat_firmware_component says which.
 *
 * The call is refused, with `answer` as it was, with the first of 3, 6 (`source` is no endpoint ID), 2, and 18: the
 * firmware itself has to answer QueryDeviceIdentifiers and GetFirmwareParameters.
 */
struct needleoat_flash_step needleoat_firmware_receive(struct needleoat_firmware *firmware, uint8_t source,
                                                       uint64_t now_ms, uint8_t command, const uint8_t *data,
                                                       uint64_t length, uint32_t room,
                                                       struct needleoat_firmware_answer *answer);

/*
 * Whether the device asks something of the update agent at this moment: then it is put into `request`, with its PLDM
 * type. False, with `request` as it was, while a request of it is open, for a second after one that was not answered as
 * it has to be, where the agent or the flash has the next move, and where there is no machine or the moment is past the
 * last one.
 */
bool needleoat_firmware_wish(struct needleoat_firmware *firmware, uint64_t now_ms, struct needleoat_request *request);

/*
 * What needleoat_firmware_wish asks at this moment was opened, as the request with this number: 0, or enum
 * needleoat_refusal: 3 or 2. Where nothing is asked, nothing changes.
 */
uint8_t needleoat_firmware_opened(struct needleoat_firmware *firmware, uint64_t number, uint64_t now_ms);

/*
 * The request with this number was answered, by this completion code and `length` bytes of data, which begin at byte 5
 * of the response. Where it brings NEEDLEOAT_FLASH_STORE, these bytes are to be stored, all of them. An answer to any
 * other request than the open one changes nothing.
 */
struct needleoat_flash_step needleoat_firmware_answered(struct needleoat_firmware *firmware, uint64_t number,
                                                        uint64_t now_ms, uint8_t code, const uint8_t *data,
                                                        uint64_t length);

/* The request with this number was given up. Any other than the open one changes nothing. */
struct needleoat_flash_step needleoat_firmware_gave_up(struct needleoat_firmware *firmware, uint64_t number);

/* The flash did the step with this number, well or not. A report of any step but the last one changes nothing. */
void needleoat_firmware_done(struct needleoat_firmware *firmware, uint64_t number, bool well);

/*
 * Time passes: where the agent has the next move and was not heard for 90 seconds, the update ends, and the flash has
 * to forget it.
 */
struct needleoat_flash_step needleoat_firmware_tick(struct needleoat_firmware *firmware, uint64_t now_ms);

/* Where the device is in the update. */
struct needleoat_stage needleoat_firmware_stage(struct needleoat_firmware *firmware);

/* Frees the machine, where there is one. The handle is then as NEEDLEOAT_FIRMWARE_NONE. */
void needleoat_firmware_free(struct needleoat_firmware *firmware);

/*
 * The memory that the library asks for; the head of this file says what these functions have to keep. `size`
 * may be 0, and it may be more than a size_t holds: such a block is refused. A block is aligned to `align`, a
 * power of two up to 16. Where `is_there` is false, `at` points to some byte all the same, and nothing else
 * changed.
 */
struct needleoat_block {
    bool is_there;
    NEEDLEOAT_ALIGNED uint8_t *at;
};
struct needleoat_block rattle_alloc(uint64_t size, uint64_t align);
struct needleoat_block rattle_realloc(uint8_t *block, uint64_t kept, uint64_t size, uint64_t align);
void rattle_dealloc(uint8_t *block);

/*
 * The structs lie in memory as the library has them, alike on every processor: where one of these facts fails,
 * the library is not for the target.
 */
#define NEEDLEOAT_AT(type, field, place) NEEDLEOAT_ASSERT(offsetof(struct type, field) == place)
NEEDLEOAT_ASSERT(sizeof(struct needleoat_packet) == 12);
NEEDLEOAT_AT(needleoat_packet, reason, 0);
NEEDLEOAT_AT(needleoat_packet, destination, 1);
NEEDLEOAT_AT(needleoat_packet, source, 2);
NEEDLEOAT_AT(needleoat_packet, tag, 3);
NEEDLEOAT_AT(needleoat_packet, seq, 4);
NEEDLEOAT_AT(needleoat_packet, owner, 5);
NEEDLEOAT_AT(needleoat_packet, start, 6);
NEEDLEOAT_AT(needleoat_packet, end, 7);
NEEDLEOAT_AT(needleoat_packet, payload_length, 8);
NEEDLEOAT_ASSERT(sizeof(struct needleoat_message) == 12);
NEEDLEOAT_AT(needleoat_message, reason, 0);
NEEDLEOAT_AT(needleoat_message, instance_id, 1);
NEEDLEOAT_AT(needleoat_message, pldm_type, 2);
NEEDLEOAT_AT(needleoat_message, command, 3);
NEEDLEOAT_AT(needleoat_message, code, 4);
NEEDLEOAT_AT(needleoat_message, data_length, 8);
NEEDLEOAT_ASSERT(sizeof(struct needleoat_set_state) == 2);
NEEDLEOAT_AT(needleoat_set_state, set_request, 0);
NEEDLEOAT_AT(needleoat_set_state, state, 1);
NEEDLEOAT_ASSERT(sizeof(struct needleoat_command) == 64);
NEEDLEOAT_AT(needleoat_command, instance_id, 0);
NEEDLEOAT_AT(needleoat_command, pldm_type, 1);
NEEDLEOAT_AT(needleoat_command, command, 2);
NEEDLEOAT_AT(needleoat_command, tid, 3);
NEEDLEOAT_AT(needleoat_command, asked_type, 4);
NEEDLEOAT_AT(needleoat_command, transfer_operation_flag, 5);
NEEDLEOAT_AT(needleoat_command, rearm, 6);
NEEDLEOAT_AT(needleoat_command, size, 7);
NEEDLEOAT_AT(needleoat_command, count, 8);
NEEDLEOAT_AT(needleoat_command, sensor, 10);
NEEDLEOAT_AT(needleoat_command, effecter, 12);
NEEDLEOAT_AT(needleoat_command, request_count, 14);
NEEDLEOAT_AT(needleoat_command, record_change_number, 16);
NEEDLEOAT_AT(needleoat_command, data_transfer_handle, 20);
NEEDLEOAT_AT(needleoat_command, record_handle, 24);
NEEDLEOAT_AT(needleoat_command, value, 32);
NEEDLEOAT_AT(needleoat_command, version, 40);
NEEDLEOAT_AT(needleoat_command, sets, 44);
NEEDLEOAT_ASSERT(sizeof(struct needleoat_command_reading) == 2);
NEEDLEOAT_AT(needleoat_command_reading, reason, 0);
NEEDLEOAT_AT(needleoat_command_reading, code, 1);
NEEDLEOAT_ASSERT(sizeof(struct needleoat_sensor_state) == 4);
NEEDLEOAT_AT(needleoat_sensor_state, operational, 0);
NEEDLEOAT_AT(needleoat_sensor_state, present, 1);
NEEDLEOAT_AT(needleoat_sensor_state, previous, 2);
NEEDLEOAT_AT(needleoat_sensor_state, event, 3);
NEEDLEOAT_ASSERT(sizeof(struct needleoat_effecter_state) == 3);
NEEDLEOAT_AT(needleoat_effecter_state, operational, 0);
NEEDLEOAT_AT(needleoat_effecter_state, pending, 1);
NEEDLEOAT_AT(needleoat_effecter_state, present, 2);
NEEDLEOAT_ASSERT(sizeof(struct needleoat_answer) == 488);
NEEDLEOAT_AT(needleoat_answer, instance_id, 0);
NEEDLEOAT_AT(needleoat_answer, pldm_type, 1);
NEEDLEOAT_AT(needleoat_answer, command, 2);
NEEDLEOAT_AT(needleoat_answer, code, 3);
NEEDLEOAT_AT(needleoat_answer, tid, 4);
NEEDLEOAT_AT(needleoat_answer, transfer_flag, 5);
NEEDLEOAT_AT(needleoat_answer, transfer_crc, 6);
NEEDLEOAT_AT(needleoat_answer, size, 7);
NEEDLEOAT_AT(needleoat_answer, operational, 8);
NEEDLEOAT_AT(needleoat_answer, sensor_event_message_enable, 9);
NEEDLEOAT_AT(needleoat_answer, present, 10);
NEEDLEOAT_AT(needleoat_answer, previous, 11);
NEEDLEOAT_AT(needleoat_answer, event, 12);
NEEDLEOAT_AT(needleoat_answer, count, 13);
NEEDLEOAT_AT(needleoat_answer, repository_state, 14);
NEEDLEOAT_AT(needleoat_answer, timeout, 15);
NEEDLEOAT_AT(needleoat_answer, next_record_handle, 16);
NEEDLEOAT_AT(needleoat_answer, next_data_transfer_handle, 20);
NEEDLEOAT_AT(needleoat_answer, record_count, 24);
NEEDLEOAT_AT(needleoat_answer, repository_size, 28);
NEEDLEOAT_AT(needleoat_answer, largest_record_size, 32);
NEEDLEOAT_AT(needleoat_answer, value, 40);
NEEDLEOAT_AT(needleoat_answer, pending_value, 48);
NEEDLEOAT_AT(needleoat_answer, length, 56);
NEEDLEOAT_AT(needleoat_answer, sensor_states, 60);
NEEDLEOAT_AT(needleoat_answer, effecter_states, 92);
NEEDLEOAT_AT(needleoat_answer, types, 116);
NEEDLEOAT_AT(needleoat_answer, commands, 124);
NEEDLEOAT_AT(needleoat_answer, update_time, 156);
NEEDLEOAT_AT(needleoat_answer, oem_update_time, 169);
NEEDLEOAT_AT(needleoat_answer, bytes, 182);
NEEDLEOAT_ASSERT(sizeof(struct needleoat_type_version) == 5);
NEEDLEOAT_AT(needleoat_type_version, pldm_type, 0);
NEEDLEOAT_AT(needleoat_type_version, version, 1);
NEEDLEOAT_ASSERT(sizeof(struct needleoat_type_command) == 2);
NEEDLEOAT_AT(needleoat_type_command, pldm_type, 0);
NEEDLEOAT_AT(needleoat_type_command, command, 1);
NEEDLEOAT_ASSERT(sizeof(struct needleoat_entity) == 6);
NEEDLEOAT_AT(needleoat_entity, entity_type, 0);
NEEDLEOAT_AT(needleoat_entity, instance, 2);
NEEDLEOAT_AT(needleoat_entity, container_id, 4);
NEEDLEOAT_ASSERT(sizeof(struct needleoat_units) == 7);
NEEDLEOAT_AT(needleoat_units, base_unit, 0);
NEEDLEOAT_AT(needleoat_units, unit_modifier, 1);
NEEDLEOAT_AT(needleoat_units, rate_unit, 2);
NEEDLEOAT_AT(needleoat_units, base_oem_unit_handle, 3);
NEEDLEOAT_AT(needleoat_units, auxiliary_unit, 4);
NEEDLEOAT_AT(needleoat_units, auxiliary_unit_modifier, 5);
NEEDLEOAT_AT(needleoat_units, auxiliary_rate_unit, 6);
NEEDLEOAT_ASSERT(sizeof(struct needleoat_conversion) == 16);
NEEDLEOAT_AT(needleoat_conversion, resolution, 0);
NEEDLEOAT_AT(needleoat_conversion, offset, 4);
NEEDLEOAT_AT(needleoat_conversion, accuracy, 8);
NEEDLEOAT_AT(needleoat_conversion, plus_tolerance, 10);
NEEDLEOAT_AT(needleoat_conversion, minus_tolerance, 11);
NEEDLEOAT_AT(needleoat_conversion, is_linear, 12);
NEEDLEOAT_AT(needleoat_conversion, size, 13);
NEEDLEOAT_ASSERT(sizeof(struct needleoat_sensor_range) == 80);
NEEDLEOAT_AT(needleoat_sensor_range, format, 0);
NEEDLEOAT_AT(needleoat_sensor_range, support, 1);
NEEDLEOAT_AT(needleoat_sensor_range, nominal, 8);
NEEDLEOAT_AT(needleoat_sensor_range, normal_max, 16);
NEEDLEOAT_AT(needleoat_sensor_range, normal_min, 24);
NEEDLEOAT_AT(needleoat_sensor_range, warning_high, 32);
NEEDLEOAT_AT(needleoat_sensor_range, warning_low, 40);
NEEDLEOAT_AT(needleoat_sensor_range, critical_high, 48);
NEEDLEOAT_AT(needleoat_sensor_range, critical_low, 56);
NEEDLEOAT_AT(needleoat_sensor_range, fatal_high, 64);
NEEDLEOAT_AT(needleoat_sensor_range, fatal_low, 72);
NEEDLEOAT_ASSERT(sizeof(struct needleoat_effecter_range) == 48);
NEEDLEOAT_AT(needleoat_effecter_range, format, 0);
NEEDLEOAT_AT(needleoat_effecter_range, support, 1);
NEEDLEOAT_AT(needleoat_effecter_range, nominal, 8);
NEEDLEOAT_AT(needleoat_effecter_range, normal_max, 16);
NEEDLEOAT_AT(needleoat_effecter_range, normal_min, 24);
NEEDLEOAT_AT(needleoat_effecter_range, rated_max, 32);
NEEDLEOAT_AT(needleoat_effecter_range, rated_min, 40);
NEEDLEOAT_ASSERT(sizeof(struct needleoat_possible_states) == 36);
NEEDLEOAT_AT(needleoat_possible_states, state_set, 0);
NEEDLEOAT_AT(needleoat_possible_states, size, 2);
NEEDLEOAT_AT(needleoat_possible_states, states, 3);
NEEDLEOAT_ASSERT(sizeof(struct needleoat_terminus_locator) == 16);
NEEDLEOAT_AT(needleoat_terminus_locator, record_handle, 0);
NEEDLEOAT_AT(needleoat_terminus_locator, change_number, 4);
NEEDLEOAT_AT(needleoat_terminus_locator, terminus_handle, 6);
NEEDLEOAT_AT(needleoat_terminus_locator, container_id, 8);
NEEDLEOAT_AT(needleoat_terminus_locator, is_valid, 10);
NEEDLEOAT_AT(needleoat_terminus_locator, tid, 11);
NEEDLEOAT_AT(needleoat_terminus_locator, eid, 12);
NEEDLEOAT_ASSERT(sizeof(struct needleoat_numeric_sensor) == 160);
NEEDLEOAT_AT(needleoat_numeric_sensor, record_handle, 0);
NEEDLEOAT_AT(needleoat_numeric_sensor, change_number, 4);
NEEDLEOAT_AT(needleoat_numeric_sensor, terminus_handle, 6);
NEEDLEOAT_AT(needleoat_numeric_sensor, sensor_id, 8);
NEEDLEOAT_AT(needleoat_numeric_sensor, entity, 10);
NEEDLEOAT_AT(needleoat_numeric_sensor, init, 16);
NEEDLEOAT_AT(needleoat_numeric_sensor, has_auxiliary_names, 17);
NEEDLEOAT_AT(needleoat_numeric_sensor, rel, 18);
NEEDLEOAT_AT(needleoat_numeric_sensor, auxiliary_oem_unit_handle, 19);
NEEDLEOAT_AT(needleoat_numeric_sensor, supported_thresholds, 20);
NEEDLEOAT_AT(needleoat_numeric_sensor, threshold_and_hysteresis_volatility, 21);
NEEDLEOAT_AT(needleoat_numeric_sensor, units, 22);
NEEDLEOAT_AT(needleoat_numeric_sensor, conversion, 32);
NEEDLEOAT_AT(needleoat_numeric_sensor, state_transition_interval, 48);
NEEDLEOAT_AT(needleoat_numeric_sensor, update_interval, 52);
NEEDLEOAT_AT(needleoat_numeric_sensor, hysteresis, 56);
NEEDLEOAT_AT(needleoat_numeric_sensor, max_readable, 64);
NEEDLEOAT_AT(needleoat_numeric_sensor, min_readable, 72);
NEEDLEOAT_AT(needleoat_numeric_sensor, range, 80);
NEEDLEOAT_ASSERT(sizeof(struct needleoat_numeric_effecter) == 120);
NEEDLEOAT_AT(needleoat_numeric_effecter, record_handle, 0);
NEEDLEOAT_AT(needleoat_numeric_effecter, change_number, 4);
NEEDLEOAT_AT(needleoat_numeric_effecter, terminus_handle, 6);
NEEDLEOAT_AT(needleoat_numeric_effecter, effecter_id, 8);
NEEDLEOAT_AT(needleoat_numeric_effecter, entity, 10);
NEEDLEOAT_AT(needleoat_numeric_effecter, semantic_id, 16);
NEEDLEOAT_AT(needleoat_numeric_effecter, init, 18);
NEEDLEOAT_AT(needleoat_numeric_effecter, has_auxiliary_names, 19);
NEEDLEOAT_AT(needleoat_numeric_effecter, auxiliary_oem_unit_handle, 20);
NEEDLEOAT_AT(needleoat_numeric_effecter, units, 21);
NEEDLEOAT_AT(needleoat_numeric_effecter, conversion, 28);
NEEDLEOAT_AT(needleoat_numeric_effecter, state_transition_interval, 44);
NEEDLEOAT_AT(needleoat_numeric_effecter, transition_interval, 48);
NEEDLEOAT_AT(needleoat_numeric_effecter, max_settable, 56);
NEEDLEOAT_AT(needleoat_numeric_effecter, min_settable, 64);
NEEDLEOAT_AT(needleoat_numeric_effecter, range, 72);
NEEDLEOAT_ASSERT(sizeof(struct needleoat_state_sensor) == 308);
NEEDLEOAT_AT(needleoat_state_sensor, record_handle, 0);
NEEDLEOAT_AT(needleoat_state_sensor, change_number, 4);
NEEDLEOAT_AT(needleoat_state_sensor, terminus_handle, 6);
NEEDLEOAT_AT(needleoat_state_sensor, sensor_id, 8);
NEEDLEOAT_AT(needleoat_state_sensor, entity, 10);
NEEDLEOAT_AT(needleoat_state_sensor, init, 16);
NEEDLEOAT_AT(needleoat_state_sensor, has_auxiliary_names, 17);
NEEDLEOAT_AT(needleoat_state_sensor, count, 18);
NEEDLEOAT_AT(needleoat_state_sensor, sets, 20);
NEEDLEOAT_ASSERT(sizeof(struct needleoat_state_effecter) == 312);
NEEDLEOAT_AT(needleoat_state_effecter, record_handle, 0);
NEEDLEOAT_AT(needleoat_state_effecter, change_number, 4);
NEEDLEOAT_AT(needleoat_state_effecter, terminus_handle, 6);
NEEDLEOAT_AT(needleoat_state_effecter, effecter_id, 8);
NEEDLEOAT_AT(needleoat_state_effecter, entity, 10);
NEEDLEOAT_AT(needleoat_state_effecter, semantic_id, 16);
NEEDLEOAT_AT(needleoat_state_effecter, init, 18);
NEEDLEOAT_AT(needleoat_state_effecter, has_description, 19);
NEEDLEOAT_AT(needleoat_state_effecter, count, 20);
NEEDLEOAT_AT(needleoat_state_effecter, sets, 22);
NEEDLEOAT_ASSERT(sizeof(struct needleoat_sensor_name) == 268);
NEEDLEOAT_AT(needleoat_sensor_name, record_handle, 0);
NEEDLEOAT_AT(needleoat_sensor_name, length, 4);
NEEDLEOAT_AT(needleoat_sensor_name, change_number, 8);
NEEDLEOAT_AT(needleoat_sensor_name, terminus_handle, 10);
NEEDLEOAT_AT(needleoat_sensor_name, sensor_id, 12);
NEEDLEOAT_AT(needleoat_sensor_name, text, 14);
NEEDLEOAT_ASSERT(sizeof(struct needleoat_effecter_name) == 268);
NEEDLEOAT_AT(needleoat_effecter_name, record_handle, 0);
NEEDLEOAT_AT(needleoat_effecter_name, length, 4);
NEEDLEOAT_AT(needleoat_effecter_name, change_number, 8);
NEEDLEOAT_AT(needleoat_effecter_name, terminus_handle, 10);
NEEDLEOAT_AT(needleoat_effecter_name, effecter_id, 12);
NEEDLEOAT_AT(needleoat_effecter_name, text, 14);
NEEDLEOAT_ASSERT(sizeof(struct needleoat_entity_name) == 272);
NEEDLEOAT_AT(needleoat_entity_name, record_handle, 0);
NEEDLEOAT_AT(needleoat_entity_name, length, 4);
NEEDLEOAT_AT(needleoat_entity_name, change_number, 8);
NEEDLEOAT_AT(needleoat_entity_name, entity, 10);
NEEDLEOAT_AT(needleoat_entity_name, text, 16);
NEEDLEOAT_ASSERT(sizeof(struct needleoat_i2c_frame) == 12);
NEEDLEOAT_AT(needleoat_i2c_frame, fault, 0);
NEEDLEOAT_AT(needleoat_i2c_frame, source_address, 1);
NEEDLEOAT_AT(needleoat_i2c_frame, packet_start, 4);
NEEDLEOAT_AT(needleoat_i2c_frame, packet_length, 8);
NEEDLEOAT_ASSERT(sizeof(struct needleoat_i3c_frame) == 8);
NEEDLEOAT_AT(needleoat_i3c_frame, fault, 0);
NEEDLEOAT_AT(needleoat_i3c_frame, packet_length, 4);
NEEDLEOAT_ASSERT(sizeof(struct needleoat_endpoint) == 16);
NEEDLEOAT_AT(needleoat_endpoint, at, 0);
NEEDLEOAT_AT(needleoat_endpoint, is_live, 8);
NEEDLEOAT_ASSERT(sizeof(struct needleoat_endpoint_settings) == 72);
NEEDLEOAT_AT(needleoat_endpoint_settings, own, 0);
NEEDLEOAT_AT(needleoat_endpoint_settings, first_start, 1);
NEEDLEOAT_AT(needleoat_endpoint_settings, keep_ms, 4);
NEEDLEOAT_AT(needleoat_endpoint_settings, sources, 8);
NEEDLEOAT_AT(needleoat_endpoint_settings, open_messages, 12);
NEEDLEOAT_AT(needleoat_endpoint_settings, pending_commands, 16);
NEEDLEOAT_AT(needleoat_endpoint_settings, window, 20);
NEEDLEOAT_AT(needleoat_endpoint_settings, busy, 24);
NEEDLEOAT_AT(needleoat_endpoint_settings, unknown_commands, 28);
NEEDLEOAT_AT(needleoat_endpoint_settings, pldm_types, 32);
NEEDLEOAT_AT(needleoat_endpoint_settings, answers_control, 40);
NEEDLEOAT_AT(needleoat_endpoint_settings, assigned, 41);
NEEDLEOAT_AT(needleoat_endpoint_settings, uuid, 42);
NEEDLEOAT_AT(needleoat_endpoint_settings, base_version, 58);
NEEDLEOAT_AT(needleoat_endpoint_settings, control_version, 62);
NEEDLEOAT_AT(needleoat_endpoint_settings, pldm_version, 66);
NEEDLEOAT_ASSERT(sizeof(struct needleoat_request) == 324);
NEEDLEOAT_AT(needleoat_request, pldm_type, 0);
NEEDLEOAT_AT(needleoat_request, command, 1);
NEEDLEOAT_AT(needleoat_request, length, 4);
NEEDLEOAT_AT(needleoat_request, data, 8);
NEEDLEOAT_ASSERT(sizeof(struct needleoat_command_handle) == 16);
NEEDLEOAT_AT(needleoat_command_handle, number, 0);
NEEDLEOAT_AT(needleoat_command_handle, source, 8);
NEEDLEOAT_AT(needleoat_command_handle, instance_id, 9);
NEEDLEOAT_ASSERT(sizeof(struct needleoat_step) == 48);
NEEDLEOAT_AT(needleoat_step, kind, 0);
NEEDLEOAT_AT(needleoat_step, reason, 1);
NEEDLEOAT_AT(needleoat_step, fresh, 2);
NEEDLEOAT_AT(needleoat_step, changed, 3);
NEEDLEOAT_AT(needleoat_step, count, 4);
NEEDLEOAT_AT(needleoat_step, lengths, 8);
NEEDLEOAT_AT(needleoat_step, handle, 32);
NEEDLEOAT_ASSERT(sizeof(struct needleoat_requester) == 16);
NEEDLEOAT_AT(needleoat_requester, at, 0);
NEEDLEOAT_AT(needleoat_requester, is_live, 8);
NEEDLEOAT_ASSERT(sizeof(struct needleoat_requester_settings) == 20);
NEEDLEOAT_AT(needleoat_requester_settings, own, 0);
NEEDLEOAT_AT(needleoat_requester_settings, device, 1);
NEEDLEOAT_AT(needleoat_requester_settings, tries, 2);
NEEDLEOAT_AT(needleoat_requester_settings, brief, 3);
NEEDLEOAT_AT(needleoat_requester_settings, keep_ms, 4);
NEEDLEOAT_AT(needleoat_requester_settings, timeout_ms, 8);
NEEDLEOAT_AT(needleoat_requester_settings, lifetime_ms, 12);
NEEDLEOAT_AT(needleoat_requester_settings, window, 16);
NEEDLEOAT_ASSERT(sizeof(struct needleoat_opening) == 16);
NEEDLEOAT_AT(needleoat_opening, refusal, 0);
NEEDLEOAT_AT(needleoat_opening, instance_id, 1);
NEEDLEOAT_AT(needleoat_opening, tag, 2);
NEEDLEOAT_AT(needleoat_opening, number, 8);
NEEDLEOAT_ASSERT(sizeof(struct needleoat_due) == 136);
NEEDLEOAT_AT(needleoat_due, again_count, 0);
NEEDLEOAT_AT(needleoat_due, given_up_count, 4);
NEEDLEOAT_AT(needleoat_due, again, 8);
NEEDLEOAT_AT(needleoat_due, given_up, 72);
NEEDLEOAT_ASSERT(sizeof(struct needleoat_receiving) == 16);
NEEDLEOAT_AT(needleoat_receiving, kind, 0);
NEEDLEOAT_AT(needleoat_receiving, reason, 1);
NEEDLEOAT_AT(needleoat_receiving, number, 8);
NEEDLEOAT_ASSERT(sizeof(struct needleoat_status) == 8);
NEEDLEOAT_AT(needleoat_status, kind, 0);
NEEDLEOAT_AT(needleoat_status, length, 4);
NEEDLEOAT_ASSERT(sizeof(struct needleoat_terminus) == 16);
NEEDLEOAT_AT(needleoat_terminus, at, 0);
NEEDLEOAT_AT(needleoat_terminus, is_live, 8);
NEEDLEOAT_ASSERT(sizeof(struct needleoat_peer_settings) == 20);
NEEDLEOAT_AT(needleoat_peer_settings, device, 0);
NEEDLEOAT_AT(needleoat_peer_settings, tries, 1);
NEEDLEOAT_AT(needleoat_peer_settings, brief, 2);
NEEDLEOAT_AT(needleoat_peer_settings, keep_ms, 4);
NEEDLEOAT_AT(needleoat_peer_settings, timeout_ms, 8);
NEEDLEOAT_AT(needleoat_peer_settings, lifetime_ms, 12);
NEEDLEOAT_AT(needleoat_peer_settings, window, 16);
NEEDLEOAT_ASSERT(sizeof(struct needleoat_coming) == 72);
NEEDLEOAT_AT(needleoat_coming, half, 0);
NEEDLEOAT_AT(needleoat_coming, step, 8);
NEEDLEOAT_AT(needleoat_coming, receiving, 56);
NEEDLEOAT_ASSERT(sizeof(struct needleoat_firmware) == 16);
NEEDLEOAT_AT(needleoat_firmware, at, 0);
NEEDLEOAT_AT(needleoat_firmware, is_live, 8);
NEEDLEOAT_ASSERT(sizeof(struct needleoat_flash_step) == 24);
NEEDLEOAT_AT(needleoat_flash_step, number, 0);
NEEDLEOAT_AT(needleoat_flash_step, size, 8);
NEEDLEOAT_AT(needleoat_flash_step, offset, 12);
NEEDLEOAT_AT(needleoat_flash_step, refusal, 16);
NEEDLEOAT_AT(needleoat_flash_step, action, 17);
NEEDLEOAT_ASSERT(sizeof(struct needleoat_component) == 6);
NEEDLEOAT_AT(needleoat_component, classification, 0);
NEEDLEOAT_AT(needleoat_component, identifier, 2);
NEEDLEOAT_AT(needleoat_component, index, 4);
NEEDLEOAT_ASSERT(sizeof(struct needleoat_firmware_answer) == 324);
NEEDLEOAT_AT(needleoat_firmware_answer, code, 0);
NEEDLEOAT_AT(needleoat_firmware_answer, length, 4);
NEEDLEOAT_AT(needleoat_firmware_answer, data, 8);
NEEDLEOAT_ASSERT(sizeof(struct needleoat_stage) == 8);
NEEDLEOAT_AT(needleoat_stage, stage, 0);
NEEDLEOAT_AT(needleoat_stage, stored, 4);
NEEDLEOAT_ASSERT(sizeof(struct needleoat_block) == 16);
NEEDLEOAT_AT(needleoat_block, is_there, 0);
NEEDLEOAT_AT(needleoat_block, at, 8);
#undef NEEDLEOAT_AT
#undef NEEDLEOAT_ASSERT
#undef NEEDLEOAT_ALIGNED

#ifdef __cplusplus
}
#endif
#endif
