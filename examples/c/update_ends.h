/*
 * The two ends of a firmware update (DSP0267), each over a terminus: a device with a flash, and an update agent. The
 * program that has one or both of them sends packets, has a clock and, for the device, the flash.
 */
#ifndef UPDATE_ENDS_H
#define UPDATE_ENDS_H
#include "needleoat.h"

enum {
    UPDATE_DEVICE = 9,         /* the endpoint IDs of both */
    UPDATE_AGENT = 8,
    UPDATE_PIECE_BYTES = 256,  /* the most bytes that the agent gives at once */
    UPDATE_READ_TYPE = 63      /* the OEM type of what reads the active image back: an offset, a length */
};

/* ---- What the program has ---- */

/* Milliseconds of a clock that never goes back. */
uint64_t moment(void);
void send_packet(const uint8_t *packet, uint32_t length);

/* Does a step of the flash, with the bytes of the piece that has just come; whether it went well. */
bool flash_do(const struct needleoat_flash_step *step, const uint8_t *piece, uint32_t length);
/* Reads so many bytes of the active image, at most UPDATE_PIECE_BYTES. False where it has not so many there. */
bool flash_read(uint32_t offset, uint32_t length, uint8_t *out);
/* The most bytes of an image. */
uint32_t flash_room(void);

/* ---- The device ---- */

/* Begins: 0, or enum needleoat_refusal. */
uint8_t device_begin(void);
/* At each turn: it works on a step of the flash, and asks. */
void device_turn(void);
/* A packet comes to it. */
void device_come(const uint8_t *packet, uint32_t length);
struct needleoat_stage device_stage(void);
void device_end(void);

/* ---- The agent ---- */

uint8_t agent_begin(void);
/* Begins an update with this image. It is cancelled where the device asks for bytes from `cancel_from` on. */
void agent_start(const uint8_t *image, uint32_t size, uint32_t cancel_from);
void agent_turn(void);
void agent_come(const uint8_t *packet, uint32_t length);
/* Whether the device has accepted the last command. */
bool agent_is_over(void);
/* Reads the active image back, up to so many bytes. */
void agent_read_back(uint32_t size);
/* Whether the bytes of an image came back, these in their order. */
bool agent_has_read(const uint8_t *image, uint32_t size);
void agent_end(void);

/* ---- What both have ---- */

/* Makes a terminus that hands on requests of firmware update, and of the OEM type: 0, or enum needleoat_refusal. */
uint8_t terminus_begin(struct needleoat_terminus *terminus, uint8_t own, uint8_t peer);
/* Sends again what is due, and returns how many requests were given up: the first of `due->given_up`. */
uint32_t terminus_tick(struct needleoat_terminus *terminus, struct needleoat_due *due);
/* Opens a request and sends it; false where it has to wait. */
bool terminus_ask(struct needleoat_terminus *terminus, uint8_t pldm_type, uint8_t command, const uint8_t *data,
                  uint32_t length, uint64_t *number);
/* Answers a request that is pending. */
void terminus_respond(struct needleoat_terminus *terminus, const struct needleoat_command_handle *handle, uint8_t code,
                      const uint8_t *data, uint32_t length);
/* A packet comes: it answers what it answers by itself. Where memory was refused, the packet counts as lost. */
struct needleoat_coming terminus_come(struct needleoat_terminus *terminus, const uint8_t *packet, uint32_t length);

uint32_t u32_at(const uint8_t *bytes);
void put_u32(uint8_t *bytes, uint32_t number);
/* Whether bytes are an image: the last four are the CRC-32 of those before. */
bool is_image(const uint8_t *bytes, uint32_t size);

#endif
