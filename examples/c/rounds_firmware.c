/*
 * Makes each call of the machine of firmware update, with pseudo-random commands, answers and reports, those that go on
 * with the update more often than others; prints how often things came, and a hash of all that the calls gave.
 * tests/check_c compares what it prints on two processors.
 */
#include "rounds.h"

enum { AGENT = 8, ROUNDS_OF_ONE_LIFE = 1000, SIZE = 600, DATA = 32 };

static struct needleoat_firmware machine = NEEDLEOAT_FIRMWARE_NONE;
static uint64_t now_ms, requests, latest;
static unsigned stages[16], actions[8], codes[256];

static void mix_flash(struct needleoat_flash_step step) {
    actions[step.action]++;
    mix_number(step.number);
    mix_number(step.size);
    mix_number(step.offset);
    mix_number(step.refusal);
    mix_number(step.action);
    if (step.action != NEEDLEOAT_FLASH_NONE) latest = step.number;
}

/* The data of a command, most often such as brings the update on. */
static uint32_t write_data(uint8_t command, uint8_t data[DATA]) {
    static const uint8_t begin[] = {0, 1, 0, 0, 1, 0, 1, 0, 0, 1, 1, 'v'};
    static const uint8_t pass[] = {5, 10, 0, 1, 0, 0, 0, 0, 0, 0, 1, 1, 'v'};
    static const uint8_t transfer[] = {10, 0, 1, 0, 0, 0, 0, 0, 0, SIZE % 256, SIZE / 256, 0, 0, 0, 0, 0, 0, 1, 1, 'v'};
    uint32_t length = command == 0x1a ? 1 : 0;
    memset(data, 0, DATA);
    if (command == 0x10) memcpy(data, begin, length = sizeof begin);
    if (command == 0x13) memcpy(data, pass, length = sizeof pass);
    if (command == 0x14) memcpy(data, transfer, length = sizeof transfer);
    if (one_in(8)) change(data, length);
    return one_in(16) ? below(DATA) : length;
}

static void give_command(void) {
    static const uint8_t commands[] = {0x10, 0x10, 0x13, 0x13, 0x14, 0x14, 0x1a,
                                       0x1a, 0x1b, 0x1c, 0x1d, 0x15, 0x01, 0x77};
    uint8_t data[DATA], command = commands[one_in(4) ? below(sizeof commands) : below(8)];
    struct needleoat_firmware_answer answer = {0};
    uint32_t length = write_data(command, data), room = one_in(16) ? below(SIZE) : SIZE;
    uint8_t source = (uint8_t)(one_in(32) ? below(256) : AGENT);
    mix_flash(needleoat_firmware_receive(&machine, source, now_ms, command, data, length, room, &answer));
    codes[answer.code]++;
    mix_number(answer.code);
    mix_number(answer.length);
    mix(answer.data, sizeof answer.data);
}

/* The request that it wishes is opened, and answered as it has to be, or in another way. */
static void ask(void) {
    struct needleoat_request wish = {0};
    uint8_t answer[NEEDLEOAT_RESPONSE_DATA];
    fill(answer, sizeof answer);
    mix_number(needleoat_firmware_wish(&machine, now_ms, &wish));
    mix_number(wish.pldm_type);
    mix_number(wish.command);
    mix_number(wish.length);
    mix(wish.data, sizeof wish.data);
    mix_number(needleoat_firmware_opened(&machine, ++requests, now_ms));
    uint32_t length = wish.command == 0x15 ? wish.data[4] + 256u * wish.data[5] : 0;
    uint64_t number = one_in(16) ? requests - 1 : requests;
    if (one_in(16)) length = below(sizeof answer);
    if (one_in(16)) mix_flash(needleoat_firmware_gave_up(&machine, number));
    mix_flash(needleoat_firmware_answered(&machine, number, now_ms, one_in(16) ? 1 : 0, answer, length));
}

static void go_round(void) {
    now_ms += one_in(500) ? 90000 : below(600);
    if (one_in(20000)) now_ms = UINT64_C(4000000000000000) + below(2);
    if (one_in(2)) ask();
    else if (one_in(3)) give_command();
    mix_flash(needleoat_firmware_tick(&machine, now_ms));
    bool is_last = !one_in(16), well = !one_in(16);
    needleoat_firmware_done(&machine, is_last ? latest : latest - 1, well);
    struct needleoat_stage at = needleoat_firmware_stage(&machine);
    stages[at.stage]++;
    mix_number(at.stage);
    mix_number(at.stored);
}

int main(void) {
    seed();
    for (int i = 0; i < ROUNDS; i++) {
        if (i % ROUNDS_OF_ONE_LIFE == 0) {
            needleoat_firmware_free(&machine);
            now_ms = below(1000);
            latest = (uint64_t)next_number() << 32;
            latest |= next_number();
            mix_number(needleoat_firmware_new(one_in(2) ? UINT64_MAX : latest, &machine));
        }
        go_round();
    }
    needleoat_firmware_free(&machine);
    printf("rounds %d, stages", ROUNDS);
    for (int i = 0; i < 16; i++) printf(" %u", stages[i]);
    printf("\nsteps");
    for (int i = 0; i < 8; i++) printf(" %u", actions[i]);
    printf("\ncodes");
    for (int i = 0; i < 256; i++)
        if (codes[i] > 0) printf(" %02x %u", i, codes[i]);
    printf("\n");
    print_hash();
    return 0;
}
