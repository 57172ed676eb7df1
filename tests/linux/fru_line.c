/*
 * fru_line: the device of examples/c/fru.c, behind a serial line (DSP0253), which is standard input and output. It ends
 * where the line does.
 */
#define _POSIX_C_SOURCE 200809L /* for the clock */
#define main ask_over_a_line_that_loses
#include "../../examples/c/fru.c"
#undef main

#include "line_frames.h"
#include <time.h>

static uint64_t clock_ms(void) {
    struct timespec now;
    clock_gettime(CLOCK_MONOTONIC, &now);
    return (uint64_t)now.tv_sec * 1000 + (uint64_t)now.tv_nsec / 1000000;
}

static void answer_frame(void) {
    now_ms = clock_ms();
    struct needleoat_step step = serve(frame.packet, frame.length);
    if (step.kind != NEEDLEOAT_STEP_ANSWERED) return;
    for (uint32_t i = 0; i < step.count; i++) write_line_frame(STDOUT_FILENO, packets[i], step.lengths[i]);
}

int main(void) {
    uint8_t bytes[4096];
    ssize_t count;
    now_ms = clock_ms();
    if (begin() != 0) return 1;
    while ((count = read(STDIN_FILENO, bytes, sizeof bytes)) > 0)
        for (ssize_t i = 0; i < count; i++)
            if (take_line_byte(bytes[i])) answer_frame();
    needleoat_endpoint_free(&endpoint);
    return count < 0;
}
