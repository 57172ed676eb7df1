/*
 * What a program of these examples needs where there is no operating system but an emulator or a debugger: its standard
 * files and its environment, over semihosting. The C library is picolibc. A word NAME=VALUE of the command line is a
 * variable of the environment.
 */
#include <semihost.h>
#include <stdint.h>
#include <stdio.h>
#include <stdlib.h>
#include <string.h>
#include <unistd.h>

enum { WORDS = 512, VARIABLES = 8 };

static int input, output, errors;

static int get(FILE *file) {
    unsigned char byte;
    (void)file;
    return sys_semihost_read(input, &byte, 1) == 0 ? byte : _FDEV_EOF;
}

static int put(char byte, FILE *file) {
    sys_semihost_write(file == stderr ? errors : output, &byte, 1);
    return (unsigned char)byte;
}

static FILE input_file = FDEV_SETUP_STREAM(NULL, get, NULL, _FDEV_SETUP_READ);
static FILE output_file = FDEV_SETUP_STREAM(put, NULL, NULL, _FDEV_SETUP_WRITE);
static FILE error_file = FDEV_SETUP_STREAM(put, NULL, NULL, _FDEV_SETUP_WRITE);
FILE *const stdin = &input_file, *const stdout = &output_file, *const stderr = &error_file;

static void read_environment(void) {
    static char words[WORDS], *variables[VARIABLES + 1];
    size_t count = 0;
    environ = variables;
    if (sys_semihost_get_cmdline(words, sizeof words) != 0) return;
    for (char *word = strtok(words, " "); word && count < VARIABLES; word = strtok(NULL, " "))
        if (strchr(word, '=')) variables[count++] = word;
}

#ifdef __ARM_ARCH_PROFILE
#define CONFIGURATION_AND_CONTROL (*(volatile uint32_t *)0xe000ed14)
#define SYSTICK_CONTROL (*(volatile uint32_t *)0xe000e010)
#define SYSTICK_RELOAD (*(volatile uint32_t *)0xe000e014)
#define SYSTICK_VALUE (*(volatile uint32_t *)0xe000e018)
enum { TRAP_UNALIGNED = 8, RUNS_BY_PROCESSOR = 5, MOST_TICKS = 0xffffff };
/* QEMU's mps2-an386 has 25 MHz, so a tick is 40 ns, and with `-icount shift=0` an instruction is 1 ns. */
enum { INSTRUCTIONS_PER_TICK = 40 };

/* With TRAP_UNALIGNED=1 each access that is not aligned is a fault, as it always is on an ARMv6-M. */
static void set_up_processor(void) {
    if (getenv("TRAP_UNALIGNED")) CONFIGURATION_AND_CONTROL |= TRAP_UNALIGNED;
    SYSTICK_RELOAD = MOST_TICKS;
    SYSTICK_VALUE = 0;
    SYSTICK_CONTROL = RUNS_BY_PROCESSOR;
}

uint64_t instructions(void) {
    static uint64_t ticks;
    ticks += ((MOST_TICKS - SYSTICK_VALUE) - ticks) & MOST_TICKS;
    return ticks * INSTRUCTIONS_PER_TICK;
}
#else
static void set_up_processor(void) {}

uint64_t instructions(void) {
    uint32_t upper, lower, again;
    do __asm__ volatile("rdinstreth %0\n rdinstret %1\n rdinstreth %2" : "=r"(upper), "=r"(lower), "=r"(again));
    while (upper != again);
    return (uint64_t)upper << 32 | lower;
}
#endif

#if __ARM_ARCH == 6
/* An ARMv6-M has no instruction that adds to a place at once. There is one thread here. */
unsigned __atomic_fetch_add_4(volatile void *place, unsigned number, int order) {
    volatile unsigned *at = place;
    unsigned before = *at;
    (void)order;
    *at = before + number;
    return before;
}
#endif

__attribute__((constructor)) static void set_up(void) {
    input = sys_semihost_open(":tt", SH_OPEN_R);
    output = sys_semihost_open(":tt", SH_OPEN_W);
    errors = sys_semihost_open(":tt", SH_OPEN_A);
    read_environment();
    set_up_processor();
}
