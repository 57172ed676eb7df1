/*
 * Pseudo-random numbers from a seed, and a hash of what the library makes of them: programs that print the same on each
 * processor. The environment has SEED=N, else it is 1.
 */
#ifndef ROUNDS_H
#define ROUNDS_H
#include "needleoat.h"
#include <inttypes.h>
#include <stdio.h>
#include <stdlib.h>
#include <string.h>

enum { ROUNDS = 20000 };

static uint32_t state;               /* xorshift32 */
static uint32_t hash = 2166136261u; /* FNV-1a */

static void seed(void) {
    const char *text = getenv("SEED");
    state = ((text ? (uint32_t)strtoul(text, NULL, 10) : 1) * 747796405u + 2891336453u) | 1;
}

static uint32_t next_number(void) {
    state ^= state << 13;
    state ^= state >> 17;
    return state ^= state << 5;
}

/* A number below `bound`. */
static uint32_t below(uint32_t bound) { return (next_number() >> 4) % bound; }

static bool one_in(uint32_t bound) { return below(bound) == 0; }

/* Fills a place with bytes that are small more often than not. */
static void fill(void *at, size_t length) {
    uint8_t *bytes = at;
    for (size_t i = 0; i < length; i++) {
        uint32_t number = next_number() >> 8;
        bytes[i] = (uint8_t)(number & 0x300 ? number & 7 : number);
    }
}

/* Changes one bit of a message. */
static void change(uint8_t *bytes, uint32_t length) {
    if (length == 0) return;
    uint32_t place = below(length);
    bytes[place] ^= (uint8_t)(1u << below(8));
}

static void mix(const void *at, size_t length) {
    const uint8_t *bytes = at;
    for (size_t i = 0; i < length; i++) hash = (hash ^ bytes[i]) * 16777619u;
}

/* A number goes into the hash by its value, so padding never does. */
static void mix_number(uint64_t number) { mix(&number, sizeof number); }

static void print_hash(void) { printf("hash %08" PRIx32 "\n", hash); }

#endif
