/*
 * What `mctpctl answer` over the capture `one` cannot do without, and nothing else: the lines are found, each packet's hex
 * is read, and an answer's hex is written. No packet is checked, nothing is kept, and the data of each answer is the
 * argument. `bench/limit` compares what it writes with what the program does.
 */
#include <stdint.h>
#include <string.h>
#include <unistd.h>

enum { PIECE = 65536, HEADER = 8, MOST = 64 };

static uint8_t value_of[256];
static char in[PIECE], out[PIECE];
static size_t filled;

static void put(const char *text, size_t length)
{
    if (filled + length > sizeof out) {
        for (size_t at = 0; at < filled;) {
            ssize_t count = write(1, out + at, filled - at);
            if (count <= 0)
                _exit(3);
            at += (size_t)count;
        }
        filled = 0;
    }
    memcpy(out + filled, text, length);
    filled += length;
}

/* The packet of a line goes back on its tag, with the argument as its data. */
static void answer(const char *line, const char *end, const char *data, size_t length)
{
    static const char digits[] = "0123456789abcdef";
    uint8_t packet[MOST];
    char text[2 * HEADER];
    size_t count = 0;
    const char *at = memchr(line, ' ', (size_t)(end - line));
    if (at == NULL)
        _exit(1);
    for (at++; at + 1 < end && count < MOST; at += 2)
        packet[count++] = (uint8_t)(value_of[(uint8_t)at[0]] << 4 | value_of[(uint8_t)at[1]]);
    uint8_t back[HEADER] = {packet[0], packet[2], packet[1], packet[3] & 0xF7, packet[4], packet[5] & 0x1F,
                                packet[6], packet[7]};
    for (size_t i = 0; i < sizeof back; i++) {
        text[2 * i] = digits[back[i] >> 4];
        text[2 * i + 1] = digits[back[i] & 15];
    }
    put(text, 2 * sizeof back);
    put(data, length);
    put("\n", 1);
}

int main(int argc, char **argv)
{
    size_t held = 0;
    int is_described = 0;
    if (argc != 2)
        return 2;
    for (int i = 0; i < 10; i++)
        value_of['0' + i] = (uint8_t)i;
    for (int i = 10; i < 16; i++)
        value_of['a' + i - 10] = value_of['A' + i - 10] = (uint8_t)i;
    for (ssize_t count; (count = read(0, in + held, sizeof in - held)) > 0;) {
        const char *line = in, *end, *last = in + held + count;
        while ((end = memchr(line, '\n', (size_t)(last - line))) != NULL) {
            if (is_described)
                answer(line, end, argv[1], strlen(argv[1]));
            else
                is_described = end - line == 2 && line[0] == '%' && line[1] == '%';
            line = end + 1;
        }
        held = (size_t)(last - line);
        memmove(in, line, held);
    }
    for (size_t at = 0; at < filled;) {
        ssize_t count = write(1, out + at, filled - at);
        if (count <= 0)
            return 3;
        at += (size_t)count;
    }
    return 0;
}
