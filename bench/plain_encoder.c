/* A plain encoder to measure against: what tnc encode does with lines of hexadecimal digits, written as a C programmer
   would, with no proof: 75 flags, a frame with its check sequence and inserted zeros, and two flags, as a wave from the
   same table. It reads standard input to its end and writes raw PCM, a transmission at a time.
   cc -O2 -o plain_encoder plain_encoder.c */
#include <stdint.h>
#include <stdio.h>
#include <stdlib.h>
#include <string.h>

enum { OPENING = 75, CLOSING = 2, MARK = 6, SPACE = 11, STEPS = 48 };

static const int quarter[13] = {0, 1305, 2588, 3827, 5000, 6088, 7071, 7934, 8660, 9239, 9659, 9914, 10000};
static int16_t wave[STEPS];
static uint16_t fcs_table[256];
static int16_t *samples;
static size_t count, room;
static int phase, step, ones;

static int sine(int at) {
    at %= STEPS;
    if (at >= 24) return -sine(at - 24);
    return quarter[at > 12 ? 24 - at : at];
}

static void bit(int one) {
    if (!one) step = MARK + SPACE - step;
    if (count + 8 > room) samples = realloc(samples, (room = room ? 2 * room : 1 << 20) * sizeof *samples);
    for (int i = 0; i < 8; i++) {
        samples[count++] = wave[phase];
        phase += step;
        if (phase >= STEPS) phase -= STEPS;
    }
}

static void flags(int number) {
    while (number--)
        for (int i = 0; i < 8; i++) bit(0x7e >> i & 1);
}

static void octet(int value) {
    for (int i = 0; i < 8; i++) {
        int one = value >> i & 1;
        bit(one);
        ones = one ? ones + 1 : 0;
        if (ones == 5) bit(0), ones = 0;
    }
}

static void transmit(const uint8_t *octets, int length) {
    uint16_t check = 0xffff;
    for (int i = 0; i < length; i++) check = check >> 8 ^ fcs_table[(check ^ octets[i]) & 255];
    check ^= 0xffff;
    phase = ones = 0, step = MARK;
    flags(OPENING);
    for (int i = 0; i < length; i++) octet(octets[i]);
    octet(check & 255), octet(check >> 8);
    flags(CLOSING);
    fwrite(samples, sizeof *samples, count, stdout);
    count = 0;
}

static int digit(int letter) {
    if (letter >= '0' && letter <= '9') return letter - '0';
    letter |= 32;
    return letter >= 'a' && letter <= 'f' ? letter - 'a' + 10 : -1;
}

int main(void) {
    size_t size = 0, space = 1 << 20, got;
    uint8_t *input = malloc(space), octets[1024];
    while ((got = fread(input + size, 1, space - size, stdin)) > 0)
        if ((size += got) == space) input = realloc(input, space *= 2);
    for (int i = 0; i < STEPS; i++) wave[i] = sine(i);
    for (int i = 0; i < 256; i++) {
        uint16_t value = i;
        for (int at = 0; at < 8; at++) value = value & 1 ? value >> 1 ^ 0x8408 : value >> 1;
        fcs_table[i] = value;
    }
    for (size_t at = 0; at < size;) {
        uint8_t *end = memchr(input + at, '\n', size - at);
        size_t next = end ? (size_t)(end - input) + 1 : size, length = (end ? next - 1 : size) - at;
        if (end && length && input[at + length - 1] == '\r') length--;
        if (length) {
            if (length % 2 || length < 30 || length > 2048) return 2;
            for (size_t i = 0; i < length / 2; i++) {
                int high = digit(input[at + 2 * i]), low = digit(input[at + 2 * i + 1]);
                if (high < 0 || low < 0) return 2;
                octets[i] = high << 4 | low;
            }
            transmit(octets, length / 2);
        }
        at = next;
    }
    return 0;
}
