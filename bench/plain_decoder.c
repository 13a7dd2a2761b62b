/* A plain decoder to measure against: the same sums, offsets, deframing and merging as tnc decode, written as a C
   programmer would, with no proof. It reads raw PCM from standard input and prints a line a frame.
   cc -O2 -o plain_decoder plain_decoder.c */
#include <stdint.h>
#include <stdio.h>
#include <stdlib.h>
#include <string.h>

static const int quarter[13] = {0, 1305, 2588, 3827, 5000, 6088, 7071, 7934, 8660, 9239, 9659, 9914, 10000};
static int weight[4][8];
static uint16_t fcs_table[256];

static int sine(int phase) {
    phase %= 48;
    if (phase >= 24) return -sine(phase - 24);
    return quarter[phase > 12 ? 24 - phase : phase];
}

static int is_mark(const int16_t *x) {
    int64_t sum[4];
    for (int s = 0; s < 4; s++) {
        int32_t total = 0;
        for (int i = 0; i < 8; i++) total += x[i] * weight[s][i];
        sum[s] = total;
    }
    uint64_t mark = (uint64_t)(sum[0] * sum[0]) + (uint64_t)(sum[1] * sum[1]);
    uint64_t space = (uint64_t)(sum[2] * sum[2]) + (uint64_t)(sum[3] * sum[3]);
    return mark >= space;
}

struct candidate { size_t end; int offset, length; uint8_t *octets; };
static struct candidate *found;
static size_t count, room;

static void add(size_t end, int offset, const uint8_t *octets, int length) {
    if (count == room) found = realloc(found, (room = room ? 2 * room : 64) * sizeof *found);
    found[count].end = end, found[count].offset = offset, found[count].length = length;
    found[count].octets = malloc(length);
    memcpy(found[count++].octets, octets, length);
}

static void lane(const int16_t *x, size_t n, int offset) {
    uint8_t octets[1026];
    int length = 0, filled = 0, part = 0, ones = 0, open = 0, before = 1, seen_zero = 0;
    for (size_t at = offset; at + 8 <= n; at += 8) {
        int tone = is_mark(x + at), bit = tone == before;
        before = tone;
        if (bit) {
            if (ones < 8) ones++;
            if (ones <= 5 && open) part |= 1 << filled++;
            if (ones == 7) open = 0;
        } else if (ones == 6 && seen_zero) {
            /* a flag: the first six of its bits, 011111, stand after the frame */
            if (open && filled == 6 && part == 62 && length >= 17) {
                uint16_t check = 0xffff;
                for (int i = 0; i < length - 2; i++) check = check >> 8 ^ fcs_table[(check ^ octets[i]) & 255];
                check ^= 0xffff;
                if (octets[length - 2] == (check & 255) && octets[length - 1] == check >> 8)
                    add(at + 8, offset, octets, length - 2);
            }
            open = 1, length = filled = part = ones = 0;
        } else {
            if (ones < 5 && open) filled++;
            ones = 0, seen_zero = 1;
        }
        if (open && filled == 8) {
            if (length == 1026) open = 0;
            else octets[length++] = part;
            filled = part = 0;
        }
    }
}

static int order(const void *a, const void *b) {
    const struct candidate *x = a, *y = b;
    return x->end != y->end ? (x->end > y->end) - (x->end < y->end) : x->offset - y->offset;
}

int main(void) {
    size_t size = 0, space = 1 << 20, got;
    uint8_t *input = malloc(space);
    while ((got = fread(input + size, 1, space - size, stdin)) > 0)
        if ((size += got) == space) input = realloc(input, space *= 2);
    for (int i = 0; i < 8; i++) {
        weight[0][i] = sine(6 * i), weight[1][i] = sine(6 * i + 12);
        weight[2][i] = sine(11 * i), weight[3][i] = sine(11 * i + 12);
    }
    for (int i = 0; i < 256; i++) {
        uint16_t value = i;
        for (int bit = 0; bit < 8; bit++) value = value & 1 ? value >> 1 ^ 0x8408 : value >> 1;
        fcs_table[i] = value;
    }
    for (int offset = 0; offset < 8; offset++) lane((const int16_t *)input, size / 2, offset);
    qsort(found, count, sizeof *found, order);
    for (size_t i = 0; i < count; i++) {
        int repeated = 0;
        for (size_t j = i; j-- > 0 && found[j].end + 15 >= found[i].end;)
            if (found[j].length == found[i].length && !memcmp(found[j].octets, found[i].octets, found[i].length))
                repeated = 1;
        if (repeated) continue;
        for (int k = 0; k < found[i].length; k++) printf("%02x", found[i].octets[k]);
        putchar('\n');
    }
    return 0;
}
