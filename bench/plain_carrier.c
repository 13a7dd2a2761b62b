/* When a channel is busy, written as a C programmer would, with no proof: by the tones of a transmission, or by so many
   flags in a row. It reads raw PCM of 9600 samples a second from standard input, and prints a line each time the channel
   becomes busy or free: `busy N` or `free N`, after N samples.
   cc -O2 -o plain_carrier plain_carrier.c; plain_carrier tones|1..8 <IN.raw */
#include <stdint.h>
#include <stdio.h>
#include <stdlib.h>
#include <string.h>

static const int quarter[13] = {0, 1305, 2588, 3827, 5000, 6088, 7071, 7934, 8660, 9239, 9659, 9914, 10000};
static int weight[4][8];

static int sine(int phase) {
    phase %= 48;
    if (phase >= 24) return -sine(phase - 24);
    return quarter[phase > 12 ? 24 - phase : phase];
}

struct window { int is_mark; int64_t sine, cosine, power; };

static int64_t part_of(int64_t sum) { return sum >> 8; }

static struct window heard(const int16_t *x) {
    int64_t sum[4], whole = 0, squares = 0;
    for (int s = 0; s < 4; s++) {
        sum[s] = 0;
        for (int i = 0; i < 8; i++) sum[s] += (int64_t)x[i] * weight[s][i];
    }
    for (int i = 0; i < 8; i++) whole += x[i], squares += (int64_t)x[i] * x[i];
    uint64_t mark = (uint64_t)(sum[0] * sum[0]) + (uint64_t)(sum[1] * sum[1]);
    uint64_t space = (uint64_t)(sum[2] * sum[2]) + (uint64_t)(sum[3] * sum[3]);
    int is_mark = mark >= space, first = is_mark ? 0 : 2;
    return (struct window){is_mark, part_of(sum[first]), part_of(sum[first + 1]), 64 * squares - 7 * whole * whole};
}

static int runs_on(struct window v, struct window w) {
    int64_t in_phase = v.sine * w.sine + v.cosine * w.cosine, across = v.cosine * w.sine - v.sine * w.cosine;
    return (v.is_mark ? 8 * in_phase : 4 * in_phase + 7 * across) > 170 * (v.power + w.power);
}

/* a lane that weighs tones */
struct tones { struct window last; int any, evidence, hold; };

static void weigh(struct tones *lane, struct window w) {
    if (lane->any) {
        int evidence = lane->evidence - 5;
        if (evidence < 0) evidence = 0;
        if (runs_on(lane->last, w)) evidence = lane->evidence + (lane->last.is_mark == w.is_mark ? 1 : 2);
        lane->evidence = evidence > 24 ? 24 : evidence;
        if (lane->evidence == 24 || (lane->hold > 0 && lane->evidence >= 8)) lane->hold = 42;
        else if (lane->hold > 0) lane->hold--;
    }
    lane->last = w, lane->any = 1;
}

/* a lane that counts flags; `since` is the number of bits since the last one */
struct flags { int before, part, ones, row, since, busy; };

static void count(struct flags *lane, int is_mark, int wanted) {
    int bit = is_mark == lane->before;
    lane->before = is_mark;
    lane->part = (lane->part << 1 | bit) & 511;
    lane->ones = bit ? lane->ones + 1 : 0;
    lane->since++;
    if ((lane->part & 255) == 126) {
        lane->row = lane->since == 7 || lane->since == 8 ? lane->row + 1 : 1;
        lane->since = 0;
        if (lane->row >= wanted) lane->busy = 1;
    } else if (lane->ones == 7 || lane->since >= 10000) {
        lane->busy = 0;
    }
}

int main(int words, char **word) {
    int wanted = words > 1 ? atoi(word[1]) : 0, was = 0;
    struct tones tones[8];
    struct flags flags[8];
    memset(tones, 0, sizeof tones), memset(flags, 0, sizeof flags);
    for (int lane = 0; lane < 8; lane++) flags[lane].before = 1, flags[lane].part = 511, flags[lane].since = 9999;
    for (int i = 0; i < 8; i++) {
        weight[0][i] = sine(6 * i), weight[1][i] = sine(6 * i + 12);
        weight[2][i] = sine(11 * i), weight[3][i] = sine(11 * i + 12);
    }
    size_t size = 0, space = 1 << 20, got;
    uint8_t *input = malloc(space);
    while ((got = fread(input + size, 1, space - size, stdin)) > 0)
        if ((size += got) == space) input = realloc(input, space *= 2);
    const int16_t *x = (const int16_t *)input;
    for (size_t end = 8; end <= size / 2; end++) {
        int lane = end % 8, is = 0;
        if (wanted) count(&flags[lane], heard(x + end - 8).is_mark, wanted);
        else if (lane % 2 == 0) weigh(&tones[lane], heard(x + end - 8));
        for (int i = 0; i < 8; i++) is |= wanted ? flags[i].busy : tones[i].hold > 0;
        if (is != was) printf("%s %zu\n", is ? "busy" : "free", end);
        was = is;
    }
    return 0;
}
