// Compares the proved codec with libfec, with a plain version by log tables and with a copy of the bytes,
// on the same lines in one run. Prints nanoseconds a line, the minimum of many repetitions, and ratios.
#define _GNU_SOURCE
#include <fec.h>
#include <stdint.h>
#include <stdio.h>
#include <stdlib.h>
#include <string.h>
#include <time.h>

enum { LINES = 256, ROUNDS = 40, REPETITIONS = 30, FULL = 70, FIRST = 68, LINE = 64 };

// exported by the codec
void codec_check(const uint8_t *line, uint8_t *check);
uint8_t codec_decode(const uint8_t *shown, const uint8_t *check, uint8_t *line);

typedef struct {
    uint8_t symbols[80];
} word;

static word clean[LINES], one_wrong[LINES], two_wrong[LINES], copies[LINES];
static void *libfec_68_64;
static uint8_t power[1024], logarithm[256];
static volatile uint64_t sink;

// ---- the plain version: one log table, one power table, all sums, every symbol tried

static uint8_t product(uint8_t a, uint8_t b) {
    return a && b ? power[logarithm[a] + logarithm[b]] : 0;
}

static uint8_t weight(int k, int s) {
    return s < FIRST ? power[(67 - s) * k % 255] : (s == 68 && k == 0) || (s == 69 && k == 5);
}

static uint8_t plain_sum(const uint8_t *symbols, int count, int k) {
    uint8_t sum = 0;
    for (int s = 0; s < count; s++) sum ^= product(symbols[s], weight(k, s));
    return sum;
}

static void plain_check(const uint8_t *line, uint8_t *check) {
    static const uint8_t inverse[4][4] = {{162, 85, 164, 83}, {57, 1, 109, 85}, {213, 158, 2, 73}, {43, 183, 228, 121}};
    uint8_t sums[6];
    for (int k = 0; k < 6; k++) sums[k] = plain_sum(line, LINE, k);
    for (int i = 0; i < 4; i++) {
        check[i] = 0;
        for (int k = 0; k < 4; k++) check[i] ^= product(inverse[i][k], sums[k + 1]);
    }
    check[4] = sums[0];
    check[5] = sums[5];
    for (int i = 0; i < 4; i++) {
        check[4] ^= product(check[i], weight(0, LINE + i));
        check[5] ^= product(check[i], weight(5, LINE + i));
    }
}

static uint8_t plain_decode(const uint8_t *symbols, uint8_t *line) {
    uint8_t sums[6];
    for (int k = 0; k < 6; k++) sums[k] = plain_sum(symbols, FULL, k);
    memcpy(line, symbols, LINE);
    if (!(sums[1] | sums[2] | sums[3] | sums[4])) return 0;
    for (int s = 0; s < FULL; s++) {
        uint8_t e = s < 69 ? sums[0] : sums[5];
        int explains = e != 0;
        for (int k = 0; k < 6 && explains; k++) explains = sums[k] == product(e, weight(k, s));
        if (explains) {
            if (s < LINE) line[s] ^= e;
            return 1;
        }
    }
    return 255;
}

// ---- what is timed, over all lines once

#define JOB(name, words, call)                                                              \
    static uint64_t name(void) {                                                            \
        uint64_t seen = 0;                                                                  \
        for (int i = 0; i < LINES; i++) {                                                   \
            const uint8_t *w = words[i].symbols;                                            \
            uint8_t *out = copies[i].symbols;                                               \
            call;                                                                           \
            seen += out[0];                                                                 \
        }                                                                                   \
        return seen;                                                                        \
    }

static uint8_t libfec_decode(const uint8_t *symbols, uint8_t *out) {
    memcpy(out, symbols, FIRST);
    return (uint8_t)decode_rs_char(libfec_68_64, out, NULL, 0);
}

JOB(copy_line, clean, memcpy(out, w, LINE); __asm__ volatile("" ::"r"(out) : "memory"))
JOB(check_codec, clean, codec_check(w, out))
JOB(check_libfec, clean, encode_rs_char(libfec_68_64, (uint8_t *)w, out))
JOB(check_plain, clean, plain_check(w, out))
JOB(clean_codec, clean, codec_decode(w, w + LINE, out))
JOB(clean_libfec, clean, libfec_decode(w, out))
JOB(clean_plain, clean, plain_decode(w, out))
JOB(one_codec, one_wrong, codec_decode(w, w + LINE, out))
JOB(one_libfec, one_wrong, libfec_decode(w, out))
JOB(one_plain, one_wrong, plain_decode(w, out))
JOB(two_codec, two_wrong, codec_decode(w, w + LINE, out))
JOB(two_libfec, two_wrong, libfec_decode(w, out))
JOB(two_plain, two_wrong, plain_decode(w, out))

typedef uint64_t (*job)(void);

static const struct {
    const char *what;
    job codec, libfec, plain;
    double bar;
} rows[] = {
    {"check of a line", check_codec, check_libfec, check_plain, 12},
    {"decode, clean", clean_codec, clean_libfec, clean_plain, 8},
    {"decode, one wrong symbol", one_codec, one_libfec, one_plain, 4},
    {"decode, two wrong symbols", two_codec, two_libfec, two_plain, 4},
};

enum { ROWS = sizeof rows / sizeof *rows };

static double now(void) {
    struct timespec t;
    clock_gettime(CLOCK_MONOTONIC, &t);
    return t.tv_sec * 1e9 + t.tv_nsec;
}

static void improve(double *best, job run) {
    sink += run();
    double start = now();
    for (int k = 0; k < ROUNDS; k++) sink += run();
    double each = (now() - start) / ROUNDS / LINES;
    if (each < *best) *best = each;
}

static void expect(int holds, const char *what) {
    if (!holds) {
        printf("the versions differ: %s\n", what);
        exit(1);
    }
}

static void make_words(void) {
    for (int i = 0; i < LINES; i++) {
        for (int j = 0; j < LINE; j++) clean[i].symbols[j] = rand();
        plain_check(clean[i].symbols, clean[i].symbols + LINE);
        one_wrong[i] = two_wrong[i] = clean[i];
        one_wrong[i].symbols[rand() % FIRST] ^= 1 + rand() % 255;
        int p = rand() % FIRST, q = (p + 1 + rand() % (FIRST - 1)) % FIRST;
        two_wrong[i].symbols[p] ^= 1 + rand() % 255;
        two_wrong[i].symbols[q] ^= 1 + rand() % 255;
    }
}

static void compare_answers(void) {
    for (int i = 0; i < LINES; i++) {
        uint8_t check[6], first[4], line[LINE], plain[LINE];
        codec_check(clean[i].symbols, check);
        expect(!memcmp(check, clean[i].symbols + LINE, 6), "check");
        encode_rs_char(libfec_68_64, clean[i].symbols, first);
        expect(!memcmp(first, check, 4), "libfec's check");
        const word *shown[] = {&clean[i], &one_wrong[i], &two_wrong[i]};
        for (int v = 0; v < 3; v++) {
            const uint8_t *w = shown[v]->symbols;
            uint8_t found = codec_decode(w, w + LINE, line);
            expect(found == plain_decode(w, plain), "finding");
            expect(found == 255 || !memcmp(line, plain, LINE), "line");
        }
    }
}

int main(void) {
    for (int i = 0, x = 1; i < 255; i++) {
        power[i] = x;
        logarithm[x] = i;
        x = x << 1 ^ (x & 128 ? 0x11d : 0);
    }
    for (int i = 255; i < 1024; i++) power[i] = power[i - 255];
    libfec_68_64 = init_rs_char(8, 0x11d, 1, 1, 4, 255 - FIRST);
    srand(7);
    make_words();
    compare_answers();
    double copy = 1e18, codec[ROWS], libfec[ROWS], plain[ROWS];
    for (int r = 0; r < ROWS; r++) codec[r] = libfec[r] = plain[r] = 1e18;
    for (int n = 0; n < REPETITIONS; n++) {
        improve(&copy, copy_line);
        for (int r = 0; r < ROWS; r++) {
            improve(&codec[r], rows[r].codec);
            improve(&libfec[r], rows[r].libfec);
            improve(&plain[r], rows[r].plain);
        }
    }
    printf("nanoseconds a line; a copy of 64 bytes takes %.1f\n", copy);
    printf("%-26s %8s %8s %8s %10s %10s %8s\n", "", "codec", "libfec", "plain C", "of libfec", "of plain", "copies");
    int below = 0;
    for (int r = 0; r < ROWS; r++) {
        double ratio = libfec[r] / codec[r];
        below += ratio < rows[r].bar;
        printf("%-26s %8.1f %8.1f %8.1f %9.1fx %9.1fx %8.1f%s\n", rows[r].what, codec[r], libfec[r], plain[r], ratio, plain[r] / codec[r],
               codec[r] / copy, ratio < rows[r].bar ? "  below the bar" : "");
    }
    return below != 0;
}
