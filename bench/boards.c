// Times the calls of a board over lent memory beside a copy of the same lines, the decoding of their words and libfec's decoding of them.
// Prints nanoseconds a line, the minimum of many repetitions, and the bytes of lines moved in a second.
#define _GNU_SOURCE
#include <fec.h>
#include <jelotsam.h>
#include <stdio.h>
#include <stdlib.h>
#include <string.h>
#include <time.h>

enum { SIZE = 8, BYTES = SIZE * JELOTSAM_UNIT, LINES = 64 * SIZE, LINE = JELOTSAM_LINE, REPETITIONS = 200, FIRST = 68 };

static uint8_t memory[BYTES], image[BYTES];
static jelotsam_marks marks;
static uint8_t lines[LINES][LINE], words[LINES][80], out[LINES][80];
static void *libfec_68_64;
static volatile unsigned sink;

static double now(void) {
    struct timespec t;
    clock_gettime(CLOCK_MONOTONIC, &t);
    return t.tv_sec * 1e9 + t.tv_nsec;
}

static void expect(int holds, const char *what) {
    if (!holds) {
        printf("not as expected: %s\n", what);
        exit(1);
    }
}

// ---- what is timed: all lines of the board once; each leaves the board as it found it, or is set up anew

static void copy_lines(void) {
    for (int i = 0; i < LINES; i++) {
        memcpy(out[i], lines[i], LINE);
        __asm__ volatile("" ::"r"(out[i]) : "memory");
    }
}

static void libfec_decode(void) {
    for (int i = 0; i < LINES; i++) {
        memcpy(out[i], words[i], FIRST);
        sink += decode_rs_char(libfec_68_64, out[i], NULL, 0);
    }
}

static void decode_words(void) {
    for (int i = 0; i < LINES; i++) sink += jelotsam_decode(words[i], JELOTSAM_FULL_WORD, out[i], LINE).finding;
}

static void read_lines(void) {
    for (int i = 0; i < LINES; i++) sink += jelotsam_read(memory, BYTES, &marks, i, out[i], LINE).finding;
}

static void write_lines(void) {
    for (int i = 0; i < LINES; i++) sink += jelotsam_write(memory, BYTES, &marks, i, lines[i], LINE).finding;
}

static void renew_lines(void) {
    for (int i = 0; i < LINES; i++) sink += jelotsam_renew(memory, BYTES, &marks, i, lines[i], LINE).refusal;
}

static void scrub_groups(void) {
    int group = marks.count ? 64 : 32;
    for (int i = 0; i < LINES; i += group) sink += jelotsam_scrub(memory, BYTES, &marks, i).number;
}

static void mark_bank(void) {
    expect(!jelotsam_mark(memory, BYTES, &marks, 5 + marks.count).refusal, "mark");
}

// ---- boards to time them on

static void none(void) {}

static void healthy(void) {
    memcpy(memory, image, BYTES);
    marks = (jelotsam_marks){0, 0, 0};
}

static void one_wrong_each(void) {
    healthy();
    for (int i = 0; i < LINES; i++) memory[(i % 64 * SIZE + i / 64) * LINE + i % 61] ^= 0x11;
}

static void one_bank_gone(void) {
    healthy();
    memset(memory + 5 * SIZE * LINE, 0xA5, SIZE * LINE);
}

static void one_marked(void) {
    healthy();
    mark_bank();
}

static void two_marked(void) {
    one_marked();
    mark_bank();
}

static double clean_decode, one_copy;

typedef struct {
    const char *what;
    void (*once)(void), (*before)(void);
    int anew;  // set up anew before every repetition
    double decodes;  // the bar, in clean decodings, to which three copies are added; 0: none
} job;

static const job jobs[] = {
    {"copy of 64 bytes", copy_lines, none, 0, 0},
    {"libfec's decoding, clean", libfec_decode, none, 0, 0},
    {"decoding a word, clean", decode_words, none, 0, 0},
    {"read, clean", read_lines, healthy, 0, 3},
    {"read, clean, two banks retired", read_lines, two_marked, 0, 3},
    {"read, one wrong symbol each", read_lines, one_wrong_each, 0, 0},
    {"read, one bank gone", read_lines, one_bank_gone, 0, 0},
    {"write", write_lines, healthy, 0, 4},
    {"write, two banks retired", write_lines, two_marked, 0, 4},
    {"renew", renew_lines, healthy, 0, 0},
    {"scrub", scrub_groups, healthy, 0, 0},
    {"scrub, one wrong symbol each", scrub_groups, one_wrong_each, 1, 0},
    {"first mark", mark_bank, healthy, 1, 0},
    {"first mark, its bank gone", mark_bank, one_bank_gone, 1, 0},
    {"second mark", mark_bank, one_marked, 1, 0},
};

enum { JOBS = sizeof jobs / sizeof *jobs };

static double best(const job *j) {
    double least = 1e18;
    j->before();
    j->once();
    for (int n = 0; n < REPETITIONS; n++) {
        if (j->anew) j->before();
        double start = now();
        j->once();
        double each = (now() - start) / LINES;
        if (each < least) least = each;
    }
    return least;
}

static void set_up(void) {
    libfec_68_64 = init_rs_char(8, 0x11d, 1, 1, 4, 255 - FIRST);
    srand(11);
    expect(!jelotsam_format(memory, BYTES, &marks).refusal, "format");
    for (int i = 0; i < LINES; i++) {
        for (int k = 0; k < LINE; k++) lines[i][k] = rand();
        memcpy(words[i], lines[i], LINE);
        jelotsam_check(lines[i], LINE, words[i] + LINE, 6);
        expect(!jelotsam_write(memory, BYTES, &marks, i, lines[i], LINE).refusal, "write");
    }
    memcpy(image, memory, BYTES);
}

static void check_reads(const char *what, void (*before)(void)) {
    before();
    read_lines();
    for (int i = 0; i < LINES; i++) expect(!memcmp(out[i], lines[i], LINE), what);
}

int main(void) {
    set_up();
    check_reads("reads of a healthy board", healthy);
    check_reads("reads with one wrong symbol each", one_wrong_each);
    check_reads("reads with one bank gone", one_bank_gone);
    check_reads("reads with two banks retired", two_marked);
    int slow = 0;
    printf("a board of %d lines, nanoseconds a line\n", LINES);
    printf("%-32s %8s %10s %12s %8s\n", "", "ns", "MB/s", "of a decode", "bar");
    for (int n = 0; n < JOBS; n++) {
        double ns = best(&jobs[n]);
        if (n == 0) one_copy = ns;
        if (n == 2) clean_decode = ns;
        double bar = jobs[n].decodes * clean_decode + 3 * one_copy;
        int over = jobs[n].decodes && ns > bar;
        slow += over;
        printf("%-32s %8.1f %10.0f", jobs[n].what, ns, LINE / ns * 1e3);
        if (n >= 2) printf(" %12.1f", ns / clean_decode);
        if (jobs[n].decodes) printf(" %8.1f%s", bar, over ? "  above the bar" : "");
        printf("\n");
    }
    return slow != 0;
}
