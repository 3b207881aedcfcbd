/* Fills a board, lets two banks fail one after the other, retires each, and reads every line back. */
#include <jelotsam.h>
#include <stdio.h>
#include <string.h>

enum { SIZE = 4, BYTES = SIZE * JELOTSAM_UNIT, ADDRESSES = 64 * SIZE };

static uint8_t memory[BYTES];
static jelotsam_marks marks;

static void fill_line(uint8_t *line, size_t address) {
    for (size_t k = 0; k < JELOTSAM_LINE; k++) line[k] = (uint8_t)(address * 7 + k * 3);
}

/* The bytes of a bank lie together: all its indexes, 64 bytes each. */
static void destroy(size_t bank) {
    memset(memory + bank * SIZE * JELOTSAM_LINE, 0xA5, SIZE * JELOTSAM_LINE);
    printf("bank %zu fails\n", bank);
}

static int store_all(void) {
    uint8_t line[JELOTSAM_LINE];
    for (size_t address = 0; address < ADDRESSES; address++) {
        fill_line(line, address);
        jelotsam_reply reply = jelotsam_write(memory, BYTES, &marks, address, line, sizeof line);
        if (reply.refusal) return printf("write %zu refused: %u\n", address, reply.refusal), 0;
    }
    printf("%d lines stored\n", ADDRESSES);
    return 1;
}

/* Reads every line and tells how the lines were come by. */
static int read_all(void) {
    uint8_t line[JELOTSAM_LINE], wanted[JELOTSAM_LINE];
    int found[4] = {0};
    for (size_t address = 0; address < ADDRESSES; address++) {
        jelotsam_reply reply = jelotsam_read(memory, BYTES, &marks, address, line, sizeof line);
        if (reply.refusal) return printf("read %zu refused: %u\n", address, reply.refusal), 0;
        fill_line(wanted, address);
        if (memcmp(line, wanted, sizeof line)) return printf("read %zu: another line\n", address), 0;
        found[reply.finding]++;
    }
    printf("all lines read back: %d clean, %d corrected, %d rebuilt, %d rebuilt and corrected\n", found[0], found[1], found[2], found[3]);
    return 1;
}

static int retire(size_t bank) {
    jelotsam_reply reply = jelotsam_mark(memory, BYTES, &marks, bank);
    if (reply.refusal) return printf("mark %zu refused: %u\n", bank, reply.refusal), 0;
    printf("bank %zu retired; bank %zu has its lines\n", bank, reply.number);
    return 1;
}

/* One flipped bit is corrected, and put right by a scrub. */
static int flip_and_scrub(size_t address) {
    size_t bank = address % 64, index = address / 64;
    memory[(bank * SIZE + index) * JELOTSAM_LINE + 9] ^= 0x20;
    uint8_t line[JELOTSAM_LINE];
    jelotsam_reply read = jelotsam_read(memory, BYTES, &marks, address, line, sizeof line);
    jelotsam_reply scrub = jelotsam_scrub(memory, BYTES, &marks, address);
    printf("a bit of address %zu flips: finding %u, symbol %zu, value %02X; scrub puts %zu byte right\n", address, read.finding, read.symbol,
           read.value, scrub.number);
    return !read.refusal && !scrub.refusal;
}

/* What cannot be a board's is refused by number. */
static int refusals(void) {
    uint8_t line[JELOTSAM_LINE] = {0};
    jelotsam_marks twice = {2, 5, 5};
    unsigned length = jelotsam_read(memory, BYTES - 1, &marks, 0, line, sizeof line).refusal;
    unsigned marked = jelotsam_read(memory, BYTES, &twice, 0, line, sizeof line).refusal;
    unsigned address = jelotsam_read(memory, BYTES, &marks, ADDRESSES, line, sizeof line).refusal;
    unsigned buffer = jelotsam_read(memory, BYTES, &marks, 0, line, sizeof line - 1).refusal;
    unsigned third = jelotsam_mark(memory, BYTES, &marks, 20).refusal;
    printf("refused: a memory's length %u, marks %u, an address %u, a line's length %u, a third mark %u\n", length, marked, address, buffer, third);
    return length == 10 && marked == 4 && address == 1 && buffer == 2 && third == 5;
}

int main(void) {
    if (jelotsam_format(memory, BYTES, &marks).refusal) return 1;
    if (!store_all()) return 1;
    destroy(5);
    if (!read_all() || !retire(5) || !read_all()) return 1;
    if (!flip_and_scrub(70)) return 1;
    destroy(9);
    if (!read_all() || !retire(9) || !read_all()) return 1;
    return !refusals();
}
