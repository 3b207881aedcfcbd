/*
 * Jelotsam for C: words of a line and its check, and a board over memory that the caller lends for each call.
 *
 * Build the library with `tools/static_library.sh ffi`, and link target/staticlib/libffi.a (examples/run.sh).
 * Nothing here allocates or keeps anything between calls. Every function refuses bad lengths by number; none relies on a test by its
 * caller, but for what C cannot check: a pointer leads to as many bytes as the length beside it says (or to a whole struct), and no two
 * buffers of a call overlap. A length of 0 still wants a pointer that is not null.
 *
 * A board's memory is 4,608 bytes for each unit of its size R, R from 1 to 1,024: byte (bank * R + index) * 64 + byte of 72 banks.
 * It has 64 * R addresses, each with a line of 64 bytes. Between calls the caller keeps the bytes and a jelotsam_marks, and may store both.
 */
#ifndef JELOTSAM_H
#define JELOTSAM_H

#include <stddef.h>
#include <stdint.h>

#ifdef __cplusplus
extern "C" {
#endif

enum {
    JELOTSAM_LINE = 64,         /* bytes of a line */
    JELOTSAM_FULL_CHECK = 6,    /* symbols of a full word's check */
    JELOTSAM_SHORT_CHECK = 5,   /* and of a short one's */
    JELOTSAM_FULL_WORD = 70,    /* symbols of a full word: line, then check */
    JELOTSAM_SHORT_WORD = 69,   /* and of a short one */
    JELOTSAM_UNIT = 4608,       /* bytes of memory for each unit of size */
    JELOTSAM_LARGEST_SIZE = 1024
};

/* why a call is refused */
enum {
    JELOTSAM_ACCEPTED = 0,
    JELOTSAM_ADDRESS_OUT_OF_RANGE = 1,   /* the address is not below 64 times the size */
    JELOTSAM_LINE_LENGTH = 2,            /* a line, word or check buffer has another length */
    JELOTSAM_BANK_OUT_OF_RANGE = 3,      /* a bank to mark, or one of the marks given, is above 63 */
    JELOTSAM_BANK_ALREADY_MARKED = 4,    /* the bank is marked already, or the marks given name one twice */
    JELOTSAM_NO_SPARE_LEFT = 5,          /* two banks are marked, or the marks given are more than two */
    JELOTSAM_PARTNER_UNCORRECTABLE = 7,  /* the line cannot be rebuilt: a partner of its group is uncorrectable too */
    JELOTSAM_REBUILD_FAILED = 8,         /* the rebuilt word is no codeword, nor one symbol off */
    JELOTSAM_LENGTH_FITS_NO_SIZE = 10,   /* the memory's length fits no size from 1 to 1,024 */
    JELOTSAM_UNCORRECTABLE = 255         /* the word given is uncorrectable; boards never say so */
};

/* how a line was come by */
enum {
    JELOTSAM_CLEAN = 0,
    JELOTSAM_CORRECTED = 1,
    JELOTSAM_REBUILT = 2,
    JELOTSAM_REBUILT_CORRECTED = 3
};

/* What a call answers. What it does not carry is 0. */
typedef struct {
    uint8_t refusal;  /* 0 where the call was accepted */
    uint8_t finding;  /* read, decode, judge: of the line handed out; write: of the old line */
    uint8_t value;    /* findings 1 and 3: what was XORed into the symbol */
    size_t symbol;    /* and the symbol's number */
    size_t number;    /* scrub: bytes that were shown otherwise; mark: the spare */
    size_t address;   /* refusals 7 and 8: the address whose line could not be had */
    size_t partner;   /* refusal 7: its lowest uncorrectable partner */
} jelotsam_reply;

/* The banks marked so far, in order. What stands past the count means nothing. */
typedef struct {
    uint8_t count;
    uint8_t first;
    uint8_t second;
} jelotsam_marks;

/* Stores the check of a line of 64 bytes: six symbols, or five where check_length is 5. Answers 0, or 2 for other lengths. */
uint8_t jelotsam_check(const uint8_t *line, size_t line_length, uint8_t *check, size_t check_length);

/* Decodes a shown word of 70 or 69 symbols into 64 bytes; judges a rebuilt one. A refusal leaves the line. */
jelotsam_reply jelotsam_decode(const uint8_t *word, size_t word_length, uint8_t *line, size_t line_length);
jelotsam_reply jelotsam_judge(const uint8_t *word, size_t word_length, uint8_t *line, size_t line_length);

/*
 * The calls of a board. Each refuses a memory's length with 10, then marks that no board can have with 3, 4 or 5, and then as the call
 * itself does. A refused call leaves memory, marks and line. scrub and mark work in 4,096 bytes of the stack.
 */
jelotsam_reply jelotsam_format(uint8_t *memory, size_t memory_length, jelotsam_marks *marks);
jelotsam_reply jelotsam_read(uint8_t *memory, size_t memory_length, const jelotsam_marks *marks, size_t address,
                             uint8_t *line, size_t line_length);
jelotsam_reply jelotsam_write(uint8_t *memory, size_t memory_length, const jelotsam_marks *marks, size_t address,
                              const uint8_t *line, size_t line_length);
jelotsam_reply jelotsam_renew(uint8_t *memory, size_t memory_length, const jelotsam_marks *marks, size_t address,
                              const uint8_t *line, size_t line_length);
jelotsam_reply jelotsam_clear(uint8_t *memory, size_t memory_length, const jelotsam_marks *marks, size_t address);
jelotsam_reply jelotsam_scrub(uint8_t *memory, size_t memory_length, const jelotsam_marks *marks, size_t address);
jelotsam_reply jelotsam_mark(uint8_t *memory, size_t memory_length, jelotsam_marks *marks, size_t bank);

#ifdef __cplusplus
}
#endif

#endif
