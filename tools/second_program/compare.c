// Holds the library against libfec, an independent Reed-Solomon program: the checks of random lines, and what decoding
// and judging say of damaged words, full and short. Every answer is predicted by libfec's encoders and decoder alone.
//
//     compare [SEED [LINES]]          compares; ends with status 1 if the two differ
//     compare --table WORDS [SEED]    prints damaged words with libfec's answers, as in crates/vectors/src/damaged.rt
#include <fec.h>
#include <stdint.h>
#include <stdio.h>
#include <stdlib.h>
#include <string.h>

#include "jelotsam.h"

enum { LINE = JELOTSAM_LINE, FULL = JELOTSAM_FULL_WORD, SHORT = JELOTSAM_SHORT_WORD, FIRST = 68, PAD = 255 - FIRST };

static uint64_t state;

// splitmix64, so that a seed gives the same words everywhere
static uint64_t draw(void) {
    uint64_t z = state += 0x9E3779B97F4A7C15u;
    z = (z ^ z >> 30) * 0xBF58476D1CE4E5B9u;
    z = (z ^ z >> 27) * 0x94D049BB133111EBu;
    return z ^ z >> 31;
}

static unsigned below(unsigned n) { return draw() % n; }

// ---- what libfec says

static void *first_check, *symbol_68, *symbol_69;

// A code of 68 symbols that has as many of the sums as told 00, from S_first on.
static void *code(int first, int sums) {
    void *made = init_rs_char(8, 0x11d, first, 1, sums, PAD);
    if (!made) {
        fprintf(stderr, "libfec makes no code of %d sums from %d on\n", sums, first);
        exit(2);
    }
    return made;
}

// Symbols 68 and 69 that belong to symbols 0 to 67.
static void second_check(uint8_t *word) {
    encode_rs_char(symbol_68, word, &word[68]);
    encode_rs_char(symbol_69, word, &word[69]);
    word[68] ^= word[67];
    word[69] ^= word[67];
}

static void append_check(uint8_t *word) {
    encode_rs_char(first_check, word, word + LINE);
    second_check(word);
}

// cases in which libfec's decoder takes a word for corrected and its encoders do not
static long unconfirmed;

// The codeword that libfec corrects a shown word to. Answers how many symbols below 68 it corrected, or -1 for none.
// libfec's decoder looks at symbols 0 to 67 alone. Since it may also count errors before the word's first symbol, what
// it gives counts only if as many symbols changed and libfec's encoders give the same word.
static int correct(const uint8_t *shown, uint8_t *right) {
    uint8_t first[FIRST];
    memcpy(first, shown, FIRST);
    int corrected = decode_rs_char(first_check, first, NULL, 0), changed = 0;
    if (corrected < 0) return -1;
    for (int s = 0; s < FIRST; s++) changed += first[s] != shown[s];
    memcpy(right, first, LINE);
    append_check(right);
    if (changed == corrected && !memcmp(right, first, FIRST)) return corrected;
    unconfirmed++;
    return -1;
}

typedef struct {
    jelotsam_reply reply;
    uint8_t line[LINE];
} answer;

// What decoding a shown word has to answer, or judging it as a rebuilt one.
static answer predict(const uint8_t *shown, size_t length, int judging) {
    answer a = {{0}, {0}};
    uint8_t right[FULL];
    int below_68 = correct(shown, right), wrong = 0;
    for (size_t s = 0; below_68 >= 0 && s < length; s++) {
        if (right[s] == shown[s]) continue;
        wrong++;
        a.reply.symbol = s;
        a.reply.value = right[s] ^ shown[s];
    }
    if (below_68 == 0 && !judging)
        a.reply.finding = JELOTSAM_CLEAN;
    else if (below_68 == 0 && wrong == 0)
        a.reply.finding = JELOTSAM_REBUILT;
    else if (wrong == 1)
        a.reply.finding = judging ? JELOTSAM_REBUILT_CORRECTED : JELOTSAM_CORRECTED;
    else
        a.reply.refusal = JELOTSAM_UNCORRECTABLE;
    if (a.reply.finding % 2 == 0) a.reply.symbol = a.reply.value = 0;
    if (!a.reply.refusal) memcpy(a.line, right, LINE);
    return a;
}

// ---- damage

static void spoil(uint8_t *word, int s) { word[s] ^= 1 + below(255); }

// Makes as many different symbols wrong as told.
static void spoil_several(uint8_t *word, int count) {
    for (int s = 0; s < FULL; s++) {
        if ((int)below(FULL - s) >= count) continue;
        spoil(word, s);
        count--;
    }
}

static void none(uint8_t *word) { (void)word; }
static void line_symbol(uint8_t *word) { spoil(word, below(LINE)); }
static void first_check_symbol(uint8_t *word) { spoil(word, LINE + below(FIRST - LINE)); }
static void only_68(uint8_t *word) { spoil(word, 68); }
static void only_69(uint8_t *word) { spoil(word, 69); }
static void both_68_69(uint8_t *word) { only_68(word), only_69(word); }
static void one_below(uint8_t *word) { spoil(word, below(FIRST)); }
static void one_and_68(uint8_t *word) { one_below(word), only_68(word); }
static void one_and_69(uint8_t *word) { one_below(word), only_69(word); }
static void one_and_both(uint8_t *word) { one_below(word), both_68_69(word); }
static void two(uint8_t *word) { spoil_several(word, 2); }
static void three(uint8_t *word) { spoil_several(word, 3); }
static void four(uint8_t *word) { spoil_several(word, 4); }
static void five(uint8_t *word) { spoil_several(word, 5); }
static void six_or_more(uint8_t *word) { spoil_several(word, 6 + below(FULL - 5)); }

// One wrong symbol, and symbols 68 and 69 that hide it: S_0 and S_5 are 00.
static void hidden(uint8_t *word) {
    one_below(word);
    second_check(word);
}

// One wrong symbol of the line, and last symbols of the first check that keep one to three of S_1 to S_4 00.
static void some_sums(uint8_t *word) {
    static void *partial[5][4];
    int sums = 1 + below(3), first = 1 + below(5 - sums);
    if (!partial[first][sums]) partial[first][sums] = code(first, sums);
    spoil(word, below(LINE));
    encode_rs_char(partial[first][sums], word, word + FIRST - sums);
}

// One wrong symbol of the line, and the first check that belongs to it: another line's word but for 68 and 69.
static void unseen(uint8_t *word) {
    spoil(word, below(LINE));
    encode_rs_char(first_check, word, word + LINE);
}

static void any(uint8_t *word) {
    for (int s = 0; s < FULL; s++) word[s] = draw();
}

static const struct {
    const char *name;
    void (*damage)(uint8_t *word);
} kinds[] = {
    {"none", none},
    {"one of the line", line_symbol},
    {"one of the first check", first_check_symbol},
    {"symbol 68", only_68},
    {"symbol 69", only_69},
    {"symbols 68 and 69", both_68_69},
    {"one below 68, and 68", one_and_68},
    {"one below 68, and 69", one_and_69},
    {"one below 68, and 68, 69", one_and_both},
    {"one that 68 and 69 hide", hidden},
    {"two", two},
    {"three", three},
    {"four", four},
    {"some of S_1 to S_4 kept 00", some_sums},
    {"five", five},
    {"five that keep S_1 to S_4 00", unseen},
    {"six or more", six_or_more},
    {"any word", any},
};

enum { KINDS = sizeof kinds / sizeof *kinds };

// ---- comparing

static long differences;

static void print_bytes(const uint8_t *bytes, size_t count) {
    for (size_t i = 0; i < count; i++) printf("%02X", bytes[i]);
    printf("\n");
}

static void differ(const char *what, const uint8_t *word, size_t length) {
    differences++;
    printf("differs: %s: ", what);
    print_bytes(word, length);
}

// Sparse lines are mostly 00, a symbol that a product by logarithms treats apart.
static void random_line(uint8_t *line, int sparse) {
    for (int s = 0; s < LINE; s++) line[s] = sparse && below(8) ? 0 : draw();
}

static void compare_check(const uint8_t *word, size_t count) {
    uint8_t stored[FULL - LINE + 1], expected[sizeof stored];
    for (size_t i = 0; i < sizeof stored; i++) stored[i] = expected[i] = draw();
    memcpy(expected, word + LINE, count);
    uint8_t refusal = jelotsam_check(word, LINE, stored, count);
    if (refusal || memcmp(stored, expected, sizeof stored)) differ("check", word, LINE + count);
}

static void print_answer(const char *whose, jelotsam_reply r, const uint8_t *line) {
    printf("  %s: refusal %d, finding %d, symbol %zu, XOR %02X, others %zu %zu %zu, line ", whose, r.refusal, r.finding, r.symbol, r.value,
           r.number, r.address, r.partner);
    print_bytes(line, LINE);
}

static int same(jelotsam_reply a, jelotsam_reply b) {
    return a.refusal == b.refusal && a.finding == b.finding && a.symbol == b.symbol && a.value == b.value && a.number == b.number &&
           a.address == b.address && a.partner == b.partner;
}

// how many words were right as they are, corrected, and refused
typedef struct {
    long right, corrected, refused;
} tally;

// The line lies between bytes that must stay, and must itself stay where the word is refused.
static void compare_word(const char *kind, const uint8_t *shown, size_t length, int judging, tally *seen) {
    enum { MARGIN = 16 };
    uint8_t word[FULL], room[LINE + 2 * MARGIN], expected[sizeof room];
    for (size_t i = 0; i < sizeof room; i++) room[i] = expected[i] = draw();
    word[FULL - 1] = draw();
    memcpy(word, shown, length);
    answer a = predict(shown, length, judging);
    if (!a.reply.refusal) memcpy(expected + MARGIN, a.line, LINE);
    jelotsam_reply ours = (judging ? jelotsam_judge : jelotsam_decode)(word, length, room + MARGIN, LINE);
    if (!same(ours, a.reply) || memcmp(room, expected, sizeof room) || memcmp(word, shown, length)) {
        differ(kind, shown, length);
        print_answer(judging ? "libfec, judging" : "libfec, decoding", a.reply, expected + MARGIN);
        print_answer("ours", ours, room + MARGIN);
    }
    seen->refused += a.reply.refusal != 0;
    seen->corrected += a.reply.finding % 2;
    seen->right += !a.reply.refusal && a.reply.finding % 2 == 0;
}

static void print_tallies(const char *call, const char *right, const tally *full, const tally *shorter) {
    printf("\n%-29s %29s   %29s\n", call, "full words", "short words");
    printf("%-29s %9s %9s %9s   %9s %9s %9s\n", "wrong symbols", right, "corrected", "uncorr.", right, "corrected", "uncorr.");
    for (int k = 0; k < KINDS; k++)
        printf("%-29s %9ld %9ld %9ld   %9ld %9ld %9ld\n", kinds[k].name, full[k].right, full[k].corrected, full[k].refused,
               shorter[k].right, shorter[k].corrected, shorter[k].refused);
}

static int compare(uint64_t seed, long lines) {
    static tally full[2][KINDS], shorter[2][KINDS];
    printf("seed %llu, %ld lines\n", (unsigned long long)seed, lines);
    for (long i = 0; i < lines; i++) {
        uint8_t word[FULL];
        random_line(word, i % 2);
        append_check(word);
        compare_check(word, JELOTSAM_FULL_CHECK);
        compare_check(word, JELOTSAM_SHORT_CHECK);
        for (int k = 0; k < KINDS; k++) {
            uint8_t shown[FULL];
            memcpy(shown, word, FULL);
            kinds[k].damage(shown);
            for (int judging = 0; judging < 2; judging++) {
                compare_word(kinds[k].name, shown, FULL, judging, &full[judging][k]);
                compare_word(kinds[k].name, shown, SHORT, judging, &shorter[judging][k]);
            }
        }
    }
    printf("checks compared: %ld full, %ld short\n", lines, lines);
    print_tallies("decoding", "clean", full[0], shorter[0]);
    print_tallies("judging", "rebuilt", full[1], shorter[1]);
    printf("\ncases in which libfec's decoder takes a word for corrected and its encoders do not: %ld\n", unconfirmed);
    if (differences)
        printf("%ld differences\n", differences);
    else
        printf("all agree\n");
    return differences != 0;
}

// ---- the table of the tests

enum { LINES = 20, WRONG = 5 };

static const char *const lines_file = "crates/vectors/src/table.rt";

static int refuse(const char *what) {
    fprintf(stderr, "%s: %s\n", lines_file, what);
    return 2;
}

// Reads the lines with their checks that the tests have, and sees that libfec gives the same checks.
static int read_lines(uint8_t words[LINES][FULL]) {
    static char text[1 << 20];
    FILE *file = fopen(lines_file, "r");
    if (!file) return refuse("cannot be read");
    size_t length = fread(text, 1, sizeof text - 1, file);
    fclose(file);
    text[length] = 0;
    char *at = strchr(text, '=');
    for (int i = 0; i < LINES * FULL; i++) {
        at = at ? strpbrk(at, "0123456789") : NULL;
        if (!at) return refuse("too few symbols");
        words[i / FULL][i % FULL] = strtoul(at, &at, 0);
    }
    if (strpbrk(at, "0123456789")) return refuse("too many symbols");
    for (int i = 0; i < LINES; i++) {
        uint8_t again[FULL];
        memcpy(again, words[i], LINE);
        append_check(again);
        if (memcmp(again, words[i], FULL)) return refuse("a check is not libfec's");
    }
    return 0;
}

static void print_said(const char *field, answer a) {
    printf("        %s: ", field);
    if (a.reply.refusal)
        printf("Err(Uncorrectable),\n");
    else if (a.reply.finding == JELOTSAM_CORRECTED)
        printf("Ok(Finding::Corrected((%zu, 0x%02X))),\n", a.reply.symbol, a.reply.value);
    else
        printf("Ok(Finding::Clean),\n");
}

// Prints an entry of the table and answers 1, or 0 if more symbols are wrong than an entry may list.
static int print_entry(int line, const uint8_t *word, const uint8_t *shown) {
    int count = 0, wrong[WRONG];
    for (int s = 0; s < FULL; s++) {
        if (shown[s] == word[s]) continue;
        if (count == WRONG) return 0;
        wrong[count++] = s;
    }
    printf("    Damaged {\n        line: %d,\n        wrong: &[", line);
    for (int i = 0; i < count; i++) printf("%s(%d, 0x%02X)", i ? ", " : "", wrong[i], shown[wrong[i]] ^ word[wrong[i]]);
    printf("],\n");
    print_said("full", predict(shown, FULL, 0));
    print_said("short", predict(shown, SHORT, 0));
    printf("    },\n");
    return 1;
}

// Prints the table: the kinds by turns, but for words with too many wrong symbols.
static int print_table(long count) {
    uint8_t words[LINES][FULL];
    int status = read_lines(words);
    if (status) return status;
    printf("pub const DAMAGED: [Damaged; %ld] = [\n", count);
    for (int k = 0; count > 0; k = (k + 1) % KINDS) {
        int line = below(LINES);
        uint8_t shown[FULL];
        memcpy(shown, words[line], FULL);
        kinds[k].damage(shown);
        count -= print_entry(line, words[line], shown);
    }
    printf("];\n");
    return 0;
}

// ---- the command line

// The number that a text is, from 1 up; 0 for any other text.
static unsigned long long number(const char *text) {
    char *end;
    unsigned long long n = strtoull(text, &end, 10);
    return *text >= '0' && *text <= '9' && !*end ? n : 0;
}

static int usage(void) {
    fprintf(stderr, "usage: compare [SEED [LINES]] | compare --table WORDS [SEED]\n");
    return 2;
}

int main(int count, char **words) {
    int table = count > 2 && !strcmp(words[1], "--table");
    int seed_at = table ? 3 : 1;
    uint64_t seed = count > seed_at ? number(words[seed_at]) : 1;
    long n = count > 2 ? number(words[2]) : 10000;
    if (count > 3 + table || seed == 0 || n < 1) return usage();
    state = seed;
    first_check = code(1, 4);
    symbol_68 = code(0, 1);
    symbol_69 = code(5, 1);
    return table ? print_table(n) : compare(seed, n);
}
