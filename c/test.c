/* Calls each function of the static library on five small automata and some at a limit, and checks every answer and every lent byte.
 * Prints what it did. The exit status is 1 where an answer is another than the expected one. */
#include "registered_automata.h"

#include <stdio.h>
#include <stdlib.h>
#include <string.h>

/* ---- the automata */

/* T: letters c e m; c or e is written to register 1, m may follow, and only the letter that was written leads to the end. */
static const uint8_t T[] = {
    0x4D, 0x4C, 0x42, 1, 0, 3, 3, 0, 2, 3, 5, 0, 'c', 'e', 'm', 0, 0, 1,
    0, 0, 1, 1, 0x11, 1,
    0, 1, 1, 1, 0x11, 2,
    1, 2, 1, 1, 0x00, 0,
    1, 0, 2, 1, 0x01, 1,
    1, 1, 2, 1, 0x01, 2,
};

/* V: T without its last arc. */
static const uint8_t V[] = {
    0x4D, 0x4C, 0x42, 1, 0, 3, 3, 0, 2, 3, 4, 0, 'c', 'e', 'm', 0, 0, 1,
    0, 0, 1, 1, 0x11, 1,
    0, 1, 1, 1, 0x11, 2,
    1, 2, 1, 1, 0x00, 0,
    1, 0, 2, 1, 0x01, 1,
};

/* U: T without agreement at the end, so that either letter leads there. */
static const uint8_t U[] = {
    0x4D, 0x4C, 0x42, 1, 0, 3, 3, 0, 2, 3, 5, 0, 'c', 'e', 'm', 0, 0, 1,
    0, 0, 1, 1, 0x11, 1,
    0, 1, 1, 1, 0x11, 2,
    1, 2, 1, 1, 0x00, 0,
    1, 0, 2, 1, 0x00, 0,
    1, 1, 2, 1, 0x00, 0,
};

/* K: one c, where register 1 holds 0, which is then replaced by 1. */
static const uint8_t K[] = {
    0x4D, 0x4C, 0x42, 1, 0, 1, 2, 0, 2, 2, 1, 0, 'c', 0, 1,
    0, 0, 1, 2, 0x01, 0, 0x11, 1,
};

/* S: any number of a, then one b. */
static const uint8_t S[] = {
    0x4D, 0x4C, 0x42, 1, 0, 2, 2, 0, 1, 1, 2, 0, 'a', 'b', 0, 1,
    0, 0, 0, 1, 0x00, 0,
    0, 1, 1, 1, 0x00, 0,
};

/* The file with the letters C, E and M in place of c, e and m. */
static void in_capitals(const uint8_t *file, size_t size, uint8_t *copy) {
    memcpy(copy, file, size);
    memcpy(copy + 12, "CEM", 3);
}

/* ---- the files that the calls are to write */

static const uint8_t T_UNFOLDED[] = {
    0x4D, 0x4C, 0x42, 1, 0, 3, 5, 0, 1, 1, 6, 0, 'c', 'e', 'm', 0, 0, 0, 1, 1,
    0, 0, 1, 1, 0, 0,
    0, 1, 2, 1, 0, 0,
    1, 2, 1, 1, 0, 0,
    1, 0, 3, 1, 0, 0,
    2, 2, 2, 1, 0, 0,
    2, 1, 4, 1, 0, 0,
};

static const uint8_t K_OR_K[] = {
    0x4D, 0x4C, 0x42, 1, 0, 1, 5, 0, 2, 2, 4, 0, 'c', 0, 0, 1, 0, 1,
    0, 0xFF, 1, 1, 0, 0,
    0, 0xFF, 3, 1, 0, 0,
    1, 0, 2, 2, 0x01, 0, 0x11, 1,
    3, 0, 4, 2, 0x01, 0, 0x11, 1,
};

static const uint8_t K_THEN_K[] = {
    0x4D, 0x4C, 0x42, 1, 0, 1, 4, 0, 3, 2, 3, 0, 'c', 0, 0, 0, 1,
    0, 0, 1, 2, 0x01, 0, 0x11, 1,
    1, 0xFF, 2, 1, 0, 0,
    2, 0, 3, 2, 0x02, 0, 0x12, 1,
};

static const uint8_t K_AND_K[] = {
    0x4D, 0x4C, 0x42, 1, 0, 1, 4, 0, 3, 2, 1, 0, 'c', 0, 0, 0, 1,
    0, 0, 3, 4, 0x01, 0, 0x11, 1, 0x02, 0, 0x12, 1,
};

/* K and S have letters of their own: c stands behind a and b among those of both. */
static const uint8_t K_OR_S[] = {
    0x4D, 0x4C, 0x42, 1, 0, 3, 5, 0, 2, 2, 5, 0, 'a', 'b', 'c', 0, 0, 1, 0, 1,
    0, 0xFF, 1, 1, 0, 0,
    0, 0xFF, 3, 1, 0, 0,
    1, 2, 2, 2, 0x01, 0, 0x11, 1,
    3, 0, 3, 1, 0, 0,
    3, 1, 4, 1, 0, 0,
};

static const uint8_t K_THEN_S[] = {
    0x4D, 0x4C, 0x42, 1, 0, 3, 4, 0, 2, 2, 4, 0, 'a', 'b', 'c', 0, 0, 0, 1,
    0, 2, 1, 2, 0x01, 0, 0x11, 1,
    1, 0xFF, 2, 1, 0, 0,
    2, 0, 2, 1, 0, 0,
    2, 1, 3, 1, 0, 0,
};

static const uint8_t K_AND_S[] = {
    0x4D, 0x4C, 0x42, 1, 0, 3, 4, 0, 2, 2, 0, 0, 'a', 'b', 'c', 0, 0, 0, 1,
};

static const uint8_t K_CLOSED[] = {
    0x4D, 0x4C, 0x42, 1, 0, 1, 3, 0, 2, 2, 3, 0, 'c', 1, 0, 1,
    0, 0xFF, 1, 1, 0, 0,
    1, 0, 2, 2, 0x01, 0, 0x11, 1,
    2, 0xFF, 1, 1, 0x11, 0,
};

static const uint8_t S_CLOSED[] = {
    0x4D, 0x4C, 0x42, 1, 0, 2, 3, 0, 1, 1, 4, 0, 'a', 'b', 1, 0, 1,
    0, 0xFF, 1, 1, 0, 0,
    1, 0, 1, 1, 0, 0,
    1, 1, 2, 1, 0, 0,
    2, 0xFF, 1, 1, 0, 0,
};

/* ---- checking */

static int checks, differences;

static void expect(const char *what, uint64_t answer, uint64_t expected) {
    checks++;
    if (answer == expected) {
        printf("  %s: %llu\n", what, (unsigned long long)answer);
    } else {
        differences++;
        printf("  %s: %llu, DIFFERENT from %llu\n", what, (unsigned long long)answer, (unsigned long long)expected);
    }
}

/* What stands in lent bytes before a call. */
#define LENT 0xA5

static uint64_t *work;
static uint8_t out[RA_LONGEST_FILE];

/* Are working words lent filled? The tests are run both ways: filled, so that what stands in them is known and is not 0; and as malloc
 * gives them, so that memcheck tells where a call would use a word that it has not written. */
static int fills_words;

static void lend(void) {
    free(work);
    work = malloc(RA_WORKING_WORDS * sizeof *work);
    if (work == NULL) {
        printf("no memory for the working words\n");
        exit(2);
    }
    if (fills_words)
        memset(work, LENT, RA_WORKING_WORDS * sizeof *work);
    memset(out, LENT, sizeof out);
}

/* Are the lent bytes from a place on as they were? */
static int untouched_from(size_t at) {
    for (size_t i = at; i < sizeof out; i++)
        if (out[i] != LENT)
            return 0;
    return 1;
}

/* The file was written to the front of the output, and the bytes behind it are as they were lent. */
static void expect_file(struct ra_written answer, const uint8_t *file, size_t length) {
    expect("number", answer.number, 0);
    expect("automaton at fault", answer.automaton, 0);
    expect("length", answer.length, length);
    expect("the file is the expected one", memcmp(out, file, length) == 0, 1);
    expect("bytes behind it as lent", untouched_from(length), 1);
}

static void expect_refusal(struct ra_written answer, enum ra_refusal number, int automaton) {
    expect("number", answer.number, number);
    expect("automaton at fault", answer.automaton, automaton);
    expect("length", answer.length, 0);
    expect("output as lent", untouched_from(0), 1);
}

/* ---- the calls */

static void expect_counts(const char *name, const uint8_t *file, size_t size, const uint64_t counts[5]) {
    printf("ra_read of %s\n", name);
    struct ra_reading r = ra_read(file, size);
    expect("number", r.number, 0);
    expect("automaton at fault", r.automaton, 0);
    expect("place", r.place, 0);
    expect("letters", r.letters, counts[0]);
    expect("states", r.states, counts[1]);
    expect("registers", r.registers, counts[2]);
    expect("symbols", r.symbols, counts[3]);
    expect("arcs", r.arcs, counts[4]);
}

static void expect_fault(const char *name, const uint8_t *file, size_t size, enum ra_refusal number, uint64_t place) {
    printf("ra_read of %s\n", name);
    struct ra_reading r = ra_read(file, size);
    expect("number", r.number, number);
    expect("automaton at fault", r.automaton, 1);
    expect("place", r.place, place);
    expect("all counts together", r.letters + r.states + r.registers + r.symbols + r.arcs, 0);
}

static void test_read(void) {
    expect_counts("T", T, sizeof T, (uint64_t[]){3, 3, 2, 3, 5});
    expect_counts("V", V, sizeof V, (uint64_t[]){3, 3, 2, 3, 4});
    expect_counts("K", K, sizeof K, (uint64_t[]){1, 2, 2, 2, 1});
    expect_counts("S", S, sizeof S, (uint64_t[]){2, 2, 1, 1, 2});
    expect_fault("no bytes, by a null pointer", NULL, 0, RA_ENDS_INSIDE_A_FIELD, 0);
    expect_fault("T without its last byte", T, sizeof T - 1, RA_ENDS_INSIDE_A_FIELD, sizeof T - 2);

    uint8_t damaged[sizeof T + 1];
    const struct { const char *name; size_t at; uint8_t byte; enum ra_refusal number; uint64_t place; } faults[] = {
        {"T with another mark", 2, 'b', RA_MARK, 0},
        {"T of version 2", 3, 2, RA_VERSION, 3},
        {"T with 9 registers", 8, 9, RA_HEADER_COUNT, 8},
        {"T with the letters c c m", 13, 'c', RA_LETTERS_NOT_ASCENDING, 13},
        {"T with the letters c C m", 13, 'C', RA_LETTERS_NOT_ASCENDING, 13},
        {"T with the letters E e m", 12, 'E', RA_LETTERS_NOT_ASCENDING, 12},
        {"T with the final flag 02", 17, 2, RA_FINAL_FLAG, 17},
        {"T with an arc from state 3", 18, 3, RA_ARC_SOURCE, 18},
        {"T with an arc by letter 3", 19, 3, RA_ARC_LETTER, 19},
        {"T with an arc by letter FE", 19, 0xFE, RA_ARC_LETTER, 19},
        {"T with an arc to state 3", 20, 3, RA_ARC_TARGET, 20},
        {"T with an arc of no operation", 21, 0, RA_ARC_OPERATIONS, 21},
        {"T with an arc of 9 operations", 21, 9, RA_ARC_OPERATIONS, 21},
        {"T with a last arc by letter 3", 43, 3, RA_ARC_LETTER, 43},
        {"T with a write to register 0", 22, 0x10, RA_OPERATION, 22},
        {"T with a write of symbol 3", 23, 3, RA_OPERATION, 22},
    };
    for (size_t i = 0; i < sizeof faults / sizeof faults[0]; i++) {
        memcpy(damaged, T, sizeof T);
        damaged[faults[i].at] = faults[i].byte;
        expect_fault(faults[i].name, damaged, sizeof T, faults[i].number, faults[i].place);
    }
    memcpy(damaged, T, sizeof T);
    damaged[sizeof T] = 0;
    expect_fault("T and one byte more", damaged, sizeof damaged, RA_BYTES_AFTER_THE_LAST_ARC, sizeof T);

    /* Of several wrong fields of an arc the first is told, before the operations are wanted. */
    memcpy(damaged, T, sizeof T);
    damaged[45] = 9;
    expect_fault("T with a last arc of 9 operations, which are not there", damaged, sizeof T, RA_ARC_OPERATIONS, 45);
    damaged[44] = 3;
    expect_fault("the same, the arc to state 3", damaged, sizeof T, RA_ARC_TARGET, 44);
    damaged[43] = 3;
    expect_fault("the same, by letter 3", damaged, sizeof T, RA_ARC_LETTER, 43);
    damaged[42] = 3;
    expect_fault("the same, from state 3", damaged, sizeof T, RA_ARC_SOURCE, 42);
    expect_fault("the same, without the operations", damaged, 46, RA_ARC_SOURCE, 42);
    expect_fault("the same, without the arc's fourth byte", damaged, 45, RA_ENDS_INSIDE_A_FIELD, 42);
}

static void expect_word(const char *name, const uint8_t *file, size_t size, const char *word, int accepted, int live) {
    printf("ra_accepts of %s and '%s'\n", name, word);
    lend();
    struct ra_membership r = ra_accepts(file, size, (const uint8_t *)word, strlen(word), work, RA_WORKING_WORDS);
    expect("number", r.number, 0);
    expect("automaton at fault", r.automaton, 0);
    expect("accepted", r.accepted, accepted);
    expect("live", r.live, live);
}

static void test_accepts(void) {
    expect_word("T", T, sizeof T, "cc", 1, 1);
    expect_word("T", T, sizeof T, "cmmc", 1, 1);
    expect_word("T", T, sizeof T, "eme", 1, 1);
    expect_word("T", T, sizeof T, "ce", 0, 0);
    expect_word("T", T, sizeof T, "c", 0, 1);
    expect_word("T", T, sizeof T, "", 0, 1);
    expect_word("T", T, sizeof T, "cxc", 0, 0);
    expect_word("T", T, sizeof T, "CMMC", 1, 1);
    expect_word("T", T, sizeof T, "eMe", 1, 1);
    expect_word("T", T, sizeof T, "Ce", 0, 0);
    expect_word("V", V, sizeof V, "ee", 0, 0);
    expect_word("K", K, sizeof K, "c", 1, 1);
    expect_word("S", S, sizeof S, "aab", 1, 1);
    expect_word("K followed by K", K_THEN_K, sizeof K_THEN_K, "cc", 1, 1);
    expect_word("the closure of K", K_CLOSED, sizeof K_CLOSED, "ccc", 1, 2);
    expect_word("the closure of S", S_CLOSED, sizeof S_CLOSED, "", 1, 2);
    expect_word("the closure of S", S_CLOSED, sizeof S_CLOSED, "a", 0, 1);

    printf("ra_accepts with a working word too few\n");
    struct ra_membership r = ra_accepts(T, sizeof T, NULL, 0, work, RA_WORKING_WORDS - 1);
    expect("number", r.number, RA_TOO_LITTLE_MEMORY_LENT);
    expect("automaton at fault", r.automaton, 0);
    expect("accepted", r.accepted, 0);
    expect("live", r.live, 0);

    printf("ra_accepts of T without its last byte\n");
    r = ra_accepts(T, sizeof T - 1, NULL, 0, work, RA_WORKING_WORDS);
    expect("number", r.number, RA_ENDS_INSIDE_A_FIELD);
    expect("automaton at fault", r.automaton, 1);
}

/* One letter; two registers hold any of 16 symbols each, in either of two states: 512 configurations. Answers the length of the file. */
static size_t many_configurations(uint8_t *file) {
    const uint8_t begin[] = {0x4D, 0x4C, 0x42, 1, 0, 1, 2, 0, 3, 16, 33, 0, 'a', 0, 1};
    memcpy(file, begin, sizeof begin);
    size_t length = sizeof begin;
    for (uint8_t i = 0; i < 33; i++) {
        const uint8_t arc[] = {0, 0, i == 32, 1, i == 32 ? 0x00 : 0x11 + i / 16, i % 16};
        memcpy(file + length, arc, sizeof arc);
        length += sizeof arc;
    }
    return length;
}

/* Answers of many words, and one more place than the most that are lent. */
#define ANSWERS 7
static uint64_t answers[ANSWERS];

/* Are the answers from one on as they were lent? */
static int answers_untouched_from(size_t at) {
    for (size_t i = at; i < ANSWERS; i++)
        if (answers[i] != UINT64_MAX)
            return 0;
    return 1;
}

/* So many words are judged, and each has the answer that ra_accepts gives. */
static void expect_judged(const char *name, const uint8_t *file, size_t size, const char *words, size_t length, char separator, size_t room, size_t count, size_t bytes) {
    printf("ra_accepts_words of %s, room for %zu\n", name, room);
    lend();
    memset(answers, 0xFF, sizeof answers);
    struct ra_words_judged r = ra_accepts_words(file, size, (const uint8_t *)words, length, (uint8_t)separator, work, RA_WORKING_WORDS, answers, room);
    expect("number", r.number, 0);
    expect("automaton at fault", r.automaton, 0);
    expect("words", r.count, count);
    expect("bytes", r.bytes, bytes);
    expect("answers behind them as lent", answers_untouched_from(count), 1);
    for (size_t i = 0; i < count; i++) {
        const char *end = memchr(words, separator, length);
        struct ra_membership one = ra_accepts(file, size, (const uint8_t *)words, (size_t)(end - words), work, RA_WORKING_WORDS);
        expect("answer", answers[i], 2 * one.live + one.accepted);
        length -= (size_t)(end + 1 - words);
        words = end + 1;
    }
}

static void expect_none_judged(struct ra_words_judged r, enum ra_refusal number, int automaton) {
    expect("number", r.number, number);
    expect("automaton at fault", r.automaton, automaton);
    expect("all else together", r.count + r.bytes, 0);
    expect("answers as lent", answers_untouched_from(0), 1);
}

static void test_accepts_words(void) {
    const char words[] = "cc\ncmmc\nce\nc\n\ncxc\nCmC";
    expect_judged("T: six words, and a rest", T, sizeof T, words, sizeof words - 1, '\n', ANSWERS, 6, 18);
    expect("of cc", answers[0], 3);
    expect("of ce", answers[2], 0);
    expect("of c", answers[3], 2);
    expect("of the empty word", answers[4], 2);
    expect_judged("T: just as many answers as words", T, sizeof T, words, sizeof words - 1, '\n', 6, 6, 18);
    expect_judged("T: fewer answers than words", T, sizeof T, words, sizeof words - 1, '\n', 2, 2, 8);
    expect_judged("T: the words behind these", T, sizeof T, words + 8, sizeof words - 1 - 8, '\n', ANSWERS, 4, 10);
    expect_judged("T: no room", T, sizeof T, words, sizeof words - 1, '\n', 0, 0, 0);
    expect_judged("T: a word without a separator", T, sizeof T, "cc", 2, '\n', ANSWERS, 0, 0);
    expect_judged("T: no bytes", T, sizeof T, "", 0, '\n', ANSWERS, 0, 0);
    expect_judged("T: a separator alone", T, sizeof T, "\n", 1, '\n', ANSWERS, 1, 1);
    expect_judged("T: m, a letter of T, separates", T, sizeof T, "cmeme", 5, 'm', ANSWERS, 2, 4);
    expect_judged("T: the byte 0 separates", T, sizeof T, "cc\0eme\0", 7, '\0', ANSWERS, 2, 7);
    expect_judged("the closure of S", S_CLOSED, sizeof S_CLOSED, ",b,ab,ba,", 9, ',', ANSWERS, 4, 9);

    memset(answers, 0xFF, sizeof answers);
    const uint8_t *bytes = (const uint8_t *)words;
    printf("ra_accepts_words with nothing lent but working words\n");
    struct ra_words_judged r = ra_accepts_words(T, sizeof T, NULL, 0, 0, work, RA_WORKING_WORDS, NULL, 0);
    expect("all together", r.count + r.bytes + r.number + r.automaton, 0);
    printf("ra_accepts_words with a working word too few\n");
    expect_none_judged(ra_accepts_words(NULL, 0, bytes, sizeof words, '\n', work, RA_WORKING_WORDS - 1, answers, ANSWERS), RA_TOO_LITTLE_MEMORY_LENT, 0);
    printf("ra_accepts_words of T without its last byte\n");
    expect_none_judged(ra_accepts_words(T, sizeof T - 1, bytes, sizeof words, '\n', work, RA_WORKING_WORDS, answers, ANSWERS), RA_ENDS_INSIDE_A_FIELD, 1);
    printf("ra_accepts_words of too many configurations\n");
    uint8_t file[250];
    size_t size = many_configurations(file);
    expect_none_judged(ra_accepts_words(file, size, bytes, sizeof words, '\n', work, RA_WORKING_WORDS, answers, ANSWERS), RA_TOO_MANY_CONFIGURATIONS, 1);
}

static void test_unfold(void) {
    printf("ra_unfold of T\n");
    lend();
    expect_file(ra_unfold(T, sizeof T, work, RA_WORKING_WORDS, out, sizeof out), T_UNFOLDED, sizeof T_UNFOLDED);
    printf("ra_unfold of T into exactly enough bytes\n");
    lend();
    expect_file(ra_unfold(T, sizeof T, work, RA_WORKING_WORDS, out, sizeof T_UNFOLDED), T_UNFOLDED, sizeof T_UNFOLDED);
    printf("ra_unfold of T into a byte too few\n");
    lend();
    expect_refusal(ra_unfold(T, sizeof T, work, RA_WORKING_WORDS, out, sizeof T_UNFOLDED - 1), RA_OUTPUT_TOO_SHORT, 0);
    printf("ra_unfold of T with a working word too few\n");
    lend();
    expect_refusal(ra_unfold(T, sizeof T, work, RA_WORKING_WORDS - 1, out, sizeof out), RA_TOO_LITTLE_MEMORY_LENT, 0);
}

typedef struct ra_written join(const uint8_t *, size_t, const uint8_t *, size_t, uint8_t *, size_t);

/* A join of K with itself and with S: the files that are to be written. */
static void test_join(const char *name, join *call, const uint8_t *expected, size_t length, const uint8_t *with_s, size_t s_length) {
    printf("%s of K and K\n", name);
    lend();
    expect_file(call(K, sizeof K, K, sizeof K, out, sizeof out), expected, length);
    printf("%s of K and K into exactly enough bytes\n", name);
    lend();
    expect_file(call(K, sizeof K, K, sizeof K, out, length), expected, length);
    printf("%s of K and K into a byte too few\n", name);
    lend();
    expect_refusal(call(K, sizeof K, K, sizeof K, out, length - 1), RA_OUTPUT_TOO_SHORT, 0);
    printf("%s of K and S\n", name);
    lend();
    expect_file(call(K, sizeof K, S, sizeof S, out, sizeof out), with_s, s_length);
    printf("%s of K and no file\n", name);
    lend();
    expect_refusal(call(K, sizeof K, NULL, 0, out, sizeof out), RA_ENDS_INSIDE_A_FIELD, 2);
}

/* What a join of T and V accepts: the words cc and ee. */
static void test_joined(const char *name, join *call, int cc, int ee) {
    printf("%s of T and V\n", name);
    lend();
    struct ra_written r = call(T, sizeof T, V, sizeof V, out, sizeof out);
    expect("number", r.number, 0);
    struct ra_membership m = ra_accepts(out, r.length, (const uint8_t *)"cc", 2, work, RA_WORKING_WORDS);
    expect("number of cc", m.number, 0);
    expect("accepts cc", m.accepted, cc);
    m = ra_accepts(out, r.length, (const uint8_t *)"ee", 2, work, RA_WORKING_WORDS);
    expect("number of ee", m.number, 0);
    expect("accepts ee", m.accepted, ee);
}

static void test_close(void) {
    printf("ra_close of K\n");
    lend();
    expect_file(ra_close(K, sizeof K, out, sizeof out), K_CLOSED, sizeof K_CLOSED);
    printf("ra_close of S into exactly enough bytes\n");
    lend();
    expect_file(ra_close(S, sizeof S, out, sizeof S_CLOSED), S_CLOSED, sizeof S_CLOSED);
    printf("ra_close of S into a byte too few\n");
    lend();
    expect_refusal(ra_close(S, sizeof S, out, sizeof S_CLOSED - 1), RA_OUTPUT_TOO_SHORT, 0);
    printf("ra_close of no file\n");
    lend();
    expect_refusal(ra_close(NULL, 0, out, sizeof out), RA_ENDS_INSIDE_A_FIELD, 1);
}

static void expect_comparison(struct ra_comparison r, int taker, uint64_t pairs, const char *word) {
    expect("number", r.number, 0);
    expect("automaton at fault", r.automaton, 0);
    expect("accepted only by", r.taker, taker);
    expect("pairs", r.pairs, pairs);
    expect("length", r.length, strlen(word));
    expect("the word is the expected one", memcmp(out, word, strlen(word)) == 0, 1);
    expect("bytes behind it as lent", untouched_from(strlen(word)), 1);
}

static void expect_no_comparison(struct ra_comparison r, enum ra_refusal number, int automaton) {
    expect("number", r.number, number);
    expect("automaton at fault", r.automaton, automaton);
    expect("all else together", r.taker + r.pairs + r.length, 0);
    expect("buffer as lent", untouched_from(0), 1);
}

static void test_compare(void) {
    printf("ra_compare of T and its unfolding\n");
    lend();
    expect_comparison(ra_compare(T, sizeof T, T_UNFOLDED, sizeof T_UNFOLDED, work, RA_WORKING_WORDS, out, RA_WORD_BYTES), 0, 6, "");
    printf("ra_compare of T and V\n");
    lend();
    expect_comparison(ra_compare(T, sizeof T, V, sizeof V, work, RA_WORKING_WORDS, out, RA_WORD_BYTES), 1, 6, "ee");
    printf("ra_compare of V and T\n");
    lend();
    expect_comparison(ra_compare(V, sizeof V, T, sizeof T, work, RA_WORKING_WORDS, out, RA_WORD_BYTES), 2, 6, "ee");
    printf("ra_compare of U and T: ce comes before ec\n");
    lend();
    expect_comparison(ra_compare(U, sizeof U, T, sizeof T, work, RA_WORKING_WORDS, out, RA_WORD_BYTES), 1, 8, "ce");
    printf("ra_compare of T and U\n");
    lend();
    expect_comparison(ra_compare(T, sizeof T, U, sizeof U, work, RA_WORKING_WORDS, out, RA_WORD_BYTES), 2, 8, "ce");
    printf("ra_compare of T and K: K lacks e and m\n");
    lend();
    expect_comparison(ra_compare(T, sizeof T, K, sizeof K, work, RA_WORKING_WORDS, out, RA_WORD_BYTES), 2, 7, "c");
    printf("ra_compare of K and S: none of their letters is one of the other's\n");
    lend();
    expect_comparison(ra_compare(K, sizeof K, S, sizeof S, work, RA_WORKING_WORDS, out, RA_WORD_BYTES), 2, 5, "b");
    printf("ra_compare of T and no file\n");
    lend();
    expect_no_comparison(ra_compare(T, sizeof T, NULL, 0, work, RA_WORKING_WORDS, out, RA_WORD_BYTES), RA_ENDS_INSIDE_A_FIELD, 2);
    printf("ra_compare with a byte too few for the word\n");
    lend();
    expect_no_comparison(ra_compare(T, sizeof T, V, sizeof V, work, RA_WORKING_WORDS, out, RA_WORD_BYTES - 1), RA_TOO_LITTLE_MEMORY_LENT, 0);
}

/* T and V beside themselves in capitals: the same letters, and what is joined or shown has the bytes of the first. */
static void test_capitals(void) {
    uint8_t t[sizeof T], v[sizeof V], joined[200];
    in_capitals(T, sizeof T, t);
    in_capitals(V, sizeof V, v);
    expect_counts("T in capitals", t, sizeof t, (uint64_t[]){3, 3, 2, 3, 5});
    expect_word("T in capitals", t, sizeof t, "cmmc", 1, 1);

    struct ra_written r = ra_union(T, sizeof T, V, sizeof V, joined, sizeof joined);
    printf("ra_union of T and V in capitals\n");
    lend();
    expect_file(ra_union(T, sizeof T, v, sizeof v, out, sizeof out), joined, r.length);
    memcpy(joined + 12, "CEM", 3);
    printf("ra_union of T in capitals and V\n");
    lend();
    expect_file(ra_union(t, sizeof t, V, sizeof V, out, sizeof out), joined, r.length);

    printf("ra_compare of T and T in capitals\n");
    lend();
    expect_comparison(ra_compare(T, sizeof T, t, sizeof t, work, RA_WORKING_WORDS, out, RA_WORD_BYTES), 0, 6, "");
    printf("ra_compare of T and V in capitals\n");
    lend();
    expect_comparison(ra_compare(T, sizeof T, v, sizeof v, work, RA_WORKING_WORDS, out, RA_WORD_BYTES), 1, 6, "ee");
    printf("ra_compare of V in capitals and T\n");
    lend();
    expect_comparison(ra_compare(v, sizeof v, T, sizeof T, work, RA_WORKING_WORDS, out, RA_WORD_BYTES), 2, 6, "EE");
}

/* Two files may have 64 letters together: L has 64, from 0x80 on, and M the same without the last. */
static void test_many_letters(void) {
    uint8_t l[12 + 64 + 1] = {0x4D, 0x4C, 0x42, 1, 0, 64, 1, 0, 1, 1, 0, 0};
    for (int i = 0; i < 64; i++)
        l[12 + i] = (uint8_t)(0x80 + i);
    l[12 + 64] = 1;
    uint8_t m[sizeof l - 1];
    memcpy(m, l, 12 + 63);
    m[5] = 63;
    m[12 + 63] = 1;

    printf("ra_union of K and M: 64 letters\n");
    lend();
    struct ra_written r = ra_union(K, sizeof K, m, sizeof m, out, sizeof out);
    expect("number", r.number, 0);
    expect("letters", out[5], 64);
    expect("letter of K's arc", out[12 + 64 + 4 + 6 + 6 + 1], 0);
    printf("ra_compare of M and K: 64 letters\n");
    lend();
    expect_comparison(ra_compare(m, sizeof m, K, sizeof K, work, RA_WORKING_WORDS, out, RA_WORD_BYTES), 1, 3, "");
    printf("every call on K and L: 65 letters\n");
    lend();
    expect_refusal(ra_union(K, sizeof K, l, sizeof l, out, sizeof out), RA_JOINED_BEYOND_A_LIMIT, 0);
    expect_refusal(ra_concatenate(K, sizeof K, l, sizeof l, out, sizeof out), RA_JOINED_BEYOND_A_LIMIT, 0);
    expect_refusal(ra_intersect(l, sizeof l, K, sizeof K, out, sizeof out), RA_JOINED_BEYOND_A_LIMIT, 0);
    expect_no_comparison(ra_compare(K, sizeof K, l, sizeof l, work, RA_WORKING_WORDS, out, RA_WORD_BYTES), RA_JOINED_BEYOND_A_LIMIT, 0);
    printf("ra_compare of L and K without its last byte: the second file's fault comes first\n");
    lend();
    expect_no_comparison(ra_compare(l, sizeof l, K, sizeof K - 1, work, RA_WORKING_WORDS, out, RA_WORD_BYTES), RA_ENDS_INSIDE_A_FIELD, 2);
}

static void expect_words(const char *name, const uint8_t *file, size_t size, uint64_t length, uint64_t accepted, uint64_t rejected) {
    printf("ra_count_words of %s, length %llu\n", name, (unsigned long long)length);
    lend();
    struct ra_word_count r = ra_count_words(file, size, length, work, RA_WORKING_WORDS);
    expect("number", r.number, 0);
    expect("automaton at fault", r.automaton, 0);
    expect("accepted", r.accepted, accepted);
    expect("rejected", r.rejected, rejected);
}

static void expect_no_words(struct ra_word_count r, enum ra_refusal number, int automaton) {
    expect("number", r.number, number);
    expect("automaton at fault", r.automaton, automaton);
    expect("all else together", r.accepted + r.rejected, 0);
}

static void test_count_words(void) {
    expect_words("T", T, sizeof T, 0, 0, 1);
    expect_words("T", T, sizeof T, 3, 2, 25);
    expect_words("T", T, sizeof T, 40, 2, 12157665459056928799u);
    expect_words("the closure of S", S_CLOSED, sizeof S_CLOSED, 0, 1, 0);
    expect_words("the closure of S: every word that ends in b", S_CLOSED, sizeof S_CLOSED, 63, 4611686018427387904u, 4611686018427387904u);
    expect_words("K", K, sizeof K, 1, 1, 0);
    expect_words("K", K, sizeof K, 64, 0, 1);
    printf("ra_count_words of K, length 65\n");
    expect_no_words(ra_count_words(K, sizeof K, 65, work, RA_WORKING_WORDS), RA_LENGTH_TOO_LARGE, 0);
    printf("ra_count_words of K, the largest length\n");
    expect_no_words(ra_count_words(K, sizeof K, UINT64_MAX, work, RA_WORKING_WORDS), RA_LENGTH_TOO_LARGE, 0);
    printf("ra_count_words of S, length 64: 2 to the power 64 is too large\n");
    expect_no_words(ra_count_words(S, sizeof S, 64, work, RA_WORKING_WORDS), RA_LENGTH_TOO_LARGE, 0);
    printf("ra_count_words of T without its last byte, length 65: the file's fault comes first\n");
    expect_no_words(ra_count_words(T, sizeof T - 1, 65, work, RA_WORKING_WORDS), RA_ENDS_INSIDE_A_FIELD, 1);
    printf("ra_count_words with a working word too few\n");
    expect_no_words(ra_count_words(NULL, 0, 65, work, RA_WORKING_WORDS - 1), RA_TOO_LITTLE_MEMORY_LENT, 0);
}

/* Over a and b, is the letter at this place from the end an a? At most 10. The live set of a word tells which of its last letters are a, as
 * many as that. The third letter, c, leaves nothing live. Answers the length of the file. */
static size_t letter_from_the_end(uint8_t place, uint8_t *file) {
    const uint8_t begin[] = {0x4D, 0x4C, 0x42, 1, 0, 3, place + 1, 0, 1, 1, 2 * place + 1, 0, 'a', 'b', 'c'};
    const uint8_t first_arcs[] = {
        0, 0, 0, 1, 0x00, 0,
        0, 0, 1, 1, 0x00, 0,
        0, 1, 0, 1, 0x00, 0,
    };
    memcpy(file, begin, sizeof begin);
    size_t length = sizeof begin;
    for (uint8_t state = 0; state <= place; state++)
        file[length++] = state == place;
    memcpy(file + length, first_arcs, sizeof first_arcs);
    length += sizeof first_arcs;
    for (uint8_t state = 1; state < place; state++)
        for (uint8_t letter = 0; letter < 2; letter++) {
            const uint8_t arc[] = {state, letter, state + 1, 1, 0x00, 0};
            memcpy(file + length, arc, sizeof arc);
            length += sizeof arc;
        }
    return length;
}

static void expect_ranged(const char *name, const uint8_t *file, size_t size, const uint8_t *places, size_t length, enum ra_fillings answer) {
    printf("ra_accepts_ranges of %s\n", name);
    lend();
    struct ra_ranged r = ra_accepts_ranges(file, size, places, length, work, RA_WORKING_WORDS);
    expect("number", r.number, 0);
    expect("automaton at fault", r.automaton, 0);
    expect("answer", r.answer, answer);
}

static void expect_no_ranged(struct ra_ranged r, enum ra_refusal number, int automaton) {
    expect("number", r.number, number);
    expect("automaton at fault", r.automaton, automaton);
    expect("answer", r.answer, 0);
}

static void test_accepts_ranges(void) {
    /* The letters of T and U are c, e and m, those of S are a and b. */
    expect_ranged("T: cc", T, sizeof T, (uint8_t[]){0, 0, 0, 0}, 4, RA_ALWAYS);
    expect_ranged("T: ce", T, sizeof T, (uint8_t[]){0, 0, 1, 1}, 4, RA_NEVER);
    expect_ranged("T: c or e, then c", T, sizeof T, (uint8_t[]){0, 1, 0, 0}, 4, RA_SOMETIMES);
    expect_ranged("T: c or e, then m, then c or e", T, sizeof T, (uint8_t[]){0, 1, 2, 2, 0, 1}, 6, RA_SOMETIMES);
    expect_ranged("T: m, then any letter", T, sizeof T, (uint8_t[]){2, 2, 0, 2}, 4, RA_NEVER);
    expect_ranged("T: any letter", T, sizeof T, (uint8_t[]){0, 2}, 2, RA_NEVER);
    expect_ranged("U: c or e, then m, then c or e", U, sizeof U, (uint8_t[]){0, 1, 2, 2, 0, 1}, 6, RA_ALWAYS);
    expect_ranged("U: c or e, then e or m", U, sizeof U, (uint8_t[]){0, 1, 1, 2}, 4, RA_SOMETIMES);
    expect_ranged("T, no places", T, sizeof T, NULL, 0, RA_NEVER);
    expect_ranged("the closure of S, no places", S_CLOSED, sizeof S_CLOSED, NULL, 0, RA_ALWAYS);
    uint8_t places[2000];
    for (size_t i = 0; i < sizeof places; i++)
        places[i] = i % 2;
    expect_ranged("the closure of S: a thousand letters", S_CLOSED, sizeof S_CLOSED, places, sizeof places, RA_SOMETIMES);
    places[sizeof places - 2] = 1;
    expect_ranged("the closure of S: a thousand letters, the last one b", S_CLOSED, sizeof S_CLOSED, places, sizeof places, RA_ALWAYS);
    places[sizeof places - 2] = places[sizeof places - 1] = 0;
    expect_ranged("the closure of S: a thousand letters, the last one a", S_CLOSED, sizeof S_CLOSED, places, sizeof places, RA_NEVER);

    const struct { const char *name; uint8_t places[6]; size_t length; } bad[] = {
        {"a byte", {0}, 1},
        {"a range and a byte", {0, 2, 0}, 3},
        {"low above high", {1, 0}, 2},
        {"a high that is no letter", {0, 3}, 2},
        {"low and high that are no letter", {3, 3}, 2},
        {"the highest bytes", {255, 255}, 2},
        {"a last range with low above high", {0, 0, 0, 2, 2, 1}, 6},
        {"a range in the middle with a high that is no letter", {0, 0, 2, 3, 0, 0}, 6},
    };
    for (size_t i = 0; i < sizeof bad / sizeof bad[0]; i++) {
        printf("ra_accepts_ranges of T and %s\n", bad[i].name);
        expect_no_ranged(ra_accepts_ranges(T, sizeof T, bad[i].places, bad[i].length, work, RA_WORKING_WORDS), RA_BAD_RANGES, 0);
    }

    uint8_t file[250];
    for (size_t i = 0; i < sizeof places; i++)
        places[i] = i % 2;
    size_t size = letter_from_the_end(9, file);
    printf("the ninth letter from the end: 512 live sets behind each place from the ninth on\n");
    expect_ranged("a thousand letters", file, size, places, sizeof places, RA_SOMETIMES);
    places[2 * 8 + 1] = 2;
    printf("the same with a c at the ninth place: 513 live sets\n");
    expect_no_ranged(ra_accepts_ranges(file, size, places, 2 * 9, work, RA_WORKING_WORDS), RA_TOO_MANY_LIVE_SETS, 0);
    places[2 * 9] = places[2 * 9 + 1] = 2;
    printf("the same, and then a c, behind which there is one: each place counts for itself\n");
    expect_no_ranged(ra_accepts_ranges(file, size, places, 2 * 10, work, RA_WORKING_WORDS), RA_TOO_MANY_LIVE_SETS, 0);

    size = many_configurations(file);
    printf("ra_accepts_ranges of too many configurations\n");
    expect_no_ranged(ra_accepts_ranges(file, size, NULL, 0, work, RA_WORKING_WORDS), RA_TOO_MANY_CONFIGURATIONS, 1);
    printf("the same with a byte left over, which comes first\n");
    expect_no_ranged(ra_accepts_ranges(file, size, places, 1, work, RA_WORKING_WORDS), RA_BAD_RANGES, 0);
    printf("ra_accepts_ranges of T without its last byte, and a byte left over: the file's fault comes first\n");
    expect_no_ranged(ra_accepts_ranges(T, sizeof T - 1, places, 1, work, RA_WORKING_WORDS), RA_ENDS_INSIDE_A_FIELD, 1);
    printf("ra_accepts_ranges with a working word too few\n");
    expect_no_ranged(ra_accepts_ranges(NULL, 0, places, 1, work, RA_WORKING_WORDS - 1), RA_TOO_LITTLE_MEMORY_LENT, 0);
}

/* Every call tells which field of an arc is wrong, and of which file. */
static void test_arc_fields(void) {
    const enum ra_refusal fields[] = {RA_ARC_SOURCE, RA_ARC_LETTER, RA_ARC_TARGET, RA_ARC_OPERATIONS};
    for (size_t i = 0; i < 4; i++) {
        uint8_t damaged[sizeof T];
        memcpy(damaged, T, sizeof T);
        damaged[18 + i] = 9;
        printf("every call on T with the byte 9 at place %zu\n", 18 + i);
        lend();
        struct ra_membership m = ra_accepts(damaged, sizeof T, NULL, 0, work, RA_WORKING_WORDS);
        expect("number of ra_accepts", m.number, fields[i]);
        expect("automaton at fault", m.automaton, 1);
        memset(answers, 0xFF, sizeof answers);
        expect_none_judged(ra_accepts_words(damaged, sizeof T, NULL, 0, 0, work, RA_WORKING_WORDS, answers, ANSWERS), fields[i], 1);
        expect_refusal(ra_unfold(damaged, sizeof T, work, RA_WORKING_WORDS, out, sizeof out), fields[i], 1);
        expect_refusal(ra_union(T, sizeof T, damaged, sizeof T, out, sizeof out), fields[i], 2);
        expect_refusal(ra_concatenate(damaged, sizeof T, T, sizeof T, out, sizeof out), fields[i], 1);
        expect_refusal(ra_intersect(T, sizeof T, damaged, sizeof T, out, sizeof out), fields[i], 2);
        expect_refusal(ra_close(damaged, sizeof T, out, sizeof out), fields[i], 1);
        expect_no_comparison(ra_compare(T, sizeof T, damaged, sizeof T, work, RA_WORKING_WORDS, out, RA_WORD_BYTES), fields[i], 2);
        expect_no_words(ra_count_words(damaged, sizeof T, 3, work, RA_WORKING_WORDS), fields[i], 1);
        expect_no_ranged(ra_accepts_ranges(damaged, sizeof T, NULL, 0, work, RA_WORKING_WORDS), fields[i], 1);
    }
}

/* Each refusal has a sentence of its own, and no other number has one. */
static void test_message(void) {
    const char *none = "no such refusal";
    int told = 0, alike = 0;
    for (int n = 0; n < 256; n++) {
        if (strcmp(ra_message((uint8_t)n), none) == 0)
            continue;
        told++;
        for (int m = 0; m < n; m++)
            alike += strcmp(ra_message((uint8_t)m), ra_message((uint8_t)n)) == 0;
    }
    printf("ra_message of every number\n");
    expect("numbers with a sentence", told, 20);
    expect("sentences that two numbers have", alike, 0);
    expect("that of RA_MARK", strcmp(ra_message(RA_MARK), "the file does not begin with the mark MLB") == 0, 1);
    expect("that of RA_TOO_MANY_CONFIGURATIONS", strcmp(ra_message(RA_TOO_MANY_CONFIGURATIONS), "more than 256 configurations can be reached") == 0, 1);
    expect("that of no refusal", strcmp(ra_message(0), none) == 0, 1);
    expect("that of the largest number", strcmp(ra_message(255), none) == 0, 1);
}

static void test_every_call(void) {
    test_read();
    test_accepts();
    test_accepts_words();
    test_unfold();
    test_join("ra_union", ra_union, K_OR_K, sizeof K_OR_K, K_OR_S, sizeof K_OR_S);
    test_joined("ra_union", ra_union, 1, 1);
    test_join("ra_concatenate", ra_concatenate, K_THEN_K, sizeof K_THEN_K, K_THEN_S, sizeof K_THEN_S);
    test_joined("ra_concatenate", ra_concatenate, 0, 0);
    test_join("ra_intersect", ra_intersect, K_AND_K, sizeof K_AND_K, K_AND_S, sizeof K_AND_S);
    test_joined("ra_intersect", ra_intersect, 1, 0);
    test_close();
    test_compare();
    test_capitals();
    test_many_letters();
    test_count_words();
    test_accepts_ranges();
    test_arc_fields();
}

int main(void) {
    test_message();
    for (fills_words = 0; fills_words < 2; fills_words++) {
        printf("working words %s\n", fills_words ? "filled" : "as malloc gives them");
        test_every_call();
    }
    free(work);
    printf("%d checks, %d differences\n", checks, differences);
    return differences > 0;
}
