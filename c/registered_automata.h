/* Finite-state registered automata in files: read, run, unfold, join and compare them, count their words, and judge words with ranges of
 * letters.
 *
 * Link with libregistered_automata.a, which `tools/build registered_automata` writes to target/staticlib (x86-64).
 *
 * The scanner's part by itself is libscanner.a, which `tools/build scanner` writes beside it: ra_read, ra_accepts and ra_accepts_words, as
 * they are declared here, and nothing else. It has less than 12,500 bytes of code, constants among them, and no data (`size`, which c/run
 * holds it to); needs RA_WORKING_WORDS working words, 65,536 bytes; and took less than 800 bytes of stack in every call that was measured, with the
 * compiler of rattle-kit-5b-plain. Of functions outside of itself it calls memset alone. Link with one of the two, not with both.
 *
 * Memory. The library allocates nothing, keeps nothing between calls and has no state of its own: it looks only at the bytes
 * handed to it and writes only to the memory lent to it, so calls in different threads may run at the same time if they are lent
 * different memory. All memory belongs to the caller before, during and after a call. A pointer whose length is 0 may be null.
 * Memory that a call may write to must not overlap any other that it is handed.
 * Stack: less than 2,000 bytes were measured in every call, the most in ra_compare, less than 900 where no two files are handed in, with
 * the compiler of rattle-kit-5b-plain.
 *
 * Every call comes back, on every input: a file may hold any bytes.
 *
 * Files. An automaton is handed in as the bytes of its file, `docs/FORMAT.md` in the repository; the longest valid file has
 * RA_LONGEST_FILE bytes, and an output of that size has room for every result.
 *
 * Letters. A letter is listed as one byte; a capital and its small letter (0x41 to 0x5A and 0x61 to 0x7A) stand for one letter: in a word,
 * in the letters of a file, which may list it in one of its cases only, and where letters of two files are the same. Two files may have
 * letters of their own: they are joined and compared over the letters of both, which are the bytes that the first lists and those of the
 * second that stand for none of its letters, ascending; there may be 64 of them. Joined files list these bytes, and shown words have them.
 *
 * Working words. Calls that take `work` need RA_WORKING_WORDS words (uint64_t) or more. They may hold anything before the call, words
 * that were never filled among it, and hold anything afterwards; nothing has to be cleared between calls.
 *
 * Answers. A struct is returned by value. Its field `number` is 0 where the call was not refused; else it is one of
 * enum ra_refusal, `automaton` is 1 or 2 for the automaton at fault (0 where neither is), and all other fields are 0, but that
 * ra_read tells the place of the fault. A refused call leaves outputs, answers and the buffer for the word exactly as they were lent. A
 * call that was not refused leaves the bytes behind its result as they were lent.
 *
 * Where several refusals would be in place, the call answers the first in this order: RA_TOO_LITTLE_MEMORY_LENT; the first file's
 * fault (the first one that is met from left to right); the second file's fault; RA_JOINED_BEYOND_A_LIMIT, which comparing gives for the
 * letters alone, RA_LENGTH_TOO_LARGE or RA_BAD_RANGES; RA_TOO_MANY_CONFIGURATIONS and RA_TOO_MANY_PLAIN_ARCS of the first, then of the
 * second; RA_TOO_MANY_LIVE_SETS; RA_OUTPUT_TOO_SHORT.
 */
#ifndef REGISTERED_AUTOMATA_H
#define REGISTERED_AUTOMATA_H

#include <stddef.h>
#include <stdint.h>

#ifdef __cplusplus
extern "C" {
#endif

/* How many working words a call asks for. */
#define RA_WORKING_WORDS 8192

/* How many bytes ra_compare asks for, for the word that it shows. */
#define RA_WORD_BYTES 512

/* The length of the longest valid file, in bytes. */
#define RA_LONGEST_FILE 41292

/* Why a call was refused. */
enum ra_refusal {
    /* The faults of a file: 1 to 9 and 32 to 34. They stand here in the order in which reading meets them, but that 1 is met wherever
     * the file ends inside a part, and those of an arc at each arc in turn. Of an arc's first four bytes each has a number of its own,
     * and the first that is wrong is told. */

    /* the file ends inside a field */
    RA_ENDS_INSIDE_A_FIELD = 1,
    /* the file does not begin with the mark MLB */
    RA_MARK = 2,
    /* the version is not 1 */
    RA_VERSION = 3,
    /* a count is out of its range: letters 0 to 64, states 1 to 256, registers 1 to 8, symbols 1 to 16, arcs 0 to 2048 */
    RA_HEADER_COUNT = 4,
    /* the letters do not ascend strictly, or a letter stands there as a capital and as a small letter */
    RA_LETTERS_NOT_ASCENDING = 5,
    /* a final flag is neither 00 nor 01 */
    RA_FINAL_FLAG = 6,
    /* an arc's from-state, its first byte, is not below the number of states */
    RA_ARC_SOURCE = 7,
    /* an arc's letter, its second byte, is neither below the number of letters nor FF */
    RA_ARC_LETTER = 32,
    /* an arc's to-state, its third byte, is not below the number of states */
    RA_ARC_TARGET = 33,
    /* an arc's number of operations, its fourth byte, is not 1 to 8 */
    RA_ARC_OPERATIONS = 34,
    /* an operation is not one: kind 0 or 1, register and symbol below their counts, register 0 only with the read of
     * symbol 0
     */
    RA_OPERATION = 8,
    /* bytes follow the last arc */
    RA_BYTES_AFTER_THE_LAST_ARC = 9,
    /* of two files, and of what they are joined to */
    /* the letters of both files are more than 64, or the result would be beyond a limit: 256 states, 8 registers, 2048 arcs,
     * 8 operations on an arc
     */
    RA_JOINED_BEYOND_A_LIMIT = 11,
    /* of sizes */
    /* more than 256 configurations can be reached */
    RA_TOO_MANY_CONFIGURATIONS = 21,
    /* more than 2048 plain arcs: passing arcs, counted at each configuration */
    RA_TOO_MANY_PLAIN_ARCS = 22,
    /* words lead to more than 512 live sets, or to more than 512 pairs of them where two automata are compared, or to more than 512
     * behind one place of a word with ranges
     */
    RA_TOO_MANY_LIVE_SETS = 23,
    /* less working memory than 8192 words, or less room for a word than 512 bytes */
    RA_TOO_LITTLE_MEMORY_LENT = 24,
    /* less room than the result has bytes */
    RA_OUTPUT_TOO_SHORT = 25,
    /* of the length of words that are to be counted */
    /* the length is above 64, or more than 18446744073709551615 words have it */
    RA_LENGTH_TOO_LARGE = 31,
    /* of the places of a word with ranges */
    /* a byte is left over, or a range has its low above its high or its high not below the number of letters */
    RA_BAD_RANGES = 35
};

/* What ra_read answers: the counts in the header of a valid file, or its first fault and where that stands. */
struct ra_reading {
    uint64_t letters;
    uint64_t states;
    uint64_t registers;
    uint64_t symbols;
    uint64_t arcs;
    uint64_t place;     /* where the fault stands, in bytes from the file's start, at most file_length; 0 of a valid file */
    uint8_t number;     /* 0, or the file's fault in enum ra_refusal */
    uint8_t automaton;  /* the automaton at fault: 1 where the file has a fault */
};

/* What ra_accepts answers. */
struct ra_membership {
    uint64_t live;      /* how many configurations are live after the word's last letter */
    uint8_t number;     /* 0, or enum ra_refusal */
    uint8_t automaton;  /* the automaton at fault */
    uint8_t accepted;   /* 1 where the word is accepted, else 0 */
};

/* What ra_accepts_words answers. */
struct ra_words_judged {
    uint64_t count;     /* how many words were judged: their answers stand at the front of `answers` */
    uint64_t bytes;     /* how many bytes these words take, each with the separator behind it */
    uint8_t number;     /* 0, or enum ra_refusal */
    uint8_t automaton;  /* the automaton at fault */
};

/* What a call answers that writes a file. */
struct ra_written {
    uint64_t length;    /* how many bytes the file has; they stand at the front of the output */
    uint8_t number;     /* 0, or enum ra_refusal */
    uint8_t automaton;  /* the automaton at fault */
};

/* What ra_compare answers. */
struct ra_comparison {
    uint64_t pairs;     /* how many distinct pairs of live sets the words of the letters of both lead to */
    uint64_t length;    /* how many bytes the shown word has; they stand at the front of the buffer for it */
    uint8_t number;     /* 0, or enum ra_refusal */
    uint8_t automaton;  /* the automaton at fault */
    uint8_t taker;      /* 0: the two accept the same words; 1 or 2: only this one accepts the shown word */
};

/* What ra_count_words answers. */
struct ra_word_count {
    uint64_t accepted;  /* how many words of the length are accepted */
    uint64_t rejected;  /* how many words of the length are not */
    uint8_t number;     /* 0, or enum ra_refusal */
    uint8_t automaton;  /* the automaton at fault */
};

/* How many of the fillings of a word with ranges are accepted. */
enum ra_fillings {
    /* every filling */
    RA_ALWAYS = 1,
    /* some, and some are not */
    RA_SOMETIMES = 2,
    /* none */
    RA_NEVER = 3
};

/* What ra_accepts_ranges answers. */
struct ra_ranged {
    uint8_t number;     /* 0, or enum ra_refusal */
    uint8_t automaton;  /* the automaton at fault */
    uint8_t answer;     /* enum ra_fillings, or 0 where the call was refused */
};

/* Is the file valid? Answers the counts in its header, or its first fault, which is always that of the one file, and its place: where
 * the mark, the version, the count, the letter, the flag, the byte of an arc or the operation stands that is wrong; where the part
 * begins that the file ends inside; where the bytes behind the last arc begin. The wrong letter is the first that is not above the
 * one before it; where all ascend, the first whose other case stands behind it, which is the capital. */
struct ra_reading ra_read(const uint8_t *file, size_t file_length);

/* Does the automaton of the file accept the word? Its bytes are taken without regard to capitals. A word with a byte that is no
 * letter isn't accepted, and leaves no configuration live. Refused: a fault of the file, 21, 24. */
struct ra_membership ra_accepts(const uint8_t *file, size_t file_length,
                                const uint8_t *word, size_t word_length,
                                uint64_t *work, size_t work_words);

/* Which of many words does the automaton of the file accept? `words` has them one behind the other, each with the byte `separator` behind
 * it, as the lines of a text have a newline; the separator is no part of a word, also where the file lists it as a letter. Word i, counted
 * from 0, is answered in answers[i], with what ra_accepts tells of it: twice the number of live configurations, and one more where the word
 * is accepted. As many words are judged as there is room for answers; bytes behind the last separator are not judged. A caller goes on
 * behind the first `bytes` bytes of `words`, with what stands there. Answers behind the first `count`, and all where the call is refused, are
 * left as they were lent. The automaton is built once, so that a word costs what its letters do. Refused: as ra_accepts. */
struct ra_words_judged ra_accepts_words(const uint8_t *file, size_t file_length,
                                        const uint8_t *words, size_t words_length,
                                        uint8_t separator,
                                        uint64_t *work, size_t work_words,
                                        uint64_t *answers, size_t answers_length);

/* Writes an automaton with one register, which always holds 0, that accepts the same words. Its states are the configurations
 * of the first. Refused: a fault of the file, 21, 22, 24, 25. */
struct ra_written ra_unfold(const uint8_t *file, size_t file_length,
                            uint64_t *work, size_t work_words,
                            uint8_t *out, size_t out_length);

/* Writes an automaton that accepts the words of either. Its letters are those of both, as in every join of two files.
 * Refused: a fault of either file, 11, 25. */
struct ra_written ra_union(const uint8_t *first, size_t first_length,
                           const uint8_t *second, size_t second_length,
                           uint8_t *out, size_t out_length);

/* Writes an automaton that accepts each word of the first followed by a word of the second.
 * Refused: a fault of either file, 11, 25. */
struct ra_written ra_concatenate(const uint8_t *first, size_t first_length,
                                 const uint8_t *second, size_t second_length,
                                 uint8_t *out, size_t out_length);

/* Writes an automaton that accepts the words that both accept. It lists the letters of both, also those that none of its arcs has.
 * Refused: a fault of either file, 11, 25. */
struct ra_written ra_intersect(const uint8_t *first, size_t first_length,
                               const uint8_t *second, size_t second_length,
                               uint8_t *out, size_t out_length);

/* Writes an automaton that accepts every finite sequence of the file's words, the empty one among them.
 * Refused: a fault of the file, 11, 25. */
struct ra_written ra_close(const uint8_t *file, size_t file_length,
                           uint8_t *out, size_t out_length);

/* Do the two accept the same words, of every length and over the letters of both? A word with a letter that one of them lacks isn't
 * accepted by that one, and leaves nothing live there. Where they don't, the first word that exactly one accepts is written to the
 * front of `word`, which needs RA_WORD_BYTES bytes or more; where they do, `word` is left as it was lent. The first is that of the
 * shortest which is first in letter order: where two words first differ, the letter decides that comes first among the letters of
 * both. It is written in their bytes, whichever of the two accepts it.
 * Refused: a fault of either file, 11, 21 to 24. */
struct ra_comparison ra_compare(const uint8_t *first, size_t first_length,
                                const uint8_t *second, size_t second_length,
                                uint64_t *work, size_t work_words,
                                uint8_t *word, size_t word_length);

/* How many words of `length` letters does the automaton of the file accept, and how many not? A word is counted once, however many
 * runs spell it. With no letters there is one word of length 0, and none of any other length. What is counted for
 * RA_TOO_MANY_LIVE_SETS are the live sets of words of every length. Refused: a fault of the file, 21, 23, 24, 31; never 22. */
struct ra_word_count ra_count_words(const uint8_t *file, size_t file_length,
                                    uint64_t length,
                                    uint64_t *work, size_t work_words);

/* Of a word of which each letter is known only to lie in a range: does the automaton of the file accept every filling, some, or none?
 * `places` has two bytes for each letter of the word: the lowest and the highest number that it can have, both included. The numbers are
 * those of the file's letters, from 0 on in the order of its list. A filling has a letter of each range, one behind the other. With no
 * places the empty word is the only filling, so the answer is RA_ALWAYS or RA_NEVER. What is counted for RA_TOO_MANY_LIVE_SETS are the
 * live sets of all fillings of the places up to one of them, for each place by itself. Refused: a fault of the file, 21, 23, 24, 35; never
 * 22. */
struct ra_ranged ra_accepts_ranges(const uint8_t *file, size_t file_length,
                                   const uint8_t *places, size_t places_length,
                                   uint64_t *work, size_t work_words);

/* A sentence for a user: what a refusal's number means, as the programs tell it. `no such refusal` for 0 and every number that enum
 * ra_refusal lacks. The text is constant and belongs to nobody. */
static inline const char *ra_message(uint8_t number) {
    switch (number) {
    case RA_ENDS_INSIDE_A_FIELD:
        return "the file ends inside a field";
    case RA_MARK:
        return "the file does not begin with the mark MLB";
    case RA_VERSION:
        return "the version is not 1";
    case RA_HEADER_COUNT:
        return "a count is out of its range: letters 0 to 64, states 1 to 256, registers 1 to 8, symbols 1 to 16, arcs 0 to 2048";
    case RA_LETTERS_NOT_ASCENDING:
        return "the letters do not ascend strictly, or a letter stands there as a capital and as a small letter";
    case RA_FINAL_FLAG:
        return "a final flag is neither 00 nor 01";
    case RA_ARC_SOURCE:
        return "an arc's from-state, its first byte, is not below the number of states";
    case RA_ARC_LETTER:
        return "an arc's letter, its second byte, is neither below the number of letters nor FF";
    case RA_ARC_TARGET:
        return "an arc's to-state, its third byte, is not below the number of states";
    case RA_ARC_OPERATIONS:
        return "an arc's number of operations, its fourth byte, is not 1 to 8";
    case RA_OPERATION:
        return "an operation is not one: kind 0 or 1, register and symbol below their counts, register 0 only with the read of "
               "symbol 0";
    case RA_BYTES_AFTER_THE_LAST_ARC:
        return "bytes follow the last arc";
    case RA_JOINED_BEYOND_A_LIMIT:
        return "the letters of both files are more than 64, or the result would be beyond a limit: 256 states, 8 registers, 2048 "
               "arcs, 8 operations on an arc";
    case RA_TOO_MANY_CONFIGURATIONS:
        return "more than 256 configurations can be reached";
    case RA_TOO_MANY_PLAIN_ARCS:
        return "more than 2048 plain arcs: passing arcs, counted at each configuration";
    case RA_TOO_MANY_LIVE_SETS:
        return "words lead to more than 512 live sets, or to more than 512 pairs of them where two automata are compared, or to more "
               "than 512 behind one place of a word with ranges";
    case RA_TOO_LITTLE_MEMORY_LENT:
        return "less working memory than 8192 words, or less room for a word than 512 bytes";
    case RA_OUTPUT_TOO_SHORT:
        return "less room than the result has bytes";
    case RA_LENGTH_TOO_LARGE:
        return "the length is above 64, or more than 18446744073709551615 words have it";
    case RA_BAD_RANGES:
        return "a byte is left over, or a range has its low above its high or its high not below the number of letters";
    default:
        return "no such refusal";
    }
}

#ifdef __cplusplus
}
#endif

#endif
