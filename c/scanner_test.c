/* Calls the three functions of the scanner's part by itself, libscanner.a, and checks their answers: it links though nothing else is there.
 * Prints what it did. The exit status is 1 where an answer is another than the expected one. */
#include "registered_automata.h"

#include <stdio.h>
#include <stdlib.h>
#include <string.h>

/* Letters c e m; c or e is written to register 1, m may follow, and only the letter that was written leads to the end. */
static const uint8_t T[] = {
    0x4D, 0x4C, 0x42, 1, 0, 3, 3, 0, 2, 3, 5, 0, 'c', 'e', 'm', 0, 0, 1,
    0, 0, 1, 1, 0x11, 1,
    0, 1, 1, 1, 0x11, 2,
    1, 2, 1, 1, 0x00, 0,
    1, 0, 2, 1, 0x01, 1,
    1, 1, 2, 1, 0x01, 2,
};

static int checks, differences;

static void expect(const char *what, uint64_t answer, uint64_t expected) {
    checks++;
    if (answer == expected) {
        printf("  %s: %llu\n", what, (unsigned long long)answer);
    } else {
        differences++;
        printf("  %s: %llu, DIFFERENT from %llu\n", what, (unsigned long long)answer, (unsigned long long)expected);
    }
}

int main(void) {
    uint64_t *work = malloc(RA_WORKING_WORDS * sizeof *work);
    if (work == NULL) {
        printf("no memory for the working words\n");
        return 2;
    }
    printf("ra_read of T\n");
    struct ra_reading reading = ra_read(T, sizeof T);
    expect("number", reading.number, 0);
    expect("arcs", reading.arcs, 5);
    printf("ra_read of T without its last byte\n");
    reading = ra_read(T, sizeof T - 1);
    expect("number", reading.number, RA_ENDS_INSIDE_A_FIELD);
    expect("place", reading.place, 46);

    printf("ra_accepts of T and cmmc\n");
    struct ra_membership one = ra_accepts(T, sizeof T, (const uint8_t *)"cmmc", 4, work, RA_WORKING_WORDS);
    expect("number", one.number, 0);
    expect("accepted", one.accepted, 1);
    expect("live", one.live, 1);
    printf("ra_accepts with a working word too few\n");
    one = ra_accepts(T, sizeof T, NULL, 0, work, RA_WORKING_WORDS - 1);
    expect("number", one.number, RA_TOO_LITTLE_MEMORY_LENT);

    printf("ra_accepts_words of T: three words, and a rest\n");
    uint64_t answers[4] = {9, 9, 9, 9};
    const char words[] = "cmmc\nce\nc\neme";
    struct ra_words_judged many = ra_accepts_words(T, sizeof T, (const uint8_t *)words, sizeof words - 1, '\n', work, RA_WORKING_WORDS, answers, 4);
    expect("number", many.number, 0);
    expect("words", many.count, 3);
    expect("bytes", many.bytes, 10);
    expect("of cmmc", answers[0], 3);
    expect("of ce", answers[1], 0);
    expect("of c", answers[2], 2);
    expect("behind them", answers[3], 9);
    free(work);
    printf("%d checks, %d differences\n", checks, differences);
    return differences > 0;
}
