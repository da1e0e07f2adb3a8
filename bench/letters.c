/* letters SIDE FILE WORDS REPEATS: judges each line of WORDS by the automaton of FILE, REPEATS times, and prints how many were accepted.
 * SIDE is engine, which calls the library, or plain, a loop over the live configurations and their arcs in plain C. bench/letters counts the
 * instructions of a letter with it. */
#include "registered_automata.h"

#include <stdio.h>
#include <stdlib.h>
#include <string.h>

enum { MOST = 256, ARCS = 524288 };

struct configuration {
    uint8_t state, registers[8];
};

static struct configuration configurations[MOST];
static int count;
static uint8_t letter_of[256];
static uint8_t arc_letter[ARCS], arc_target[ARCS];
static int arc_start[MOST + 1];
static uint64_t rows[MOST][4];
static uint8_t final[MOST];

static int numbered(const struct configuration *c)
{
    for (int i = 0; i < count; i++)
        if (memcmp(&configurations[i], c, sizeof *c) == 0)
            return i;
    configurations[count] = *c;
    return count++;
}

/* The configurations, their arcs by source, and what empty moves lead to. The file is valid and has at most 256 configurations. */
static void build(const uint8_t *file)
{
    int letters = file[5], states = file[6] + 256 * file[7], arcs = file[10] + 256 * file[11];
    const uint8_t *flags = file + 12 + letters, *first = flags + states;
    memset(letter_of, 255, sizeof letter_of);
    for (int i = 0; i < letters; i++) {
        int b = file[12 + i];
        letter_of[b] = i;
        if ((b | 32) >= 'a' && (b | 32) <= 'z')
            letter_of[b ^ 32] = i;
    }
    count = 1;
    int n = 0;
    for (int c = 0; c < count; c++) {
        arc_start[c] = n;
        final[c] = flags[configurations[c].state];
        rows[c][c / 64] |= 1ull << c % 64;
        const uint8_t *at = first;
        for (int a = 0; a < arcs; a++, at += 4 + 2 * at[3]) {
            struct configuration next = configurations[c];
            int passes = at[0] == next.state;
            for (int o = 0; passes && o < at[3]; o++) {
                uint8_t *held = &next.registers[at[4 + 2 * o] & 15];
                if (at[4 + 2 * o] >> 4)
                    *held = at[5 + 2 * o];
                else
                    passes = *held == at[5 + 2 * o];
            }
            if (!passes)
                continue;
            next.state = at[2];
            int t = numbered(&next);
            if (at[1] == 255)
                rows[c][t / 64] |= 1ull << t % 64;
            else {
                arc_letter[n] = at[1];
                arc_target[n++] = t;
            }
        }
    }
    arc_start[count] = n;
    for (int k = 0; k < count; k++)
        for (int i = 0; i < count; i++)
            if (rows[i][k / 64] >> k % 64 & 1)
                for (int q = 0; q < 4; q++)
                    rows[i][q] |= rows[k][q];
}

static int judge(const uint8_t *word, size_t length)
{
    uint64_t set[4], next[4];
    memcpy(set, rows[0], sizeof set);
    for (size_t i = 0; i < length; i++) {
        uint8_t l = letter_of[word[i]];
        if (l == 255)
            return 0;
        memset(next, 0, sizeof next);
        for (int q = 0; q < 4; q++)
            for (uint64_t x = set[q]; x; x &= x - 1) {
                int c = 64 * q + __builtin_ctzll(x);
                for (int k = arc_start[c]; k < arc_start[c + 1]; k++)
                    if (arc_letter[k] == l) {
                        const uint64_t *row = rows[arc_target[k]];
                        for (int r = 0; r < 4; r++)
                            next[r] |= row[r];
                    }
            }
        memcpy(set, next, sizeof set);
    }
    for (int c = 0; c < count; c++)
        if (final[c] && set[c / 64] >> c % 64 & 1)
            return 1;
    return 0;
}

static uint8_t *load(const char *path, size_t *length)
{
    FILE *f = fopen(path, "rb");
    if (!f) {
        perror(path);
        exit(2);
    }
    fseek(f, 0, SEEK_END);
    *length = ftell(f);
    rewind(f);
    uint8_t *bytes = malloc(*length + 1);
    if (fread(bytes, 1, *length, f) != *length) {
        perror(path);
        exit(2);
    }
    fclose(f);
    return bytes;
}

int main(int argc, char **argv)
{
    if (argc != 5)
        return 2;
    size_t n, m;
    uint8_t *file = load(argv[2], &n), *words = load(argv[3], &m);
    static uint64_t work[RA_WORKING_WORDS];
    long accepted = 0;
    int plain = strcmp(argv[1], "plain") == 0;
    if (plain)
        build(file);
    for (int r = atoi(argv[4]); r > 0; r--)
        for (uint8_t *at = words, *end = words + m; at < end;) {
            uint8_t *stop = memchr(at, '\n', end - at);
            if (!stop)
                stop = end;
            accepted += plain ? judge(at, stop - at) : ra_accepts(file, n, at, stop - at, work, RA_WORKING_WORDS).accepted;
            at = stop + 1;
        }
    printf("%ld\n", accepted);
    return 0;
}
