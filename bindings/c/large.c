/* Within the large limits: a program of 20,201 points, its sizes by hand, and the facts of some points alone beside those of all. Prints
 * one line for each that goes wrong. */
#include "tacflow.h"

#include <stdio.h>
#include <stdlib.h>
#include <string.h>

enum { PROCEDURES = 100, PRINTS = 199, BLOCK = PRINTS + 2, MAIN = PROCEDURES + 1, POINTS = MAIN + PROCEDURES * BLOCK };

static int wrong;

static void expect(const char *what, long wanted, long got) {
    if (wanted != got) {
        printf("%s: %ld in place of %ld\n", what, got, wanted);
        wrong = 1;
    }
}

/* main calls each procedure in turn. Procedure n sets variable n by the next one, and prints it. */
static size_t write_program(char *text) {
    char *at = text;
    at += sprintf(at, "proc main\n");
    for (int n = 0; n < PROCEDURES; n++) at += sprintf(at, "  call p%d\n", n);
    at += sprintf(at, "end\n");
    for (int n = 0; n < PROCEDURES; n++) {
        at += sprintf(at, "proc p%d\n  v%d = v%d + %d\n", n, n, (n + 1) % PROCEDURES, n);
        for (int print = 0; print < PRINTS; print++) at += sprintf(at, "  print v%d\n", n);
        at += sprintf(at, "end\n");
    }
    return (size_t)(at - text);
}

/* The facts of points first..end and bits lo..hi are those of all points, cut out. */
static void compare(const char *text, size_t length, int analysis, uint32_t first, uint32_t end, uint32_t lo, uint32_t hi) {
    size_t width = tacflow_words(lo, hi), rows = end - first;
    uint8_t *all_flags = malloc(POINTS), *flags = malloc(rows);
    uint64_t *all = malloc(POINTS * width * sizeof *all), *words = malloc(rows * width * sizeof *words);
    tacflow_place place = {0, 0, 0};
    if (!all_flags || !flags || !all || !words) {
        wrong = puts("out of memory") || 1;
    } else {
        expect("all points", TACFLOW_OK, tacflow_facts_within(TACFLOW_LARGE, text, length, analysis, 0, TACFLOW_ALL_POINTS, lo, hi, all_flags, POINTS,
                                                              all, POINTS * width, &place));
        expect("some points", TACFLOW_OK, tacflow_facts_within(TACFLOW_LARGE, text, length, analysis, first, end, lo, hi, flags, rows, words,
                                                               rows * width, &place));
        expect("their flags", 0, memcmp(flags, all_flags + first, rows));
        expect("their words", 0, memcmp(words, all + first * width, rows * width * sizeof *words));
    }
    free(all_flags), free(flags), free(all), free(words);
}

int main(void) {
    char *text = malloc(POINTS * 16);
    tacflow_place place = {0, 0, 0};
    tacflow_sizes_of_program sizes;
    if (!text) return puts("out of memory") || 1;
    size_t length = write_program(text);

    expect("standard limits", TACFLOW_TOO_MANY_POINTS, tacflow_sizes(text, length, &sizes, &place));
    expect("large limits", TACFLOW_OK, tacflow_sizes_within(TACFLOW_LARGE, text, length, &sizes, &place));
    expect("procedures", PROCEDURES + 1, sizes.procedures);
    expect("points", POINTS, sizes.points);
    expect("variables", PROCEDURES, sizes.variables);
    expect("definitions", 2 * PROCEDURES, sizes.definitions);
    expect("expressions", PROCEDURES, sizes.expressions);
    for (int analysis = TACFLOW_REACH; analysis <= TACFLOW_BUSY; analysis++) {
        uint32_t bits = analysis == TACFLOW_REACH ? sizes.definitions : sizes.variables;
        compare(text, length, analysis, MAIN + 50 * BLOCK, MAIN + 51 * BLOCK, 0, bits);
        compare(text, length, analysis, POINTS - BLOCK, POINTS, 60, 70);
    }

    /* Behind the first statement of p50: v50 is printed, v52 to v99 and then v0 are read before they are set, and v51 is set first. */
    uint8_t flag;
    uint64_t words[2];
    uint32_t point = MAIN + 50 * BLOCK + 1;
    expect("one point", TACFLOW_OK, tacflow_facts_within(TACFLOW_LARGE, text, length, TACFLOW_LIVE, point, point + 1, 0, PROCEDURES,
                                                          &flag, 1, words, 2, &place));
    expect("its path", 1, flag);
    for (uint32_t bit = 0; bit < sizes.variables; bit++) {
        /* v0 is variable 0, v1 variable 1, and so on. */
        int live = bit == 0 || bit == 50 || bit >= 52;
        expect("a live variable", live, (long)(words[bit / 64] >> bit % 64 & 1));
    }
    free(text);
    return wrong;
}
