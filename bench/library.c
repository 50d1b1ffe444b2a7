/* Times the calls over a handle of the program in a file: see bench/library. */
#define _POSIX_C_SOURCE 199309L
#include "tacflow.h"

#include <stdio.h>
#include <stdlib.h>
#include <time.h>

enum { ROUNDS = 21, TEXT = 1 << 20, POINTS = 16384, EDGES = 1 << 20 };

static char text[TEXT];
static size_t length;
static tacflow_handle handle;
static tacflow_sizes_of_program sizes;
static uint8_t flags[POINTS];
static uint64_t words[POINTS];
static tacflow_query queries[POINTS];
static tacflow_statement statements[POINTS];
static tacflow_edge edges[EDGES];
static tacflow_remark remarks[EDGES];
static size_t count;

/* The same program as arrays. */
static tacflow_arrays arrays;
static tacflow_point points[POINTS];
static tacflow_built_statement built[POINTS];
static tacflow_built_procedure procedures[POINTS];
static uint32_t labels[POINTS], callees[EDGES], numbers[POINTS];
static size_t ends[3][POINTS];
static char names[3][POINTS * TACFLOW_LONGEST_NAME];

/* Makes arrays of what is told of the program: each point to which a jump leads has a label. */
static int make_arrays(void) {
    uint32_t label = 0, most = 0, statement = 0, callee = 0;
    size_t edge = 0;
    if (tacflow_points_of(&handle, points, sizes.points) || tacflow_statements(&handle, statements, sizes.points)) return 1;
    if (tacflow_edges(&handle, 0, TACFLOW_ALL_POINTS, edges, EDGES, &count)) return 1;
    if (tacflow_procedures_of(&handle, ends[0], sizes.procedures, names[0], sizeof names[0])) return 1;
    if (tacflow_variables_of(&handle, ends[1], sizes.variables, names[1], sizeof names[1])) return 1;
    for (uint32_t point = 0; point < sizes.points; point++)
        if (statements[point].goes_to != TACFLOW_NONE) numbers[statements[point].goes_to] = 1;
    for (uint32_t point = 0; point < sizes.points; point++) {
        tacflow_built_procedure *own = &procedures[points[point].procedure];
        if (!numbers[point]) continue;
        labels[label++] = points[point].place, numbers[point] = own->labels++;
        if (own->labels > most) most = own->labels;
    }
    for (uint32_t point = 0; point < sizes.points; point++) {
        const tacflow_statement *it = &statements[point];
        uint32_t first = callee;
        for (; edge < count && edges[edge].from <= point; edge++)
            if (edges[edge].kind == TACFLOW_CALL_EDGE) callees[callee++] = points[edges[edge].to].procedure;
        if (it->kind == TACFLOW_NO_STATEMENT) continue;
        procedures[points[point].procedure].statements++;
        built[statement++] = (tacflow_built_statement){
            it->kind, it->target, it->operator_number, it->goes_to == TACFLOW_NONE ? 0 : numbers[it->goes_to], first, callee - first,
            points[point].line, it->left, it->right,
        };
    }
    arrays = (tacflow_arrays){
        procedures, sizes.procedures, built, statement, labels, label, callees, callee,
        {ends[0], sizes.procedures, names[0], ends[0][sizes.procedures - 1]},
        {ends[1], sizes.variables, names[1], sizes.variables ? ends[1][sizes.variables - 1] : 0},
        {ends[2], most, names[2], tacflow_numbered('L', most, ends[2], names[2])},
    };
    return 0;
}

static int build_one(void) {
    tacflow_build_place place;
    return tacflow_build(&arrays, &handle, &place);
}

static int open_one(void) {
    tacflow_place place;
    return tacflow_open(text, length, &handle, &place);
}

static int close_one(void) {
    return tacflow_close(&handle);
}

static int ask_one(void) {
    tacflow_query query = {TACFLOW_LIVE, sizes.points / 2, 0};
    return tacflow_ask(&handle, &query, 1, words);
}

static int ask_all(void) {
    for (uint32_t point = 0; point < sizes.points; point++) queries[point] = (tacflow_query){TACFLOW_LIVE, point, 0};
    return tacflow_ask(&handle, queries, sizes.points, words);
}

static int paths(void) {
    return tacflow_has_path(&handle, TACFLOW_LIVE, 0, sizes.points, flags, sizes.points);
}

static int doubtful(void) {
    return tacflow_doubtful(&handle, 0, sizes.points, flags, sizes.points);
}

static int all_statements(void) {
    return tacflow_statements(&handle, statements, sizes.points);
}

static int all_edges(void) {
    return tacflow_edges(&handle, 0, TACFLOW_ALL_POINTS, edges, EDGES, &count);
}

static int all_remarks(void) {
    return tacflow_remarks(&handle, remarks, EDGES, &count);
}

static int again(void) {
    int status = close_one();
    if (!status) status = open_one();
    return status ? status : all_remarks();
}

static int built_again(void) {
    int status = close_one();
    if (!status) status = build_one();
    return status ? status : all_remarks();
}

static int compare(const void *one, const void *other) {
    double a = *(const double *)one, b = *(const double *)other;
    return (a > b) - (a < b);
}

/* Calls it in each round, and before it what puts things back. */
static void timed(const char *what, int (*call)(void), int (*before)(void)) {
    double times[ROUNDS];
    for (int round = 0; round < ROUNDS; round++) {
        struct timespec begin, end;
        if (before) before();
        clock_gettime(CLOCK_MONOTONIC, &begin);
        int status = call();
        clock_gettime(CLOCK_MONOTONIC, &end);
        if (status) {
            fprintf(stderr, "%s: status %d\n", what, status);
            exit(1);
        }
        times[round] = 1e3 * (double)(end.tv_sec - begin.tv_sec) + 1e-6 * (double)(end.tv_nsec - begin.tv_nsec);
    }
    qsort(times, ROUNDS, sizeof *times, compare);
    printf("%-44s %8.2f %8.2f\n", what, times[0], times[ROUNDS / 2]);
}

int main(int argc, char **argv) {
    FILE *file = argc == 2 ? fopen(argv[1], "rb") : NULL;
    if (!file) return 2;
    length = fread(text, 1, TEXT, file);
    fclose(file);
    if (open_one() || tacflow_sizes_of(&handle, &sizes)) return 1;
    printf("%u points, %u variables, %u expressions\n%-44s %8s %8s\n", sizes.points, sizes.variables, sizes.expressions, "", "least", "median");
    timed("opened", open_one, close_one);
    timed("a word at one point", ask_one, NULL);
    timed("a word at each point", ask_all, NULL);
    timed("paths at all points", paths, NULL);
    timed("doubt at all points", doubtful, NULL);
    timed("all statements", all_statements, NULL);
    timed("all edges", all_edges, NULL);
    timed("the remarks", all_remarks, NULL);
    timed("closed, opened anew, and the remarks", again, NULL);
    if (make_arrays()) return 1;
    timed("opened with arrays", build_one, close_one);
    timed("closed, opened with arrays, and the remarks", built_again, NULL);
    return close_one();
}
