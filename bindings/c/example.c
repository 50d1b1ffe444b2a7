/* Prints what is live at each call of a program, as `tacflow --show live` writes it: ./example FILE. A procedure's name behind it asks for
 * the calls in that procedure alone. The program may be as large as the large limits allow. */
#include "tacflow.h"

#include <stdio.h>
#include <stdlib.h>
#include <string.h>

/* The bytes of a file; nothing where it can't be read. */
static char *read_file(const char *name, size_t *length) {
    FILE *file = fopen(name, "rb");
    char *text = NULL, *more;
    size_t room = 0, count = 0;
    if (!file) return NULL;
    do {
        *length += count;
        if (*length == room) {
            room = room ? 2 * room : 65536;
            more = realloc(text, room);
            if (!more) {
                free(text);
                text = NULL;
                break;
            }
            text = more;
        }
        count = fread(text + *length, 1, room - *length, file);
    } while (count > 0);
    fclose(file);
    return text;
}

static int failed(int status, const tacflow_place *place) {
    if (status == TACFLOW_REFUSED)
        fprintf(stderr, "%u:%u: refusal %u\n", place->line, place->column, place->number);
    else
        fprintf(stderr, "status %d\n", status);
    return 1;
}

/* A program's names: where each ends, and their bytes. */
typedef struct {
    size_t *ends;
    char *bytes;
} names;

static int room_for(names *of, uint32_t count) {
    of->ends = calloc((size_t)count + 1, sizeof *of->ends);
    of->bytes = calloc((size_t)count + 1, TACFLOW_LONGEST_NAME);
    return of->ends && of->bytes;
}

static void print_name(const names *of, uint32_t number) {
    size_t from = number ? of->ends[number - 1] : 0;
    printf("%.*s", (int)(of->ends[number] - from), of->bytes + from);
}

/* Whether a procedure has this name. */
static int is_named(const names *of, uint32_t number, const char *name) {
    size_t from = number ? of->ends[number - 1] : 0, size = of->ends[number] - from;
    return strlen(name) == size && memcmp(of->bytes + from, name, size) == 0;
}

/* Whether the statement of a point is a call. */
static int is_call(const char *text, const tacflow_point *point) {
    return point->end >= point->start + 5 && strncmp(text + point->start, "call", 4) == 0 && strchr(" \t", text[point->start + 4]);
}

static void print_set(const names *variables, uint32_t count, const uint64_t *words) {
    const char *between = "";
    for (uint32_t bit = 0; bit < count; bit++)
        if (words[bit / 64] >> bit % 64 & 1) {
            fputs(between, stdout);
            print_name(variables, bit);
            between = ", ";
        }
    puts(*between ? "" : "-");
}

/* The points of the procedure of this name, or all points where there is no name. */
static void find_points(const char *name, const names *procedures, const tacflow_point *points, uint32_t count, uint32_t *first, uint32_t *end) {
    *first = 0;
    *end = count;
    if (!name) return;
    while (*first < count && !is_named(procedures, points[*first].procedure, name)) ++*first;
    *end = *first;
    while (*end < count && points[*end].procedure == points[*first].procedure) ++*end;
}

int main(int argc, char **argv) {
    const int limits = TACFLOW_LARGE;
    size_t length = 0;
    char *text = argc == 2 || argc == 3 ? read_file(argv[1], &length) : NULL;
    tacflow_place place = {0, 0, 0};
    tacflow_sizes_of_program sizes;
    int status;
    if (!text) {
        fprintf(stderr, "usage: %s FILE [PROCEDURE]\n", argv[0]);
        return 2;
    }
    if ((status = tacflow_sizes_within(limits, text, length, &sizes, &place))) return failed(status, &place);

    names procedures, variables;
    tacflow_point *points = calloc(sizes.points, sizeof *points);
    if (!points || !room_for(&procedures, sizes.procedures) || !room_for(&variables, sizes.variables)) return failed(TACFLOW_OUT_OF_MEMORY, &place);
    size_t procedure_room = (size_t)sizes.procedures * TACFLOW_LONGEST_NAME, variable_room = (size_t)sizes.variables * TACFLOW_LONGEST_NAME;
    if ((status = tacflow_points_within(limits, text, length, points, sizes.points, &place))
        || (status = tacflow_procedures_within(limits, text, length, procedures.ends, sizes.procedures, procedures.bytes, procedure_room, &place))
        || (status = tacflow_variables_within(limits, text, length, variables.ends, sizes.variables, variables.bytes, variable_room, &place)))
        return failed(status, &place);

    uint32_t first, end;
    find_points(argv[2], &procedures, points, sizes.points, &first, &end);
    size_t rows = end - first, width = tacflow_words(0, sizes.variables);
    uint8_t *flags = calloc(rows + 1, 1);
    uint64_t *words = calloc(rows * width + 1, sizeof *words);
    if (!flags || !words) return failed(TACFLOW_OUT_OF_MEMORY, &place);
    if ((status = tacflow_facts_within(limits, text, length, TACFLOW_LIVE, first, end, 0, sizes.variables, flags, rows, words, rows * width, &place)))
        return failed(status, &place);

    for (uint32_t point = first; point < end; point++)
        if (is_call(text, &points[point])) {
            print_name(&procedures, points[point].procedure);
            printf(flags[point - first] ? " %u: " : " %u (no path): ", points[point].place);
            print_set(&variables, sizes.variables, words + (point - first) * width);
        }
    free(text), free(points), free(flags), free(words);
    free(procedures.ends), free(procedures.bytes), free(variables.ends), free(variables.bytes);
    return 0;
}
