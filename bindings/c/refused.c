/* Refuses each request for memory of a call in turn: it answers TACFLOW_OUT_OF_MEMORY and writes nothing, and with ample memory it
 * answers. Takes the place of malloc and realloc of the GNU C library. */
#include "tacflow.h"

#include <stdio.h>
#include <string.h>

void *__libc_malloc(size_t);
void *__libc_realloc(void *, size_t);

/* How many requests are answered before one is refused; none is where this is negative. */
static long answered = -1;

void *malloc(size_t size) {
    return answered >= 0 && answered-- == 0 ? NULL : __libc_malloc(size);
}

void *realloc(void *block, size_t size) {
    return answered >= 0 && answered-- == 0 ? NULL : __libc_realloc(block, size);
}

static const char text[] = "proc main\n  a = b + 1\n  call p\n  print a\nend\nproc p\n  if a goto L\n  call p\n  b = a * a\nL:\nend\n";
static const size_t length = sizeof text - 1;

static tacflow_place place;
static tacflow_sizes_of_program sizes;
static tacflow_point points[8];
static tacflow_definition definitions[4];
static tacflow_expression expressions[2];
static size_t ends[2];
static char names[16];
static uint8_t flags[8];
static uint64_t words[8];
static char shown[512];
static size_t size;

static int call_sizes(void) { return tacflow_sizes(text, length, &sizes, &place); }
static int call_points(void) { return tacflow_points(text, length, points, 8, &place); }
static int call_definitions(void) { return tacflow_definitions(text, length, definitions, 4, &place); }
static int call_expressions(void) { return tacflow_expressions(text, length, expressions, 2, &place); }
static int call_procedures(void) { return tacflow_procedures(text, length, ends, 2, names, sizeof names, &place); }
static int call_variables(void) { return tacflow_variables(text, length, ends, 2, names, sizeof names, &place); }
static int call_facts(void) { return tacflow_facts(text, length, TACFLOW_BUSY, 0, 2, flags, 8, words, 8, &place); }
static int call_large_facts(void) { return tacflow_facts_within(TACFLOW_LARGE, text, length, TACFLOW_BUSY, 4, 8, 0, 2, flags, 4, words, 4, &place); }
static int call_listing(void) { return tacflow_listing(text, length, shown, sizeof shown, &size, &place); }
static int call_report(void) { return tacflow_report(text, length, shown, sizeof shown, &size, &place); }
static int call_part(void) { return tacflow_report_part(text, length, 1, 2, shown, sizeof shown, &size, &place); }

static int is_clear(const void *memory, size_t size) {
    for (size_t i = 0; i < size; i++)
        if (((const char *)memory)[i] != 0x33) return 0;
    return 1;
}

/* Whether a call keeps to it, and writes this memory when it answers. */
static int keeps(const char *what, int (*call)(void), void *memory, size_t size) {
    for (long requests = 0; requests < 100000; requests++) {
        memset(memory, 0x33, size);
        answered = requests;
        int status = call();
        long left = answered;
        answered = -1;
        if (status == TACFLOW_OK && left >= 0) return requests > 0 && !is_clear(memory, size);
        if (status != TACFLOW_OUT_OF_MEMORY || !is_clear(memory, size)) {
            printf("%s, request %ld refused: status %d, or something was written\n", what, requests + 1, status);
            return 0;
        }
    }
    return 0;
}

int main(void) {
    int kept = keeps("sizes", call_sizes, &sizes, sizeof sizes) && keeps("points", call_points, points, sizeof points)
        && keeps("definitions", call_definitions, definitions, sizeof definitions)
        && keeps("expressions", call_expressions, expressions, sizeof expressions)
        && keeps("procedures", call_procedures, names, sizeof names) && keeps("variables", call_variables, names, sizeof names)
        && keeps("facts", call_facts, words, sizeof words) && keeps("facts within the large limits", call_large_facts, words, sizeof words)
        && keeps("listing", call_listing, shown, sizeof shown) && keeps("report", call_report, shown, sizeof shown)
        && keeps("part of the report", call_part, shown, sizeof shown);
    return !kept;
}
