/* For tests: counts the blocks of memory that the library takes, refuses a request where that is wanted, and tells what goes wrong. For
 * programs that are linked with -Wl,--wrap=malloc,--wrap=realloc,--wrap=free and have one thread. */
#include "tacflow.h"

#include <stdio.h>
#include <string.h>

void *__real_malloc(size_t);
void *__real_realloc(void *, size_t);
void __real_free(void *);
void *__wrap_malloc(size_t);
void *__wrap_realloc(void *, size_t);
void __wrap_free(void *);

static long blocks;        /* how many are not freed */
static long answered = -1; /* how many requests are answered before one is refused; none is where this is negative */

static int is_refused(void) {
    return answered >= 0 && answered-- == 0;
}

void *__wrap_malloc(size_t size) {
    void *block = is_refused() ? NULL : __real_malloc(size);
    blocks += block != NULL;
    return block;
}

void *__wrap_realloc(void *old, size_t size) {
    void *block = is_refused() ? NULL : __real_realloc(old, size);
    blocks += block != NULL && old == NULL;
    return block;
}

void __wrap_free(void *block) {
    blocks -= block != NULL;
    __real_free(block);
}

static int wrong;

static void expect(const char *what, int wanted, int got) {
    if (wanted != got) {
        printf("%s: %d in place of %d\n", what, got, wanted);
        wrong = 1;
    }
}

static void expect_same(const char *what, const void *wanted, const void *got, size_t size) {
    if (memcmp(wanted, got, size)) {
        printf("%s: other than by hand\n", what);
        wrong = 1;
    }
}
