/* Handles: a thousand at once, each call over one against the same call over its text, closed and double closed ones, each request for
 * memory refused, and eight threads that share one program. Nothing is left in memory at the end. Prints one line for each that goes wrong.
 * Compile with -Wl,--wrap=malloc,--wrap=realloc,--wrap=free and -pthread. */
#include "tacflow.h"

#include <pthread.h>
#include <stdio.h>
#include <string.h>

void *__real_malloc(size_t);
void *__real_realloc(void *, size_t);
void __real_free(void *);
void *__wrap_malloc(size_t);
void *__wrap_realloc(void *, size_t);
void __wrap_free(void *);

static pthread_mutex_t counts = PTHREAD_MUTEX_INITIALIZER;
static long blocks;        /* how many are not freed */
static long answered = -1; /* how many requests are answered before one is refused; none is where this is negative */

static int is_refused(void) {
    pthread_mutex_lock(&counts);
    int refused = answered >= 0 && answered-- == 0;
    pthread_mutex_unlock(&counts);
    return refused;
}

static void count(long more) {
    pthread_mutex_lock(&counts);
    blocks += more;
    pthread_mutex_unlock(&counts);
}

void *__wrap_malloc(size_t size) {
    void *block = is_refused() ? NULL : __real_malloc(size);
    count(block != NULL);
    return block;
}

void *__wrap_realloc(void *old, size_t size) {
    void *block = is_refused() ? NULL : __real_realloc(old, size);
    count(block != NULL && old == NULL);
    return block;
}

void __wrap_free(void *block) {
    count(-(block != NULL));
    __real_free(block);
}

static int wrong;

static void expect(const char *what, int wanted, int got) {
    if (wanted != got) {
        printf("%s: %d in place of %d\n", what, got, wanted);
        wrong = 1;
    }
}

/* Eight points, two procedures, two variables, four definitions, two expressions. */
static const char text[] = "proc main\n  a = b + 1\n  call p\n  print a\nend\nproc p\n  if a goto L\n  call p\n  b = a * a\nL:\nend\n";
static const char no_program[] = "proc main\n  x = = 1\nend\n";
static const size_t length = sizeof text - 1;

/* What the calls write. */
struct told {
    tacflow_sizes_of_program sizes;
    tacflow_point points[8];
    tacflow_definition definitions[4];
    tacflow_expression expressions[2];
    size_t ends[4];
    char names[2][16];
    uint8_t flags[4][8];
    uint64_t words[4][8];
    uint64_t asked[32];
    char shown[2][512];
    size_t size[2];
};

static uint32_t bits(int analysis) {
    return analysis == TACFLOW_REACH ? 4 : 2;
}

/* Each word of the four tables, the last point and analysis first. */
static int ask_words(tacflow_handle *handle, uint64_t *words) {
    tacflow_query queries[32];
    for (uint32_t i = 0; i < 32; i++) queries[i] = (tacflow_query){(31 - i) % 4, (31 - i) / 4, 0};
    if (handle) return tacflow_ask(handle, queries, 32, words);
    int status = TACFLOW_OK;
    for (int i = 0; i < 32 && status == TACFLOW_OK; i++) {
        int analysis = (int)queries[i].analysis;
        uint32_t point = queries[i].point;
        uint8_t flag;
        tacflow_place place;
        status = tacflow_facts_within(TACFLOW_STANDARD, text, length, analysis, point, point + 1, 0, bits(analysis), &flag, 1, &words[i], 1, &place);
    }
    return status;
}

enum { CALLS = 13 };

/* One call over the text where there is no handle. */
static int call(int number, tacflow_handle *handle, struct told *told) {
    tacflow_place place;
    switch (number) {
    case 0: return handle ? tacflow_sizes_of(handle, &told->sizes) : tacflow_sizes(text, length, &told->sizes, &place);
    case 1: return handle ? tacflow_points_of(handle, told->points, 8) : tacflow_points(text, length, told->points, 8, &place);
    case 2: return handle ? tacflow_definitions_of(handle, told->definitions, 4) : tacflow_definitions(text, length, told->definitions, 4, &place);
    case 3: return handle ? tacflow_expressions_of(handle, told->expressions, 2) : tacflow_expressions(text, length, told->expressions, 2, &place);
    case 4:
        return handle ? tacflow_procedures_of(handle, told->ends, 2, told->names[0], 16)
                      : tacflow_procedures(text, length, told->ends, 2, told->names[0], 16, &place);
    case 5:
        return handle ? tacflow_variables_of(handle, told->ends + 2, 2, told->names[1], 16)
                      : tacflow_variables(text, length, told->ends + 2, 2, told->names[1], 16, &place);
    case 6:
        return handle ? tacflow_listing_of(handle, told->shown[0], 512, &told->size[0])
                      : tacflow_listing(text, length, told->shown[0], 512, &told->size[0], &place);
    case 7:
        return handle ? tacflow_report_of(handle, told->shown[1], 512, &told->size[1])
                      : tacflow_report(text, length, told->shown[1], 512, &told->size[1], &place);
    case 8: return ask_words(handle, told->asked);
    default:
        number -= 9;
        return handle ? tacflow_facts_of(handle, number, 0, TACFLOW_ALL_POINTS, 0, bits(number), told->flags[number], 8, told->words[number], 8)
                      : tacflow_facts(text, length, number, 0, bits(number), told->flags[number], 8, told->words[number], 8, &place);
    }
}

static struct told wanted;

/* Each call over the handle writes what it writes over the text. */
static int is_told(tacflow_handle *handle) {
    struct told told;
    memset(&told, 0x33, sizeof told);
    for (int number = 0; number < CALLS; number++)
        if (call(number, handle, &told) != TACFLOW_OK) return 0;
    return memcmp(&told, &wanted, sizeof told) == 0;
}

static void expect_opened(const char *what, tacflow_handle *handle) {
    tacflow_place place;
    expect(what, TACFLOW_OK, tacflow_open(text, length, handle, &place));
}

/* A thousand at once: each answers as the text does, is open once and closed once. */
static void many(void) {
    static tacflow_handle handles[1000];
    tacflow_place place = {7, 7, 7};
    struct told told;
    for (int i = 0; i < 1000; i++) expect_opened("one of a thousand is opened", &handles[i]);
    for (int i = 0; i < 1000; i++)
        if (!is_told(&handles[i])) wrong = printf("handle %d tells other than its text\n", i);
    expect("an open one is opened", TACFLOW_BAD_HANDLE, tacflow_open(text, length, &handles[500], &place));
    expect("an open one is opened with no program", TACFLOW_BAD_HANDLE, tacflow_open(no_program, sizeof no_program - 1, &handles[500], &place));
    expect("an open one is opened by sharing", TACFLOW_BAD_HANDLE, tacflow_share(&handles[499], &handles[500]));
    if (!is_told(&handles[499]) || !is_told(&handles[500]) || place.number != 7) wrong = puts("an open one: something was written") || 1;
    for (int i = 0; i < 1000; i++) expect("one of a thousand is closed", TACFLOW_OK, tacflow_close(&handles[i]));
    for (int i = 0; i < 1000; i++) expect("a closed one is closed", TACFLOW_BAD_HANDLE, tacflow_close(&handles[i]));
    memset(&told, 0x33, sizeof told);
    struct told before = told;
    for (int number = 0; number < CALLS; number++) expect("a closed one is asked", TACFLOW_BAD_HANDLE, call(number, &handles[0], &told));
    expect("a closed one is shared", TACFLOW_BAD_HANDLE, tacflow_share(&handles[0], &handles[1]));
    if (memcmp(&told, &before, sizeof told) || handles[1].is_open) wrong = puts("a closed one: something was written") || 1;
    expect("blocks after a thousand", 0, (int)blocks);
}

/* Words by hand: what may reach `call p` is the definition of a before it and b's value at the beginning. */
static void by_hand(void) {
    static const tacflow_query queries[5] = {
        {TACFLOW_LIVE, 2, 0}, {TACFLOW_REACH, 1, 0}, {TACFLOW_LIVE, 0, 0}, {TACFLOW_BUSY, 0, 0}, {TACFLOW_AVAIL, 1, 0},
    };
    static const uint64_t answers[5] = {1, 6, 2, 1, 1};
    static const tacflow_query bad[3] = {{4, 0, 0}, {TACFLOW_REACH, 8, 0}, {TACFLOW_AVAIL, 0, 1}};
    static const int statuses[3] = {TACFLOW_BAD_ANALYSIS, TACFLOW_BAD_RANGE, TACFLOW_BAD_RANGE};
    tacflow_handle handle = TACFLOW_CLOSED;
    tacflow_query pair[2] = {queries[0], queries[1]};
    uint64_t words[6] = {7, 7, 7, 7, 7, 7};
    expect_opened("one is opened to be asked", &handle);
    for (int i = 0; i < 3; i++) {
        pair[1] = bad[i];
        expect("a bad query behind a good one", statuses[i], tacflow_ask(&handle, pair, 2, words));
    }
    expect("another count of words than of queries", TACFLOW_BAD_ROOM, (int)tacflow_c_ask(&handle, queries, 5, words, 6));
    expect("no queries where there are some", TACFLOW_BAD_POINTER, tacflow_ask(&handle, NULL, 1, words));
    expect("no words for queries", TACFLOW_BAD_POINTER, tacflow_ask(&handle, queries, 1, NULL));
    expect("no handle is asked", TACFLOW_BAD_POINTER, tacflow_ask(NULL, queries, 1, words));
    expect("nothing is asked", TACFLOW_OK, tacflow_ask(&handle, NULL, 0, NULL));
    for (int i = 0; i < 6; i++)
        if (words[i] != 7) wrong = puts("bad queries: something was written") || 1;
    expect("five words are asked for", TACFLOW_OK, tacflow_ask(&handle, queries, 5, words));
    for (int i = 0; i < 5; i++)
        if (words[i] != answers[i]) wrong = printf("query %d: %llu\n", i, (unsigned long long)words[i]);
    if (words[5] != 7) wrong = puts("behind the words something was written") || 1;
    expect("one that was asked is closed", TACFLOW_OK, tacflow_close(&handle));
}

/* Bad input: the handle is as it was. */
static void faults(void) {
    tacflow_handle handle = TACFLOW_CLOSED, other = TACFLOW_CLOSED;
    tacflow_place place = {7, 7, 7};
    struct told told;
    memset(&told, 0x33, sizeof told);
    expect("opened within no limits", TACFLOW_BAD_LIMITS, tacflow_open_within(2, text, length, &handle, &place));
    if (place.number != 7) wrong = puts("no limits: a place was written") || 1;
    expect("opened with no program", TACFLOW_REFUSED, tacflow_open(no_program, sizeof no_program - 1, &handle, &place));
    if (place.number != 4 || place.line != 2 || place.column != 7 || handle.is_open) wrong = puts("no program: another place than 2:7, or opened") || 1;
    expect("no text", TACFLOW_BAD_POINTER, tacflow_open(NULL, length, &handle, &place));
    expect("no handle", TACFLOW_BAD_POINTER, tacflow_open(text, length, NULL, &place));
    expect("no place", TACFLOW_BAD_POINTER, tacflow_open(text, length, &handle, NULL));
    expect("no handle is closed", TACFLOW_BAD_POINTER, tacflow_close(NULL));
    expect("opened within the large limits", TACFLOW_OK, tacflow_open_within(TACFLOW_LARGE, text, length, &handle, &place));
    expect("no sizes", TACFLOW_BAD_POINTER, tacflow_sizes_of(&handle, NULL));
    expect("no points", TACFLOW_BAD_POINTER, tacflow_points_of(&handle, NULL, 8));
    expect("no definitions", TACFLOW_BAD_POINTER, tacflow_definitions_of(&handle, NULL, 4));
    expect("no expressions", TACFLOW_BAD_POINTER, tacflow_expressions_of(&handle, NULL, 2));
    expect("no ends", TACFLOW_BAD_POINTER, tacflow_procedures_of(&handle, NULL, 2, told.names[0], 16));
    expect("no names", TACFLOW_BAD_POINTER, tacflow_variables_of(&handle, told.ends, 2, NULL, 16));
    expect("no words", TACFLOW_BAD_POINTER, tacflow_facts_of(&handle, TACFLOW_LIVE, 0, 8, 0, 2, told.flags[0], 8, NULL, 8));
    expect("no size", TACFLOW_BAD_POINTER, tacflow_listing_of(&handle, told.shown[0], 512, NULL));
    expect("no room for a report", TACFLOW_BAD_POINTER, tacflow_report_of(&handle, NULL, 512, &told.size[0]));
    expect("shared with itself", TACFLOW_BAD_POINTER, tacflow_share(&handle, &handle));
    expect("shared with none", TACFLOW_BAD_POINTER, tacflow_share(&handle, NULL));
    expect("a point too few", TACFLOW_BAD_ROOM, tacflow_points_of(&handle, told.points, 7));
    expect("a definition too few", TACFLOW_BAD_ROOM, tacflow_definitions_of(&handle, told.definitions, 3));
    expect("an expression too few", TACFLOW_BAD_ROOM, tacflow_expressions_of(&handle, told.expressions, 1));
    expect("a byte too few", TACFLOW_BAD_ROOM, tacflow_variables_of(&handle, told.ends, 2, told.names[0], 1));
    expect("bad analysis", TACFLOW_BAD_ANALYSIS, tacflow_facts_of(&handle, 4, 0, 8, 0, 2, told.flags[0], 8, told.words[0], 8));
    expect("points too far", TACFLOW_BAD_RANGE, tacflow_facts_of(&handle, TACFLOW_LIVE, 0, 9, 0, 2, told.flags[0], 9, told.words[0], 9));
    expect("a word too few", TACFLOW_BAD_ROOM, tacflow_facts_of(&handle, TACFLOW_LIVE, 0, 8, 0, 2, told.flags[0], 8, told.words[0], 7));
    expect("a listing in little room", TACFLOW_BAD_ROOM, tacflow_listing_of(&handle, told.shown[0], 5, &told.size[0]));
    expect("a report in little room", TACFLOW_BAD_ROOM, tacflow_report_of(&handle, told.shown[1], 5, &told.size[1]));
    if (told.size[0] != wanted.size[0] || told.size[1] != wanted.size[1] || told.shown[0][0] != 0x33 || told.shown[1][0] != 0x33)
        wrong = puts("little room: another size than of the text, or something was written") || 1;
    if (!is_told(&handle)) wrong = puts("after faults: other than of the text") || 1;
    tacflow_handle moved = handle;
    if (!is_told(&moved)) wrong = puts("moved: other than of the text") || 1;
    expect("a moved one is closed", TACFLOW_OK, tacflow_close(&moved));
    expect("one that was never opened is closed", TACFLOW_BAD_HANDLE, tacflow_close(&other));
    expect("blocks after faults", 0, (int)blocks);
}

/* Each request in turn is refused: of opening, of sharing, and of each call over a handle. */
static void refused(void) {
    tacflow_handle handle = TACFLOW_CLOSED, other = TACFLOW_CLOSED;
    tacflow_place place = {7, 7, 7};
    long requests = -1, left;
    int status;
    do {
        answered = ++requests;
        status = tacflow_open(text, length, &handle, &place);
        left = answered, answered = -1;
        if (left < 0 && (status != TACFLOW_OUT_OF_MEMORY || handle.is_open || blocks || place.number != 7))
            wrong = printf("opening, request %ld refused: status %d, open or blocks left\n", requests + 1, status);
    } while (left < 0 && requests < 10000);
    expect("opened with ample memory", TACFLOW_OK, status);
    if (requests < 10) wrong = puts("opening: too few requests") || 1;
    long open_blocks = blocks;
    answered = 0;
    expect("shared, a request refused", TACFLOW_OUT_OF_MEMORY, tacflow_share(&handle, &other));
    answered = -1;
    if (other.is_open || blocks != open_blocks) wrong = puts("shared, a request refused: open, or blocks left") || 1;
    for (int number = 0; number < CALLS; number++) {
        struct told told, before;
        memset(&told, 0x33, sizeof told), memset(&before, 0x33, sizeof before);
        requests = -1;
        do {
            answered = ++requests;
            status = call(number, &handle, &told);
            left = answered, answered = -1;
            if (left < 0 && (status != TACFLOW_OUT_OF_MEMORY || memcmp(&told, &before, sizeof told)))
                wrong = printf("call %d, request %ld refused: status %d, or something was written\n", number, requests + 1, status);
            if (blocks != open_blocks) wrong = printf("call %d: %ld blocks in place of %ld\n", number, blocks, open_blocks);
        } while (left < 0 && requests < 10000);
        expect("asked with ample memory", TACFLOW_OK, status);
    }
    if (!is_told(&handle)) wrong = puts("after refusals: other than of the text") || 1;
    expect("closed after refusals", TACFLOW_OK, tacflow_close(&handle));
    expect("blocks after refusals", 0, (int)blocks);
}

static void *asks(void *word) {
    tacflow_handle *mine = word;
    for (int round = 0; round < 50; round++) {
        tacflow_handle further = TACFLOW_CLOSED;
        if (!is_told(mine) || tacflow_share(mine, &further) != TACFLOW_OK || !is_told(&further) || tacflow_close(&further) != TACFLOW_OK)
            return "a thread was told other than of the text";
    }
    return tacflow_close(mine) == TACFLOW_OK ? NULL : "a thread's handle was not closed";
}

enum { THREADS = 8 };

/* Eight threads, each with a handle of its own over one program; that of the main thread is closed while they ask. */
static void threads(void) {
    static tacflow_handle first, handles[THREADS]; /* zeros are TACFLOW_CLOSED */
    pthread_t thread[THREADS];
    void *said;
    expect_opened("opened for threads", &first);
    for (int i = 0; i < THREADS; i++) expect("shared with a thread", TACFLOW_OK, tacflow_share(&first, &handles[i]));
    for (int i = 0; i < THREADS; i++) expect("a thread is made", 0, pthread_create(&thread[i], NULL, asks, &handles[i]));
    expect("closed while threads ask", TACFLOW_OK, tacflow_close(&first));
    for (int i = 0; i < THREADS; i++) {
        expect("a thread ends", 0, pthread_join(thread[i], &said));
        if (said) wrong = puts(said) || 1;
    }
}

int main(void) {
    memset(&wanted, 0x33, sizeof wanted);
    for (int number = 0; number < CALLS; number++) expect("a call over the text", TACFLOW_OK, call(number, NULL, &wanted));
    expect("blocks after calls over the text", 0, (int)blocks);
    many();
    by_hand();
    faults();
    refused();
    threads();
    return wrong != 0;
}
