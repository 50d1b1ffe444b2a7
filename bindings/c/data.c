/* Points, statements, edges, remarks, what stands around these and the paths of facts as data, against what is worked out by hand; bad
 * input; each request for memory refused. Prints one line for each that goes wrong. With a file's name it prints the program's remarks as the
 * lines of its report. Compile with -Wl,--wrap=malloc,--wrap=realloc,--wrap=free. */
#include "counted.h"

#include <inttypes.h>

static tacflow_handle opened(const char *text) {
    tacflow_handle handle = TACFLOW_CLOSED;
    tacflow_place place;
    expect("opened", TACFLOW_OK, tacflow_open(text, strlen(text), &handle, &place));
    return handle;
}

/* Points 0 to 3 are of main, 4 to 7 of p; the variables are a and b, the expressions b + 1 and a * a. */
static const char calls[] = "proc main\n  a = b + 1\n  call p\n  print a\nend\nproc p\n  if a goto L\n  call p\n  b = a * a\nL:\nend\n";

#define NO TACFLOW_NONE
#define NOTHING {TACFLOW_NOTHING, 0, 0}
#define A {TACFLOW_VARIABLE, 0, 0}
#define B {TACFLOW_VARIABLE, 1, 0}

static const tacflow_statement statements_by_hand[8] = {
    {TACFLOW_BINARY, 0, 0, NO, NO, 0, B, {TACFLOW_NUMBER, 0, 1}},
    {TACFLOW_CALL, NO, NO, NO, NO, NO, NOTHING, NOTHING},
    {TACFLOW_PRINT, NO, NO, NO, NO, NO, NOTHING, A},
    {TACFLOW_NO_STATEMENT, NO, NO, NO, NO, NO, NOTHING, NOTHING},
    {TACFLOW_IF, NO, NO, 0, 7, NO, NOTHING, A},
    {TACFLOW_CALL, NO, NO, NO, NO, NO, NOTHING, NOTHING},
    {TACFLOW_BINARY, 1, 2, NO, NO, 1, A, A},
    {TACFLOW_NO_STATEMENT, NO, NO, NO, NO, NO, NOTHING, NOTHING},
};

static const tacflow_edge edges_by_hand[9] = {
    {TACFLOW_STEP, NO, 0, 1},      {TACFLOW_CALL_EDGE, 1, 1, 4}, {TACFLOW_STEP, NO, 2, 3},
    {TACFLOW_STEP, NO, 4, 5},      {TACFLOW_STEP, NO, 4, 7},     {TACFLOW_CALL_EDGE, 5, 5, 4},
    {TACFLOW_STEP, NO, 6, 7},      {TACFLOW_RETURN_EDGE, 1, 7, 2}, {TACFLOW_RETURN_EDGE, 5, 7, 6},
};

static const tacflow_remark remarks_by_hand[2] = {{0, TACFLOW_UNSET, 1}, {6, TACFLOW_DEAD, 1}};

#define STEP(from, to) {TACFLOW_HOP_STEP, from, to, NO, NO, NO}
#define ENTER(site, from, to) {TACFLOW_HOP_ENTER, from, to, site, NO, NO}
#define PASS(site, from, to, effect) {TACFLOW_HOP_PASS, from, to, site, 1, effect}

/* Bits at points, and the hops by which they get there, or none. The definitions are a and b at the beginning, then those of points 0 and 6. */
static const struct {
    int analysis;
    uint32_t point;
    uint32_t bit;
    uint32_t has;
    size_t count;
    tacflow_hop hops[5];
} whys_by_hand[10] = {
    {TACFLOW_REACH, 7, 3, 1, 5, {STEP(0, 1), ENTER(1, 1, 4), STEP(4, 5), PASS(5, 5, 6, TACFLOW_REACHES), STEP(6, 7)}},
    {TACFLOW_REACH, 7, 2, 1, 3, {STEP(0, 1), ENTER(1, 1, 4), STEP(4, 7)}},
    {TACFLOW_REACH, 2, 1, 1, 2, {STEP(0, 1), PASS(1, 1, 2, TACFLOW_PRESERVES)}},
    {TACFLOW_REACH, 2, 3, 1, 2, {STEP(0, 1), PASS(1, 1, 2, TACFLOW_GENERATES)}},
    {TACFLOW_LIVE, 0, 1, 1, 3, {STEP(3, 2), PASS(1, 2, 1, TACFLOW_REACHES), STEP(1, 0)}},
    {TACFLOW_LIVE, 6, 0, 1, 3, {STEP(3, 2), ENTER(1, 2, 7), STEP(7, 6)}},
    {TACFLOW_AVAIL, 2, 0, 1, 2, {STEP(0, 1), PASS(1, 1, 2, TACFLOW_GENERATES)}}, /* p may write b */
    {TACFLOW_REACH, 0, 0, 1, 0, {STEP(0, 0)}},
    {TACFLOW_REACH, 0, 2, 0, 0, {STEP(0, 0)}},
    {TACFLOW_AVAIL, 1, 0, 0, 0, {STEP(0, 0)}}, /* it is available */
};

#define WRITE(point) {TACFLOW_NEXT_WRITE, point, NO}
#define END {TACFLOW_END_UNWRITTEN, NO, NO}
#define LAST(point) {TACFLOW_LAST_EVALUATION, point, NO}
#define HOLDER(variable) {TACFLOW_HOLDER, NO, variable}
#define NEXT(point) {TACFLOW_NEXT_EVALUATION, point, NO}
#define REACHED(point) {TACFLOW_LAST_REACHED, point, NO}

/* The variables are a, b, t, s, x and y, the expressions a + b and a * b; the statements are the points 0 to 12, L is 8, M is 10, N is 13. */
static const char remarked[] = "proc main\n  read a\n  read b\n  t = a + b\n  s = a + b\n  x = 1\n  if s goto L\n  x = a * b\n  goto M\nL:\n"
                               "  y = a * b\n  x = 2\nM:\n  print x\n  goto N\n  print t\nN:\nend\n";

/* The remarks on it in their order, then others; what stands around them. */
static const struct {
    tacflow_remark remark;
    size_t count;
    tacflow_nearby nearby[2];
} arounds_by_hand[12] = {
    {{2, TACFLOW_DEAD, 2}, 1, {END}},
    {{3, TACFLOW_ALREADY_COMPUTED, 0}, 2, {LAST(2), HOLDER(2)}},
    {{4, TACFLOW_DEAD, 4}, 2, {WRITE(6), WRITE(9)}},
    {{5, TACFLOW_VERY_BUSY, 1}, 2, {NEXT(6), NEXT(8)}},
    {{8, TACFLOW_DEAD, 5}, 1, {END}},
    {{12, TACFLOW_NEVER_REACHED, NO}, 1, {REACHED(11)}},
    {{0, TACFLOW_NEVER_REACHED, 7}, 0, {END}}, /* nothing stands before it */
    {{10, TACFLOW_UNSET, 4}, 0, {END}},
    {{7, TACFLOW_ALREADY_COMPUTED, 1}, 2, {LAST(6), HOLDER(4)}},
    {{10, TACFLOW_ALREADY_COMPUTED, 1}, 2, {LAST(6), LAST(8)}}, /* x or y holds it, as the way is */
    {{6, TACFLOW_VERY_BUSY, 0}, 0, {END}},
    {{0, TACFLOW_DEAD, 4}, 1, {WRITE(4)}},
};
enum { REMARKS = 6 };

/* What the calls write. */
struct told {
    uint8_t paths[8];
    uint8_t doubtful[8];
    tacflow_statement statements[8];
    tacflow_edge edges[10];
    tacflow_remark remarks[3];
    tacflow_hop hops[6];
    tacflow_nearby nearby[3];
    tacflow_bit bits[2];
    tacflow_hop all_hops[7];
    size_t all_hop_count;
    size_t edge_count;
    size_t remark_count;
    size_t hop_count;
    size_t nearby_count;
    uint32_t has;
    uint32_t origin;
};

enum { CALLS = 9 };

/* Asks about two bits, which are as they were where nothing is told. */
static int call_whys(tacflow_handle *handle, struct told *told) {
    static const tacflow_bit asked[2] = {{7, 3, 5, 5}, {2, 1, 5, 5}};
    tacflow_bit bits[2];
    memcpy(bits, asked, sizeof bits);
    const int status = tacflow_whys(handle, TACFLOW_REACH, bits, 2, told->all_hops, 7, &told->all_hop_count);
    if (status) expect_same("bits that were asked", asked, bits, sizeof bits);
    else memcpy(told->bits, bits, sizeof bits);
    return status;
}

static int call(int number, tacflow_handle *handle, struct told *told) {
    switch (number) {
    case 0: return tacflow_has_path(handle, TACFLOW_LIVE, 0, TACFLOW_ALL_POINTS, told->paths, 8);
    case 1: return tacflow_doubtful(handle, 0, TACFLOW_ALL_POINTS, told->doubtful, 8);
    case 2: return tacflow_statements(handle, told->statements, 8);
    case 3: return tacflow_edges(handle, 0, TACFLOW_ALL_POINTS, told->edges, 10, &told->edge_count);
    case 4: return tacflow_remarks(handle, told->remarks, 3, &told->remark_count);
    case 5: return tacflow_around(handle, &remarks_by_hand[1], told->nearby, 3, &told->nearby_count);
    case 6: return tacflow_doubt_origin(handle, 0, &told->origin);
    case 7: return call_whys(handle, told);
    default: return tacflow_why(handle, TACFLOW_REACH, 7, 3, told->hops, 6, &told->hop_count, &told->has);
    }
}

/* Around the dead assignment in p: p may be called by itself, and then b is written once more. */
static const tacflow_nearby nearby_by_hand[2] = {WRITE(6), END};

static void by_hand(void) {
    tacflow_handle handle = opened(calls);
    struct told told, before;
    memset(&told, 0x33, sizeof told), memset(&before, 0x33, sizeof before);
    for (int number = 0; number < CALLS; number++) expect("asked", TACFLOW_OK, call(number, &handle, &told));
    for (int point = 0; point < 8; point++) expect("a path", 1, told.paths[point]), expect("no doubt", 0, told.doubtful[point]);
    for (int point = 0; point < 8; point++) expect_same("a statement", &statements_by_hand[point], &told.statements[point], sizeof(tacflow_statement));
    expect("edges", 9, (int)told.edge_count), expect("remarks", 2, (int)told.remark_count);
    expect_same("edges", edges_by_hand, told.edges, sizeof edges_by_hand);
    expect_same("behind the edges", &before.edges[9], &told.edges[9], sizeof(tacflow_edge));
    expect_same("remarks", remarks_by_hand, told.remarks, sizeof remarks_by_hand);
    expect_same("behind the remarks", &before.remarks[2], &told.remarks[2], sizeof(tacflow_remark));
    expect("around", 2, (int)told.nearby_count), expect_same("around", nearby_by_hand, told.nearby, sizeof nearby_by_hand);
    expect_same("behind what is around", &before.nearby[2], &told.nearby[2], sizeof(tacflow_nearby));
    expect("no origin of doubt", 1, told.origin == TACFLOW_NO_POINT);
    expect("a path's hops", 5, (int)told.hop_count), expect("a path", 1, (int)told.has);
    expect_same("a path", whys_by_hand[0].hops, told.hops, sizeof whys_by_hand[0].hops);
    expect("the hops of two paths", 7, (int)told.all_hop_count), expect("the first one's end", 5, (int)told.bits[0].end);
    expect("both have paths", 2, (int)(told.bits[0].has + told.bits[1].has)), expect("the second one's end", 7, (int)told.bits[1].end);
    expect_same("the first path", whys_by_hand[0].hops, told.all_hops, 5 * sizeof *told.all_hops);
    told.edge_count = 7, told.edges[1] = before.edges[0];
    expect("edges of a call", TACFLOW_OK, tacflow_edges(&handle, 1, 2, told.edges, 1, &told.edge_count));
    expect("one edge", 1, (int)told.edge_count);
    expect_same("the call's edge", &edges_by_hand[1], told.edges, sizeof(tacflow_edge));
    expect_same("behind the call's edge", &before.edges[0], &told.edges[1], sizeof(tacflow_edge));
    expect("edges of no points", TACFLOW_OK, tacflow_edges(&handle, 8, 8, NULL, 0, &told.edge_count));
    expect("no edges", 0, (int)told.edge_count);
    expect("closed", TACFLOW_OK, tacflow_close(&handle));
    expect("blocks", 0, (int)blocks);
}

/* Each path, in room for one hop more, and where there is one in room for one hop less. */
static void whys(void) {
    tacflow_handle handle = opened(calls);
    tacflow_hop hops[6], before[6];
    memset(before, 0x33, sizeof before);
    for (size_t row = 0; row < sizeof whys_by_hand / sizeof *whys_by_hand; row++) {
        const int analysis = whys_by_hand[row].analysis;
        const uint32_t point = whys_by_hand[row].point, bit = whys_by_hand[row].bit;
        const size_t wanted = whys_by_hand[row].count;
        size_t count = 7;
        uint32_t has = 7;
        memcpy(hops, before, sizeof hops);
        if (wanted) {
            expect("a path in little room", TACFLOW_BAD_ROOM, tacflow_why(&handle, analysis, point, bit, hops, wanted - 1, &count, &has));
            expect("hops that are needed", (int)wanted, (int)count), expect("not told", 7, (int)has);
            expect_same("where room lacked", before, hops, sizeof before);
        }
        expect("a path", TACFLOW_OK, tacflow_why(&handle, analysis, point, bit, hops, wanted + 1, &count, &has));
        expect("whether there is a path", (int)whys_by_hand[row].has, (int)has), expect("hops", (int)wanted, (int)count);
        expect_same("hops", whys_by_hand[row].hops, hops, wanted * sizeof *hops);
        expect_same("behind the hops", before, &hops[wanted], (6 - wanted) * sizeof *hops);
        count = has = 7;
        expect("a path in exact room", TACFLOW_OK, tacflow_why(&handle, analysis, point, bit, wanted ? hops : NULL, wanted, &count, &has));
        expect("whether there is one", (int)whys_by_hand[row].has, (int)has), expect("hops in exact room", (int)wanted, (int)count);
    }
    expect("closed", TACFLOW_OK, tacflow_close(&handle));
    expect("blocks after paths", 0, (int)blocks);
}

/* All paths of an analysis at once, in just so much room and in room for one hop less. */
static void whys_of(tacflow_handle *handle, int analysis) {
    enum { ROWS = sizeof whys_by_hand / sizeof *whys_by_hand };
    tacflow_bit bits[ROWS], asked[ROWS];
    tacflow_hop wanted[6 * ROWS], hops[6 * ROWS];
    size_t rows = 0, room = 0, count = 7, end = 0;
    for (size_t row = 0; row < ROWS; row++) {
        if (whys_by_hand[row].analysis != analysis) continue;
        asked[rows++] = (tacflow_bit){whys_by_hand[row].point, whys_by_hand[row].bit, 7, 7};
        memcpy(&wanted[room], whys_by_hand[row].hops, whys_by_hand[row].count * sizeof *wanted);
        room += whys_by_hand[row].count;
    }
    memcpy(bits, asked, sizeof bits);
    if (room) {
        expect("paths in little room", TACFLOW_BAD_ROOM, tacflow_whys(handle, analysis, bits, rows, hops, room - 1, &count));
        expect("hops of all", (int)room, (int)count), expect_same("bits not told", asked, bits, rows * sizeof *bits);
    }
    expect("paths", TACFLOW_OK, tacflow_whys(handle, analysis, bits, rows, hops, room, &count));
    expect("hops of all paths", (int)room, (int)count), expect_same("hops of all paths", wanted, hops, room * sizeof *hops);
    for (size_t row = 0, bit = 0; row < ROWS; row++) {
        if (whys_by_hand[row].analysis != analysis) continue;
        end += whys_by_hand[row].count;
        expect("whether it has a path", (int)whys_by_hand[row].has, (int)bits[bit].has), expect("its end", (int)end, (int)bits[bit].end);
        expect("its point", (int)asked[bit].point, (int)bits[bit].point), expect("its bit", (int)asked[bit].bit, (int)bits[bit].bit), bit++;
    }
}

static void all_whys(void) {
    tacflow_handle handle = opened(calls);
    tacflow_bit bad[2] = {{7, 3, 7, 7}, {8, 0, 7, 7}};
    tacflow_hop hops[6];
    size_t count = 7;
    for (int analysis = 0; analysis < 4; analysis++) whys_of(&handle, analysis);
    expect("no bits", TACFLOW_OK, tacflow_whys(&handle, TACFLOW_BUSY, NULL, 0, NULL, 0, &count)), expect("no hops", 0, (int)count);
    count = 7;
    expect("no analysis", TACFLOW_BAD_ANALYSIS, tacflow_whys(&handle, 4, NULL, 0, NULL, 0, &count));
    expect("a bad point", TACFLOW_BAD_RANGE, tacflow_whys(&handle, TACFLOW_REACH, bad, 2, hops, 6, &count));
    bad[1] = (tacflow_bit){0, 4, 7, 7};
    expect("a bad bit", TACFLOW_BAD_RANGE, tacflow_whys(&handle, TACFLOW_REACH, bad, 2, hops, 6, &count));
    expect("no bits", TACFLOW_BAD_POINTER, tacflow_whys(&handle, TACFLOW_REACH, NULL, 1, hops, 6, &count));
    expect("no hops", TACFLOW_BAD_POINTER, tacflow_whys(&handle, TACFLOW_REACH, bad, 1, NULL, 6, &count));
    expect("no number of hops", TACFLOW_BAD_POINTER, tacflow_whys(&handle, TACFLOW_REACH, bad, 1, hops, 6, NULL));
    expect("not told", 7, (int)count), expect("not told", 7, (int)bad[0].has);
    expect("closed", TACFLOW_OK, tacflow_close(&handle));
    expect("blocks after all paths", 0, (int)blocks);
}

/* What stands around each remark, in room for one more, and where something does in room for one less. */
static void arounds(void) {
    tacflow_handle handle = opened(remarked);
    tacflow_remark listed[REMARKS];
    tacflow_nearby nearby[3], before[3];
    size_t count;
    memset(before, 0x33, sizeof before);
    expect("remarks", TACFLOW_OK, tacflow_remarks(&handle, listed, REMARKS, &count));
    expect("as many remarks", REMARKS, (int)count);
    for (size_t row = 0; row < sizeof arounds_by_hand / sizeof *arounds_by_hand; row++) {
        const tacflow_remark *remark = &arounds_by_hand[row].remark;
        const size_t wanted = arounds_by_hand[row].count;
        if (row < REMARKS) expect_same("a remark", remark, &listed[row], sizeof *remark);
        memcpy(nearby, before, sizeof nearby);
        count = 7;
        if (wanted) {
            expect("around in little room", TACFLOW_BAD_ROOM, tacflow_around(&handle, remark, nearby, wanted - 1, &count));
            expect("how much is around", (int)wanted, (int)count), expect_same("where room lacked", before, nearby, sizeof before);
        }
        expect("around", TACFLOW_OK, tacflow_around(&handle, remark, nearby, wanted + 1, &count));
        expect("so much is around", (int)wanted, (int)count);
        expect_same("what is around", arounds_by_hand[row].nearby, nearby, wanted * sizeof *nearby);
        expect_same("behind it", before, &nearby[wanted], (3 - wanted) * sizeof *nearby);
        expect("around in exact room", TACFLOW_OK, tacflow_around(&handle, remark, wanted ? nearby : NULL, wanted, &count));
        expect("so much in exact room", (int)wanted, (int)count);
    }
    expect("closed", TACFLOW_OK, tacflow_close(&handle));
    expect("blocks after what is around", 0, (int)blocks);
}

/* Where doubt comes from: of a loop that never ends on one side of a test. L is 4, K is 5. */
static void origins(void) {
    tacflow_handle handle = opened("proc main\n  read c\n  if c goto L\n  print c\n  return\nL:\n  skip\nK:\n  goto K\nend\n");
    static const uint32_t wanted[7] = {4, 4, TACFLOW_NO_POINT, TACFLOW_NO_POINT, 4, 5, TACFLOW_NO_POINT};
    for (uint32_t point = 0; point < 7; point++) {
        uint32_t origin = 7;
        expect("an origin", TACFLOW_OK, tacflow_doubt_origin(&handle, point, &origin));
        expect("the origin of doubt", (int)wanted[point], (int)origin);
    }
    expect("closed", TACFLOW_OK, tacflow_close(&handle));
}

static void refused_arounds(tacflow_handle *handle, struct told *told) {
    static const tacflow_remark rows[] = {
        {0, 5, 0},  {0, NO, 0}, {8, TACFLOW_NEVER_REACHED, NO}, {NO, TACFLOW_NEVER_REACHED, 0}, {8, TACFLOW_UNSET, 0}, {0, TACFLOW_UNSET, 2},
        {8, TACFLOW_ALREADY_COMPUTED, 0}, {0, TACFLOW_ALREADY_COMPUTED, 2}, {8, TACFLOW_VERY_BUSY, 0}, {0, TACFLOW_VERY_BUSY, NO},
        {7, TACFLOW_DEAD, 0}, {NO, TACFLOW_DEAD, 0}, {0, TACFLOW_DEAD, 2},
    };
    for (size_t row = 0; row < sizeof rows / sizeof *rows; row++)
        expect("around no remark", TACFLOW_BAD_RANGE, tacflow_around(handle, &rows[row], told->nearby, 3, &told->nearby_count));
    expect("no remark", TACFLOW_BAD_POINTER, tacflow_around(handle, NULL, told->nearby, 3, &told->nearby_count));
    expect("nothing around", TACFLOW_BAD_POINTER, tacflow_around(handle, &remarks_by_hand[1], NULL, 3, &told->nearby_count));
    expect("no number of these", TACFLOW_BAD_POINTER, tacflow_around(handle, &remarks_by_hand[1], told->nearby, 3, NULL));
    expect("doubt of no point", TACFLOW_BAD_RANGE, tacflow_doubt_origin(handle, 8, &told->origin));
    expect("doubt of none", TACFLOW_BAD_RANGE, tacflow_doubt_origin(handle, NO, &told->origin));
    expect("no origin", TACFLOW_BAD_POINTER, tacflow_doubt_origin(handle, 0, NULL));
}

/* A procedure that never returns, and a statement that is never reached. */
static void doubt(void) {
    tacflow_handle handle = opened("proc main\n  read a\n  goto M\n  x = a\nM:\n  if a goto M\n  call q\n  print a\nend\nproc q\nN:\n  goto N\nend\n");
    static const uint8_t forward[9] = {1, 1, 0, 1, 1, 0, 0, 1, 0}, backward[9] = {0, 0, 0, 0, 0, 1, 1, 0, 1};
    static const uint8_t doubtful[9] = {1, 1, 1, 1, 1, 0, 0, 1, 0};
    static const tacflow_remark remarks[2] = {{2, TACFLOW_NEVER_REACHED, TACFLOW_NONE}, {5, TACFLOW_NEVER_REACHED, TACFLOW_NONE}};
    tacflow_remark told[2];
    uint8_t flags[9];
    uint32_t has = 7;
    size_t count;
    for (int analysis = 0; analysis < 4; analysis++) {
        expect("paths", TACFLOW_OK, tacflow_has_path(&handle, analysis, 0, TACFLOW_ALL_POINTS, flags, 9));
        expect_same("paths", analysis % 2 ? backward : forward, flags, 9);
    }
    expect("some paths", TACFLOW_OK, tacflow_has_path(&handle, TACFLOW_REACH, 2, 6, flags, 4));
    expect_same("some paths", forward + 2, flags, 4);
    expect("doubt", TACFLOW_OK, tacflow_doubtful(&handle, 0, 9, flags, 9));
    expect_same("doubt", doubtful, flags, 9);
    expect("some doubt", TACFLOW_OK, tacflow_doubtful(&handle, 4, 8, flags, 4));
    expect_same("some doubt", doubtful + 4, flags, 4);
    expect("what is never reached", TACFLOW_OK, tacflow_remarks(&handle, told, 2, &count));
    expect_same("what is never reached", remarks, told, sizeof told);
    for (int analysis = 0; analysis < 2; analysis++) {
        expect("where no path leads", TACFLOW_OK, tacflow_why(&handle, analysis, analysis ? 3 : 2, 0, NULL, 0, &count, &has));
        expect("no path leads there", 0, (int)has), expect("no hops", 0, (int)count);
    }
    expect("closed", TACFLOW_OK, tacflow_close(&handle));
}

static void refused_whys(tacflow_handle *handle, struct told *told) {
    static const struct {
        int analysis;
        uint32_t point;
        uint32_t bit;
        int status;
    } rows[] = {
        {4, 0, 0, TACFLOW_BAD_ANALYSIS},          {-1, 8, 9, TACFLOW_BAD_ANALYSIS},          {TACFLOW_REACH, 8, 0, TACFLOW_BAD_RANGE},
        {TACFLOW_REACH, NO, 0, TACFLOW_BAD_RANGE}, {TACFLOW_REACH, 0, 4, TACFLOW_BAD_RANGE}, {TACFLOW_LIVE, 0, 2, TACFLOW_BAD_RANGE},
        {TACFLOW_AVAIL, 0, NO, TACFLOW_BAD_RANGE}, {TACFLOW_BUSY, 0, 2, TACFLOW_BAD_RANGE},
    };
    for (size_t row = 0; row < sizeof rows / sizeof *rows; row++)
        expect("a path of no bit", rows[row].status,
               tacflow_why(handle, rows[row].analysis, rows[row].point, rows[row].bit, told->hops, 6, &told->hop_count, &told->has));
    expect("no hops", TACFLOW_BAD_POINTER, tacflow_why(handle, TACFLOW_REACH, 7, 3, NULL, 6, &told->hop_count, &told->has));
    expect("no number of hops", TACFLOW_BAD_POINTER, tacflow_why(handle, TACFLOW_REACH, 7, 3, told->hops, 6, NULL, &told->has));
    expect("nowhere to tell whether", TACFLOW_BAD_POINTER, tacflow_why(handle, TACFLOW_REACH, 7, 3, told->hops, 6, &told->hop_count, NULL));
}

/* Bad input: nothing is written, but for the number of what a list has where room lacks. */
static void faults(void) {
    tacflow_handle handle = opened(calls), closed = TACFLOW_CLOSED;
    struct told told, before;
    memset(&told, 0x33, sizeof told), memset(&before, 0x33, sizeof before);
    for (int number = 0; number < CALLS; number++) expect("a closed one is asked", TACFLOW_BAD_HANDLE, call(number, &closed, &told));
    for (int number = 0; number < CALLS; number++) expect("no handle", TACFLOW_BAD_POINTER, call(number, NULL, &told));
    expect("no analysis", TACFLOW_BAD_ANALYSIS, tacflow_has_path(&handle, 4, 0, 8, told.paths, 8));
    expect("points too far", TACFLOW_BAD_RANGE, tacflow_has_path(&handle, TACFLOW_REACH, 0, 9, told.paths, 9));
    expect("points backwards", TACFLOW_BAD_RANGE, tacflow_has_path(&handle, TACFLOW_REACH, 3, 2, told.paths, 8));
    expect("a flag too few", TACFLOW_BAD_ROOM, tacflow_has_path(&handle, TACFLOW_REACH, 0, 8, told.paths, 7));
    expect("a flag too many", TACFLOW_BAD_ROOM, tacflow_has_path(&handle, TACFLOW_REACH, 0, 7, told.paths, 8));
    expect("no flags", TACFLOW_BAD_POINTER, tacflow_has_path(&handle, TACFLOW_REACH, 0, 8, NULL, 8));
    expect("doubt too far", TACFLOW_BAD_RANGE, tacflow_doubtful(&handle, 9, TACFLOW_ALL_POINTS, told.doubtful, 0));
    expect("doubt in little room", TACFLOW_BAD_ROOM, tacflow_doubtful(&handle, 0, TACFLOW_ALL_POINTS, told.doubtful, 7));
    expect("no room for doubt", TACFLOW_BAD_POINTER, tacflow_doubtful(&handle, 0, 8, NULL, 8));
    expect("a statement too few", TACFLOW_BAD_ROOM, tacflow_statements(&handle, told.statements, 7));
    expect("no statements", TACFLOW_BAD_POINTER, tacflow_statements(&handle, NULL, 8));
    expect("edges too far", TACFLOW_BAD_RANGE, tacflow_edges(&handle, 0, 9, told.edges, 10, &told.edge_count));
    expect("no edges", TACFLOW_BAD_POINTER, tacflow_edges(&handle, 0, 8, NULL, 10, &told.edge_count));
    expect("no number of edges", TACFLOW_BAD_POINTER, tacflow_edges(&handle, 0, 8, told.edges, 10, NULL));
    expect("no remarks", TACFLOW_BAD_POINTER, tacflow_remarks(&handle, NULL, 2, &told.remark_count));
    expect("no number of remarks", TACFLOW_BAD_POINTER, tacflow_remarks(&handle, told.remarks, 2, NULL));
    refused_whys(&handle, &told);
    refused_arounds(&handle, &told);
    expect_same("after faults", &before, &told, sizeof told);
    expect("edges in little room", TACFLOW_BAD_ROOM, tacflow_edges(&handle, 0, 8, told.edges, 8, &told.edge_count));
    expect("remarks in no room", TACFLOW_BAD_ROOM, tacflow_remarks(&handle, NULL, 0, &told.remark_count));
    expect("around in no room", TACFLOW_BAD_ROOM, tacflow_around(&handle, &remarks_by_hand[1], NULL, 0, &told.nearby_count));
    expect("edges that are needed", 9, (int)told.edge_count), expect("remarks that are needed", 2, (int)told.remark_count);
    expect("what is around", 2, (int)told.nearby_count);
    told.edge_count = before.edge_count, told.remark_count = before.remark_count, told.nearby_count = before.nearby_count;
    expect_same("where room lacked", &before, &told, sizeof told);
    expect("closed", TACFLOW_OK, tacflow_close(&handle));
    expect("blocks after faults", 0, (int)blocks);
}

/* Each request for memory of each call in turn is refused. */
static void refused(void) {
    tacflow_handle handle = opened(calls);
    long open_blocks = blocks;
    for (int number = 0; number < CALLS; number++) {
        struct told told, before;
        memset(&told, 0x33, sizeof told), memset(&before, 0x33, sizeof before);
        long requests = -1, left;
        int status;
        do {
            answered = ++requests;
            status = call(number, &handle, &told);
            left = answered, answered = -1;
            if (left < 0 && (status != TACFLOW_OUT_OF_MEMORY || memcmp(&told, &before, sizeof told)))
                wrong = printf("call %d, request %ld refused: status %d, or something was written\n", number, requests + 1, status);
            if (blocks != open_blocks) wrong = printf("call %d: %ld blocks in place of %ld\n", number, blocks, open_blocks);
        } while (left < 0 && requests < 10000);
        expect("asked with ample memory", TACFLOW_OK, status);
    }
    expect("closed after refusals", TACFLOW_OK, tacflow_close(&handle));
    expect("blocks after refusals", 0, (int)blocks);
}

static void expect_said(const char *wanted, int status, const tacflow_place *place) {
    char line[96] = "";
    size_t size = 0;
    expect(wanted, TACFLOW_OK, tacflow_message(status, place, line, sizeof line, &size));
    if (size != strlen(wanted) || memcmp(line, wanted, size) || line[size]) wrong = printf("status %d: %.*s\n", status, (int)size, line);
    expect(wanted, TACFLOW_BAD_ROOM, tacflow_message(status, place, NULL, 0, &size));
    if (size != strlen(wanted)) wrong = printf("status %d: %zu bytes\n", status, size);
}

/* What statuses say, and that memory that is refused is told. */
static void messages(void) {
    static const char *const names[] = {
        "BadByte", "NumberTooLarge", "NameTooLong", "Syntax", "Unclosed", "NoMain", "DuplicateProcedure", "DuplicateLabel", "UnknownLabel",
        "UnknownProcedure", "TextTooLong", "TooManyProcedures", "DuplicateCallee", "unknown",
    };
    char line[96], wanted[96];
    size_t size = 7;
    tacflow_place place = {4, 12, 7};
    for (place.number = 1; place.number <= 14; place.number++) {
        snprintf(wanted, sizeof wanted, "12:7: refusal %" PRIu32 ": %s", place.number, names[place.number - 1]);
        expect_said(wanted, TACFLOW_REFUSED, &place);
    }
    place = (tacflow_place){UINT32_MAX, UINT32_MAX, UINT32_MAX};
    expect_said("4294967295:4294967295: refusal 4294967295: unknown", TACFLOW_REFUSED, &place);
    expect_said("no fault", TACFLOW_OK, NULL);
    expect_said("out of memory", TACFLOW_OUT_OF_MEMORY, NULL);
    expect_said("no such analysis", TACFLOW_BAD_ANALYSIS, NULL);
    expect_said("no such points or bits", TACFLOW_BAD_RANGE, &place);
    expect_said("the room does not fit the answer", TACFLOW_BAD_ROOM, NULL);
    expect_said("a pointer is null", TACFLOW_BAD_POINTER, NULL);
    expect_said("no such limits", TACFLOW_BAD_LIMITS, NULL);
    expect_said("the handle is closed, or open where it has to be closed", TACFLOW_BAD_HANDLE, NULL);
    expect_said("refusal 21: TooManyPoints", TACFLOW_TOO_MANY_POINTS, NULL);
    expect_said("refusal 22: TooManyBits", TACFLOW_TOO_MANY_BITS, NULL);
    expect_said("unknown status", 23, NULL);
    expect("no place of a refusal", TACFLOW_BAD_POINTER, tacflow_message(TACFLOW_REFUSED, NULL, line, sizeof line, &size));
    expect("no size", TACFLOW_BAD_POINTER, tacflow_message(TACFLOW_OK, NULL, line, sizeof line, NULL));
    size = 7, answered = 0;
    expect("a request refused", TACFLOW_OUT_OF_MEMORY, tacflow_message(TACFLOW_REFUSED, &place, line, sizeof line, &size));
    answered = -1;
    expect("a request refused: size", 7, (int)size);
    expect("blocks after messages", 0, (int)blocks);
}

static char text[1 << 20];
static tacflow_point points[16384];
static tacflow_expression expressions[4096];
static tacflow_remark remarks[1 << 20];
static size_t ends[4096];
static char names[4096 * TACFLOW_LONGEST_NAME];

static void print_variable(uint32_t variable) {
    size_t start = variable ? ends[variable - 1] : 0;
    printf("%.*s", (int)(ends[variable] - start), names + start);
}

static void print_operand(const tacflow_operand *operand) {
    if (operand->kind == TACFLOW_VARIABLE) print_variable(operand->variable);
    if (operand->kind == TACFLOW_NUMBER) printf("%" PRIu64, operand->number);
}

static void print_expression(uint32_t number) {
    const tacflow_expression *expression = &expressions[number];
    const char *sign = tacflow_sign[expression->operator_number];
    print_operand(&expression->left);
    printf(expression->left.kind == TACFLOW_NOTHING ? "%s" : " %s ", sign);
    print_operand(&expression->right);
}

static void print_remark(const tacflow_remark *remark) {
    static const char *const behind[] = {"never reached", " may be used before it is set", " is already computed", " is very busy", " is dead"};
    printf("%" PRIu32 ": ", points[remark->point].line);
    if (remark->kind == TACFLOW_DEAD) printf("assignment to ");
    if (remark->kind == TACFLOW_UNSET || remark->kind == TACFLOW_DEAD) print_variable(remark->name);
    if (remark->kind == TACFLOW_ALREADY_COMPUTED || remark->kind == TACFLOW_VERY_BUSY) print_expression(remark->name);
    puts(behind[remark->kind]);
}

/* The report of a file's program without its first line, made of data. */
static void print_report(const char *name) {
    FILE *file = fopen(name, "rb");
    if (!file) return;
    size_t count = fread(text, 1, sizeof text - 1, file);
    fclose(file);
    text[count] = '\0';
    tacflow_handle handle = opened(text);
    tacflow_sizes_of_program sizes;
    if (tacflow_sizes_of(&handle, &sizes) || tacflow_points_of(&handle, points, sizes.points)
        || tacflow_expressions_of(&handle, expressions, sizes.expressions)
        || tacflow_variables_of(&handle, ends, sizes.variables, names, sizeof names)
        || tacflow_remarks(&handle, remarks, sizeof remarks / sizeof *remarks, &count))
        puts("not answered");
    else
        for (size_t i = 0; i < count; i++) print_remark(&remarks[i]);
    tacflow_close(&handle);
}

int main(int argc, char **argv) {
    if (argc == 2) {
        print_report(argv[1]);
        return 0;
    }
    by_hand();
    whys();
    all_whys();
    arounds();
    origins();
    doubt();
    faults();
    refused();
    messages();
    return wrong != 0;
}
