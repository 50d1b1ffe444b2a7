/* Programs that are built of arrays: one against the same one of a text, each fault of arrays, each request for memory refused. Prints one
 * line for each that goes wrong. Compile with -Wl,--wrap=malloc,--wrap=realloc,--wrap=free. */
#include "counted.h"

/* The same program twice. The label stands behind three statements, and the calls share one list of callees. */
static const char text[] = "proc main\n  a = b + 1\n  call p\n  print a\nend\nproc p\n  if a goto L\n  call p\n  b = a * a\nL:\nend\n";

#define NOTHING {TACFLOW_NOTHING, 0, 0}
#define A {TACFLOW_VARIABLE, 0, 0}
#define B {TACFLOW_VARIABLE, 1, 0}
#define ONE {TACFLOW_NUMBER, 0, 1}

/* What one test may change. */
static struct made {
    tacflow_built_procedure procedures[2];
    tacflow_built_statement statements[6];
    uint32_t labels[1];
    uint32_t callees[2];
    size_t procedure_ends[2], variable_ends[2], label_ends[1];
    char procedure_names[8], variable_names[4], label_names[2];
} made;

static const struct made wanted = {
    {{3, 0}, {3, 1}},
    {
        {TACFLOW_BINARY, 0, 0, 7, 7, 7, 2, B, ONE},
        {TACFLOW_CALL, 7, 7, 7, 0, 1, 3, NOTHING, NOTHING},
        {TACFLOW_PRINT, 7, 7, 7, 7, 7, 4, NOTHING, A},
        {TACFLOW_IF, 7, 7, 0, 7, 7, 7, NOTHING, A},
        {TACFLOW_CALL, 7, 7, 7, 1, 1, 8, NOTHING, NOTHING},
        {TACFLOW_BINARY, 1, 2, 7, 7, 7, 9, A, A},
    },
    {3},
    {1, 1},
    {4, 5},
    {1, 2},
    {1},
    "mainp",
    "ab",
    "L",
};

static tacflow_arrays arrays(void) {
    tacflow_arrays it = {
        made.procedures, 2, made.statements, 6, made.labels, 1, made.callees, 2,
        {made.procedure_ends, 2, made.procedure_names, 5},
        {made.variable_ends, 2, made.variable_names, 2},
        {made.label_ends, 1, made.label_names, 1},
    };
    return it;
}

/* What is told of a program. */
struct told {
    tacflow_sizes_of_program sizes;
    tacflow_point points[8];
    tacflow_definition definitions[4];
    tacflow_expression expressions[2];
    tacflow_statement statements[8];
    tacflow_edge edges[9];
    tacflow_remark remarks[2];
    size_t ends[4], count[2], length[2];
    char names[2][8], shown[2][256];
    uint64_t words[32];
};

static void tell(const char *what, tacflow_handle *handle, struct told *told) {
    tacflow_query queries[32];
    memset(told, 0x33, sizeof *told);
    for (uint32_t i = 0; i < 32; i++) queries[i] = (tacflow_query){i % 4, i / 4, 0};
    expect(what, TACFLOW_OK, tacflow_sizes_of(handle, &told->sizes));
    expect(what, TACFLOW_OK, tacflow_points_of(handle, told->points, 8));
    expect(what, TACFLOW_OK, tacflow_definitions_of(handle, told->definitions, 4));
    expect(what, TACFLOW_OK, tacflow_expressions_of(handle, told->expressions, 2));
    expect(what, TACFLOW_OK, tacflow_statements(handle, told->statements, 8));
    expect(what, TACFLOW_OK, tacflow_edges(handle, 0, TACFLOW_ALL_POINTS, told->edges, 9, &told->count[0]));
    expect(what, TACFLOW_OK, tacflow_remarks(handle, told->remarks, 2, &told->count[1]));
    expect(what, TACFLOW_OK, tacflow_procedures_of(handle, told->ends, 2, told->names[0], 8));
    expect(what, TACFLOW_OK, tacflow_variables_of(handle, told->ends + 2, 2, told->names[1], 8));
    expect(what, TACFLOW_OK, tacflow_listing_of(handle, told->shown[0], 256, &told->length[0]));
    expect(what, TACFLOW_OK, tacflow_report_of(handle, told->shown[1], 256, &told->length[1]));
    expect(what, TACFLOW_OK, tacflow_ask(handle, queries, 32, told->words));
    for (int point = 0; point < 8; point++) told->points[point].start = told->points[point].end = 0; /* bytes of a text */
}

static void as_the_text(void) {
    tacflow_handle handle = TACFLOW_CLOSED, built = TACFLOW_CLOSED;
    tacflow_place place;
    tacflow_build_place where = {7, 7};
    tacflow_arrays it = arrays();
    struct told told, same;
    expect("opened", TACFLOW_OK, tacflow_open(text, strlen(text), &handle, &place));
    expect("built", TACFLOW_OK, tacflow_build(&it, &built, &where));
    memset(&made, 0x33, sizeof made); /* the arrays are not needed any more */
    tell("of the text", &handle, &told);
    tell("of arrays", &built, &same);
    expect_same("of arrays", &told, &same, sizeof told);
    if (where.fault != 7) wrong = puts("built: a place was written") || 1;
    made = wanted;
    expect("an open one is built", TACFLOW_BAD_HANDLE, tacflow_build(&it, &built, &where));
    tell("of arrays again", &built, &same);
    expect_same("of arrays again", &told, &same, sizeof told);
    expect("closed", TACFLOW_OK, tacflow_close(&handle));
    expect("closed", TACFLOW_OK, tacflow_close(&built));
    expect("built within the large limits", TACFLOW_OK, tacflow_build_within(TACFLOW_LARGE, &it, &built, &where));
    expect("closed", TACFLOW_OK, tacflow_close(&built));
    expect("blocks", 0, (int)blocks);
}

/* These arrays stand for no program: that is told, and the handle stays closed. */
static void expect_fault(const char *what, const tacflow_arrays *it, uint32_t fault, uint32_t number) {
    tacflow_handle handle = TACFLOW_CLOSED;
    tacflow_build_place where = {7, 7};
    expect(what, TACFLOW_NOT_BUILT, tacflow_build(it, &handle, &where));
    if (where.fault != fault || where.number != number || handle.is_open)
        wrong = printf("%s: fault %u of %u in place of %u of %u, or opened\n", what, where.fault, where.number, fault, number);
    expect(what, 0, (int)blocks);
    made = wanted;
}

static void bad_statement(const char *what, int number, tacflow_built_statement statement) {
    tacflow_arrays it = arrays();
    made.statements[number] = statement;
    expect_fault(what, &it, TACFLOW_BAD_STATEMENT, (uint32_t)number);
}

static void statements(void) {
    const tacflow_built_statement sum = wanted.statements[0], call = wanted.statements[1], print = wanted.statements[2], test = wanted.statements[3];
    const tacflow_operand third = {TACFLOW_VARIABLE, 2, 0}, large = {TACFLOW_NUMBER, 0, UINT64_MAX / 2 + 1}, other = {3, 0, 0};
    tacflow_built_statement it = sum;
#define TRY(what, number, from, change) it = from, change, bad_statement(what, number, it)
    TRY("a kind of no statement", 0, sum, it.kind = TACFLOW_NO_STATEMENT);
    TRY("a kind that is none", 5, sum, it.kind = 13);
    TRY("a target that is not there", 0, sum, it.target = 2);
    TRY("an operator that is none", 0, sum, it.operator_number = 18);
    TRY("a unary operator in a binary assignment", 0, sum, it.operator_number = 16);
    TRY("no left operand", 0, sum, it.left.kind = TACFLOW_NOTHING);
    TRY("an operand of no kind", 0, sum, it.right = other);
    TRY("a left variable that is not there", 0, sum, it.left = third);
    TRY("a right variable that is not there", 5, sum, it.right = third);
    TRY("a number too large", 0, sum, it.right = large);
    TRY("a binary operator in a unary assignment", 0, sum, it.kind = TACFLOW_UNARY);
    TRY("no operand of a copy", 0, call, it.kind = TACFLOW_COPY);
    TRY("a call of none", 1, call, it.callees = 0);
    TRY("callees behind the last", 1, call, it.first_callee = 2);
    TRY("callees beyond all numbers", 4, call, it.first_callee = UINT32_MAX);
    TRY("the same callee twice", 1, call, it.callees = 2);
    TRY("a label that is not there", 3, test, it.label = 1);
    TRY("a label of another procedure", 2, test, it.label = 0);
    TRY("a goto to no label", 3, test, (it.kind = TACFLOW_GOTO, it.label = 1));
    TRY("no condition", 3, test, it.right.kind = TACFLOW_NOTHING);
    TRY("a comparison by no comparison", 3, sum, (it.kind = TACFLOW_IF_COMPARE, it.label = 0));
    TRY("a comparison with no label", 3, sum, (it.kind = TACFLOW_IF_COMPARE, it.operator_number = 10, it.label = 1));
    TRY("a negated test with no label", 3, test, (it.kind = TACFLOW_IF_FALSE, it.label = 1));
    TRY("a variable read that is not there", 2, print, (it.kind = TACFLOW_READ, it.target = 2));
    TRY("nothing is printed", 2, print, it.right.kind = TACFLOW_NOTHING);
    TRY("a number printed that is too large", 2, print, it.right = large);
    TRY("the first of two faults", 1, call, (made.statements[5].kind = 99, it.callees = 9));
#undef TRY
    tacflow_arrays all = arrays();
    made.callees[1] = 2;
    expect_fault("a callee that is not there", &all, TACFLOW_BAD_STATEMENT, 4);
}

static void other_faults(void) {
    tacflow_arrays it = arrays();
    made.labels[0] = 4;
    expect_fault("a label behind its procedure", &it, TACFLOW_BAD_LABEL, 0);
    memcpy(made.procedure_names, "mainm", 5);
    made.procedure_ends[0] = 4, made.procedure_ends[1] = 4;
    expect_fault("a procedure without a name", &it, TACFLOW_BAD_PROCEDURE_NAME, 1);
    memcpy(made.procedure_names, "mxinp", 5);
    expect_fault("no main", &it, TACFLOW_NO_MAIN, 0);
    memcpy(made.procedure_names, "m-inp", 5);
    expect_fault("a bad byte in a name", &it, TACFLOW_BAD_PROCEDURE_NAME, 0);
    made.variable_names[1] = 'a';
    expect_fault("a variable twice", &it, TACFLOW_BAD_VARIABLE_NAME, 1);
    made.variable_names[0] = '1';
    expect_fault("a name that is a number", &it, TACFLOW_BAD_VARIABLE_NAME, 0);
    memcpy(made.variable_names, "ifc", 3);
    made.variable_ends[0] = 2, made.variable_ends[1] = 3, it.variable_names.length = 3;
    expect_fault("a keyword", &it, TACFLOW_BAD_VARIABLE_NAME, 0);
    it = arrays(), made.variable_ends[1] = 3;
    expect_fault("a name beyond the bytes", &it, TACFLOW_BAD_VARIABLE_NAME, 1);
    made.variable_ends[0] = 2, made.variable_ends[1] = 1;
    expect_fault("a name that ends before it begins", &it, TACFLOW_BAD_VARIABLE_NAME, 1);
    made.label_names[0] = '@';
    expect_fault("a label's name that is none", &it, TACFLOW_BAD_LABEL_NAME, 0);
    it.label_names.count = 0;
    expect_fault("too few names of labels", &it, TACFLOW_BAD_COUNTS, 0);
    it = arrays(), it.procedure_names.count = 1;
    expect_fault("a procedure too many", &it, TACFLOW_BAD_COUNTS, 0);
    it = arrays(), it.statement_count = 5;
    expect_fault("a statement too few", &it, TACFLOW_BAD_COUNTS, 0);
    it = arrays(), made.procedures[1].statements = 2, made.labels[0] = 2;
    expect_fault("a statement too many", &it, TACFLOW_BAD_COUNTS, 0);
    made.procedures[1].labels = 0, made.statements[3].kind = TACFLOW_SKIP;
    expect_fault("a label too many", &it, TACFLOW_BAD_COUNTS, 0);
    made.procedures[0].statements = UINT32_MAX;
    expect_fault("a procedure beyond all statements", &it, TACFLOW_BAD_COUNTS, 0);
    it.procedure_count = 257;
    expect_fault("too many procedures", &it, TACFLOW_TOO_MANY_PROCEDURES, 0);
    it = arrays(), it.label_count = 1048577;
    expect_fault("too many labels", &it, TACFLOW_TOO_LONG, 0);
    tacflow_handle handle = TACFLOW_CLOSED;
    tacflow_build_place where = {7, 7};
    it = arrays();
    expect("no limits", TACFLOW_BAD_LIMITS, tacflow_build_within(2, &it, &handle, &where));
    expect("no arrays", TACFLOW_BAD_POINTER, tacflow_build(NULL, &handle, &where));
    expect("no handle", TACFLOW_BAD_POINTER, tacflow_build(&it, NULL, &where));
    expect("no place", TACFLOW_BAD_POINTER, tacflow_build(&it, &handle, NULL));
    it.statements = NULL;
    expect("no statements", TACFLOW_BAD_POINTER, tacflow_build(&it, &handle, &where));
    it = arrays(), it.variable_names.bytes = NULL;
    expect("no names", TACFLOW_BAD_POINTER, tacflow_build(&it, &handle, &where));
    if (where.fault != 7 || where.number != 7 || handle.is_open) wrong = puts("bad input: a place was written, or opened") || 1;
}

/* A program of nothing but main, whose pointers to no elements are null, and points beyond the limits. */
static void limits(void) {
    static tacflow_built_statement many[16384];
    static size_t ends[1000];
    static char bytes[12000];
    tacflow_built_procedure procedure = {0, 0};
    size_t end = 4;
    tacflow_arrays it = {&procedure, 1, NULL, 0, NULL, 0, NULL, 0, {&end, 1, "main", 4}, {NULL, 0, NULL, 0}, {NULL, 0, NULL, 0}};
    tacflow_handle handle = TACFLOW_CLOSED;
    tacflow_build_place where = {7, 7};
    tacflow_sizes_of_program sizes;
    expect("an empty main", TACFLOW_OK, tacflow_build(&it, &handle, &where));
    expect("an empty main", TACFLOW_OK, tacflow_sizes_of(&handle, &sizes));
    expect("its points", 1, (int)sizes.points);
    expect("closed", TACFLOW_OK, tacflow_close(&handle));
    for (int i = 0; i < 16384; i++) many[i].kind = TACFLOW_SKIP;
    it.statements = many, it.statement_count = procedure.statements = 16384;
    expect("too many points", TACFLOW_TOO_MANY_POINTS, tacflow_build(&it, &handle, &where));
    expect("more points within the large limits", TACFLOW_OK, tacflow_build_within(TACFLOW_LARGE, &it, &handle, &where));
    expect("closed", TACFLOW_OK, tacflow_close(&handle));
    it.statement_count = procedure.statements = 0;
    it.variable_names = (tacflow_names){ends, 1000, bytes, tacflow_numbered('v', 1000, ends, bytes)};
    expect("numbered names", TACFLOW_OK, tacflow_build(&it, &handle, &where));
    expect("numbered names", TACFLOW_OK, tacflow_sizes_of(&handle, &sizes));
    expect("as many variables", 1000, (int)sizes.variables);
    expect("closed", TACFLOW_OK, tacflow_close(&handle));
    if (memcmp(bytes, "v0v1v2", 6) || memcmp(bytes + ends[998], "v999", 4)) wrong = puts("other names") || 1;
    expect("blocks after limits", 0, (int)blocks);
}

static void refused(void) {
    tacflow_handle handle = TACFLOW_CLOSED;
    tacflow_build_place where = {7, 7};
    tacflow_arrays it = arrays();
    long requests = -1, left;
    int status;
    do {
        answered = ++requests;
        status = tacflow_build(&it, &handle, &where);
        left = answered, answered = -1;
        if (left < 0 && (status != TACFLOW_OUT_OF_MEMORY || handle.is_open || blocks || where.fault != 7))
            wrong = printf("request %ld refused: status %d, open or blocks left\n", requests + 1, status);
    } while (left < 0 && requests < 10000);
    expect("built with ample memory", TACFLOW_OK, status);
    if (requests < 10) wrong = puts("too few requests") || 1;
    expect("closed after refusals", TACFLOW_OK, tacflow_close(&handle));
    expect("blocks after refusals", 0, (int)blocks);
}

int main(void) {
    made = wanted;
    as_the_text();
    statements();
    other_faults();
    limits();
    refused();
    return wrong != 0;
}
