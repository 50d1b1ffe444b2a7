/* A pass of an optimiser over a handle: `pass FILE` keeps what is already computed in variables of its own, deletes dead assignments until
 * none is left, and writes the program that is left. Status 1, with a line on standard error, where there is none.
 *
 * Both are done apart, as docs/ANALYSES.md wants it: the program is handed in anew in between. */
#include "tacflow.h"

#include <inttypes.h>
#include <stdio.h>
#include <stdlib.h>
#include <string.h>

static void give_up(const char *why) {
    fprintf(stderr, "pass: %s\n", why);
    exit(1);
}

static void expect_answer(int status, const tacflow_place *place) {
    char line[96];
    size_t size = 0;
    if (status == TACFLOW_OK) return;
    line[tacflow_message(status, place, line, sizeof line - 1, &size) ? 0 : size] = '\0';
    give_up(line);
}

static void *taken(size_t count, size_t size) {
    void *room = calloc(count ? count : 1, size);
    if (!room) give_up("out of memory");
    return room;
}

/* A text that grows. */
struct text {
    char *bytes;
    size_t length, room;
};

static void put(struct text *text, const char *bytes, size_t length) {
    if (text->room - text->length < length) {
        text->room = 2 * (text->room + length);
        text->bytes = realloc(text->bytes, text->room);
        if (!text->bytes) give_up("out of memory");
    }
    memcpy(text->bytes + text->length, bytes, length);
    text->length += length;
}

static void put_words(struct text *text, const char *words) {
    put(text, words, strlen(words));
}

static void put_number(struct text *text, uint64_t number) {
    char digits[24];
    put(text, digits, (size_t)snprintf(digits, sizeof digits, "%" PRIu64, number));
}

/* All that is told of a program. */
struct program {
    tacflow_handle handle;
    tacflow_sizes_of_program sizes;
    tacflow_point *points;
    tacflow_statement *statements;
    tacflow_edge *edges;
    size_t edge_count;
    size_t *procedure_ends, *variable_ends;
    char *procedures, *variables;
    size_t longest;     /* how long the longest name of a variable is */
    uint32_t *labels;   /* the number of the label at the point, from 1, or 0 where no jump leads to it */
};

static struct program opened(const struct text *text) {
    struct program it = {.handle = TACFLOW_CLOSED};
    tacflow_place place = {0, 0, 0};
    expect_answer(tacflow_open(text->bytes, text->length, &it.handle, &place), &place);
    expect_answer(tacflow_sizes_of(&it.handle, &it.sizes), NULL);
    size_t points = it.sizes.points, procedures = it.sizes.procedures, variables = it.sizes.variables;
    it.points = taken(points, sizeof *it.points), it.statements = taken(points, sizeof *it.statements);
    it.procedure_ends = taken(procedures, sizeof(size_t)), it.variable_ends = taken(variables, sizeof(size_t));
    it.procedures = taken(procedures, TACFLOW_LONGEST_NAME), it.variables = taken(variables, TACFLOW_LONGEST_NAME);
    it.labels = taken(points, sizeof *it.labels);
    expect_answer(tacflow_points_of(&it.handle, it.points, points), NULL);
    expect_answer(tacflow_statements(&it.handle, it.statements, points), NULL);
    expect_answer(tacflow_procedures_of(&it.handle, it.procedure_ends, procedures, it.procedures, procedures * TACFLOW_LONGEST_NAME), NULL);
    expect_answer(tacflow_variables_of(&it.handle, it.variable_ends, variables, it.variables, variables * TACFLOW_LONGEST_NAME), NULL);
    tacflow_edges(&it.handle, 0, TACFLOW_ALL_POINTS, NULL, 0, &it.edge_count);
    it.edges = taken(it.edge_count, sizeof *it.edges);
    expect_answer(tacflow_edges(&it.handle, 0, TACFLOW_ALL_POINTS, it.edges, it.edge_count, &it.edge_count), NULL);
    for (size_t point = 0; point < points; point++)
        if (it.statements[point].goes_to != TACFLOW_NONE) it.labels[it.statements[point].goes_to] = 1;
    for (uint32_t point = 0, number = 0; point < points; point++)
        if (it.labels[point]) it.labels[point] = ++number;
    for (size_t start = 0, variable = 0; variable < variables; start = it.variable_ends[variable++])
        if (it.variable_ends[variable] - start > it.longest) it.longest = it.variable_ends[variable] - start;
    return it;
}

static void closed(struct program *it) {
    tacflow_close(&it->handle);
    free(it->points), free(it->statements), free(it->edges), free(it->labels);
    free(it->procedure_ends), free(it->variable_ends), free(it->procedures), free(it->variables);
}

static void put_name(struct text *text, const char *names, const size_t *ends, uint32_t number) {
    size_t start = number ? ends[number - 1] : 0;
    put(text, names + start, ends[number] - start);
}

static void put_variable(struct text *text, const struct program *it, uint32_t variable) {
    put_name(text, it->variables, it->variable_ends, variable);
}

static void put_operand(struct text *text, const struct program *it, const tacflow_operand *operand) {
    if (operand->kind == TACFLOW_VARIABLE) put_variable(text, it, operand->variable);
    if (operand->kind == TACFLOW_NUMBER) put_number(text, operand->number);
}

/* The operator with its operands, or what stands in its place. */
static void put_value(struct text *text, const struct program *it, const tacflow_statement *statement) {
    put_operand(text, it, &statement->left);
    if (statement->operator_number != TACFLOW_NONE) {
        if (statement->left.kind != TACFLOW_NOTHING) put_words(text, " ");
        put_words(text, tacflow_sign[statement->operator_number]);
        if (statement->left.kind != TACFLOW_NOTHING) put_words(text, " ");
    }
    put_operand(text, it, &statement->right);
}

/* The callees of a call: where its edges lead. edge is the first that leaves the point. */
static void put_callees(struct text *text, const struct program *it, size_t edge, uint32_t point) {
    const char *between = " ";
    for (; edge < it->edge_count && it->edges[edge].from == point; edge++, between = " | ") {
        put_words(text, between);
        put_name(text, it->procedures, it->procedure_ends, it->points[it->edges[edge].to].procedure);
    }
}

static void put_jump(struct text *text, const struct program *it, const tacflow_statement *statement) {
    put_words(text, statement->kind == TACFLOW_GOTO ? "goto L" : " goto L");
    put_number(text, it->labels[statement->goes_to]);
}

static void put_statement(struct text *text, const struct program *it, size_t edge, uint32_t point) {
    static const char *const words[] = {"", "", "", "", "", "if ", "ifFalse ", "if ", "call", "return", "read ", "print ", "skip"};
    const tacflow_statement *statement = &it->statements[point];
    put_words(text, words[statement->kind]);
    if (statement->target != TACFLOW_NONE) put_variable(text, it, statement->target);
    if (statement->kind <= TACFLOW_BINARY) put_words(text, " = ");
    if (statement->kind == TACFLOW_CALL) put_callees(text, it, edge, point);
    put_value(text, it, statement);
    if (statement->goes_to != TACFLOW_NONE) put_jump(text, it, statement);
    put_words(text, "\n");
}

/* How a pass writes the statement at a point. */
typedef void writes(struct text *text, const struct program *it, size_t edge, uint32_t point, const void *found);

/* The program as text, each statement as the pass writes it. Labels are numbered in their order. */
static struct text written(const struct program *it, writes *write, const void *found) {
    struct text text = {NULL, 0, 0};
    size_t edge = 0;
    for (uint32_t point = 0; point < it->sizes.points; point++) {
        if (it->points[point].place == 0) {
            put_words(&text, "proc ");
            put_name(&text, it->procedures, it->procedure_ends, it->points[point].procedure);
            put_words(&text, "\n");
        }
        if (it->labels[point]) put_words(&text, "L"), put_number(&text, it->labels[point]), put_words(&text, ":\n");
        while (edge < it->edge_count && it->edges[edge].from < point) edge++;
        if (it->statements[point].kind == TACFLOW_NO_STATEMENT) put_words(&text, "end\n");
        else write(&text, it, edge, point, found);
    }
    return text;
}

/* What is already computed: which points say so, and which expressions are kept. */
struct computed {
    uint8_t *here, *is_kept;
};

/* A name that no variable has, since it is longer than all. */
static void put_kept(struct text *text, const struct program *it, uint32_t expression) {
    put_words(text, "kept");
    for (size_t length = 4; length < it->longest; length++) put_words(text, "_");
    put_number(text, expression);
}

static void write_kept(struct text *text, const struct program *it, size_t edge, uint32_t point, const void *found) {
    const struct computed *computed = found;
    const tacflow_statement *statement = &it->statements[point];
    if (statement->expression == TACFLOW_NONE || !computed->is_kept[statement->expression]) {
        put_statement(text, it, edge, point);
        return;
    }
    if (!computed->here[point]) {
        put_kept(text, it, statement->expression);
        put_words(text, " = ");
        put_value(text, it, statement);
        put_words(text, "\n");
    }
    put_variable(text, it, statement->target);
    put_words(text, " = ");
    put_kept(text, it, statement->expression);
    put_words(text, "\n");
}

/* Keeps each expression that is computed anew somewhere: where it is evaluated its value goes into a variable too, and where it is already
 * computed that variable is read. */
static struct text with_kept_values(const struct text *text) {
    struct program it = opened(text);
    struct computed computed = {taken(it.sizes.points, 1), taken(it.sizes.expressions, 1)};
    size_t count = 0;
    tacflow_remarks(&it.handle, NULL, 0, &count);
    tacflow_remark *remarks = taken(count, sizeof *remarks);
    expect_answer(tacflow_remarks(&it.handle, remarks, count, &count), NULL);
    for (size_t i = 0; i < count; i++)
        if (remarks[i].kind == TACFLOW_ALREADY_COMPUTED) computed.here[remarks[i].point] = computed.is_kept[remarks[i].name] = 1;
    struct text left = written(&it, write_kept, &computed);
    free(remarks), free(computed.here), free(computed.is_kept);
    closed(&it);
    return left;
}

static void write_undeleted(struct text *text, const struct program *it, size_t edge, uint32_t point, const void *found) {
    const uint8_t *is_dead = found;
    if (!is_dead[point]) put_statement(text, it, edge, point);
}

static void set_bit(uint64_t *set, uint32_t bit, int is) {
    set[bit / 64] = (set[bit / 64] & ~((uint64_t)1 << bit % 64)) | ((uint64_t)(is != 0) << bit % 64);
}

static void read_operand(uint64_t *live, const tacflow_operand *operand) {
    if (operand->kind == TACFLOW_VARIABLE) set_bit(live, operand->variable, 1);
}

/* Whether control goes from the statement to the next point and nowhere else. */
static int is_step(const tacflow_statement *statement) {
    return statement->kind <= TACFLOW_BINARY || statement->kind >= TACFLOW_READ;
}

/* Marks dead assignments from a point back to a statement that is more than a step. live is what is live at the point, and is followed
 * backwards, so that what only dead assignments read is found dead in the same round. Answers how many there are. */
static size_t mark_back(const struct program *it, uint32_t point, uint64_t *live, const uint8_t *doubtful, uint8_t *is_dead) {
    size_t found = 0;
    for (; it->points[point].place > 0 && is_step(&it->statements[point - 1]); point--) {
        const tacflow_statement *statement = &it->statements[point - 1];
        int sets = statement->target != TACFLOW_NONE, is_assignment = sets && statement->kind != TACFLOW_READ;
        if (is_assignment && !doubtful[point] && !(live[statement->target / 64] >> statement->target % 64 & 1)) {
            is_dead[point - 1] = 1, found++;
            continue;
        }
        if (sets) set_bit(live, statement->target, 0);
        read_operand(live, &statement->left), read_operand(live, &statement->right);
    }
    return found;
}

/* Deletes dead assignments; false where there are none, and labels alone may have changed. */
static int delete_dead(struct text *text) {
    struct program it = opened(text);
    size_t points = it.sizes.points, width = tacflow_words(0, it.sizes.variables), found = 0;
    uint8_t *flags = taken(points, 1), *doubtful = taken(points, 1), *is_dead = taken(points, 1);
    uint64_t *live = taken(points * width, sizeof *live);
    expect_answer(tacflow_doubtful(&it.handle, 0, TACFLOW_ALL_POINTS, doubtful, points), NULL);
    expect_answer(tacflow_facts_of(&it.handle, TACFLOW_LIVE, 0, TACFLOW_ALL_POINTS, 0, it.sizes.variables, flags, points, live, points * width), NULL);
    for (uint32_t point = 0; point < points; point++)
        if (it.statements[point].kind == TACFLOW_NO_STATEMENT || !is_step(&it.statements[point])) found += mark_back(&it, point, live + point * width, doubtful, is_dead);
    struct text left = written(&it, write_undeleted, is_dead);
    free(text->bytes);
    *text = left;
    free(flags), free(doubtful), free(is_dead), free(live);
    closed(&it);
    return found != 0;
}

static struct text read_file(const char *name) {
    struct text text = {NULL, 0, 0};
    char block[4096];
    size_t count;
    FILE *file = fopen(name, "rb");
    if (!file) give_up("no such file");
    while ((count = fread(block, 1, sizeof block, file)) > 0) put(&text, block, count);
    fclose(file);
    return text;
}

int main(int argc, char **argv) {
    if (argc != 2) give_up("pass FILE");
    struct text text = read_file(argv[1]);
    struct text left = with_kept_values(&text);
    while (delete_dead(&left))
        ;
    fwrite(left.bytes, 1, left.length, stdout);
    free(text.bytes), free(left.bytes);
    return fflush(stdout) != 0;
}
