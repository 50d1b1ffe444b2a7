/* tacflow: the data-flow facts of a program of three-address code, found in the caller's process.
 *
 * Facts hold at points: one before each statement of a procedure and one at its end (docs/ANALYSES.md). A program is a text
 * (docs/LANGUAGE.md). A call over a text reads it anew and keeps nothing behind; who asks often opens a handle, which keeps the program,
 * and asks that (at the end of this file). No call starts a thread or waits for anybody. What it answers is proved to be exactly what the
 * definitions say of the text (crates/tacflow_c); the checks of pointers in this header are not proved, but short.
 *
 * All memory is the caller's. Texts, names and spans are counted in bytes; lines and columns from 1; all other numbers from 0.
 * A range a..b has the numbers from a up to b - 1.
 * A call that takes room takes a pointer and how many elements it points to, and wants exactly as many as are asked for, but for bytes of names
 * and of texts, edges, remarks, what stands around these, and hops, where there may be more. tacflow_sizes tells how many there are. After a
 * status other than TACFLOW_OK nothing was written, but the place of a refusal, and the size of a text, or the number of what a list has, for
 * which there was too little room.
 *
 * Each call stands here twice: with its own name it keeps to the standard limits, and with _within at the name's end its first argument
 * says which limits (enum tacflow_limits). A program within the standard limits is answered the same within the large ones. A number of
 * no limits is told before anything else but a null pointer.
 *
 * Calls may be made by several threads at once, each with room of its own. The program's malloc, realloc and free are called.
 * Link with libtacflow.a or libtacflow.so, which need the C library alone: bindings/build makes them in bindings/lib, and where they are
 * installed pkg-config --libs tacflow has them, and CMake's find_package(tacflow) (docs/LIBRARY.md). */
#ifndef TACFLOW_H
#define TACFLOW_H

#include <stdbool.h>
#include <stddef.h>
#include <stdint.h>

#ifdef __cplusplus
extern "C" {
#endif

/* The version that this header is of: that of bindings/rust/Cargo.toml, against which bindings/check holds it. */
#define TACFLOW_VERSION_MAJOR 0
#define TACFLOW_VERSION_MINOR 1
#define TACFLOW_VERSION_PATCH 0

/* Two numbers of versions compare as the versions do: #if TACFLOW_VERSION_NUMBER >= TACFLOW_VERSION_OF(0, 1, 0). */
#define TACFLOW_VERSION_OF(major, minor, patch) ((major) * 1000000 + (minor) * 1000 + (patch))
#define TACFLOW_VERSION_NUMBER TACFLOW_VERSION_OF(TACFLOW_VERSION_MAJOR, TACFLOW_VERSION_MINOR, TACFLOW_VERSION_PATCH)

#define TACFLOW_QUOTED(word) #word
#define TACFLOW_DOTTED(major, minor, patch) TACFLOW_QUOTED(major) "." TACFLOW_QUOTED(minor) "." TACFLOW_QUOTED(patch)
#define TACFLOW_VERSION TACFLOW_DOTTED(TACFLOW_VERSION_MAJOR, TACFLOW_VERSION_MINOR, TACFLOW_VERSION_PATCH)

/* The same as text, for who can't read macros. */
static inline const char *tacflow_header_version(void) {
    return TACFLOW_VERSION;
}

/* What a call answers. */
enum tacflow_status {
    TACFLOW_OK = 0,
    TACFLOW_REFUSED = 1,          /* the text is no program: the place says why and where */
    TACFLOW_OUT_OF_MEMORY = 2,    /* memory was refused */
    TACFLOW_BAD_ANALYSIS = 3,     /* there is no analysis of this number */
    TACFLOW_BAD_RANGE = 4,        /* lo..hi are no bits of the analysis, points, variables or expressions none of the program, or it is no part */
    TACFLOW_BAD_ROOM = 5,         /* the room is not as large as the answer */
    TACFLOW_BAD_POINTER = 6,      /* a pointer is null */
    TACFLOW_BAD_LIMITS = 7,       /* there are no limits of this number */
    TACFLOW_BAD_HANDLE = 8,       /* the handle is closed where it has to be open, or open where it has to be closed */
    TACFLOW_NOT_BUILT = 9,        /* the arrays stand for no program: the place says why and where */
    TACFLOW_TOO_MANY_POINTS = 21, /* the program has more points than the limits allow: standard 16,384, large 16,777,216 */
    TACFLOW_TOO_MANY_BITS = 22    /* some analysis has more bits than the limits allow: standard 4,096, large: see tacflow_limits */
};

/* How large a text and its program may be. Too long a text is refused with number 11, too many procedures with number 12; points and bits
 * have statuses of their own. */
enum tacflow_limits {
    TACFLOW_STANDARD = 0, /* 1 MiB of text, 256 procedures, 16,384 points, 4,096 bits in each analysis */
    TACFLOW_LARGE = 1     /* 512 MiB of text, 262,144 procedures, 16,777,216 points, 4,194,304 variables and as many expressions; definitions
                           * have no limit of their own */
};

/* The analyses. The bits of reach are definitions, those of live variables, those of avail and busy expressions. */
enum tacflow_analysis {
    TACFLOW_REACH = 0, /* reaching definitions: those that some valid path brings to the point */
    TACFLOW_LIVE = 1,  /* live variables: those that some valid path from the point reads before writing them */
    TACFLOW_AVAIL = 2, /* available expressions: those that every valid path to the point evaluates, no operand written since */
    TACFLOW_BUSY = 3   /* very busy expressions: those that every valid path from the point evaluates before an operand is written */
};

/* Why a text is refused (the number of docs/LANGUAGE.md's table) and where. */
typedef struct {
    uint32_t number;
    uint32_t line;
    uint32_t column;
} tacflow_place;

/* How large a program is. */
typedef struct {
    uint32_t procedures;
    uint32_t points;
    uint32_t variables;   /* the bits of live */
    uint32_t definitions; /* the bits of reach: first one for each variable's value at the beginning, then one for each statement that sets a variable */
    uint32_t expressions; /* the bits of avail and of busy */
} tacflow_sizes_of_program;

/* A point: its procedure, how many of its statements stand before, and the line and the bytes start..end of the statement at the point.
 * These three are 0 at a procedure's end, where no statement is. */
typedef struct {
    uint32_t procedure;
    uint32_t place;
    uint32_t line;
    uint32_t start;
    uint32_t end;
} tacflow_point;

/* No point has this number. */
#define TACFLOW_NO_POINT UINT32_MAX

/* Stands for the end of all points, where a range of points ends. */
#define TACFLOW_ALL_POINTS UINT32_MAX

/* A definition: its variable, and the point of its statement, or TACFLOW_NO_POINT for the value at the beginning. */
typedef struct {
    uint32_t variable;
    uint32_t point;
} tacflow_definition;

enum tacflow_kind { TACFLOW_NOTHING = 0, TACFLOW_VARIABLE = 1, TACFLOW_NUMBER = 2 };

/* What an operator works on: its kind, and the variable's number or the number itself; the other one is 0. */
typedef struct {
    uint32_t kind;
    uint32_t variable;
    uint64_t number;
} tacflow_operand;

/* The operators, in the order of tacflow_sign. */
static const char *const tacflow_sign[] = {"+", "-", "*", "/", "%", "&", "|", "^", "<<", ">>", "<", "<=", ">", ">=", "==", "!=", "~", "!"};

/* An expression: its operator, and what stands left and right of it. A unary one has TACFLOW_NOTHING on its left. */
typedef struct {
    uint32_t operator_number;
    tacflow_operand left;
    tacflow_operand right;
} tacflow_expression;

/* A word that is asked for: of the set of an analysis at a point. The bits 64 * word to 64 * word + 63 are in it. */
typedef struct {
    uint32_t analysis;
    uint32_t point;
    uint32_t word;
} tacflow_query;

/* What is told of statements, edges, remarks, what stands around these, and hops has this number where there is none. */
#define TACFLOW_NONE UINT32_MAX

/* What a statement is; the variables x, operands y and z, operators op, labels L. */
enum tacflow_statement_kind {
    TACFLOW_NO_STATEMENT = 0, /* the point is a procedure's end */
    TACFLOW_COPY = 1,         /* x = y */
    TACFLOW_UNARY = 2,        /* x = op y */
    TACFLOW_BINARY = 3,       /* x = y op z */
    TACFLOW_GOTO = 4,         /* goto L */
    TACFLOW_IF = 5,           /* if y goto L */
    TACFLOW_IF_FALSE = 6,     /* ifFalse y goto L */
    TACFLOW_IF_COMPARE = 7,   /* if y op z goto L */
    TACFLOW_CALL = 8,         /* call p | q ..: the callees are where its edges lead */
    TACFLOW_RETURN = 9,       /* return */
    TACFLOW_READ = 10,        /* read x */
    TACFLOW_PRINT = 11,       /* print y */
    TACFLOW_SKIP = 12         /* skip */
};

/* What stands at a point. One operand, as y of the forms with no z, is on the right. */
typedef struct {
    uint32_t kind;            /* enum tacflow_statement_kind */
    uint32_t target;          /* x, the variable that is set; or TACFLOW_NONE */
    uint32_t operator_number; /* op, a number of tacflow_sign; or TACFLOW_NONE */
    uint32_t label;           /* L, its number among the labels of the procedure, in the order of the text; or TACFLOW_NONE */
    uint32_t goes_to;         /* the point that L stands for; or TACFLOW_NO_POINT */
    uint32_t expression;      /* the bit of avail and busy that the statement evaluates; or TACFLOW_NONE */
    tacflow_operand left;
    tacflow_operand right;
} tacflow_statement;

enum tacflow_edge_kind {
    TACFLOW_STEP = 0,       /* to where control may be next in the procedure */
    TACFLOW_CALL_EDGE = 1,  /* from a call to the first point of a callee */
    TACFLOW_RETURN_EDGE = 2 /* from the last point of a callee to the point behind a call */
};

/* An edge: its kind, the point of the call that a call or a return belongs to, or TACFLOW_NO_POINT for a step, and the points that it joins. */
typedef struct {
    uint32_t kind; /* enum tacflow_edge_kind */
    uint32_t site;
    uint32_t from;
    uint32_t to;
} tacflow_edge;

enum tacflow_remark_kind {
    TACFLOW_NEVER_REACHED = 0,    /* no valid path leads to the statement; it names nothing */
    TACFLOW_UNSET = 1,            /* the statement reads the variable, which may not be set there */
    TACFLOW_ALREADY_COMPUTED = 2, /* it evaluates the expression, which is available there */
    TACFLOW_VERY_BUSY = 3,        /* it is a test at which the expression is very busy */
    TACFLOW_DEAD = 4              /* no execution reads what it assigns to the variable: it can be deleted */
};

/* A remark: the point of its statement, and the variable or the expression, a bit of avail and busy, that it names. docs/ANALYSES.md says
 * which remarks may be acted on together. */
typedef struct {
    uint32_t point;
    uint32_t kind; /* enum tacflow_remark_kind */
    uint32_t name; /* or TACFLOW_NONE */
} tacflow_remark;

/* What stands around a remark, by what the remark says. A way goes on to the end of main; ways that never get there are left out. */
enum tacflow_nearby_kind {
    TACFLOW_NEXT_WRITE = 0,      /* of a dead assignment: the statement at the point may write the variable next */
    TACFLOW_END_UNWRITTEN = 1,   /* of a dead assignment: on some way nothing writes the variable any more */
    TACFLOW_LAST_EVALUATION = 2, /* of an expression that is computed already: the statement at the point may have evaluated it last */
    TACFLOW_HOLDER = 3,          /* of such a one: the variable was assigned it and holds its value, on every valid path */
    TACFLOW_NEXT_EVALUATION = 4, /* of a very busy expression: the statement at the point may evaluate it next */
    TACFLOW_LAST_REACHED = 5     /* of what is never reached: the nearest point before it in its procedure to which a valid path leads */
};

/* A statement or a variable that stands around a remark. */
typedef struct {
    uint32_t kind;     /* enum tacflow_nearby_kind */
    uint32_t point;    /* or TACFLOW_NO_POINT for a variable, and for the end of main */
    uint32_t variable; /* of TACFLOW_HOLDER; or TACFLOW_NONE */
} tacflow_nearby;

enum tacflow_hop_kind {
    TACFLOW_HOP_STEP = 0,  /* a step inside a procedure */
    TACFLOW_HOP_ENTER = 1, /* from a call to its callee's first point: the callee is not left again on the way. For live and busy from the
                            * point behind a call to its callee's last point: the call does not lie on the way */
    TACFLOW_HOP_PASS = 2   /* from a call to the point behind it, by some path through the callee that has the effect. For live and busy
                            * from the point behind the call to the call */
};

/* What a path through a callee does with the bit. */
enum tacflow_effect {
    TACFLOW_REACHES = 0,   /* nothing is said of the bit: the path is there */
    TACFLOW_GENERATES = 1, /* it has the bit at its end, whether the bit was there before or not */
    TACFLOW_PRESERVES = 2  /* no step of it kills the bit */
};

/* A hop of a path that tacflow_why tells, in the direction of the analysis: for live and busy that is against the edges. */
typedef struct {
    uint32_t kind; /* enum tacflow_hop_kind */
    uint32_t from;
    uint32_t to;
    uint32_t site;   /* the point of the call; or TACFLOW_NO_POINT for a step */
    uint32_t callee; /* the procedure that is passed; or TACFLOW_NONE for a step and a call that is left open */
    uint32_t effect; /* enum tacflow_effect, of a call that is passed; or TACFLOW_NONE */
} tacflow_hop;

/* A bit at a point that tacflow_whys is asked about, and what it tells of it. */
typedef struct {
    uint32_t point;
    uint32_t bit;
    uint32_t has; /* told: 1 where a valid path brings the bit there, else 0 */
    size_t end;   /* told: its hops are those behind the ones of the bit before it, up to this number of hops */
} tacflow_bit;

/* The longest name has so many bytes. */
#define TACFLOW_LONGEST_NAME 64

/* A statement of a program that is built of arrays. What its form has not is not looked at: a goto has a label alone. The label is the number
 * of one of its procedure, from 0; a call's procedures are `callees` of all callees from first_callee on, one to eight. The line is one's own:
 * tacflow_points_of tells it, and reports name it. */
typedef struct {
    uint32_t kind; /* enum tacflow_statement_kind, TACFLOW_COPY to TACFLOW_SKIP */
    uint32_t target;
    uint32_t operator_number; /* a number of tacflow_sign */
    uint32_t label;
    uint32_t first_callee;
    uint32_t callees;
    uint32_t line;
    tacflow_operand left;
    tacflow_operand right;
} tacflow_built_statement;

/* A procedure: how many statements, and how many labels, are its own, behind those of the procedures before it. */
typedef struct {
    uint32_t statements;
    uint32_t labels;
} tacflow_built_procedure;

/* Names, one after the other, and where each ends, as tacflow_procedures_of tells them: name n stands at ends[n - 1]..ends[n], the first from
 * 0. A name has the form of the language's, is no keyword, and stands once. */
typedef struct {
    const size_t *ends;
    size_t count;
    const char *bytes;
    size_t length;
} tacflow_names;

/* What a program is built of: procedures, one of which is called main, their statements and labels, and all callees. A label is how many
 * statements of its procedure stand before it, those of a procedure do not fall, and the first labels of each procedure have the first names
 * of labels. There are as many names of procedures as procedures; variables are the names of variables. */
typedef struct {
    const tacflow_built_procedure *procedures;
    size_t procedure_count;
    const tacflow_built_statement *statements;
    size_t statement_count;
    const uint32_t *labels;
    size_t label_count;
    const uint32_t *callees;
    size_t callee_count;
    tacflow_names procedure_names;
    tacflow_names variable_names;
    tacflow_names label_names;
} tacflow_arrays;

/* Why arrays stand for no program. */
enum tacflow_build_fault {
    TACFLOW_BAD_STATEMENT = 1,       /* what the statement of this number names is not there, or not of its form */
    TACFLOW_BAD_LABEL = 2,           /* the label of this number stands behind its procedure, or before the label ahead of it */
    TACFLOW_BAD_PROCEDURE_NAME = 3,  /* the procedure of this number has a name that is none, or that an earlier one has */
    TACFLOW_BAD_VARIABLE_NAME = 4,   /* the same of a variable */
    TACFLOW_BAD_LABEL_NAME = 5,      /* the same of a name of labels */
    TACFLOW_BAD_COUNTS = 6,          /* other counts of names, statements or labels than the procedures have, or too few names of labels */
    TACFLOW_NO_MAIN = 7,             /* no procedure is called main */
    TACFLOW_TOO_MANY_PROCEDURES = 8, /* more than the limits allow */
    TACFLOW_TOO_LONG = 9             /* more statements, labels or names than a text within the limits has bytes */
};

/* What is wrong with arrays, and which of them by number, from 0; 0 too where the fault has none. */
typedef struct {
    uint32_t fault; /* enum tacflow_build_fault */
    uint32_t number;
} tacflow_build_place;

/* The proved calls: no pointer may be null, also where it points to no element. */
uint32_t tacflow_c_sizes(const uint8_t *text, size_t length, uint32_t limits, tacflow_sizes_of_program *sizes, tacflow_place *place);
uint32_t tacflow_c_points(const uint8_t *text, size_t length, uint32_t limits, tacflow_point *points, size_t count, tacflow_place *place);
uint32_t tacflow_c_definitions(const uint8_t *text, size_t length, uint32_t limits, tacflow_definition *definitions, size_t count,
                               tacflow_place *place);
uint32_t tacflow_c_expressions(const uint8_t *text, size_t length, uint32_t limits, tacflow_expression *expressions, size_t count,
                               tacflow_place *place);
uint32_t tacflow_c_procedures(const uint8_t *text, size_t length, uint32_t limits, size_t *ends, size_t count, uint8_t *bytes, size_t room,
                              tacflow_place *place);
uint32_t tacflow_c_variables(const uint8_t *text, size_t length, uint32_t limits, size_t *ends, size_t count, uint8_t *bytes, size_t room,
                             tacflow_place *place);
uint32_t tacflow_c_listing(const uint8_t *text, size_t length, uint32_t limits, uint8_t *bytes, size_t room, size_t *size, tacflow_place *place);
uint32_t tacflow_c_report(const uint8_t *text, size_t length, uint32_t limits, uint8_t *bytes, size_t room, size_t *size, tacflow_place *place);
uint32_t tacflow_c_report_part(const uint8_t *text, size_t length, uint32_t limits, uint32_t part, uint32_t count, uint8_t *bytes, size_t room,
                               size_t *size, tacflow_place *place);
uint32_t tacflow_c_facts(const uint8_t *text, size_t length, uint32_t limits, uint32_t analysis, uint32_t first_point, uint32_t end_point,
                         uint32_t lo, uint32_t hi, uint8_t *flags, size_t flag_count, uint64_t *words, size_t word_count, tacflow_place *place);

uint32_t tacflow_c_message(uint32_t status, const tacflow_place *place, uint8_t *bytes, size_t room, size_t *size);

/* Memory that a null pointer to no elements stands for. */
static inline void *tacflow_some(const void *pointer, size_t count, void *nothing) {
    return pointer || count ? (void *)(uintptr_t)pointer : nothing;
}

/* What a status says, in one line without its end and without a zero, and how many bytes that has: for TACFLOW_REFUSED
 * `LINE:COLUMN: refusal NUMBER: NAME`, as the programs tell it, by the place that the call told; for others no place is needed, and place may
 * be null. Where there is room for fewer bytes, the status is TACFLOW_BAD_ROOM and size alone is written; 96 are always enough. */
static inline int tacflow_message(int status, const tacflow_place *place, char *bytes, size_t room, size_t *size) {
    static const tacflow_place none = {0, 0, 0};
    uint64_t nothing = 0;
    bytes = (char *)tacflow_some(bytes, room, &nothing);
    if (!bytes || !size || (status == TACFLOW_REFUSED && !place)) return TACFLOW_BAD_POINTER;
    return (int)tacflow_c_message((uint32_t)status, place ? place : &none, (uint8_t *)bytes, room, size);
}

/* How large a text's program is. */
static inline int tacflow_sizes_within(int limits, const char *text, size_t length, tacflow_sizes_of_program *sizes, tacflow_place *place) {
    uint64_t nothing = 0;
    const uint8_t *bytes = (const uint8_t *)tacflow_some(text, length, &nothing);
    if (!bytes || !sizes || !place) return TACFLOW_BAD_POINTER;
    return (int)tacflow_c_sizes(bytes, length, (uint32_t)limits, sizes, place);
}

static inline int tacflow_sizes(const char *text, size_t length, tacflow_sizes_of_program *sizes, tacflow_place *place) {
    return tacflow_sizes_within(TACFLOW_STANDARD, text, length, sizes, place);
}

/* What each point is. count is the number of points. */
static inline int tacflow_points_within(int limits, const char *text, size_t length, tacflow_point *points, size_t count, tacflow_place *place) {
    uint64_t nothing = 0;
    const uint8_t *bytes = (const uint8_t *)tacflow_some(text, length, &nothing);
    points = (tacflow_point *)tacflow_some(points, count, &nothing);
    if (!bytes || !points || !place) return TACFLOW_BAD_POINTER;
    return (int)tacflow_c_points(bytes, length, (uint32_t)limits, points, count, place);
}

static inline int tacflow_points(const char *text, size_t length, tacflow_point *points, size_t count, tacflow_place *place) {
    return tacflow_points_within(TACFLOW_STANDARD, text, length, points, count, place);
}

/* What each definition is, by its bit. count is the number of definitions. */
static inline int tacflow_definitions_within(int limits, const char *text, size_t length, tacflow_definition *definitions, size_t count,
                                             tacflow_place *place) {
    uint64_t nothing = 0;
    const uint8_t *bytes = (const uint8_t *)tacflow_some(text, length, &nothing);
    definitions = (tacflow_definition *)tacflow_some(definitions, count, &nothing);
    if (!bytes || !definitions || !place) return TACFLOW_BAD_POINTER;
    return (int)tacflow_c_definitions(bytes, length, (uint32_t)limits, definitions, count, place);
}

static inline int tacflow_definitions(const char *text, size_t length, tacflow_definition *definitions, size_t count, tacflow_place *place) {
    return tacflow_definitions_within(TACFLOW_STANDARD, text, length, definitions, count, place);
}

/* What each expression is, by its bit. count is the number of expressions. */
static inline int tacflow_expressions_within(int limits, const char *text, size_t length, tacflow_expression *expressions, size_t count,
                                             tacflow_place *place) {
    uint64_t nothing = 0;
    const uint8_t *bytes = (const uint8_t *)tacflow_some(text, length, &nothing);
    expressions = (tacflow_expression *)tacflow_some(expressions, count, &nothing);
    if (!bytes || !expressions || !place) return TACFLOW_BAD_POINTER;
    return (int)tacflow_c_expressions(bytes, length, (uint32_t)limits, expressions, count, place);
}

static inline int tacflow_expressions(const char *text, size_t length, tacflow_expression *expressions, size_t count, tacflow_place *place) {
    return tacflow_expressions_within(TACFLOW_STANDARD, text, length, expressions, count, place);
}

/* The names of the procedures, one after the other, and where each ends: name n stands at ends[n - 1]..ends[n], the first from 0.
 * count is the number of procedures, and 64 bytes for each are always room enough. What is left of the bytes stays as it is. */
static inline int tacflow_procedures_within(int limits, const char *text, size_t length, size_t *ends, size_t count, char *names, size_t room,
                                            tacflow_place *place) {
    uint64_t nothing = 0;
    const uint8_t *bytes = (const uint8_t *)tacflow_some(text, length, &nothing);
    ends = (size_t *)tacflow_some(ends, count, &nothing);
    names = (char *)tacflow_some(names, room, &nothing);
    if (!bytes || !ends || !names || !place) return TACFLOW_BAD_POINTER;
    return (int)tacflow_c_procedures(bytes, length, (uint32_t)limits, ends, count, (uint8_t *)names, room, place);
}

static inline int tacflow_procedures(const char *text, size_t length, size_t *ends, size_t count, char *names, size_t room, tacflow_place *place) {
    return tacflow_procedures_within(TACFLOW_STANDARD, text, length, ends, count, names, room, place);
}

/* The same of the variables. */
static inline int tacflow_variables_within(int limits, const char *text, size_t length, size_t *ends, size_t count, char *names, size_t room,
                                           tacflow_place *place) {
    uint64_t nothing = 0;
    const uint8_t *bytes = (const uint8_t *)tacflow_some(text, length, &nothing);
    ends = (size_t *)tacflow_some(ends, count, &nothing);
    names = (char *)tacflow_some(names, room, &nothing);
    if (!bytes || !ends || !names || !place) return TACFLOW_BAD_POINTER;
    return (int)tacflow_c_variables(bytes, length, (uint32_t)limits, ends, count, (uint8_t *)names, room, place);
}

static inline int tacflow_variables(const char *text, size_t length, size_t *ends, size_t count, char *names, size_t room, tacflow_place *place) {
    return tacflow_variables_within(TACFLOW_STANDARD, text, length, ends, count, names, room, place);
}

/* How many words each point has in the facts of the bits lo..hi. */
static inline size_t tacflow_words(uint32_t lo, uint32_t hi) {
    return (size_t)(hi / 64 + (hi % 64 != 0)) - lo / 64;
}

/* The facts of an analysis at the points first_point..end_point, on the bits lo..hi: for each of these points a flag, 1 where some valid
 * path leads to it (for live and busy: from it to the end of main) and else 0, and its words, the points one after the other. Of point p
 * row p - first_point tells: flags[row], and bit b of lo..hi is in the set exactly where bit b % 64 of
 * words[row * tacflow_words(lo, hi) + b / 64 - lo / 64] is 1; all other places are 0. flag_count is the number of these points, end_point
 * less first_point, and word_count that number times tacflow_words(lo, hi).
 *
 * first_point <= end_point <= the number of points, for which TACFLOW_ALL_POINTS stands; lo <= hi <= the number of the analysis's bits;
 * else TACFLOW_BAD_RANGE. A procedure's points stand one after the other, procedures in the order of the text, so that a range has those
 * of one procedure. Each call finds the facts of all points, whichever it is asked for: fewer
 * points need less room, and fewer bits less time too. Several threads may each ask for a range of bits of their own. The words of
 * all points and bits of the largest programs would have 144 GiB. */
static inline int tacflow_facts_within(int limits, const char *text, size_t length, int analysis, uint32_t first_point, uint32_t end_point,
                                       uint32_t lo, uint32_t hi, uint8_t *flags, size_t flag_count, uint64_t *words, size_t word_count,
                                       tacflow_place *place) {
    uint64_t nothing = 0;
    const uint8_t *bytes = (const uint8_t *)tacflow_some(text, length, &nothing);
    flags = (uint8_t *)tacflow_some(flags, flag_count, &nothing);
    words = (uint64_t *)tacflow_some(words, word_count, &nothing);
    if (!bytes || !flags || !words || !place) return TACFLOW_BAD_POINTER;
    return (int)tacflow_c_facts(bytes, length, (uint32_t)limits, (uint32_t)analysis, first_point, end_point, lo, hi, flags, flag_count, words,
                                word_count, place);
}

/* The same at all points: flag_count is the number of points. */
static inline int tacflow_facts(const char *text, size_t length, int analysis, uint32_t lo, uint32_t hi, uint8_t *flags, size_t flag_count,
                                uint64_t *words, size_t word_count, tacflow_place *place) {
    return tacflow_facts_within(TACFLOW_STANDARD, text, length, analysis, 0, TACFLOW_ALL_POINTS, lo, hi, flags, flag_count, words, word_count, place);
}

/* The program in one layout, as `tacflow --show list` writes it, and how many bytes that has. Where there is room for fewer, the status is
 * TACFLOW_BAD_ROOM and size alone is written; so a call with no room tells how much is needed. What is left of the room stays as it is. */
static inline int tacflow_listing_within(int limits, const char *text, size_t length, char *bytes, size_t room, size_t *size, tacflow_place *place) {
    uint64_t nothing = 0;
    const uint8_t *from = (const uint8_t *)tacflow_some(text, length, &nothing);
    bytes = (char *)tacflow_some(bytes, room, &nothing);
    if (!from || !bytes || !size || !place) return TACFLOW_BAD_POINTER;
    return (int)tacflow_c_listing(from, length, (uint32_t)limits, (uint8_t *)bytes, room, size, place);
}

static inline int tacflow_listing(const char *text, size_t length, char *bytes, size_t room, size_t *size, tacflow_place *place) {
    return tacflow_listing_within(TACFLOW_STANDARD, text, length, bytes, room, size, place);
}

/* The report, as `tacflow` writes it, in the same way. It is made on the calling thread. */
static inline int tacflow_report_within(int limits, const char *text, size_t length, char *bytes, size_t room, size_t *size, tacflow_place *place) {
    uint64_t nothing = 0;
    const uint8_t *from = (const uint8_t *)tacflow_some(text, length, &nothing);
    bytes = (char *)tacflow_some(bytes, room, &nothing);
    if (!from || !bytes || !size || !place) return TACFLOW_BAD_POINTER;
    return (int)tacflow_c_report(from, length, (uint32_t)limits, (uint8_t *)bytes, room, size, place);
}

static inline int tacflow_report(const char *text, size_t length, char *bytes, size_t room, size_t *size, tacflow_place *place) {
    return tacflow_report_within(TACFLOW_STANDARD, text, length, bytes, room, size, place);
}

/* Part `part` of the report cut into count parts, as `tacview --format report --part PART/COUNT` writes it, in the same way: what
 * `tacview --merge` makes of all parts of a program, in any order, is the report. 1 <= part <= count <= 4096, else TACFLOW_BAD_RANGE. Several
 * processes or machines may each make a part. */
static inline int tacflow_report_part_within(int limits, const char *text, size_t length, uint32_t part, uint32_t count, char *bytes, size_t room,
                                             size_t *size, tacflow_place *place) {
    uint64_t nothing = 0;
    const uint8_t *from = (const uint8_t *)tacflow_some(text, length, &nothing);
    bytes = (char *)tacflow_some(bytes, room, &nothing);
    if (!from || !bytes || !size || !place) return TACFLOW_BAD_POINTER;
    return (int)tacflow_c_report_part(from, length, (uint32_t)limits, part, count, (uint8_t *)bytes, room, size, place);
}

static inline int tacflow_report_part(const char *text, size_t length, uint32_t part, uint32_t count, char *bytes, size_t room, size_t *size,
                                      tacflow_place *place) {
    return tacflow_report_part_within(TACFLOW_STANDARD, text, length, part, count, bytes, room, size, place);
}

/* Handles. A handle keeps the program of one text, with where its paths lead, and each call over it answers what the call over the text
 * does, in a fraction of its time where few bits are asked for. tacflow_open begins it; tacflow_close ends it, and frees what it keeps. It
 * is a variable of the caller's:
 *
 *     tacflow_handle handle = TACFLOW_CLOSED;
 *
 * A closed handle that is asked or closed, and an open one that is opened, are answered TACFLOW_BAD_HANDLE. After any other status than
 * TACFLOW_OK the handle is as it was, open or closed, and so is the caller's room. The caller has to see to this, for nothing checks it:
 *
 * 1. A handle begins as TACFLOW_CLOSED, and the calls alone change it.
 * 2. An open handle may be moved to another place, but is never used by two copies.
 * 3. A handle is in one call at a time. Each thread has one of its own (tacflow_share).
 * 4. It goes to another thread by a lock, by the thread's start or end, or by an atomic variable.
 * 5. A room overlaps neither the handle nor another room. */
typedef struct {
    bool is_open;
    struct {
        void *at; /* the library's alone */
    } held;
} tacflow_handle;

#define TACFLOW_CLOSED {false, {NULL}}

/* The proved calls: no pointer may be null, also where it points to no element. */
uint32_t tacflow_c_open(const uint8_t *text, size_t length, uint32_t limits, tacflow_handle *handle, tacflow_place *place);
uint32_t tacflow_c_build(const tacflow_built_procedure *procedures, size_t procedure_count, const tacflow_built_statement *statements,
                         size_t statement_count, const uint32_t *labels, size_t label_count, const uint32_t *callees, size_t callee_count,
                         const size_t *procedure_ends, size_t procedure_end_count, const uint8_t *procedure_names, size_t procedure_bytes,
                         const size_t *variable_ends, size_t variable_end_count, const uint8_t *variable_names, size_t variable_bytes,
                         const size_t *label_ends, size_t label_end_count, const uint8_t *label_names, size_t label_bytes, uint32_t limits,
                         tacflow_handle *handle, tacflow_build_place *place);
uint32_t tacflow_c_share(tacflow_handle *handle, tacflow_handle *other);
uint32_t tacflow_c_close(tacflow_handle *handle);
uint32_t tacflow_c_sizes_of(tacflow_handle *handle, tacflow_sizes_of_program *sizes);
uint32_t tacflow_c_points_of(tacflow_handle *handle, tacflow_point *points, size_t count);
uint32_t tacflow_c_definitions_of(tacflow_handle *handle, tacflow_definition *definitions, size_t count);
uint32_t tacflow_c_expressions_of(tacflow_handle *handle, tacflow_expression *expressions, size_t count);
uint32_t tacflow_c_procedures_of(tacflow_handle *handle, size_t *ends, size_t count, uint8_t *bytes, size_t room);
uint32_t tacflow_c_variables_of(tacflow_handle *handle, size_t *ends, size_t count, uint8_t *bytes, size_t room);
uint32_t tacflow_c_facts_of(tacflow_handle *handle, uint32_t analysis, uint32_t first_point, uint32_t end_point, uint32_t lo, uint32_t hi,
                            uint8_t *flags, size_t flag_count, uint64_t *words, size_t word_count);
uint32_t tacflow_c_ask(tacflow_handle *handle, const tacflow_query *queries, size_t count, uint64_t *words, size_t word_count);
uint32_t tacflow_c_has_path(tacflow_handle *handle, uint32_t analysis, uint32_t first_point, uint32_t end_point, uint8_t *flags, size_t count);
uint32_t tacflow_c_doubtful(tacflow_handle *handle, uint32_t first_point, uint32_t end_point, uint8_t *flags, size_t count);
uint32_t tacflow_c_statements(tacflow_handle *handle, tacflow_statement *statements, size_t count);
uint32_t tacflow_c_edges(tacflow_handle *handle, uint32_t first_point, uint32_t end_point, tacflow_edge *edges, size_t room, size_t *count);
uint32_t tacflow_c_remarks(tacflow_handle *handle, tacflow_remark *remarks, size_t room, size_t *count);
uint32_t tacflow_c_around(tacflow_handle *handle, const tacflow_remark *remark, tacflow_nearby *nearby, size_t room, size_t *count);
uint32_t tacflow_c_doubt_origin(tacflow_handle *handle, uint32_t point, uint32_t *origin);
uint32_t tacflow_c_why(tacflow_handle *handle, uint32_t analysis, uint32_t point, uint32_t bit, tacflow_hop *hops, size_t room, size_t *count,
                       uint32_t *has);
uint32_t tacflow_c_whys(tacflow_handle *handle, uint32_t analysis, tacflow_bit *bits, size_t bit_count, tacflow_hop *hops, size_t room,
                        size_t *count);
uint32_t tacflow_c_listing_of(tacflow_handle *handle, uint8_t *bytes, size_t room, size_t *size);
uint32_t tacflow_c_report_of(tacflow_handle *handle, uint8_t *bytes, size_t room, size_t *size);

/* Opens a closed handle with the program of a text within limits. The text is not needed afterwards. */
static inline int tacflow_open_within(int limits, const char *text, size_t length, tacflow_handle *handle, tacflow_place *place) {
    uint64_t nothing = 0;
    const uint8_t *bytes = (const uint8_t *)tacflow_some(text, length, &nothing);
    if (!bytes || !handle || !place) return TACFLOW_BAD_POINTER;
    return (int)tacflow_c_open(bytes, length, (uint32_t)limits, handle, place);
}

static inline int tacflow_open(const char *text, size_t length, tacflow_handle *handle, tacflow_place *place) {
    return tacflow_open_within(TACFLOW_STANDARD, text, length, handle, place);
}

/* Opens a closed handle with the program that arrays stand for, within limits: without a text, in a fraction of the time. The handle keeps
 * exactly that program, and answers of it as of a text's: bits, points and labels are numbered as the arrays number them, and a point's bytes
 * are 0..0. TACFLOW_NOT_BUILT: the arrays stand for no program, and the place says why and where. The arrays are not needed afterwards. */
static inline int tacflow_build_within(int limits, const tacflow_arrays *it, tacflow_handle *handle, tacflow_build_place *place) {
    uint64_t nothing = 0;
    if (!it || !handle || !place) return TACFLOW_BAD_POINTER;
    const tacflow_names *p = &it->procedure_names, *v = &it->variable_names, *l = &it->label_names;
    const void *parts[10] = {
        tacflow_some(it->procedures, it->procedure_count, &nothing), tacflow_some(it->statements, it->statement_count, &nothing),
        tacflow_some(it->labels, it->label_count, &nothing),         tacflow_some(it->callees, it->callee_count, &nothing),
        tacflow_some(p->ends, p->count, &nothing),                   tacflow_some(p->bytes, p->length, &nothing),
        tacflow_some(v->ends, v->count, &nothing),                   tacflow_some(v->bytes, v->length, &nothing),
        tacflow_some(l->ends, l->count, &nothing),                   tacflow_some(l->bytes, l->length, &nothing),
    };
    for (int part = 0; part < 10; part++)
        if (!parts[part]) return TACFLOW_BAD_POINTER;
    return (int)tacflow_c_build((const tacflow_built_procedure *)parts[0], it->procedure_count, (const tacflow_built_statement *)parts[1],
                                it->statement_count, (const uint32_t *)parts[2], it->label_count, (const uint32_t *)parts[3], it->callee_count,
                                (const size_t *)parts[4], p->count, (const uint8_t *)parts[5], p->length, (const size_t *)parts[6], v->count,
                                (const uint8_t *)parts[7], v->length, (const size_t *)parts[8], l->count, (const uint8_t *)parts[9], l->length,
                                (uint32_t)limits, handle, place);
}

static inline int tacflow_build(const tacflow_arrays *arrays, tacflow_handle *handle, tacflow_build_place *place) {
    return tacflow_build_within(TACFLOW_STANDARD, arrays, handle, place);
}

/* Names for who has none: a letter and a number each, from 0 on, as v0, v1 and so on. There is an end for each, and room for 12 bytes each.
 * Answers how many bytes they have. */
static inline size_t tacflow_numbered(char letter, size_t count, size_t *ends, char *bytes) {
    size_t at = 0;
    for (size_t number = 0; number < count; number++) {
        size_t width = 1;
        for (size_t rest = number; rest >= 10; rest /= 10) width++;
        bytes[at] = letter;
        for (size_t place = width, rest = number; place > 0; place--, rest /= 10) bytes[at + place] = (char)('0' + rest % 10);
        ends[number] = at += width + 1;
    }
    return at;
}

/* Opens a closed handle with what an open one keeps, which is not copied: for another thread. What they keep is freed with the last. */
static inline int tacflow_share(tacflow_handle *handle, tacflow_handle *other) {
    if (!handle || !other || handle == other) return TACFLOW_BAD_POINTER;
    return (int)tacflow_c_share(handle, other);
}

/* Closes an open handle. */
static inline int tacflow_close(tacflow_handle *handle) {
    if (!handle) return TACFLOW_BAD_POINTER;
    return (int)tacflow_c_close(handle);
}

/* The calls over a text, each over an open handle. */
static inline int tacflow_sizes_of(tacflow_handle *handle, tacflow_sizes_of_program *sizes) {
    if (!handle || !sizes) return TACFLOW_BAD_POINTER;
    return (int)tacflow_c_sizes_of(handle, sizes);
}

static inline int tacflow_points_of(tacflow_handle *handle, tacflow_point *points, size_t count) {
    uint64_t nothing = 0;
    points = (tacflow_point *)tacflow_some(points, count, &nothing);
    if (!handle || !points) return TACFLOW_BAD_POINTER;
    return (int)tacflow_c_points_of(handle, points, count);
}

static inline int tacflow_definitions_of(tacflow_handle *handle, tacflow_definition *definitions, size_t count) {
    uint64_t nothing = 0;
    definitions = (tacflow_definition *)tacflow_some(definitions, count, &nothing);
    if (!handle || !definitions) return TACFLOW_BAD_POINTER;
    return (int)tacflow_c_definitions_of(handle, definitions, count);
}

static inline int tacflow_expressions_of(tacflow_handle *handle, tacflow_expression *expressions, size_t count) {
    uint64_t nothing = 0;
    expressions = (tacflow_expression *)tacflow_some(expressions, count, &nothing);
    if (!handle || !expressions) return TACFLOW_BAD_POINTER;
    return (int)tacflow_c_expressions_of(handle, expressions, count);
}

static inline int tacflow_procedures_of(tacflow_handle *handle, size_t *ends, size_t count, char *names, size_t room) {
    uint64_t nothing = 0;
    ends = (size_t *)tacflow_some(ends, count, &nothing);
    names = (char *)tacflow_some(names, room, &nothing);
    if (!handle || !ends || !names) return TACFLOW_BAD_POINTER;
    return (int)tacflow_c_procedures_of(handle, ends, count, (uint8_t *)names, room);
}

static inline int tacflow_variables_of(tacflow_handle *handle, size_t *ends, size_t count, char *names, size_t room) {
    uint64_t nothing = 0;
    ends = (size_t *)tacflow_some(ends, count, &nothing);
    names = (char *)tacflow_some(names, room, &nothing);
    if (!handle || !ends || !names) return TACFLOW_BAD_POINTER;
    return (int)tacflow_c_variables_of(handle, ends, count, (uint8_t *)names, room);
}

static inline int tacflow_facts_of(tacflow_handle *handle, int analysis, uint32_t first_point, uint32_t end_point, uint32_t lo, uint32_t hi,
                                   uint8_t *flags, size_t flag_count, uint64_t *words, size_t word_count) {
    uint64_t nothing = 0;
    flags = (uint8_t *)tacflow_some(flags, flag_count, &nothing);
    words = (uint64_t *)tacflow_some(words, word_count, &nothing);
    if (!handle || !flags || !words) return TACFLOW_BAD_POINTER;
    return (int)tacflow_c_facts_of(handle, (uint32_t)analysis, first_point, end_point, lo, hi, flags, flag_count, words, word_count);
}

/* The words that are asked for, in any order and of all analyses: words[i] is the answer to queries[i]. Bit b of an analysis is in the word
 * b / 64, where it is number b % 64; bits that the analysis has not are 0. Words are found four or eight of an analysis at a time,
 * each once, however many queries ask for it. TACFLOW_BAD_ANALYSIS and TACFLOW_BAD_RANGE: some query's analysis, point or word is not
 * there. TACFLOW_BAD_ROOM: there are 2^32 queries or more. */
static inline int tacflow_ask(tacflow_handle *handle, const tacflow_query *queries, size_t count, uint64_t *words) {
    uint64_t nothing = 0;
    const tacflow_query *from = (const tacflow_query *)tacflow_some(queries, count, &nothing);
    words = (uint64_t *)tacflow_some(words, count, &nothing);
    if (!handle || !from || !words) return TACFLOW_BAD_POINTER;
    return (int)tacflow_c_ask(handle, from, count, words, count);
}

/* Which of the points first_point..end_point have a valid path: from the beginning of main, or for live and busy to its end. flags[i] is 1
 * where point first_point + i has one, and else 0; it is the flag of tacflow_facts, and nothing is solved for it. count is end_point less
 * first_point. TACFLOW_ALL_POINTS stands for the number of points. TACFLOW_BAD_RANGE: these are no points of the program. */
static inline int tacflow_has_path(tacflow_handle *handle, int analysis, uint32_t first_point, uint32_t end_point, uint8_t *flags, size_t count) {
    uint64_t nothing = 0;
    flags = (uint8_t *)tacflow_some(flags, count, &nothing);
    if (!handle || !flags) return TACFLOW_BAD_POINTER;
    return (int)tacflow_c_has_path(handle, (uint32_t)analysis, first_point, end_point, flags, count);
}

/* Which of the points are doubtful (docs/ANALYSES.md): flags[i] is 1 where some path leads from point first_point + i to a point that has no
 * valid path to the end of main, as where a loop may never end, and else 0. Ranges and room as for tacflow_has_path. A variable that is not
 * live at a point that is not doubtful is read by no execution from there on before it is written, not even by one that never ends. */
static inline int tacflow_doubtful(tacflow_handle *handle, uint32_t first_point, uint32_t end_point, uint8_t *flags, size_t count) {
    uint64_t nothing = 0;
    flags = (uint8_t *)tacflow_some(flags, count, &nothing);
    if (!handle || !flags) return TACFLOW_BAD_POINTER;
    return (int)tacflow_c_doubtful(handle, first_point, end_point, flags, count);
}

/* What stands at each point. count is the number of points. */
static inline int tacflow_statements(tacflow_handle *handle, tacflow_statement *statements, size_t count) {
    uint64_t nothing = 0;
    statements = (tacflow_statement *)tacflow_some(statements, count, &nothing);
    if (!handle || !statements) return TACFLOW_BAD_POINTER;
    return (int)tacflow_c_statements(handle, statements, count);
}

/* The edges that leave the points first_point..end_point, in the order of these points, and how many they are. A test whose outcomes lead to
 * one point has one edge. A call's edges lead to the first points of its callees, in the order of the text; from a procedure's last point
 * there is one return for each call of it, in the order of points. Where there is room for fewer, the status is TACFLOW_BAD_ROOM and count
 * alone is written, so a call with no room tells how much is needed; what is left of the room stays as it is. Ranges as for
 * tacflow_has_path. */
static inline int tacflow_edges(tacflow_handle *handle, uint32_t first_point, uint32_t end_point, tacflow_edge *edges, size_t room, size_t *count) {
    uint64_t nothing = 0;
    edges = (tacflow_edge *)tacflow_some(edges, room, &nothing);
    if (!handle || !edges || !count) return TACFLOW_BAD_POINTER;
    return (int)tacflow_c_edges(handle, first_point, end_point, edges, room, count);
}

/* The remarks on the program, one for each line of its report behind the first and in the same order, and how many they are. Room and count
 * as for tacflow_edges. They are found anew by each call. */
static inline int tacflow_remarks(tacflow_handle *handle, tacflow_remark *remarks, size_t room, size_t *count) {
    uint64_t nothing = 0;
    remarks = (tacflow_remark *)tacflow_some(remarks, room, &nothing);
    if (!handle || !remarks || !count) return TACFLOW_BAD_POINTER;
    return (int)tacflow_c_remarks(handle, remarks, room, count);
}

/* What stands around a remark, and how much that is: kind by kind in the order of tacflow_nearby_kind, points and variables of a kind rising.
 * Each list is whole: what is not told is not there. Around a variable that may be used before it is set nothing is told; tacflow_why has a
 * path for TACFLOW_REACH, the remark's point, and the variable's number as the bit. Room and count as for tacflow_edges.
 *
 * The remark need not be one of tacflow_remarks: at any point its numbers are answered as they say. TACFLOW_BAD_RANGE: there is no such kind of
 * remark, or the program has no such point, variable or expression, or for TACFLOW_DEAD no point behind it. Each call makes one search over the
 * program for each statement that writes the variable or evaluates the expression, and one for each variable that is assigned it. */
static inline int tacflow_around(tacflow_handle *handle, const tacflow_remark *remark, tacflow_nearby *nearby, size_t room, size_t *count) {
    uint64_t nothing = 0;
    nearby = (tacflow_nearby *)tacflow_some(nearby, room, &nothing);
    if (!handle || !remark || !nearby || !count) return TACFLOW_BAD_POINTER;
    return (int)tacflow_c_around(handle, remark, nearby, room, count);
}

/* Why a point is doubtful, so that no dead assignment and no very busy expression is told there: *origin is a point to which some path from it
 * leads, and which has no valid path to the end of main. It may be the point itself. TACFLOW_NO_POINT: the point is not doubtful.
 * TACFLOW_BAD_RANGE: there is no such point. Each call goes over each edge at most once. */
static inline int tacflow_doubt_origin(tacflow_handle *handle, uint32_t point, uint32_t *origin) {
    if (!handle || !origin) return TACFLOW_BAD_POINTER;
    return (int)tacflow_c_doubt_origin(handle, point, origin);
}

/* Why a bit of an analysis is in the set of a point: *has is 1, and the hops are those of a valid path that brings it there; or *has and *count
 * are 0, and no valid path does. The first hop begins at the first point of main, for live and busy at its last, each one where the one before
 * ended, and the last ends at the point. Where *has is 1 and *count is 0, the point is that first one, and has the bit from the beginning.
 *
 * For avail and busy the path is one on which the expression is *not* available or anticipated: it shows why the bit is not in the set, and
 * *has is 0 where it is. A call that is passed as a whole stands for any path through the callee with the effect: whichever is put in its
 * place, the path brings the bit.
 *
 * There are at most twice as many hops as points. Room and count as for tacflow_edges: where there is too little room, *has is not written.
 * TACFLOW_BAD_ANALYSIS and TACFLOW_BAD_RANGE: there is no such analysis, or else no such point or bit of it. Each call is one search over the
 * program, which takes time as its points and edges have it. */
static inline int tacflow_why(tacflow_handle *handle, int analysis, uint32_t point, uint32_t bit, tacflow_hop *hops, size_t room, size_t *count,
                              uint32_t *has) {
    uint64_t nothing = 0;
    hops = (tacflow_hop *)tacflow_some(hops, room, &nothing);
    if (!handle || !hops || !count || !has) return TACFLOW_BAD_POINTER;
    return (int)tacflow_c_why(handle, (uint32_t)analysis, point, bit, hops, room, count, has);
}

/* The same of many bits of an analysis at once, in any order: of each *has* is told, and where its hops end. Those of all bits stand one after
 * the other: the first bit's are 0..bits[0].end, those of bit n bits[n - 1].end..bits[n].end. Room and count as for tacflow_edges; where there is
 * too little room nothing is told of the bits. What stands alike in tacflow_why is as there.
 *
 * What every bit needs of the program is made once. Each bit then takes one search, and bits that are equal and stand one after the other
 * take one together: who asks about a bit at many points puts them side by side. */
static inline int tacflow_whys(tacflow_handle *handle, int analysis, tacflow_bit *bits, size_t bit_count, tacflow_hop *hops, size_t room,
                               size_t *count) {
    uint64_t nothing = 0;
    bits = (tacflow_bit *)tacflow_some(bits, bit_count, &nothing);
    hops = (tacflow_hop *)tacflow_some(hops, room, &nothing);
    if (!handle || !bits || !hops || !count) return TACFLOW_BAD_POINTER;
    return (int)tacflow_c_whys(handle, (uint32_t)analysis, bits, bit_count, hops, room, count);
}

static inline int tacflow_listing_of(tacflow_handle *handle, char *bytes, size_t room, size_t *size) {
    uint64_t nothing = 0;
    bytes = (char *)tacflow_some(bytes, room, &nothing);
    if (!handle || !bytes || !size) return TACFLOW_BAD_POINTER;
    return (int)tacflow_c_listing_of(handle, (uint8_t *)bytes, room, size);
}

static inline int tacflow_report_of(tacflow_handle *handle, char *bytes, size_t room, size_t *size) {
    uint64_t nothing = 0;
    bytes = (char *)tacflow_some(bytes, room, &nothing);
    if (!handle || !bytes || !size) return TACFLOW_BAD_POINTER;
    return (int)tacflow_c_report_of(handle, (uint8_t *)bytes, room, size);
}

#ifdef __cplusplus
}
#endif

#endif
