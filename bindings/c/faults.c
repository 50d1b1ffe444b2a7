/* What each call answers to bad input: an error number, and nothing written. Prints one line for each that goes wrong. */
#include "tacflow.h"

#include <stdio.h>
#include <string.h>

static int wrong;

static void expect(const char *what, int wanted, int got) {
    if (wanted != got) {
        printf("%s: status %d in place of %d\n", what, got, wanted);
        wrong = 1;
    }
}

/* Three points, two variables, three definitions, one expression. */
static const char text[] = "proc main\n  x = y + 1\n  print x\nend\n";
static const char no_program[] = "proc main\n  x = = 1\nend\n";
static const size_t length = sizeof text - 1;
static tacflow_place place = {7, 7, 7};

/* What is live at points from..until: room for so many flags and words. */
static int live_at(uint32_t from, uint32_t until, uint8_t *flags, size_t flag_count, uint64_t *words, size_t word_count) {
    return tacflow_facts_within(TACFLOW_STANDARD, text, length, TACFLOW_LIVE, from, until, 0, 2, flags, flag_count, words, word_count, &place);
}

/* Ranges of points: bad ones, and what is told of good ones. */
static void ranges_of_points(void) {
    uint8_t flags[4];
    uint64_t words[4], before[4];
    memset(words, 0x55, sizeof words), memset(before, 0x55, sizeof before), memset(flags, 9, sizeof flags);
    expect("points turned round", TACFLOW_BAD_RANGE, live_at(2, 1, flags, 1, words, 1));
    expect("points too far", TACFLOW_BAD_RANGE, live_at(0, 4, flags, 4, words, 4));
    expect("no such points", TACFLOW_BAD_RANGE, live_at(4, 4, NULL, 0, NULL, 0));
    expect("from behind the end", TACFLOW_BAD_RANGE, live_at(4, TACFLOW_ALL_POINTS, NULL, 0, NULL, 0));
    expect("room for all points", TACFLOW_BAD_ROOM, live_at(1, 3, flags, 3, words, 3));
    expect("room for a point less", TACFLOW_BAD_ROOM, live_at(1, TACFLOW_ALL_POINTS, flags, 1, words, 1));
    if (memcmp(words, before, sizeof words) || flags[0] != 9) wrong = puts("bad points: something was written") || 1;
    expect("two points", TACFLOW_OK, live_at(1, 3, flags, 2, words, 2));
    if (words[0] != 1 || words[1] != 0 || words[2] != before[2] || flags[0] != 1 || flags[1] != 1 || flags[2] != 9)
        wrong = puts("two points: others than by hand") || 1;
    memset(words, 0x55, sizeof words);
    expect("the last two points", TACFLOW_OK, live_at(1, TACFLOW_ALL_POINTS, flags, 2, words, 2));
    if (words[0] != 1 || words[1] != 0 || words[2] != before[2]) wrong = puts("the last two points: others than by hand") || 1;
    expect("no points of all", TACFLOW_OK, live_at(3, 3, NULL, 0, NULL, 0));
    expect("one point within the large limits", TACFLOW_OK,
           tacflow_facts_within(TACFLOW_LARGE, text, length, TACFLOW_REACH, 2, 3, 1, 3, flags, 1, words, 1, &place));
    if (words[0] != 6 || flags[0] != 1) wrong = puts("one point within the large limits: others than by hand") || 1;
}

/* There are two limits, 0 and 1. The same is told of a text that is no program, and of no analysis. */
static void no_limits(void) {
    tacflow_sizes_of_program sizes;
    tacflow_point points[3];
    tacflow_definition definitions[3];
    tacflow_expression expression;
    size_t ends[2], size = 7;
    char shown[128];
    uint8_t flags[3];
    uint64_t words[3], before[3];
    memset(&sizes, 0x55, sizeof sizes), memset(words, 0x55, sizeof words), memset(before, 0x55, sizeof before);
    memset(flags, 9, sizeof flags), memset(shown, '.', sizeof shown);
    place.number = 7;
    for (int limits = -1; limits <= 2; limits += 3) {
        expect("sizes within no limits", TACFLOW_BAD_LIMITS, tacflow_sizes_within(limits, text, length, &sizes, &place));
        expect("no program within no limits", TACFLOW_BAD_LIMITS,
               tacflow_sizes_within(limits, no_program, sizeof no_program - 1, &sizes, &place));
        expect("points within no limits", TACFLOW_BAD_LIMITS, tacflow_points_within(limits, text, length, points, 3, &place));
        expect("definitions within no limits", TACFLOW_BAD_LIMITS, tacflow_definitions_within(limits, text, length, definitions, 3, &place));
        expect("expressions within no limits", TACFLOW_BAD_LIMITS, tacflow_expressions_within(limits, text, length, &expression, 1, &place));
        expect("procedures within no limits", TACFLOW_BAD_LIMITS,
               tacflow_procedures_within(limits, text, length, ends, 1, shown, sizeof shown, &place));
        expect("variables within no limits", TACFLOW_BAD_LIMITS,
               tacflow_variables_within(limits, text, length, ends, 2, shown, sizeof shown, &place));
        expect("a listing within no limits", TACFLOW_BAD_LIMITS, tacflow_listing_within(limits, text, length, shown, 5, &size, &place));
        expect("a report within no limits", TACFLOW_BAD_LIMITS, tacflow_report_within(limits, text, length, shown, sizeof shown, &size, &place));
        expect("a part within no limits", TACFLOW_BAD_LIMITS,
               tacflow_report_part_within(limits, text, length, 0, 0, shown, sizeof shown, &size, &place));
        expect("facts within no limits", TACFLOW_BAD_LIMITS, tacflow_facts_within(limits, text, length, 4, 2, 1, 0, 2, flags, 3, words, 3, &place));
    }
    if (sizes.points != 0x55555555 || memcmp(words, before, sizeof words) || flags[0] != 9 || shown[0] != '.' || place.number != 7 || size != 7)
        wrong = puts("no limits: something was written") || 1;
}

/* The two parts by hand: both variables are in the second. The parts are named by the text's SHA-1, as `sha1sum` has it. */
static void parts_of_the_report(void) {
    static const char parts[2][160] = {
        "part 1 of 2 of 9f9a495b9c2a199b447754f073a21e8ea2c4e6f0\npoints 3, variables 2, definitions 3, expressions 1\nend 1\n",
        "part 2 of 2 of 9f9a495b9c2a199b447754f073a21e8ea2c4e6f0\npoints 3, variables 2, definitions 3, expressions 1\n"
        "2: y may be used before it is set\nend 2\n",
    };
    static const uint32_t none[4][2] = { { 0, 2 }, { 3, 2 }, { 1, 4097 }, { 0, 0 } };
    char shown[200];
    size_t size = 7;
    memset(shown, '.', sizeof shown);
    for (int i = 0; i < 4; i++)
        expect("no part", TACFLOW_BAD_RANGE, tacflow_report_part(text, length, none[i][0], none[i][1], shown, sizeof shown, &size, &place));
    if (size != 7 || shown[0] != '.') wrong = puts("no part: something was written") || 1;
    expect("a part in little room", TACFLOW_BAD_ROOM, tacflow_report_part(text, length, 2, 2, shown, 5, &size, &place));
    if (size != strlen(parts[1]) || shown[0] != '.') wrong = puts("a part in little room: another size than by hand, or something was written") || 1;
    for (uint32_t part = 1; part <= 2; part++) {
        expect("a part", TACFLOW_OK, tacflow_report_part(text, length, part, 2, shown, sizeof shown, &size, &place));
        if (size != strlen(parts[part - 1]) || memcmp(shown, parts[part - 1], size)) wrong = puts("a part: other than by hand") || 1;
    }
    expect("a part of no program", TACFLOW_REFUSED,
           tacflow_report_part(no_program, sizeof no_program - 1, 1, 1, shown, sizeof shown, &size, &place));
    expect("a part without a size", TACFLOW_BAD_POINTER, tacflow_report_part(text, length, 1, 1, shown, sizeof shown, NULL, &place));
}

int main(void) {
    tacflow_sizes_of_program sizes;
    tacflow_point points[4];
    tacflow_definition definitions[4];
    tacflow_expression expressions[2];
    size_t ends[3];
    char names[16];
    uint8_t flags[4];
    uint64_t words[4], before[4];
    memset(words, 0x55, sizeof words), memset(before, 0x55, sizeof before), memset(flags, 9, sizeof flags), memset(names, '.', sizeof names);

    expect("sizes", TACFLOW_OK, tacflow_sizes(text, length, &sizes, &place));
    if (sizes.procedures != 1 || sizes.points != 3 || sizes.variables != 2 || sizes.definitions != 3 || sizes.expressions != 1)
        wrong = puts("sizes: others than by hand") || 1;
    expect("no text", TACFLOW_BAD_POINTER, tacflow_sizes(NULL, length, &sizes, &place));
    expect("no sizes", TACFLOW_BAD_POINTER, tacflow_sizes(text, length, NULL, &place));
    expect("no place", TACFLOW_BAD_POINTER, tacflow_sizes(text, length, &sizes, NULL));
    expect("empty text", TACFLOW_REFUSED, tacflow_sizes(NULL, 0, &sizes, &place));
    if (place.number != 6 || place.line != 1 || place.column != 1) wrong = puts("empty text: another place than 1:1, refusal 6") || 1;
    expect("no program", TACFLOW_REFUSED, tacflow_sizes(no_program, sizeof no_program - 1, &sizes, &place));
    if (place.number != 4 || place.line != 2 || place.column != 7) wrong = puts("no program: another place than 2:7, refusal 4") || 1;

    expect("points", TACFLOW_OK, tacflow_points(text, length, points, 3, &place));
    if (points[1].line != 3 || points[1].place != 1 || strncmp(text + points[1].start, "print x", points[1].end - points[1].start) || points[2].line)
        wrong = puts("points: others than by hand") || 1;
    expect("a point too few", TACFLOW_BAD_ROOM, tacflow_points(text, length, points, 2, &place));
    expect("a point too many", TACFLOW_BAD_ROOM, tacflow_points(text, length, points, 4, &place));
    expect("no points", TACFLOW_BAD_POINTER, tacflow_points(text, length, NULL, 3, &place));
    expect("definitions", TACFLOW_OK, tacflow_definitions(text, length, definitions, 3, &place));
    if (definitions[0].point != TACFLOW_NO_POINT || definitions[2].point != 0 || definitions[2].variable != 0)
        wrong = puts("definitions: others than by hand") || 1;
    expect("a definition too few", TACFLOW_BAD_ROOM, tacflow_definitions(text, length, definitions, 2, &place));
    expect("expressions", TACFLOW_OK, tacflow_expressions(text, length, expressions, 1, &place));
    if (strcmp(tacflow_sign[expressions[0].operator_number], "+") || expressions[0].left.kind != TACFLOW_VARIABLE || expressions[0].left.variable != 1
        || expressions[0].right.kind != TACFLOW_NUMBER || expressions[0].right.number != 1)
        wrong = puts("expressions: others than by hand") || 1;
    expect("an expression too many", TACFLOW_BAD_ROOM, tacflow_expressions(text, length, expressions, 2, &place));
    expect("variables", TACFLOW_OK, tacflow_variables(text, length, ends, 2, names, sizeof names, &place));
    if (strncmp(names, "xy..", 4) || ends[0] != 1 || ends[1] != 2) wrong = puts("variables: others than by hand") || 1;
    expect("a byte too few", TACFLOW_BAD_ROOM, tacflow_variables(text, length, ends, 2, names, 1, &place));
    expect("an end too few", TACFLOW_BAD_ROOM, tacflow_variables(text, length, ends, 1, names, sizeof names, &place));
    expect("procedures", TACFLOW_OK, tacflow_procedures(text, length, ends, 1, names, sizeof names, &place));

    expect("bad analysis", TACFLOW_BAD_ANALYSIS, tacflow_facts(text, length, 4, 0, 2, flags, 3, words, 3, &place));
    expect("range turned round", TACFLOW_BAD_RANGE, tacflow_facts(text, length, TACFLOW_LIVE, 2, 1, flags, 3, words, 3, &place));
    expect("range too far", TACFLOW_BAD_RANGE, tacflow_facts(text, length, TACFLOW_LIVE, 0, 3, flags, 3, words, 3, &place));
    expect("a flag too few", TACFLOW_BAD_ROOM, tacflow_facts(text, length, TACFLOW_LIVE, 0, 2, flags, 2, words, 3, &place));
    expect("a word too many", TACFLOW_BAD_ROOM, tacflow_facts(text, length, TACFLOW_LIVE, 0, 2, flags, 3, words, 4, &place));
    expect("no words", TACFLOW_BAD_POINTER, tacflow_facts(text, length, TACFLOW_LIVE, 0, 2, flags, 3, NULL, 3, &place));
    if (memcmp(words, before, sizeof words) || flags[0] != 9) wrong = puts("a fault: something was written") || 1;
    expect("no bits", TACFLOW_OK, tacflow_facts(text, length, TACFLOW_LIVE, 0, 0, flags, 3, NULL, 0, &place));
    expect("facts", TACFLOW_OK, tacflow_facts(text, length, TACFLOW_LIVE, 0, 2, flags, 3, words, 3, &place));
    if (words[0] != 2 || words[1] != 1 || words[2] != 0 || words[3] != before[3] || flags[0] != 1 || flags[2] != 1)
        wrong = puts("facts: others than by hand") || 1;
    expect("one bit", TACFLOW_OK, tacflow_facts(text, length, TACFLOW_LIVE, 1, 2, flags, 3, words, 3, &place));
    if (words[0] != 2 || words[1] != 0) wrong = puts("one bit: others than by hand") || 1;

    char shown[128];
    size_t size = 7;
    static const char report[] = "points 3, variables 2, definitions 3, expressions 1\n2: y may be used before it is set\n";
    memset(shown, '.', sizeof shown);
    expect("a listing without room", TACFLOW_BAD_ROOM, tacflow_listing(text, length, NULL, 0, &size, &place));
    if (size != length) wrong = puts("a listing without room: another size than by hand") || 1;
    expect("a listing", TACFLOW_OK, tacflow_listing(text, length, shown, size, &size, &place));
    if (size != length || memcmp(shown, text, length) || shown[length] != '.') wrong = puts("a listing: other than by hand") || 1;
    expect("a report in little room", TACFLOW_BAD_ROOM, tacflow_report(text, length, shown, 5, &size, &place));
    if (size != sizeof report - 1 || memcmp(shown, text, length)) wrong = puts("a report in little room: another size than by hand, or something was written") || 1;
    expect("a report", TACFLOW_OK, tacflow_report(text, length, shown, sizeof shown, &size, &place));
    if (size != sizeof report - 1 || memcmp(shown, report, size) || shown[size] != '.') wrong = puts("a report: other than by hand") || 1;
    expect("a report of no program", TACFLOW_REFUSED, tacflow_report(no_program, sizeof no_program - 1, shown, sizeof shown, &size, &place));
    expect("no size", TACFLOW_BAD_POINTER, tacflow_report(text, length, shown, sizeof shown, NULL, &place));
    parts_of_the_report();
    ranges_of_points();
    no_limits();
    return wrong;
}
