/*
 * Asks 5x + y = 3 through every call, prints what is told, and holds each answer to documents 01 and 02. Exits 1 where one differs.
 *
 *     tools/run c
 */
#include <inttypes.h>
#include <stdio.h>
#include <string.h>

#include "pelohuaki.h"

enum { STATES = 16, VARIABLES = 2, WIDTH = 1 + (1 << VARIABLES) };

static const uint8_t wire[25] = {0x01, 0x00, 0x01, 0x00, 0x02, 0x0C, 0x00, 0x10, 0x00, 0x05, 0x00, 0x00, 0x00,
                                 0x01, 0x00, 0x00, 0x00, 0x03, 0x00, 0x00, 0x00, 0x00, 0x00, 0xFF, 0x00};

static int differences = 0;

static void expect(const char *what, uint64_t got, uint64_t due)
{
    printf("%s %" PRIu64 "\n", what, got);
    if (got != due) {
        printf("  but it should be %" PRIu64 "\n", due);
        differences++;
    }
}

static void expect_cells(const char *what, const void *got, const void *due, size_t size)
{
    int same = memcmp(got, due, size) == 0;
    printf("%s: %s\n", what, same ? "as they should be" : "OTHER THAN THEY SHOULD BE");
    differences += !same;
}

static struct pelohuaki_question question_of_example(void)
{
    struct pelohuaki_question question;
    memset(&question, 0, sizeof question);
    question.n = VARIABLES;
    question.codes[0] = PELOHUAKI_EQUATION;
    question.coefficients[0][0] = 5;
    question.coefficients[0][1] = 1;
    question.constants[0] = 3;
    return question;
}

static void write_and_read(uint8_t *bytes, size_t room)
{
    struct pelohuaki_question question = question_of_example();
    struct pelohuaki_question held;
    size_t written;
    uint64_t place;
    uint8_t before[64];

    memset(&held, 0xAA, sizeof held);
    memcpy(before, bytes, sizeof before);
    expect("write with 24 bytes of room: refused", pelohuaki_write_question(&question, bytes, 24, &written, &place), PELOHUAKI_TOO_SHORT);
    expect_cells("  the buffer, unchanged", bytes, before, sizeof before);
    expect("write: refused", pelohuaki_write_question(&question, bytes, room, &written, &place), 0);
    expect("  bytes", written, sizeof wire);
    expect_cells("  the 25 bytes", bytes, wire, sizeof wire);
    expect_cells("  the bytes behind them, unchanged", bytes + sizeof wire, before + sizeof wire, sizeof before - sizeof wire);

    expect("read of 24 bytes: refused", pelohuaki_read_question(bytes, sizeof wire - 1, &held, &place), PELOHUAKI_BYTES_END);
    expect("  place", place, 21);
    bytes[14] = 0x10; /* the coefficient of y, at byte 13, is 4,097 */
    expect("read of 5x + 4097y = 3: refused", pelohuaki_read_question(bytes, sizeof wire, &held, &place), PELOHUAKI_COEFFICIENT_BEYOND);
    expect("  place, the number's", place, 13);
    bytes[14] = 0x00;
    expect("read: refused", pelohuaki_read_question(bytes, sizeof wire, &held, &place), 0);
    expect("  n", held.n, question.n);
    expect_cells("  codes", held.codes, question.codes, sizeof held.codes);
    expect_cells("  coefficients", held.coefficients, question.coefficients, sizeof held.coefficients);
    expect_cells("  constants", held.constants, question.constants, sizeof held.constants);
}

static void import_text(void)
{
    static const char text[] = "(set-logic QF_LIA)(declare-const x Int)(declare-const |the rest| Int)(assert (>= x 0))"
                               "(assert (>= |the rest| 0))(assert (= (+ (* 5 x) |the rest|) 3))(check-sat)";
    const uint8_t *bytes = (const uint8_t *)text;
    size_t len = sizeof text - 1;
    struct pelohuaki_question question = question_of_example();
    struct pelohuaki_question imported;
    struct pelohuaki_name names[PELOHUAKI_VARIABLES];
    uint64_t place;

    memset(&imported, 0xAA, sizeof imported);
    expect("import of an open list: refused", pelohuaki_import_question(bytes, len - 1, &imported, names, &place), PELOHUAKI_NOT_WELL_FORMED);
    expect("  place, the end", place, len - 1);
    expect("import without check-sat: refused", pelohuaki_import_question(bytes, len - 11, &imported, names, &place), PELOHUAKI_OUTSIDE_SUBSET);
    expect("  place, the end", place, len - 11);
    expect("import: refused", pelohuaki_import_question(bytes, len, &imported, names, &place), 0);
    expect("  n", imported.n, question.n);
    expect_cells("  codes", imported.codes, question.codes, sizeof imported.codes);
    expect_cells("  coefficients", imported.coefficients, question.coefficients, sizeof imported.coefficients);
    expect_cells("  constants", imported.constants, question.constants, sizeof imported.constants);
    expect("  letters of the second name", names[1].end - names[1].start, 8);
    expect_cells("  the second name", text + names[1].start, "the rest", 8);
}

static void step_through(const uint8_t *bytes)
{
    struct pelohuaki_place place = pelohuaki_open(bytes, sizeof wire);
    struct pelohuaki_record record;
    expect("record: refused", pelohuaki_peek_record(place, &record), 0);
    expect("  kind", record.kind, PELOHUAKI_KIND_HEAD);
    expect("  place, not moved", place.at, 0);
    expect("record: refused", pelohuaki_next_record(&place, &record), 0);
    expect("  n", record.body[0], VARIABLES);
    expect("record: refused", pelohuaki_next_record(&place, &record), 0);
    expect("  kind", record.kind, PELOHUAKI_KIND_EQUATION);
    expect("  body starts at", (uint64_t)(record.body - bytes), 9);
    expect("  its length", record.len, 12);
    expect("record: refused", pelohuaki_next_record(&place, &record), 0);
    expect("  kind", record.kind, PELOHUAKI_KIND_END);
    expect("record after the end: refused", pelohuaki_next_record(&place, &record), PELOHUAKI_BYTES_END);
    expect("  place, as it was", place.at, sizeof wire);
}

static void decide_and_judge(const uint8_t *bytes)
{
    static const uint8_t due[] = {2, 2};
    int32_t keys[STATES];
    uint16_t path[2 * STATES];
    uint8_t word[8];
    uint64_t told[4];
    uint64_t values[VARIABLES];
    size_t variable;

    expect("decide with 6 rows: refused", pelohuaki_decide(bytes, sizeof wire, keys, 6, path, 2 * STATES, word, 8, told, 4), PELOHUAKI_NO_ROOM);
    expect("  states", told[2], 6);
    expect("decide: refused", pelohuaki_decide(bytes, sizeof wire, keys, STATES, path, 2 * STATES, word, 8, told, 4), 0);
    expect("  verdict", told[1], PELOHUAKI_FOUND);
    expect("  states", told[2], 7);
    expect("  letters", told[3], sizeof due);
    expect_cells("  letters 2 2", word, due, sizeof due);

    for (variable = 1; variable <= VARIABLES; variable++) {
        uint64_t spelt[2];
        expect("spell: refused", pelohuaki_spell(VARIABLES, variable, word, sizeof due, spelt, 2), 0);
        expect("  value", spelt[1], variable == 1 ? 0 : 3);
        values[variable - 1] = spelt[1];
    }
    expect("spell of variable 3: refused", pelohuaki_spell(VARIABLES, 3, word, sizeof due, told, 2), PELOHUAKI_BEYOND_LIMIT);

    expect("judge: refused", pelohuaki_judge(bytes, sizeof wire, values, VARIABLES, told, 2), 0);
    expect("  yes", told[1], 1);
    values[1] = 4;
    expect("judge of 0 and 4: refused", pelohuaki_judge(bytes, sizeof wire, values, VARIABLES, told, 2), 0);
    expect("  yes", told[1], 0);
    expect("judge of one value: refused", pelohuaki_judge(bytes, sizeof wire, values, 1, told, 2), PELOHUAKI_VALUES);
}

static void build_and_run(const uint8_t *bytes)
{
    static const int32_t due[] = {3, PELOHUAKI_DEAD, -1, 1, -3, -2, 0, -4, -5};
    static const uint8_t found[] = {2, 2}, other[] = {1, 0}, wrong[] = {4};
    int32_t keys[STATES];
    uint16_t table[STATES * WIDTH];
    uint64_t told[4];

    expect("build with 8 rows: refused", pelohuaki_build(bytes, sizeof wire, keys, 8, table, STATES * WIDTH, told, 4), PELOHUAKI_NO_ROOM);
    expect("build: refused", pelohuaki_build(bytes, sizeof wire, keys, STATES, table, STATES * WIDTH, told, 4), 0);
    expect("  verdict", told[1], PELOHUAKI_BUILT);
    expect("  states", told[2], 9);
    expect_cells("  states 3, dead, -1, 1, -3, -2, 0, -4, -5", keys, due, sizeof due);

    expect("run on 2 2: refused", pelohuaki_run(VARIABLES, table, 9 * WIDTH, found, 2, told, 2), 0);
    expect("  yes", told[1], 1);
    expect("run on 1 0: refused", pelohuaki_run(VARIABLES, table, 9 * WIDTH, other, 2, told, 2), 0);
    expect("  yes", told[1], 0);
    expect("run on the empty word: refused", pelohuaki_run(VARIABLES, table, 9 * WIDTH, NULL, 0, told, 2), 0);
    expect("  yes", told[1], 0);
    expect("run on the letter 4: refused", pelohuaki_run(VARIABLES, table, 9 * WIDTH, wrong, 1, told, 2), PELOHUAKI_LETTER);
    expect("run of half a row: refused", pelohuaki_run(VARIABLES, table, WIDTH / 2, found, 2, told, 2), PELOHUAKI_TABLE);
}

int main(void)
{
    uint8_t bytes[64];
    memset(bytes, 0x55, sizeof bytes);
    write_and_read(bytes, sizeof bytes);
    import_text();
    step_through(bytes);
    decide_and_judge(bytes);
    build_and_run(bytes);
    expect("no bytes at all: refused", pelohuaki_decide(NULL, 0, NULL, 0, NULL, 0, NULL, 0, NULL, 0), PELOHUAKI_BYTES_END);
    printf("%d differences\n", differences);
    return differences != 0;
}
