/*
 * Pelohuaki: a decision procedure for linear questions over the natural numbers. The calls are those of crate pelohuaki_c, each
 * proved to meet its contract, which fixes the answer and each lent cell for every input; the inline functions over them, at the end
 * of this file, are plain C and not proved. For C99 and C++11. docs/SCOPE.md has the whole of what the calls are to do.
 *
 *     tools/run archive
 *     cc -std=c99 -Iinclude examples/c/ask.c -Ltarget/staticlib -lpelohuaki_c
 *
 * BUFFERS. Each buffer is a pointer and its length, which counts cells and not bytes. A pointer is aligned for its cells; with
 * length 0 it may be NULL. No buffer that a call writes may overlap another buffer of the same call; those that it only reads may
 * overlap each other. A call touches no other memory, takes no heap, and keeps nothing after it has returned: calls may run at the
 * same time on several threads, each with written buffers of its own. On the stack pelohuaki_decide and pelohuaki_build take 263 KiB
 * each, for small questions too (docs/BENCHMARKS.md), and pelohuaki_import less than 100 KiB, for a text that is nested as deep as
 * it may be: a thread of less has to be given more. The other calls take less than 4 KiB.
 *
 * ANSWERS. A call returns a refusal number, 0 where nothing is refused. The rest of its answer is in the cells of `told`, the place
 * first. As many of a call's cells are written as are lent, and no others: a caller who needs none of them lends none. A refused
 * call tells 0 in every cell but the place, except that 7 and 8 of deciding and 7 of building tell the states, and 8 the letters.
 *
 * QUESTIONS. A question's bytes are records: the length of the body (two bytes), the kind (two bytes), the body. First the head (body:
 * one byte, n), then one formula with each connective before its parts, then the end. An atom's body is its n coefficients and its
 * constant, four bytes each; connectives and the end have none. These bytes are the same on every machine: little-endian, numbers in
 * two's complement. All other cells are the machine's own integers. 5x + y = 3 is, record by record:
 *
 *     01 00  01 00  02
 *     0C 00  10 00  05 00 00 00  01 00 00 00  03 00 00 00
 *     00 00  FF 00
 *
 * docs/GLOSSARY.md explains letters, words, states, keys, paths and tables.
 *
 * REFUSALS.
 *
 *   no.  given when                                            what is left
 *    1   bytes end too soon                                    every lent buffer unchanged
 *    2   kind or node code not due                             the same
 *    3   wrong body length                                     the same
 *    4   n or a variable's number beyond its limit             the same
 *    5   too many nodes or atoms, or too deep                  the same
 *    6   something left over                                   the same
 *    7   no room                                               the rows lent, R, as the states; key and path rows 0 to R-1 filled
 *                                                              (building has no path area), the rest, the table and the word
 *                                                              unchanged
 *    8   word or byte buffer too short                         writing: buffer unchanged; deciding: states and rows as for found,
 *                                                              word unchanged
 *    9   other than n values, a value above the judge's        nothing written
 *        limit, or a word too long to spell
 *   10   a letter of 2^n or more                               nothing written
 *   11   a malformed table                                     nothing written
 *   12   a coefficient beyond its limit                        every lent buffer unchanged
 *   13   a constant beyond its limit                           the same
 *   14   a text that is not well formed                        the same
 *   15   a text outside the subset                             the same
 *
 * "Unchanged" and "nothing written" are of the buffers beside `told`. The place is the first byte of the record that was refused,
 * for 12 and 13 that of the number itself, for 6 the byte that is left over; in writing, the index of the node, or 64 where only a
 * number is left over; and 0 for 7 to 11, for n in writing, and for 4 in running and spelling. Of an atom's numbers the first that
 * is beyond its limit counts, the constant being the last. In importing it is a byte of the text: for 14 the first that cannot go
 * on, or the end; for 15 and 4 the first byte of what is refused, or the end where a form is missing; for 5, 12 and 13 the first
 * byte of the comparison or connective.
 */
#ifndef PELOHUAKI_H
#define PELOHUAKI_H

#include <stddef.h>
#include <stdint.h>

#ifdef __cplusplus
extern "C" {
#endif

/* The limits of a question. A coefficient is from -4,096 to 4,096, a constant from -1,000,000 to 1,000,000. The root is at depth 1. */
enum {
    PELOHUAKI_VARIABLES = 6,
    PELOHUAKI_ATOMS = 8,
    PELOHUAKI_NODES = 64,
    PELOHUAKI_DEPTH = 16,
    PELOHUAKI_COEFFICIENT = 4096,
    PELOHUAKI_CONSTANT = 1000000,
    PELOHUAKI_STATES = 65535,
    /* the letters of a word that is spelled out */
    PELOHUAKI_SPELLED = 64,
    /* no question has more bytes: the head 5, 8 atoms 32 each, 56 connectives 4 each, the end 4 */
    PELOHUAKI_BYTES = 489
};

/* The largest value that the judge takes, 2^40 - 1. */
#define PELOHUAKI_VALUE UINT64_C(1099511627775)

/* An equation's entry of a key row that is dead. */
#define PELOHUAKI_DEAD INT32_MIN

enum pelohuaki_refusal {
    PELOHUAKI_BYTES_END = 1,
    PELOHUAKI_NOT_DUE = 2,
    PELOHUAKI_BODY_LENGTH = 3,
    PELOHUAKI_BEYOND_LIMIT = 4,
    PELOHUAKI_TOO_MANY = 5,
    PELOHUAKI_LEFT_OVER = 6,
    PELOHUAKI_NO_ROOM = 7,
    PELOHUAKI_TOO_SHORT = 8,
    PELOHUAKI_VALUES = 9,
    PELOHUAKI_LETTER = 10,
    PELOHUAKI_TABLE = 11,
    PELOHUAKI_COEFFICIENT_BEYOND = 12,
    PELOHUAKI_CONSTANT_BEYOND = 13,
    PELOHUAKI_NOT_WELL_FORMED = 14,
    PELOHUAKI_OUTSIDE_SUBSET = 15
};

enum pelohuaki_verdict {
    PELOHUAKI_REFUSED = 0,
    PELOHUAKI_FOUND = 1,
    PELOHUAKI_NEVER = 2,
    PELOHUAKI_BUILT = 3
};

/* Kinds of records. */
enum pelohuaki_kind {
    PELOHUAKI_KIND_HEAD = 0x0001,
    PELOHUAKI_KIND_EQUATION = 0x0010,
    PELOHUAKI_KIND_AT_MOST = 0x0011,
    PELOHUAKI_KIND_NOT = 0x0020,
    PELOHUAKI_KIND_AND = 0x0021,
    PELOHUAKI_KIND_OR = 0x0022,
    PELOHUAKI_KIND_END = 0x00FF
};

/* Codes of nodes. */
enum pelohuaki_code {
    PELOHUAKI_UNUSED = 0,
    PELOHUAKI_EQUATION = 1,
    PELOHUAKI_AT_MOST = 2,
    PELOHUAKI_NOT = 3,
    PELOHUAKI_AND = 4,
    PELOHUAKI_OR = 5
};

/* ---- the calls */

/*
 * The record at a place of the bytes, a bare step that knows no formula.
 * told: place, kind, start of the body, its length, start of the next record. Refusals: 1, at the record.
 */
uint64_t pelohuaki_record_at(const uint8_t *bytes, size_t bytes_len, size_t at, uint64_t *told, size_t told_len);

/*
 * Reads a question's bytes into the parts of a held question: 64 node codes in the formula's order, 48 coefficients (row i of six,
 * from 6 * i on, has those of atom i) and 8 constants, unused ones 0. Of each part as many cells are written, from the front on, as
 * are lent; cells past the part's own are unchanged. told: place, n. Refusals: 1 to 6, 12, 13.
 */
uint64_t pelohuaki_read(const uint8_t *bytes, size_t bytes_len, uint8_t *codes, size_t codes_len, int32_t *coefficients,
                        size_t coefficients_len, int32_t *constants, size_t constants_len, uint64_t *told, size_t told_len);

/*
 * Writes the held question of these parts at the front of the byte buffer, whose other cells are unchanged. A cell that is not lent
 * (of 64, 48 and 8) counts as 0, cells past them are ignored. PELOHUAKI_BYTES bytes are room for every question.
 * told: place, how many bytes were written. Refusals: 4, 2, 5, 12, 13, 6, 8.
 */
uint64_t pelohuaki_write(uint8_t n, const uint8_t *codes, size_t codes_len, const int32_t *coefficients, size_t coefficients_len,
                         const int32_t *constants, size_t constants_len, uint8_t *bytes, size_t bytes_len, uint64_t *told,
                         size_t told_len);

/*
 * Imports the question of a text in SMT-LIB 2.6, logic QF_LIA, into the parts of a held question, as pelohuaki_read does: a subset
 * of set-logic, declare-const of sort Int, assert and check-sat, which docs/SCOPE.md has. The variables are the names as declared.
 * told: place, n, then of each of six variables where its name starts in the text and where it ends, without its bars; 0 for those
 * past n. Refusals: 14, 15, 4, 5, 12, 13.
 */
uint64_t pelohuaki_import(const uint8_t *text, size_t text_len, uint8_t *codes, size_t codes_len, int32_t *coefficients,
                          size_t coefficients_len, int32_t *constants, size_t constants_len, uint64_t *told, size_t told_len);

/*
 * Whether n values, in variable order, satisfy the question.
 * told: place, 1 for yes or 0 for no. Refusals: those of reading the bytes, 9.
 */
uint64_t pelohuaki_judge(const uint8_t *bytes, size_t bytes_len, const uint64_t *values, size_t values_len, uint64_t *told,
                         size_t told_len);

/*
 * Decides the question. With m atoms, R is the least of keys_len / m, path_len / 2 and 65,535. Found if a state below R accepts: of
 * the smallest such state, w, the first word stands at the front of `word`. Never, for any naturals however large, if the reachable
 * states are at most R and none accepts. No room otherwise. Filled are, for every state counted, its row of m keys and its two cells
 * of the path: the state and the letter from which it was numbered (0 and 0 for the start). All other cells are unchanged.
 * told: place, verdict (1 found, 2 never), states (found: w + 1), letters of the word. Refusals: those of reading the bytes, 7, 8.
 */
uint64_t pelohuaki_decide(const uint8_t *bytes, size_t bytes_len, int32_t *keys, size_t keys_len, uint16_t *path, size_t path_len,
                          uint8_t *word, size_t word_len, uint64_t *told, size_t told_len);

/*
 * Builds the question's table. R is the least of keys_len / m, table_len / (1 + 2^n) and 65,535; built if the reachable states are at
 * most R. Row s of the table starts at cell s * (1 + 2^n): 1 if the state accepts, else 0, then the next state for each letter in order.
 * told: place, verdict (3 built), states, 0. Refusals: those of reading the bytes, 7.
 */
uint64_t pelohuaki_build(const uint8_t *bytes, size_t bytes_len, int32_t *keys, size_t keys_len, uint16_t *table, size_t table_len,
                         uint64_t *told, size_t told_len);

/*
 * Whether a table, its filled rows alone, says yes of a word. It starts in row 0.
 * told: place, 1 for yes or 0 for no. Refusals: 4, 11, 10.
 */
uint64_t pelohuaki_run(size_t n, const uint16_t *cells, size_t cells_len, const uint8_t *word, size_t word_len, uint64_t *told,
                       size_t told_len);

/*
 * What a word of at most 64 letters spells for a variable from 1 to n. Bit j - 1 of a letter is a binary digit of variable j, low
 * digits first.
 * told: place, the value. Refusals: 4, 10, 9.
 */
uint64_t pelohuaki_spell(size_t n, size_t variable, const uint8_t *word, size_t word_len, uint64_t *told, size_t told_len);

/* ---- a held question as a struct */

struct pelohuaki_question {
    uint8_t n;
    uint8_t codes[PELOHUAKI_NODES];
    int32_t coefficients[PELOHUAKI_ATOMS][PELOHUAKI_VARIABLES];
    int32_t constants[PELOHUAKI_ATOMS];
};

/* As pelohuaki_read. Where it is refused, the question is unchanged. */
static inline uint64_t pelohuaki_read_question(const uint8_t *bytes, size_t bytes_len, struct pelohuaki_question *question,
                                               uint64_t *place)
{
    uint64_t told[2];
    uint64_t number = pelohuaki_read(bytes, bytes_len, question->codes, PELOHUAKI_NODES, &question->coefficients[0][0],
                                     PELOHUAKI_ATOMS * PELOHUAKI_VARIABLES, question->constants, PELOHUAKI_ATOMS, told, 2);
    if (number == 0) {
        question->n = (uint8_t)told[1];
    }
    *place = told[0];
    return number;
}

/* A variable's name: that stretch of the text. */
struct pelohuaki_name {
    size_t start;
    size_t end;
};

/* As pelohuaki_import. Where it is refused, the question is unchanged and every name is empty. */
static inline uint64_t pelohuaki_import_question(const uint8_t *text, size_t text_len, struct pelohuaki_question *question,
                                                 struct pelohuaki_name names[PELOHUAKI_VARIABLES], uint64_t *place)
{
    uint64_t told[2 + 2 * PELOHUAKI_VARIABLES];
    uint64_t number = pelohuaki_import(text, text_len, question->codes, PELOHUAKI_NODES, &question->coefficients[0][0],
                                       PELOHUAKI_ATOMS * PELOHUAKI_VARIABLES, question->constants, PELOHUAKI_ATOMS, told,
                                       2 + 2 * PELOHUAKI_VARIABLES);
    size_t i;
    if (number == 0) {
        question->n = (uint8_t)told[1];
    }
    for (i = 0; i < PELOHUAKI_VARIABLES; i++) {
        names[i].start = (size_t)told[2 + 2 * i];
        names[i].end = (size_t)told[3 + 2 * i];
    }
    *place = told[0];
    return number;
}

/* As pelohuaki_write. Where it is refused, 0 bytes were written. */
static inline uint64_t pelohuaki_write_question(const struct pelohuaki_question *question, uint8_t *bytes, size_t bytes_len,
                                                size_t *written, uint64_t *place)
{
    uint64_t told[2];
    uint64_t number = pelohuaki_write(question->n, question->codes, PELOHUAKI_NODES, &question->coefficients[0][0],
                                      PELOHUAKI_ATOMS * PELOHUAKI_VARIABLES, question->constants, PELOHUAKI_ATOMS, bytes, bytes_len,
                                      told, 2);
    *written = (size_t)told[1];
    *place = told[0];
    return number;
}

/* ---- a place in a question, opened on the caller's own bytes and moved record by record */

struct pelohuaki_place {
    const uint8_t *bytes;
    size_t len;
    size_t at;
};

/* The body is that stretch of the caller's bytes. */
struct pelohuaki_record {
    uint16_t kind;
    const uint8_t *body;
    size_t len;
};

static inline struct pelohuaki_place pelohuaki_open(const uint8_t *bytes, size_t len)
{
    struct pelohuaki_place place;
    place.bytes = bytes;
    place.len = len;
    place.at = 0;
    return place;
}

/* The record at the place, which is moved past it. Where it is refused, by 1, the place stays and the record has no bytes. */
static inline uint64_t pelohuaki_next_record(struct pelohuaki_place *place, struct pelohuaki_record *record)
{
    uint64_t told[5];
    uint64_t number = pelohuaki_record_at(place->bytes, place->len, place->at, told, 5);
    record->kind = (uint16_t)told[1];
    record->body = number == 0 ? place->bytes + told[2] : NULL;
    record->len = (size_t)told[3];
    if (number == 0) {
        place->at = (size_t)told[4];
    }
    return number;
}

/* The record at the place, which is not moved. */
static inline uint64_t pelohuaki_peek_record(struct pelohuaki_place place, struct pelohuaki_record *record)
{
    return pelohuaki_next_record(&place, record);
}

#ifdef __cplusplus
}
#endif

#endif
