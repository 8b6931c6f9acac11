/* Hegdorvin for C and C++: link with libhegdorvin.a, which is for x86-64. docs/INTERFACE.md says what a caller owes.
 *
 * A file or an output is a pointer and a length; with length 0 any pointer will do. Every call takes any bytes at all, and
 * writes to nothing but its output, and to that only where it refuses nothing. */
#ifndef HEGDORVIN_H
#define HEGDORVIN_H

#include <stddef.h>
#include <stdint.h>

#ifdef __cplusplus
extern "C" {
#endif

/* An answer, packed: take it apart with the functions below. */
typedef uint64_t hegdorvin_answer;

/* GOOD is ACCEPTED. */
hegdorvin_answer hegdorvin_check(const uint8_t *dossier, size_t dossier_length);

/* GOOD is BUILT; first: the length that was written. NO ROOM; first: the length needed. */
hegdorvin_answer hegdorvin_build(const uint8_t *dossier, size_t dossier_length, uint8_t *output, size_t output_length);

/* GOOD is PASSES; first: the count of tests. BAD is FAILS; first: the test's place, second: the step. */
hegdorvin_answer hegdorvin_run(const uint8_t *dossier, size_t dossier_length, const uint8_t *unit, size_t unit_length);

/* GOOD is EQUAL. BAD is DIFFERS; first: the length of the telling word, which stands at the front of the output. */
hegdorvin_answer hegdorvin_compare(const uint8_t *dossier, size_t dossier_length, const uint8_t *unit, size_t unit_length,
                                   uint8_t *output, size_t output_length);

/* GOOD is AGREES. BAD is DEVIATES; first: the test's place, second: the step. */
hegdorvin_answer hegdorvin_judge(const uint8_t *dossier, size_t dossier_length, const uint8_t *sheet, size_t sheet_length);

/* Always GOOD. Where the judge answers DEVIATES: first: the byte of the dossier where that test's inputs begin, second: how
 * many they are. Both are 0 with every other answer of the judge. */
hegdorvin_answer hegdorvin_judge_word(const uint8_t *dossier, size_t dossier_length, const uint8_t *sheet,
                                      size_t sheet_length);

/* GOOD is a cost; first: the count of tests, second: the sum of their lengths. */
hegdorvin_answer hegdorvin_cost(const uint8_t *dossier, size_t dossier_length);

/* The unit is taken as golden, and the bound as the dossier's m; 0 is written as 0. GOOD is FOUND; first: the length of the
 * dossier that was written, which has no tests yet. UNREACHED and NOT REDUCED concern the unit; first: the state, or the
 * lower of the two; second: the other. NO ROOM; first: the length needed. */
hegdorvin_answer hegdorvin_find(const uint8_t *unit, size_t unit_length, uint8_t bound, uint8_t *output, size_t output_length);

/* Reads a KISS2 text, as docs/KISS2.md has it, into a unit file. GOOD is IMPORTED; first: the length of the unit that was
 * written. TOO LONG concerns the text. BAD LINE and CONTRADICTION; first: the line, counted from 1. INCOMPLETE; first: the
 * state without a term, second: the input. NO ROOM; first: the length needed. */
hegdorvin_answer hegdorvin_read_kiss2(const uint8_t *text, size_t text_length, uint8_t *output, size_t output_length);

/* The code of an answer: GOOD, BAD, or the number of a refusal. */
enum hegdorvin_code {
    HEGDORVIN_GOOD = 0,
    HEGDORVIN_TOO_LONG = 1,
    HEGDORVIN_CUT_SHORT = 2,
    HEGDORVIN_BAD_NUMBERS = 3,
    HEGDORVIN_BAD_TABLE = 4,
    HEGDORVIN_BAD_WORD = 5,
    HEGDORVIN_TRAILING = 6,
    HEGDORVIN_NO_EMPTY_WORD = 7,
    HEGDORVIN_UNREACHED = 8,
    HEGDORVIN_NO_SEPARATOR = 9,
    HEGDORVIN_NOT_SEPARATED = 10,
    HEGDORVIN_MISSING = 11,
    HEGDORVIN_REPEATED = 12,
    HEGDORVIN_FOREIGN = 13,
    HEGDORVIN_ABSENT = 14,
    HEGDORVIN_OTHER_INPUTS = 15,
    HEGDORVIN_TOO_MANY_STATES = 16,
    HEGDORVIN_NO_ROOM = 17,
    HEGDORVIN_NOT_REDUCED = 18,
    HEGDORVIN_BAD_LINE = 19,
    HEGDORVIN_CONTRADICTION = 20,
    HEGDORVIN_INCOMPLETE = 21,
    HEGDORVIN_BAD = 31
};

/* What a refusal concerns. */
enum hegdorvin_file {
    HEGDORVIN_NO_FILE = 0,
    HEGDORVIN_DOSSIER = 1,
    HEGDORVIN_UNIT = 2,
    HEGDORVIN_SHEET = 3,
    HEGDORVIN_OUTPUT = 4,
    HEGDORVIN_TEXT = 5,
    HEGDORVIN_NUMBER = 6 /* a number that was passed */
};

static inline unsigned hegdorvin_bits(hegdorvin_answer answer, unsigned from, unsigned count)
{
    return (unsigned)(answer >> from & ((UINT64_C(1) << count) - 1));
}

static inline enum hegdorvin_code hegdorvin_code_of(hegdorvin_answer answer)
{
    return (enum hegdorvin_code)hegdorvin_bits(answer, 0, 5);
}

static inline enum hegdorvin_file hegdorvin_file_of(hegdorvin_answer answer)
{
    return (enum hegdorvin_file)hegdorvin_bits(answer, 5, 3);
}

/* The values of every answer but MISSING; 0 where it has none. */
static inline unsigned hegdorvin_first(hegdorvin_answer answer)
{
    return hegdorvin_bits(answer, 8, 24);
}

static inline unsigned hegdorvin_second(hegdorvin_answer answer)
{
    return hegdorvin_bits(answer, 32, 24);
}

/* The values of MISSING. A middle has at most five inputs, placed from 0. */
static inline unsigned hegdorvin_cover_place(hegdorvin_answer answer)
{
    return hegdorvin_bits(answer, 8, 16);
}

static inline unsigned hegdorvin_separator_place(hegdorvin_answer answer)
{
    return hegdorvin_bits(answer, 24, 16);
}

static inline unsigned hegdorvin_middle_length(hegdorvin_answer answer)
{
    return hegdorvin_bits(answer, 40, 3);
}

static inline unsigned hegdorvin_middle_input(hegdorvin_answer answer, unsigned place)
{
    return hegdorvin_bits(answer, 43 + 4 * place, 4);
}

#ifdef __cplusplus
}
#endif

#endif
