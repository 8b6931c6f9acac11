// A dossier, a unit or a sheet that is well formed: its numbers, and where its sections stand.
#ifndef DOSSIER_H
#define DOSSIER_H

#include "native.h"

enum {
    MOST_BYTES = 65535,
    MOST_SHEET_BYTES = 131070,
    MOST_INPUTS = 16,
    MOST_STATES = 64,
    MOST_EXTRA = 4,
    LONGEST_WORD = 97, // of cover and separating words
    LONGEST_TEST = 200,
};

enum {
    TOO_LONG = 1,
    CUT_SHORT,
    BAD_NUMBERS,
    BAD_TABLE,
    BAD_WORD,
    TRAILING,
    NO_EMPTY_WORD,
    UNREACHED,
    NO_SEPARATOR,
    NOT_SEPARATED,
    MISSING,
    REPEATED,
    FOREIGN,
    ABSENT,
    OTHER_INPUTS,
    TOO_MANY_STATES,
    NO_ROOM,
    NOT_REDUCED,
    BAD_LINE,
    CONTRADICTION,
    INCOMPLETE,
};

// What a refusal can concern.
enum { DOSSIER = 1, UNIT, SHEET, OUTPUT, TEXT, NUMBER };

// The place of the first word and how many there are.
struct section {
    size place;
    size count;
};

struct dossier {
    const byte *bytes;
    u32 inputs, states, bound;
    const byte *table;
    struct section cover, separating, tests;
};

struct unit {
    u32 inputs, states;
    const byte *table;
};

// Each answers 0, or the packed refusal: of 1 to 6; of 1 to 10; of 1 to 11; of 1 to 6; of 1, 2, 5, 6.
u64 read_dossier(const byte *bytes, size length, struct dossier *dossier);
u64 read_sound(const byte *bytes, size length, struct dossier *dossier);
u64 read_accepted(const byte *bytes, size length, struct dossier *dossier);
u64 read_unit(const byte *bytes, size length, struct unit *unit);
u64 read_sheet(const byte *bytes, size length, u32 inputs, struct section *records);

static inline u64 refusal_of(u64 file, u64 number, u64 first, u64 second)
{
    return number | file << 5 | first << 8 | second << 32;
}

// A refusal of a dossier with its values.
static inline u64 refusal(u64 number, u64 first, u64 second)
{
    return refusal_of(DOSSIER, number, first, second);
}

static inline u32 next_state(const struct dossier *d, u32 state, u32 input)
{
    return d->table[2 * (state * d->inputs + input)];
}

static inline u32 output(const struct dossier *d, u32 state, u32 input)
{
    return d->table[2 * (state * d->inputs + input) + 1];
}

// The place of the word after the one at a place.
static inline size next_word(const struct dossier *d, size word)
{
    return word + 1 + d->bytes[word];
}

#endif
