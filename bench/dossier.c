// Reading a dossier, a unit or a sheet, front to back.
#include "dossier.h"

struct reader {
    const byte *bytes;
    size length, place;
    u64 file;
    u64 refused; // 0 as long as nothing is
};

static int refuse(struct reader *r, u64 number, size place)
{
    r->refused = refusal_of(r->file, number, place, 0);
    return 0;
}

static int get_byte(struct reader *r, u32 *value)
{
    if (r->place == r->length) return refuse(r, CUT_SHORT, r->length);
    *value = r->bytes[r->place++];
    return 1;
}

static int get_count(struct reader *r, size *count)
{
    u32 low, high;
    if (!get_byte(r, &low) || !get_byte(r, &high)) return 0;
    *count = low + 256 * high;
    return 1;
}

// A count that can have one value only.
static int get_fixed_count(struct reader *r, size right, u64 fault)
{
    size place = r->place, count;
    if (!get_count(r, &count)) return 0;
    return count == right || refuse(r, fault, place);
}

static int get_number(struct reader *r, u32 most, u32 *number)
{
    if (!get_byte(r, number)) return 0;
    return (1 <= *number && *number <= most) || refuse(r, BAD_NUMBERS, r->place - 1);
}

// How many numbers there are, and the first two of them.
static int get_sizes(struct reader *r, size numbers, u32 *inputs, u32 *states)
{
    return get_fixed_count(r, numbers, BAD_NUMBERS) && get_number(r, MOST_INPUTS, inputs) &&
           get_number(r, MOST_STATES, states);
}

static int get_bound(struct reader *r, struct dossier *d)
{
    if (!get_byte(r, &d->bound)) return 0;
    if (d->bound == 0) d->bound = d->states;
    u32 highest = d->states + MOST_EXTRA < MOST_STATES ? d->states + MOST_EXTRA : MOST_STATES;
    return (d->states <= d->bound && d->bound <= highest) || refuse(r, BAD_NUMBERS, r->place - 1);
}

static int get_table(struct reader *r, u32 inputs, u32 states, const byte **table)
{
    if (!get_fixed_count(r, states * inputs, BAD_TABLE)) return 0;
    *table = r->bytes + r->place;
    for (u32 left = states * inputs; left > 0; left--) {
        u32 next, shown;
        if (!get_byte(r, &next)) return 0;
        if (next >= states) return refuse(r, BAD_TABLE, r->place - 1);
        if (!get_byte(r, &shown)) return 0;
    }
    return 1;
}

// A word, and its length.
static int get_word(struct reader *r, u32 inputs, u32 longest, u32 *length)
{
    if (!get_byte(r, length)) return 0;
    if (*length > longest) return refuse(r, BAD_WORD, r->place - 1);
    for (u32 left = *length; left > 0; left--) {
        u32 input;
        if (!get_byte(r, &input)) return 0;
        if (input >= inputs) return refuse(r, BAD_WORD, r->place - 1);
    }
    return 1;
}

static int get_words(struct reader *r, const struct dossier *d, u32 longest, struct section *section)
{
    u32 length;
    if (!get_count(r, &section->count)) return 0;
    section->place = r->place;
    for (size left = section->count; left > 0; left--) {
        if (!get_word(r, d->inputs, longest, &length)) return 0;
    }
    return 1;
}

// Each a word and as many outputs, which are any bytes.
static int get_records(struct reader *r, u32 inputs, struct section *records)
{
    u32 length;
    if (!get_count(r, &records->count)) return 0;
    records->place = r->place;
    for (size left = records->count; left > 0; left--) {
        if (!get_word(r, inputs, LONGEST_TEST, &length)) return 0;
        if (r->length - r->place < length) return refuse(r, CUT_SHORT, r->length);
        r->place += length;
    }
    return 1;
}

static u64 end(struct reader *r, int read)
{
    if (read && r->place < r->length) refuse(r, TRAILING, r->place);
    return r->refused;
}

u64 read_dossier(const byte *bytes, size length, struct dossier *d)
{
    struct reader r = {bytes, length, 0, DOSSIER, 0};
    if (length > MOST_BYTES) return refusal(TOO_LONG, 0, 0);
    d->bytes = bytes;
    int read = get_sizes(&r, 3, &d->inputs, &d->states) && get_bound(&r, d) &&
               get_table(&r, d->inputs, d->states, &d->table) && get_words(&r, d, LONGEST_WORD, &d->cover) &&
               get_words(&r, d, LONGEST_WORD, &d->separating) && get_words(&r, d, LONGEST_TEST, &d->tests);
    return end(&r, read);
}

u64 read_unit(const byte *bytes, size length, struct unit *u)
{
    struct reader r = {bytes, length, 0, UNIT, 0};
    if (length > MOST_BYTES) return refusal_of(UNIT, TOO_LONG, 0, 0);
    int read = get_sizes(&r, 2, &u->inputs, &u->states) && get_table(&r, u->inputs, u->states, &u->table);
    return end(&r, read);
}

u64 read_sheet(const byte *bytes, size length, u32 inputs, struct section *records)
{
    struct reader r = {bytes, length, 0, SHEET, 0};
    if (length > MOST_SHEET_BYTES) return refusal_of(SHEET, TOO_LONG, 0, 0);
    return end(&r, get_records(&r, inputs, records));
}
