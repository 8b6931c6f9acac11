// The reading of a KISS2 text into a unit file, in one pass over the bytes.
#include "baseline.h"
#include "dossier.h"

enum {
    MOST_INPUT_BITS = 4,
    MOST_OUTPUT_BITS = 8,
    LONGEST_NAME = 16,
    LONGEST_NUMBER = 9,
    MOST_NUMBER = 999999999,
    FIELDS = 5, // one more than any line has
    NO_NUMBER = 255,
};

// A field's bytes where they stand in the text.
struct field {
    const byte *bytes;
    size length;
};

// A name with zeros behind it, which no name has.
union name {
    byte bytes[LONGEST_NAME];
    u64 halves[LONGEST_NAME / 8];
};

// What was read so far. A count that was not said is 0. Names stand as they come; `number` is the state's number, which is
// given to the reset state and to current states, and `named` the other way round.
struct reader {
    u32 input_bits, output_bits, terms_said, states_said, is_reset_said, is_ended;
    u32 terms, names, numbers;
    union name name[MOST_STATES];
    byte number[MOST_STATES], named[MOST_STATES];
    u16 known[MOST_STATES]; // a bit for each input that has a term
    byte next[MOST_STATES][MOST_INPUTS], output[MOST_STATES][MOST_INPUTS];
};

static int is_gap(byte at)
{
    return at == ' ' || at == '\t' || at == '\r';
}

// The fields of the line at a place, of which no more than FIELDS are kept. The place behind the line's last byte.
static const byte *split(const byte *at, const byte *end, struct field *fields, u32 *count)
{
    *count = 0;
    for (;;) {
        while (at < end && is_gap(*at)) at++;
        if (at == end || *at == '\n') return at;
        const byte *from = at;
        while (at < end && *at != '\n' && !is_gap(*at)) at++;
        if (*count == FIELDS) continue;
        fields[*count].bytes = from;
        fields[(*count)++].length = (size)(at - from);
    }
}

// A number from 1 to the most, where none was said before.
static int say(u32 *said, const struct field *field, u32 most)
{
    u32 number = 0;
    if (*said != 0 || field->length > LONGEST_NUMBER) return 0;
    for (size i = 0; i < field->length; i++) {
        u32 digit = (u32)field->bytes[i] - '0';
        if (digit > 9) return 0;
        number = 10 * number + digit;
    }
    *said = number;
    return 1 <= number && number <= most;
}

// The place of a name among the names, to which it is added where it is new; -1 for no name, and for one too many.
static int find_name(struct reader *r, const struct field *field)
{
    union name name = {{0}};
    if (field->length > LONGEST_NAME) return -1;
    for (size i = 0; i < field->length; i++) {
        byte at = field->bytes[i];
        if (at < 0x21 || at > 0x7e) return -1;
        name.bytes[i] = at;
    }
    for (u32 i = 0; i < r->names; i++) {
        if (r->name[i].halves[0] == name.halves[0] && r->name[i].halves[1] == name.halves[1]) return (int)i;
    }
    if (r->names == (r->states_said != 0 ? r->states_said : MOST_STATES)) return -1;
    r->name[r->names] = name;
    r->number[r->names] = NO_NUMBER;
    return (int)r->names++;
}

static void number_name(struct reader *r, u32 name)
{
    if (r->number[name] != NO_NUMBER) return;
    r->named[r->numbers] = (byte)name;
    r->number[name] = (byte)r->numbers++;
}

static int read_reset(struct reader *r, const struct field *field)
{
    int name = r->is_reset_said ? -1 : find_name(r, field);
    if (name < 0) return 0;
    number_name(r, (u32)name);
    r->is_reset_said = 1;
    return 1;
}

// `.i`, `.o`, `.p`, `.s` or `.r`.
static int read_directive(struct reader *r, const struct field *fields)
{
    if (r->terms != 0 || fields[0].length != 2 || fields[0].bytes[0] != '.') return 0;
    switch (fields[0].bytes[1]) {
    case 'i': return say(&r->input_bits, &fields[1], MOST_INPUT_BITS);
    case 'o': return say(&r->output_bits, &fields[1], MOST_OUTPUT_BITS);
    case 'p': return say(&r->terms_said, &fields[1], MOST_NUMBER);
    case 's': return say(&r->states_said, &fields[1], MOST_STATES);
    case 'r': return read_reset(r, &fields[1]);
    default: return 0;
    }
}

// The bits as a number, and where its dashes are.
static int read_bits(const struct field *field, u32 bits, u32 *value, u32 *dashes)
{
    *value = *dashes = 0;
    if (field->length != bits) return 0;
    for (size i = 0; i < bits; i++) {
        byte at = field->bytes[i];
        if (at != '0' && at != '1' && at != '-') return 0;
        *value = *value << 1 | (at == '1');
        *dashes = *dashes << 1 | (at == '-');
    }
    return 1;
}

// Puts down what a term says of each of its inputs. Whether no earlier term says something else.
static int put_steps(struct reader *r, u32 state, u32 value, u32 dashes, byte next, byte output)
{
    u32 part = dashes;
    for (;; part = (part - 1) & dashes) {
        u32 input = value | part;
        if (r->known[state] >> input & 1) {
            if (r->next[state][input] != next || r->output[state][input] != output) return 0;
        } else {
            r->known[state] |= (u16)(1u << input);
            r->next[state][input] = next;
            r->output[state][input] = output;
        }
        if (part == 0) return 1;
    }
}

// 0, BAD_LINE or CONTRADICTION.
static u32 read_term(struct reader *r, const struct field *fields)
{
    u32 value, dashes, output, none;
    if (r->input_bits == 0 || r->output_bits == 0) return BAD_LINE;
    if (!read_bits(&fields[0], r->input_bits, &value, &dashes)) return BAD_LINE;
    if (!read_bits(&fields[3], r->output_bits, &output, &none) || none != 0) return BAD_LINE;
    int state = find_name(r, &fields[1]);
    if (state < 0) return BAD_LINE;
    int next = find_name(r, &fields[2]);
    if (next < 0 || (r->terms_said != 0 && r->terms == r->terms_said)) return BAD_LINE;
    number_name(r, (u32)state);
    r->terms++;
    return put_steps(r, (u32)state, value, dashes, (byte)next, (byte)output) ? 0 : CONTRADICTION;
}

// 0, BAD_LINE or CONTRADICTION.
static u32 read_line(struct reader *r, const struct field *fields, u32 count)
{
    if (count == 0 || fields[0].bytes[0] == '#') return 0;
    if (r->is_ended) return BAD_LINE;
    if (count == 1) {
        r->is_ended = fields[0].length == 2 && fields[0].bytes[0] == '.' && fields[0].bytes[1] == 'e';
        return r->is_ended ? 0 : BAD_LINE;
    }
    if (count == 2) return read_directive(r, fields) ? 0 : BAD_LINE;
    return count == 4 ? read_term(r, fields) : BAD_LINE;
}

static int is_whole(const struct reader *r)
{
    if (!r->is_ended || r->terms == 0) return 0;
    if (r->terms_said != 0 && r->terms_said != r->terms) return 0;
    return r->states_said == 0 || r->states_said == r->names;
}

static u64 read_lines(struct reader *r, const byte *text, size length)
{
    const byte *at = text, *end = text + length;
    struct field fields[FIELDS];
    u64 line = 1;
    for (; at < end; line++) {
        u32 count;
        at = split(at, end, fields, &count);
        u32 refused = read_line(r, fields, count);
        if (refused != 0) return refusal_of(TEXT, refused, line, 0);
        if (at < end) at++;
    }
    return is_whole(r) ? 0 : refusal_of(TEXT, BAD_LINE, line, 0);
}

// INCOMPLETE, if it is. A state that is a next state only has no terms.
static u64 find_gap(struct reader *r, u32 inputs)
{
    u32 all = (1u << inputs) - 1;
    for (u32 name = 0; name < r->names; name++) number_name(r, name);
    for (u32 state = 0; state < r->names; state++) {
        u32 lacking = all & ~(u32)r->known[r->named[state]];
        if (lacking != 0) return refusal_of(TEXT, INCOMPLETE, state, (u64)__builtin_ctz(lacking));
    }
    return 0;
}

static void put_unit(const struct reader *r, u32 inputs, byte *out)
{
    u32 entries = r->names * inputs;
    byte numbers[6] = {2, 0, (byte)inputs, (byte)r->names, (byte)entries, (byte)(entries >> 8)};
    memcpy(out, numbers, sizeof numbers);
    out += sizeof numbers;
    for (u32 state = 0; state < r->names; state++) {
        u32 name = r->named[state];
        for (u32 input = 0; input < inputs; input++) {
            *out++ = r->number[r->next[name][input]];
            *out++ = r->output[name][input];
        }
    }
}

u64 baseline_read_kiss2(const byte *text, size length, byte *out, size room)
{
    struct reader r;
    if (length > MOST_BYTES) return refusal_of(TEXT, TOO_LONG, 0, 0);
    memset(&r, 0, sizeof r);
    u64 refused = read_lines(&r, text, length);
    if (refused != 0) return refused;
    u32 inputs = 1u << r.input_bits;
    refused = find_gap(&r, inputs);
    if (refused != 0) return refused;
    size needed = 6 + 2 * r.names * inputs;
    if (needed > room) return refusal_of(OUTPUT, NO_ROOM, needed, 0);
    put_unit(&r, inputs, out);
    return needed << 8;
}
