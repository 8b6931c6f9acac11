// The finding of a cover and of separating words for a unit that is taken as golden.
#include "baseline.h"
#include "dossier.h"

enum {
    LONGEST_FOUND = MOST_STATES - 1,
    // Of the words of a section, by length, the first has at most one input, and each of the others at most one more than
    // the word before it. There are no more of them than states: put by length and inputs, each separating word tells apart
    // two states that none before it does. So no found dossier comes near the size.
    MOST_SECTION = 2 + MOST_STATES + LONGEST_FOUND * MOST_STATES / 2,
    MOST_FOUND = 5 + 2 + 2 * MOST_STATES * MOST_INPUTS + 2 * MOST_SECTION + 2,
};

// How the search came to each state: how many inputs lead there, the state before it, and the last input.
struct access {
    byte length[MOST_STATES], before[MOST_STATES], input[MOST_STATES];
};

// For each two states how many inputs tell them apart, 0 for not told yet, and the first of them.
struct told {
    byte distance[MOST_STATES][MOST_STATES], input[MOST_STATES][MOST_STATES];
};

// The dossier as far as it is written.
struct writer {
    byte bytes[MOST_FOUND];
    size length;
};

static const byte *entry(const struct unit *u, u32 state, u32 input)
{
    return u->table + 2 * (state * u->inputs + input);
}

// States in the order in which they are met, inputs rising: the first word to a state is the shortest, and first by inputs.
static u64 find_access(const struct unit *u, struct access *a)
{
    byte queue[MOST_STATES] = {0};
    u64 met = 1;
    u32 tail = 1;
    a->length[0] = 0;
    for (u32 head = 0; head < tail; head++) {
        u32 state = queue[head];
        for (u32 input = 0; input < u->inputs; input++) {
            u32 next = *entry(u, state, input);
            if (met >> next & 1) continue;
            met |= 1ul << next;
            a->length[next] = (byte)(a->length[state] + 1);
            a->before[next] = (byte)state;
            a->input[next] = (byte)input;
            queue[tail++] = (byte)next;
        }
    }
    u64 unreached = ~0ul >> (64 - u->states) & ~met;
    return unreached == 0 ? 0 : refusal_of(UNIT, UNREACHED, (u64)__builtin_ctzl(unreached), 0);
}

// Whether an input is the first of `length` inputs that tell two states apart, which no fewer do.
static int tells(const struct unit *u, const struct told *t, u32 p, u32 q, u32 input, u32 length)
{
    const byte *one = entry(u, p, input), *other = entry(u, q, input);
    if (length == 1) return one[1] != other[1];
    return t->distance[one[0]][other[0]] == length - 1;
}

// Tells apart what words of one length tell apart. How many pairs those are.
static u32 tell_round(const struct unit *u, struct told *t, u32 length)
{
    u32 pairs = 0;
    for (u32 p = 0; p < u->states; p++) {
        for (u32 q = p + 1; q < u->states; q++) {
            if (t->distance[p][q] != 0) continue;
            u32 input = 0;
            while (input < u->inputs && !tells(u, t, p, q, input, length)) input++;
            if (input == u->inputs) continue;
            t->distance[p][q] = t->distance[q][p] = (byte)length;
            t->input[p][q] = t->input[q][p] = (byte)input;
            pairs++;
        }
    }
    return pairs;
}

static u64 find_untold(const struct unit *u, const struct told *t)
{
    for (u32 p = 0; p < u->states; p++) {
        for (u32 q = p + 1; q < u->states; q++) {
            if (t->distance[p][q] == 0) return refusal_of(UNIT, NOT_REDUCED, p, q);
        }
    }
    return 0;
}

// A round for each length, until one tells nothing.
static u64 find_told(const struct unit *u, struct told *t)
{
    u32 left = u->states * (u->states - 1) / 2, pairs = 1;
    memset(t, 0, sizeof *t);
    for (u32 length = 1; left > 0 && pairs > 0; length++) {
        pairs = tell_round(u, t, length);
        left -= pairs;
    }
    return left == 0 ? 0 : find_untold(u, t);
}

static void put(struct writer *w, const byte *bytes, size length)
{
    memcpy(w->bytes + w->length, bytes, length);
    w->length += length;
}

static void put_count(struct writer *w, size count)
{
    byte bytes[2] = {(byte)count, (byte)(count >> 8)};
    put(w, bytes, 2);
}

static void put_cover(struct writer *w, const struct unit *u, const struct access *a)
{
    put_count(w, u->states);
    for (u32 state = 0; state < u->states; state++) {
        u32 length = a->length[state];
        byte *word = w->bytes + w->length;
        word[0] = (byte)length;
        for (u32 at = state; length > 0; length--, at = a->before[at]) word[length] = a->input[at];
        w->length += 1 + word[0];
    }
}

// The word that tells two states apart, behind a length byte.
static void read_off(const struct unit *u, const struct told *t, u32 p, u32 q, byte *word)
{
    word[0] = t->distance[p][q];
    for (u32 i = 1; i <= word[0]; i++) {
        u32 input = t->input[p][q];
        word[i] = (byte)input;
        p = *entry(u, p, input);
        q = *entry(u, q, input);
    }
}

// Whether a word stands among those from a place on.
static int is_kept(const struct writer *w, size from, const byte *word)
{
    for (size at = from; at < w->length; at += 1 + w->bytes[at]) {
        if (w->bytes[at] == word[0] && memcmp(w->bytes + at + 1, word + 1, word[0]) == 0) return 1;
    }
    return 0;
}

static void put_separating(struct writer *w, const struct unit *u, const struct told *t)
{
    byte word[1 + LONGEST_FOUND] = {0};
    size count = u->states == 1, place = w->length;
    put_count(w, count);
    size from = w->length;
    if (u->states == 1) put(w, word, 1);
    for (u32 p = 0; p < u->states; p++) {
        for (u32 q = p + 1; q < u->states; q++) {
            read_off(u, t, p, q, word);
            if (is_kept(w, from, word)) continue;
            put(w, word, 1 + word[0]);
            count++;
        }
    }
    w->bytes[place] = (byte)count;
}

static int is_bound(const struct unit *u, u32 bound)
{
    u32 highest = u->states + MOST_EXTRA < MOST_STATES ? u->states + MOST_EXTRA : MOST_STATES;
    return bound == 0 || (u->states <= bound && bound <= highest);
}

static void put_dossier(struct writer *w, const struct unit *u, byte bound, const struct access *a, const struct told *t)
{
    byte numbers[3] = {(byte)u->inputs, (byte)u->states, bound};
    w->length = 0;
    put_count(w, 3);
    put(w, numbers, 3);
    put_count(w, u->states * u->inputs);
    put(w, u->table, 2 * u->states * u->inputs);
    put_cover(w, u, a);
    put_separating(w, u, t);
    put_count(w, 0);
}

u64 baseline_find(const byte *unit, size unit_length, byte bound, byte *out, size room)
{
    struct unit u;
    struct access a;
    struct told t;
    struct writer w;
    u64 refused = read_unit(unit, unit_length, &u);
    if (refused != 0) return refused;
    if (!is_bound(&u, bound)) return refusal_of(NUMBER, BAD_NUMBERS, 0, 0);
    refused = find_access(&u, &a);
    if (refused == 0) refused = find_told(&u, &t);
    if (refused != 0) return refused;
    put_dossier(&w, &u, bound, &a, &t);
    if (w.length > room) return refusal_of(OUTPUT, NO_ROOM, w.length, 0);
    memcpy(out, w.bytes, w.length);
    return w.length << 8;
}
