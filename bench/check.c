// The check of a dossier.
#include "baseline.h"
#include "separators.h"

static void put_tests(const struct dossier *d, struct trie *t)
{
    empty_trie(t);
    size word = d->tests.place;
    u32 node;
    for (size left = d->tests.count; left > 0; left--, word = next_word(d, word)) insert(t, 0, d->bytes + word, &node);
}

// The marks of a node: all separators, or all that may follow a cover word, were found behind it.
enum { SEPARATED = 1, COVERED = 2 };

// The middle at a place among those of its length.
static u64 missing(const struct dossier *d, size cover, u32 length, size place, size separator)
{
    u64 digits = 0;
    for (u32 i = 0; i < length; i++, place /= d->inputs) digits = digits << 4 | place % d->inputs;
    return MISSING | 1 << 5 | cover << 8 | separator << 24 | (u64)length << 40 | digits << 43;
}

// The first separator that cannot be walked from a node; their count where all can.
static size find_unwalked(const struct dossier *d, struct trie *t, const struct separators *s, u32 node)
{
    u32 there;
    if (t->marks[node] & SEPARATED) return s->count;
    size i = 0;
    while (i < s->count && walk(t, node, d->bytes + s->place[i], &there)) i++;
    if (i == s->count) t->marks[node] |= SEPARATED;
    return i;
}

// The nodes of a cover word's middles, by length and then by inputs, each after its separators were found.
static u64 find_missing_behind(const struct dossier *d, struct trie *t, const struct separators *s, size cover, u32 node)
{
    u16 nodes[MOST_NODES];
    size unwalked = find_unwalked(d, t, s, node), grown = 0, end = 1;
    if (unwalked < s->count) return missing(d, cover, 0, 0, s->number[unwalked]);
    nodes[0] = (u16)node;
    for (u32 length = 1; length <= d->bound - d->states + 1; length++) {
        size place = 0;
        for (size level = end; grown < level; grown++) {
            for (u32 input = 0; input < d->inputs; input++, place++) {
                u32 to = child(t, nodes[grown], (byte)input);
                if (to == 0) return missing(d, cover, length, place, 0);
                unwalked = find_unwalked(d, t, s, to);
                if (unwalked < s->count) return missing(d, cover, length, place, s->number[unwalked]);
                nodes[end++] = (u16)to;
            }
        }
    }
    return 0;
}

static u64 find_missing(const struct dossier *d)
{
    struct trie t;
    struct separators s;
    if (d->tests.count == 0) return missing(d, 0, 0, 0, 0);
    find_distinct(d, &t, &s);
    put_tests(d, &t);
    size word = d->cover.place;
    for (size i = 0; i < d->cover.count; i++, word = next_word(d, word)) {
        u32 node;
        if (!walk(&t, 0, d->bytes + word, &node)) return missing(d, i, 0, 0, 0);
        if (t.marks[node] & COVERED) continue;
        u64 refused = find_missing_behind(d, &t, &s, i, node);
        if (refused != 0) return refused;
        t.marks[node] |= COVERED;
    }
    return 0;
}

u64 read_accepted(const byte *bytes, size length, struct dossier *d)
{
    u64 refused = read_sound(bytes, length, d);
    return refused != 0 ? refused : find_missing(d);
}

u64 baseline_check(const byte *bytes, size length)
{
    struct dossier d;
    return read_accepted(bytes, length, &d);
}
