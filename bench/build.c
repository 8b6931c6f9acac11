// The build of a dossier.
#include "baseline.h"
#include "separators.h"

enum { LONGEST_NEEDED = 2 * LONGEST_WORD + MOST_EXTRA + 1 };

// The needed words of a dossier, in a trie. The mark of a node is one more than the length of the middles that were put in
// behind its word, so that no branch is grown twice.
struct grower {
    const struct dossier *dossier;
    const struct separators *separators;
    struct trie *trie;
};

// Each of these answers 0 where the trie is full: then the tests are over the size too.
static int put_separators(const struct grower *g, u32 node)
{
    u32 there;
    for (size i = 0; i < g->separators->count; i++) {
        if (!insert(g->trie, node, g->dossier->bytes + g->separators->place[i], &there)) return 0;
    }
    return 1;
}

// All that is needed behind the word of a node, where middles may have as many inputs as are left.
static int grow(const struct grower *g, u32 node, u32 left)
{
    if (left < g->trie->marks[node]) return 1;
    if (g->trie->marks[node] == 0 && !put_separators(g, node)) return 0;
    for (u32 input = 0; left > 0 && input < g->dossier->inputs; input++) {
        u32 to = step(g->trie, node, (byte)input);
        if (to == 0 || !grow(g, to, left - 1)) return 0;
    }
    g->trie->marks[node] = (byte)(left + 1);
    return 1;
}

static int grow_needed(const struct dossier *d, struct trie *t)
{
    struct separators s;
    struct grower g = {d, &s, t};
    find_distinct(d, t, &s);
    empty_trie(t);
    size word = d->cover.place;
    for (size left = d->cover.count; left > 0; left--, word = next_word(d, word)) {
        u32 node;
        if (!insert(t, 0, d->bytes + word, &node) || !grow(&g, node, d->bound - d->states + 1)) return 0;
    }
    return 1;
}

// How many words there are, and where their bytes end.
struct measured {
    size words, end;
};

// Adds the maximal words behind a node, whose own has `depth` inputs; 0 where they end beyond the size of a dossier.
static int measure(const struct trie *t, u32 inputs, u32 node, u32 depth, struct measured *m)
{
    if (t->first[node] == 0) {
        m->words++;
        m->end += 1 + depth;
        return m->end <= MOST_BYTES;
    }
    for (u32 input = 0; input < inputs; input++) {
        u32 to = child(t, node, (byte)input);
        if (to != 0 && !measure(t, inputs, to, depth + 1, m)) return 0;
    }
    return 1;
}

// Writes the maximal words behind a node, whose own is in the path. Where their bytes end.
static byte *write_words(const struct trie *t, u32 inputs, u32 node, byte *path, u32 depth, byte *out)
{
    if (t->first[node] == 0) {
        *out++ = (byte)depth;
        memcpy(out, path, depth);
        return out + depth;
    }
    for (u32 input = 0; input < inputs; input++) {
        u32 to = child(t, node, (byte)input);
        if (to == 0) continue;
        path[depth] = (byte)input;
        out = write_words(t, inputs, to, path, depth + 1, out);
    }
    return out;
}

u64 baseline_build(const byte *bytes, size length, byte *out, size room)
{
    struct dossier d;
    struct trie t;
    byte path[LONGEST_NEEDED];
    u64 refused = read_sound(bytes, length, &d);
    if (refused != 0) return refused;
    size tests = d.tests.place;
    struct measured m = {0, tests};
    if (!grow_needed(&d, &t) || !measure(&t, d.inputs, 0, 0, &m)) return refusal_of(OUTPUT, NO_ROOM, MOST_BYTES + 1, 0);
    if (m.end > room) return refusal_of(OUTPUT, NO_ROOM, m.end, 0);
    memcpy(out, bytes, tests - 2);
    out[tests - 2] = (byte)m.words;
    out[tests - 1] = (byte)(m.words >> 8);
    write_words(&t, d.inputs, 0, path, 0, out + tests);
    return m.end << 8;
}
