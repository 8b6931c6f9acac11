// The separating words that differ.
#ifndef SEPARATORS_H
#define SEPARATORS_H

#include "dossier.h"
#include "trie.h"

// The separating words, each once: where it stands first, and its number there.
struct separators {
    size count;
    u16 place[MOST_BYTES], number[MOST_BYTES];
};

static inline void find_distinct(const struct dossier *d, struct trie *t, struct separators *s)
{
    empty_trie(t);
    s->count = 0;
    size word = d->separating.place;
    for (size i = 0; i < d->separating.count; i++, word = next_word(d, word)) {
        u32 node;
        // The words of one file never fill the trie.
        if (!insert(t, 0, d->bytes + word, &node) || t->marks[node]) continue;
        t->marks[node] = 1;
        s->place[s->count] = (u16)word;
        s->number[s->count++] = (u16)i;
    }
}

#endif
