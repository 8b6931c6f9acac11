// Words in fixed arrays: a node has its label, its newest child and its next older sibling, 0 for none. Node 0 is the root.
#ifndef TRIE_H
#define TRIE_H

#include "native.h"

enum { MOST_NODES = 65536 };

// Marks are the user's; a new node has none.
struct trie {
    u32 nodes;
    byte label[MOST_NODES];
    u16 first[MOST_NODES], next[MOST_NODES];
    byte marks[MOST_NODES];
};

static inline void add_node(struct trie *t, byte label, u16 next)
{
    t->label[t->nodes] = label;
    t->first[t->nodes] = 0;
    t->next[t->nodes] = next;
    t->marks[t->nodes] = 0;
    t->nodes++;
}

static inline void empty_trie(struct trie *t)
{
    t->nodes = 0;
    add_node(t, 0, 0);
}

// The node under another with a label, or 0.
static inline u32 child(const struct trie *t, u32 node, byte label)
{
    u32 at = t->first[node];
    while (at != 0 && t->label[at] != label) at = t->next[at];
    return at;
}

// The node under another with a label, made if there is none; 0 where the trie is full.
static inline u32 step(struct trie *t, u32 node, byte label)
{
    u32 to = child(t, node, label);
    if (to != 0 || t->nodes == MOST_NODES) return to;
    to = t->nodes;
    add_node(t, label, t->first[node]);
    t->first[node] = (u16)to;
    return to;
}

// Puts a word, which is a length byte and its inputs, in from a node: 1 and the node there, or 0 where the trie is full.
static inline int insert(struct trie *t, u32 node, const byte *word, u32 *there)
{
    for (const byte *input = word + 1, *end = input + *word; input < end; input++) {
        node = step(t, node, *input);
        if (node == 0) return 0;
    }
    *there = node;
    return 1;
}

// From a node along a word: 1 and the node there, or 0.
static inline int walk(const struct trie *t, u32 node, const byte *word, u32 *there)
{
    for (const byte *input = word + 1, *end = input + *word; input < end; input++) {
        node = child(t, node, *input);
        if (node == 0) return 0;
    }
    *there = node;
    return 1;
}

#endif
