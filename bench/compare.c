// The comparison of golden and unit.
#include "baseline.h"
#include "dossier.h"

enum { DIFFERS = 31, PAIRS = MOST_STATES * MOST_STATES };

// A pair of states that was met, the entry of the pair that led to it, and by which input.
struct entry {
    byte golden, unit, input;
    u16 parent;
};

// The word that leads to the pair at a place, and then an input.
static u64 write_telling(const struct entry *queue, u32 place, u32 input, byte *out, size room)
{
    u64 length = 1;
    for (u32 i = place; i != 0; i = queue[i].parent) length++;
    if (length > room) return refusal_of(OUTPUT, NO_ROOM, length, 0);
    byte *at = out + length - 1;
    *at = (byte)input;
    for (u32 i = place; i != 0; i = queue[i].parent) *--at = queue[i].input;
    return DIFFERS | length << 8;
}

// Pairs in the order in which they are met, inputs rising: the first difference is the shortest, and first by inputs.
static u64 search(const struct dossier *d, const struct unit *u, byte *out, size room)
{
    byte met[PAIRS] = {1};
    struct entry queue[PAIRS];
    u32 tail = 1;
    queue[0] = (struct entry){0, 0, 0, 0};
    for (u32 head = 0; head < tail; head++) {
        const byte *expected = d->table + 2 * queue[head].golden * d->inputs;
        const byte *given = u->table + 2 * queue[head].unit * u->inputs;
        for (u32 input = 0; input < d->inputs; input++, expected += 2, given += 2) {
            if (expected[1] != given[1]) return write_telling(queue, head, input, out, room);
            u32 pair = expected[0] * MOST_STATES + given[0];
            if (met[pair]) continue;
            met[pair] = 1;
            queue[tail++] = (struct entry){expected[0], given[0], (byte)input, (u16)head};
        }
    }
    return 0;
}

u64 baseline_compare(const byte *bytes, size length, const byte *unit, size unit_length, byte *out, size room)
{
    struct dossier d;
    struct unit u;
    u64 refused = read_dossier(bytes, length, &d);
    if (refused == 0) refused = read_unit(unit, unit_length, &u);
    if (refused != 0) return refused;
    if (u.inputs != d.inputs) return refusal_of(UNIT, OTHER_INPUTS, 0, 0);
    return search(&d, &u, out, room);
}
