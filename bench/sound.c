// What is asked of the cover and the separating words of a dossier.
#include "dossier.h"

static int has_empty_word(const struct dossier *d)
{
    size word = d->cover.place;
    for (size left = d->cover.count; left > 0; left--, word = next_word(d, word)) {
        if (d->bytes[word] == 0) return 1;
    }
    return 0;
}

// A bit for each state.
static u64 all_states(const struct dossier *d)
{
    return ~0ul >> (64 - d->states);
}

static u64 reached_states(const struct dossier *d)
{
    u64 reached = 0;
    size word = d->cover.place;
    for (size left = d->cover.count; left > 0; left--, word = next_word(d, word)) {
        u32 state = 0;
        for (u32 i = 0; i < d->bytes[word]; i++) state = next_state(d, state, d->bytes[word + 1 + i]);
        reached |= 1ul << state;
    }
    return reached;
}

// Takes from each state's bits those of the states that answer a word otherwise.
static void tell_apart(const struct dossier *d, size word, u64 *alike)
{
    byte at[MOST_STATES], shown[MOST_STATES];
    u64 same[256];
    for (u32 s = 0; s < d->states; s++) at[s] = (byte)s;
    for (u32 i = 0; i < d->bytes[word]; i++) {
        byte input = d->bytes[word + 1 + i];
        for (u32 s = 0; s < d->states; s++) {
            shown[s] = (byte)output(d, at[s], input);
            at[s] = (byte)next_state(d, at[s], input);
            same[shown[s]] = 0;
        }
        for (u32 s = 0; s < d->states; s++) same[shown[s]] |= 1ul << s;
        for (u32 s = 0; s < d->states; s++) alike[s] &= same[shown[s]];
    }
}

// The lowest state with a higher one that is not told from it; the count of states where there is none.
static u32 lowest_alike(const struct dossier *d, const u64 *alike)
{
    u32 s = 0;
    while (s < d->states && alike[s] >> s == 1) s++;
    return s;
}

static u64 find_unseparated(const struct dossier *d)
{
    u64 alike[MOST_STATES];
    for (u32 s = 0; s < d->states; s++) alike[s] = all_states(d);
    size word = d->separating.place;
    u32 lowest = lowest_alike(d, alike);
    for (size left = d->separating.count; left > 0 && lowest < d->states; left--, word = next_word(d, word)) {
        tell_apart(d, word, alike);
        lowest = lowest_alike(d, alike);
    }
    if (lowest == d->states) return 0;
    u64 higher = alike[lowest] >> lowest >> 1;
    return refusal(NOT_SEPARATED, lowest, lowest + 1 + (u64)__builtin_ctzl(higher));
}

static u64 find_unsound(const struct dossier *d)
{
    if (!has_empty_word(d)) return refusal(NO_EMPTY_WORD, 0, 0);
    u64 unreached = all_states(d) & ~reached_states(d);
    if (unreached != 0) return refusal(UNREACHED, (u64)__builtin_ctzl(unreached), 0);
    if (d->separating.count == 0) return refusal(NO_SEPARATOR, 0, 0);
    return find_unseparated(d);
}

u64 read_sound(const byte *bytes, size length, struct dossier *d)
{
    u64 refused = read_dossier(bytes, length, d);
    return refused != 0 ? refused : find_unsound(d);
}
