// The run of a unit over a dossier's tests.
#include "baseline.h"
#include "dossier.h"

enum { FAILS = 31 };

// The first step at which golden and unit answer a test differently; its length where they do not.
static u32 first_difference(const struct dossier *d, const struct unit *u, size word)
{
    u32 golden_state = 0, unit_state = 0, length = d->bytes[word];
    for (u32 step = 0; step < length; step++) {
        u32 input = d->bytes[word + 1 + step];
        const byte *expected = d->table + 2 * (golden_state * d->inputs + input);
        const byte *given = u->table + 2 * (unit_state * u->inputs + input);
        if (expected[1] != given[1]) return step;
        golden_state = expected[0];
        unit_state = given[0];
    }
    return length;
}

static u64 try_tests(const struct dossier *d, const struct unit *u)
{
    size word = d->tests.place;
    for (size i = 0; i < d->tests.count; i++, word = next_word(d, word)) {
        u64 step = first_difference(d, u, word);
        if (step < d->bytes[word]) return FAILS | i << 8 | step << 32;
    }
    return d->tests.count << 8;
}

u64 baseline_run(const byte *bytes, size length, const byte *unit, size unit_length)
{
    struct dossier d;
    struct unit u;
    u64 refused = read_accepted(bytes, length, &d);
    if (refused == 0) refused = read_unit(unit, unit_length, &u);
    if (refused != 0) return refused;
    if (u.inputs != d.inputs) return refusal_of(UNIT, OTHER_INPUTS, 0, 0);
    if (u.states > d.bound) return refusal_of(UNIT, TOO_MANY_STATES, 0, 0);
    return try_tests(&d, &u);
}
