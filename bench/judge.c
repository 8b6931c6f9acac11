// The judge of a sheet.
#include "baseline.h"
#include "dossier.h"
#include "trie.h"

enum { DEVIATES = 31, TESTED = 1 };

// The sheet's words: for each node the place of the record that has its word, 0 for none; and the node of each record.
struct filed {
    struct trie trie;
    u32 record[MOST_NODES];
    u16 node[MOST_NODES];
};

// The place of the record after the one at a place.
static size next_record(const byte *sheet, size record)
{
    return record + 1 + 2 * sheet[record];
}

// 0, or REPEATED.
static u64 put_records(const byte *sheet, const struct section *records, struct filed *f)
{
    empty_trie(&f->trie);
    memset(f->record, 0, sizeof f->record);
    size record = records->place;
    for (size i = 0; i < records->count; i++, record = next_record(sheet, record)) {
        u32 node = 0;
        insert(&f->trie, 0, sheet + record, &node);
        if (f->record[node] != 0) return refusal_of(SHEET, REPEATED, i, 0);
        f->record[node] = (u32)record;
        f->node[i] = (u16)node;
    }
    return 0;
}

// The place of the record that has a test's word, 0 for none. Its node is marked as that of a test.
static u32 find_record(struct filed *f, const byte *test)
{
    u32 node;
    if (!walk(&f->trie, 0, test, &node)) return 0;
    f->trie.marks[node] = TESTED;
    return f->record[node];
}

// 0 and the record of each test, or FOREIGN or ABSENT.
static u64 pair_records(const struct dossier *d, const struct section *records, struct filed *f, u32 *found)
{
    size absent = d->tests.count, test = d->tests.place;
    for (size i = 0; i < d->tests.count; i++, test = next_word(d, test)) {
        found[i] = find_record(f, d->bytes + test);
        if (found[i] == 0 && i < absent) absent = i;
    }
    for (size i = 0; i < records->count; i++) {
        if (f->trie.marks[f->node[i]] != TESTED) return refusal_of(SHEET, FOREIGN, i, 0);
    }
    return absent < d->tests.count ? refusal_of(SHEET, ABSENT, absent, 0) : 0;
}

// The first step at which the outputs that were recorded for a word are not the golden's; its length where all are.
static u32 first_difference(const struct dossier *d, const byte *word, const byte *outputs)
{
    u32 state = 0, length = *word;
    for (u32 step = 0; step < length; step++) {
        u32 input = word[1 + step];
        if (output(d, state, input) != outputs[step]) return step;
        state = next_state(d, state, input);
    }
    return length;
}

static u64 judge_records(const struct dossier *d, const byte *sheet, const u32 *found)
{
    size test = d->tests.place;
    for (size i = 0; i < d->tests.count; i++, test = next_word(d, test)) {
        u64 length = d->bytes[test];
        u64 step = first_difference(d, d->bytes + test, sheet + found[i] + 1 + length);
        if (step < length) return DEVIATES | i << 8 | step << 32;
    }
    return 0;
}

u64 baseline_judge(const byte *bytes, size length, const byte *sheet, size sheet_length)
{
    struct dossier d;
    struct section records;
    struct filed filed;
    u32 found[MOST_NODES];
    u64 refused = read_accepted(bytes, length, &d);
    if (refused == 0) refused = read_sheet(sheet, sheet_length, d.inputs, &records);
    if (refused == 0) refused = put_records(sheet, &records, &filed);
    if (refused == 0) refused = pair_records(&d, &records, &filed, found);
    return refused != 0 ? refused : judge_records(&d, sheet, found);
}
