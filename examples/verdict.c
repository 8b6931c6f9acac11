// From a maker's text to a verdict: reads document 01's golden G from KISS2, finds its words for m = 3, builds its tests, runs
// the unit V over them, looks for the shortest word that tells the two apart, and judges what a bench recorded of G.
#include "hegdorvin.h"
#include <stdio.h>

static const char text[] = ".i 1\n"
                           ".o 1\n"
                           ".r low\n"
                           "0 low low 0\n"
                           "1 low high 0\n"
                           "0 high low 1\n"
                           "1 high high 0\n"
                           ".e\n";

// k, u; two entries (next state, output) for each state.
static const uint8_t unit[] = {2, 0, 2, 3, 6, 0, 2, 0, 1, 0, 0, 1, 1, 0, 2, 0, 2, 0};

// Six records in an order of the bench's own: 1110 answered 0 0 0 1, 000 answered 0 0 0, ...
static const uint8_t sheet[] = {6, 0, 4, 1, 1, 1, 0, 0, 0, 0, 1, 3, 0, 0, 0, 0, 0, 0, 4, 1, 0, 1, 0, 0, 1, 0, 1,
                                4, 1, 1, 0, 0, 0, 0, 1, 0, 3, 0, 1, 0, 0, 0, 1, 4, 1, 0, 0, 0, 0, 1, 0, 0};

// What went wrong, as the documents number it.
static int refused(hegdorvin_answer answer)
{
    printf("REFUSED %u, file %u\n", hegdorvin_code_of(answer), hegdorvin_file_of(answer));
    return 1;
}

static void print_word(const uint8_t *word, unsigned length)
{
    for (unsigned i = 0; i < length; i++) printf("%x", word[i]);
    printf("\n");
}

int main(void)
{
    uint8_t table[2054], golden[65535], dossier[65535], word[127];
    hegdorvin_answer imported = hegdorvin_read_kiss2((const uint8_t *)text, sizeof text - 1, table, sizeof table);
    if (hegdorvin_code_of(imported) != HEGDORVIN_GOOD) return refused(imported);
    printf("IMPORTED %u\n", hegdorvin_first(imported));

    hegdorvin_answer found = hegdorvin_find(table, hegdorvin_first(imported), 3, golden, sizeof golden);
    if (hegdorvin_code_of(found) != HEGDORVIN_GOOD) return refused(found);
    printf("FOUND %u\n", hegdorvin_first(found));

    hegdorvin_answer built = hegdorvin_build(golden, hegdorvin_first(found), dossier, sizeof dossier);
    if (hegdorvin_code_of(built) != HEGDORVIN_GOOD) return refused(built);
    unsigned length = hegdorvin_first(built);
    printf("BUILT %u\n", length);

    hegdorvin_answer ran = hegdorvin_run(dossier, length, unit, sizeof unit);
    if (hegdorvin_code_of(ran) == HEGDORVIN_GOOD) printf("PASSES %u\n", hegdorvin_first(ran));
    else if (hegdorvin_code_of(ran) == HEGDORVIN_BAD) printf("FAILS %u %u\n", hegdorvin_first(ran), hegdorvin_second(ran));
    else return refused(ran);

    hegdorvin_answer compared = hegdorvin_compare(dossier, length, unit, sizeof unit, word, sizeof word);
    if (hegdorvin_code_of(compared) == HEGDORVIN_GOOD) printf("EQUAL\n");
    else if (hegdorvin_code_of(compared) == HEGDORVIN_BAD) {
        printf("DIFFERS ");
        print_word(word, hegdorvin_first(compared));
    } else return refused(compared);

    hegdorvin_answer judged = hegdorvin_judge(dossier, length, sheet, sizeof sheet);
    if (hegdorvin_code_of(judged) == HEGDORVIN_GOOD) printf("AGREES\n");
    else if (hegdorvin_code_of(judged) == HEGDORVIN_BAD) {
        hegdorvin_answer part = hegdorvin_judge_word(dossier, length, sheet, sizeof sheet);
        printf("DEVIATES %u %u ", hegdorvin_first(judged), hegdorvin_second(judged));
        print_word(dossier + hegdorvin_first(part), hegdorvin_second(part));
    } else return refused(judged);
    return 0;
}
