/* teeth.c: what the comparison is worth: it notices every wrong rule, and has met everything often enough. */
#include "cases.h"
#include "sections.h"

#include <stdio.h>
#include <string.h>

/* ---- Wrong rules ---- */

#define ROW(name, functions, words) { #name, functions, words },
static const struct { const char *name; unsigned functions; const char *words; } rule[WRONG_COUNT] = {
    { "", 0, "" }, WRONG_RULES(ROW)
};

/* The first kept case of the function in which the wrong rule that is switched on shows; NULL if none does. */
static const char *first_notice(enum function function)
{
    static struct outcome mistaken;
    for (size_t i = 0; i < kept_count; i++)
        if (kept[i].call.function == function) {
            ask_simple(&kept[i].call, &mistaken);
            if (!same_as_kept(&kept[i], &mistaken))
                return kept[i].label;
        }
    return NULL;
}

/* One line for each case, with all functions that it is the first for. */
static void print_notices(const char *const *notice)
{
    for (int f = 0; f < FUNCTIONS; f++) {
        int again = 0;
        for (int before = 0; before < f; before++)
            again |= notice[before] && notice[f] && strcmp(notice[before], notice[f]) == 0;
        if (!notice[f] || again)
            continue;
        printf("    %s:", notice[f]);
        for (int other = f; other < FUNCTIONS; other++)
            if (notice[other] && strcmp(notice[other], notice[f]) == 0)
                printf(" %s", function_name[other]);
        printf("\n");
    }
}

void teeth(void)
{
    int noticed = 0, asked = 0;
    printf("each wrong rule, and the first of %zu cases that notices it in each function concerned:\n", kept_count);
    for (int w = 1; w < WRONG_COUNT; w++) {
        const char *notice[FUNCTIONS] = { NULL };
        wrong = (enum wrong)w;
        for (enum function f = 0; f < FUNCTIONS; f++)
            if (rule[w].functions >> f & 1)
                notice[f] = first_notice(f);
        wrong = NOTHING_WRONG;
        printf("  %s\n", rule[w].words);
        print_notices(notice);
        for (enum function f = 0; f < FUNCTIONS; f++)
            if (rule[w].functions >> f & 1) {
                expect(notice[f] != NULL, "wrong rule %s is not noticed in %s", rule[w].name, function_name[f]);
                noticed += notice[f] != NULL;
                asked++;
            }
    }
    printf("wrong rules: %d; noticed %d times of %d, one for each function concerned\n", WRONG_COUNT - 1, noticed, asked);
}

/* ---- Counts ---- */

/* How often each refusal must have been given at least: -1 where the rules do not know it. */
static const long least[GIVERS][REFUSALS] = {
    /*                     0    1      2     3     4     5     6     7    8     9     10     11     12     13    14    15 */
    [PLAN] =        { 30000,  30, 40000,  400, 5000,  700, 3000, 3000, 900,   -1, 15000,    -1,    -1,    -1,   -1, 3000 },
    [READ] =        {  8000,  40,  9000,  110, 1000,  150,  600,  500, 200,   -1,  2000,    -1,    -1,    -1,   -1,  700 },
    [TABLES] =      { 10000,  -1,    -1, 1000, 5000, 2000, 1000, 3000, 600, 9000,    -1,    -1,    -1,    -1,   -1, 2000 },
    [STARTS] =      { 25000,  -1,    -1, 1000, 5000, 2000, 1000, 3000, 600, 9000,  9000,    -1,    -1,    -1,   -1, 2000 },
    [CHECK] =       { 50000,  -1,    -1, 1000, 5000, 2000, 1000, 3000, 600, 9000,  2500, 15000,  9000,    -1,   -1, 2000 },
    [LEAD] =        { 60000,  -1,    -1, 1000, 5000, 2000, 1000, 3000, 600, 9000,    -1, 30000, 20000, 90000,   -1, 4000 },
    [PLAN_TEXT] =   { 50000,  -1,    -1, 1000, 5000, 2000, 1000, 3000, 600, 9000,  9000, 15000,  9000,    -1,   -1, 2000 },
    [READ_PLAN] =   {  5000,  40, 20000, 1000, 5000, 2000, 1000, 3000, 600, 9000,  1300,  3000,  1000,    -1, 1400, 2000 },
    [CHECK_TEXTS] = {  4500,  50,   500,   70,  180,   35,  100,  120,  50,   -1,   200,    -1,    -1,    -1,   -1,  150 },
    [TEXTS_PLAN] =  {    -1,  30,  6000,   -1,   -1,   -1,   -1,   -1,  -1,   -1,    -1,  1000,   800,    -1,  600,   -1 },
};
enum { LEAST_CLASHES = 12000, LEAST_TEXTS_CLASHES = 1400, LEAST_GAPS = 10000 };

static const char *giver(int g) { return g == TEXTS_PLAN ? "texts' plan" : function_name[g]; }

void counts(void)
{
    printf("refusals given (0: none given; -: not known to the function):\n             ");
    for (int number = 0; number < REFUSALS; number++)
        printf("%7d", number);
    for (int g = 0; g < GIVERS; g++) {
        printf("\n  %-11s", giver(g));
        for (int number = 0; number < REFUSALS; number++)
            if (least[g][number] < 0)
                printf("      -");
            else
                printf("%7ld", given[g][number]);
    }
    printf("\nclashes shown: %ld, and %ld of two texts; starts in a gap between two packets: %ld\n", clashes, texts_clashes, gaps);
    for (int g = 0; g < GIVERS; g++)
        for (int number = 0; number < REFUSALS; number++)
            if (least[g][number] < 0)
                expect(given[g][number] == 0, "%s gave refusal %d", giver(g), number);
            else
                expect(given[g][number] >= least[g][number], "%s gave refusal %d only %ld times, %ld are wanted", giver(g),
                       number, given[g][number], least[g][number]);
    expect(clashes >= LEAST_CLASHES, "only %ld clashes, %d are wanted", clashes, LEAST_CLASHES);
    expect(texts_clashes >= LEAST_TEXTS_CLASHES, "only %ld clashes of two texts, %d are wanted", texts_clashes,
           LEAST_TEXTS_CLASHES);
    expect(gaps >= LEAST_GAPS, "only %ld starts in a gap, %d are wanted", gaps, LEAST_GAPS);
}
