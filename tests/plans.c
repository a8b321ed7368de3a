/* plans.c: plans that are read back, by themselves and together with their job: as they were written, and damaged. */
#include "cases.h"
#include "sections.h"

#include <stdio.h>
#include <stdlib.h>
#include <string.h>

#define COUNT(array) (sizeof (array) / sizeof (array)[0])

/* The seeds, and how many of each. */
enum {
    FIRST_WRITTEN = 5000000, WRITTEN = 600,
    FIRST_DAMAGED = 6000000, DAMAGED = 12000
};

static struct text text, plan;
static struct tables tables;
static struct list starts;
static struct job job;
static int planned[MOST_PACKETS + 1];

void print_plan_seeds(void)
{
    printf("seeds: %d jobs from %d whose plans are read back, %d damaged plans from %d\n", WRITTEN, FIRST_WRITTEN, DAMAGED,
           FIRST_DAMAGED);
}

static void use_job(const char *shown)
{
    show_job(&job, shown);
    text_of_job(&job, &text);
    tables_of_job(&job, &tables);
}

/* The plan by itself. If it is taken, the planner writes the same bytes again for the starts that it read. */
static void run_plan(size_t places)
{
    run_read_plan(&tables, &plan, places);
    if (planner.answer.refusal || planner.answer.value != tables.sources.count)
        return;
    starts.count = planner.answer.value;
    memcpy(starts.value, lent_starts(&planner), starts.count * sizeof starts.value[0]);
    run_plan_text(&tables, &starts, plan.bytes);
    expect(planner.answer.refusal == 0 && planner.answer.value == plan.bytes && memcmp(planner.lent, plan.byte, plan.bytes) == 0,
           "%s: written again the plan is another", label);
}

/* The plan by itself, and with its job as text. */
static void run_both(void)
{
    run_plan(tables.sources.count);
    run_check_texts(&text, &plan, 4);
}

/* ---- Sessions ---- */

/* Whether the starts that were read are those of the plan, which is shown with one line for each packet. */
static int starts_as_shown(const char *shown)
{
    int k = 0, packet, start, end, right = 1;
    for (; sscanf(shown, "S %d %d %d\n", &packet, &start, &end) == 3; shown = strchr(shown, '\n') + 1, k++)
        right &= lent_starts(&planner)[k] == start;
    return right && planner.answer.value == (uint32_t)k;
}

/* Told by the program check: clear; or C and a clash; or R or Q and a refusal. */
static int told_as(const char *told)
{
    unsigned clash[4], number, place;
    char letter;
    const struct answer *a = &planner.answer;
    const uint32_t *found = lent_clash(&planner);
    if (sscanf(told, "C %u %u %u %u", &clash[0], &clash[1], &clash[2], &clash[3]) == 4)
        return a->refusal == 0 && a->text == 0 && a->value == 4 && clash[0] == found[0] && clash[1] == found[1]
            && clash[2] == found[2] && clash[3] == found[3];
    if (sscanf(told, "%c %u %u", &letter, &number, &place) == 3)
        return a->refusal == number && a->value == place && a->text == (letter == 'R' ? 1 : 2);
    return strcmp(told, "clear") == 0 && a->refusal == 0 && a->value == 0 && a->text == 0;
}

static void session_plan(const char *shown, const char *told)
{
    static int sessions;
    unsigned number, place;
    show_text(&plan, shown);
    name_cases("session of plans %d, told %s", ++sessions, told);
    run_read_plan(&tables, &plan, tables.sources.count);
    if (sscanf(told, "Q %u %u", &number, &place) == 2)
        expect(planner.answer.refusal == number && planner.answer.value == place, "%s: read", label);
    else
        expect(planner.answer.refusal == 0 && starts_as_shown(shown), "%s: starts", label);
    run_check_texts(&text, &plan, 4);
    expect(told_as(told), "%s: check of two texts", label);
    name_cases("session of plans %d, told %s, and too few places", sessions, told);
    run_read_plan(&tables, &plan, 0);
    run_check_texts(&text, &plan, 3);
}

/* What is told here is from the paper, by hand. */
void plan_sessions(void)
{
#define A012 "S 0 0 3\nS 1 0 2\nS 2 1 3\n"
    static const struct { const char *shown, *told; } row[] = {
        /* starts as the paper has them */
        { A012 "S 3 0 1\nT 3 3 3\n", "clear" },
        { "S 0 0 3\nS 1 0 2\nS 2 5 7\nS 3 9 10\nT 10 3 3\n", "clear" },
        { "S 0 0 3\nS 1 0 2\nS 2 0 2\nS 3 0 1\nT 3 3 3\n", "C 2 0 0 0" },
        { "S 0 0 3\nS 1 1 3\nS 2 0 2\nS 3 0 1\nT 3 3 3\n", "C 1 0 1 1" },
        { "S 0 32767 32770\nS 1 0 2\nS 2 1 3\nS 3 0 1\nT 32770 3 3\n", "clear" },
        /* the S lines */
        { "", "Q 11 0" },
        { "T 3 3 3\n", "Q 11 0" },
        { A012 "T 3 3 3\n", "Q 11 0" },
        { A012 "S 3 0 1\nS 4 0 0\nT 3 3 3\n", "Q 11 0" },
        { A012 "S 3 0 1\nS 4 0 0\nS 6 0 0\nT 3 3 3\n", "Q 2 6" },
        { A012 "S 4 0 1\nT 3 3 3\n", "Q 2 4" },
        { "S 1 0 3\nS 2 0 2\nS 3 1 3\nS 4 0 1\nT 3 3 3\n", "Q 2 1" },
        { "S 1 0 2\nS 0 0 3\nS 2 1 3\nS 3 0 1\nT 3 3 3\n", "Q 2 1" },
        { A012 "S 2 1 3\nS 3 0 1\nT 3 3 3\n", "Q 2 4" },
        { A012 "S 3 0\nT 3 3 3\n", "Q 2 4" },
        { A012 "S 3 0 1", "Q 2 4" },
        { A012 "S", "Q 2 4" },
        { A012 "S 3 0 01\nT 3 3 3\n", "Q 2 4" },
        { A012 "S 3 0 1\r\nT 3 3 3\n", "Q 2 4" },
        { A012 "s 3 0 1\nT 3 3 3\n", "Q 11 0" },
        { A012 "\nS 3 0 1\nT 3 3 3\n", "Q 11 0" },
        { A012 "SS 3 0 1\nT 3 3 3\n", "Q 2 4" },
        { "S 0 0 3\nS 1 0 2\nS 2 1 3\nS 3 65536 65537\nT 3 3 3\n", "Q 2 4" },
        /* the T line */
        { A012 "S 3 0 1\n", "Q 2 5" },
        { A012 "S 3 0 1\nT 3 3\n", "Q 2 5" },
        { A012 "S 3 0 1\nT 3 3 3 3\n", "Q 2 5" },
        { A012 "S 3 0 1\nT 3 3 3", "Q 2 5" },
        { A012 "S 3 0 1\n\nT 3 3 3\n", "Q 2 5" },
        { A012 "S 3 0 1\nt 3 3 3\n", "Q 2 5" },
        { A012 "S 3 0 1\nT 3 3 3\n\n", "Q 2 6" },
        { A012 "S 3 0 1\nT 3 3 3\nT 3 3 3\n", "Q 2 6" },
        { A012 "S 3 0 1\nT 3 3 3\nS 4 0 0\n", "Q 2 6" },
        { A012 "S 3 0 1\nT 3 3 3\nT 3 3 3\nT 3 3 3\n", "Q 2 6" },
        { A012 "S 3 0 1\nT 3 3 3\nx", "Q 2 6" },
        /* what they say */
        { "S 0 32768 32771\nS 1 0 2\nS 2 1 3\nS 3 0 1\nT 32771 3 3\n", "Q 12 1" },
        { "S 0 0 3\nS 1 0 2\nS 2 1 3\nS 3 65535 0\nT 3 3 3\n", "Q 12 4" },
        { "S 0 0 3\nS 1 0 3\nS 2 1 3\nS 3 0 1\nT 3 3 3\n", "Q 14 2" },
        { "S 0 0 0\nS 1 40000 40002\nS 2 1 3\nS 3 0 1\nT 3 3 3\n", "Q 14 1" },
        { A012 "S 3 0 0\nT 3 3 3\n", "Q 14 4" },
        { A012 "S 3 0 1\nT 1 3 3\n", "Q 14 5" },
        { A012 "S 3 0 1\nT 4 3 3\n", "Q 14 5" },
        { A012 "S 3 0 1\nT 3 2 3\n", "Q 14 5" },
        { A012 "S 3 0 1\nT 3 3 4\n", "Q 14 5" },
        { "S 0 0 3\nS 1 0 2\nS 2 0 2\nS 3 0 1\nT 3 4 3\n", "Q 14 5" },
        /* two of them */
        { A012 "S 4 0 1\nS 5 0 0\nT 3 3\n", "Q 2 4" },
        { A012 "S 3 0 1\nS 4 0 0\nT 3 3\n", "Q 11 0" },
        { "S 0 40000 3\nS 1 0 2\nS 2 1 3\nS 3 0 1\nT 3 3\n", "Q 2 5" },
        { "S 0 40000 3\nS 1 0 2\nS 2 1 3\nS 3 0 1\nT 3 3 3\n\n", "Q 2 6" },
        { "S 0 40000 3\nS 1 0 9\nS 2 1 3\nS 3 0 1\nT 9 9 9\n", "Q 12 1" },
    };
    use_job(session_a);
    for (size_t i = 0; i < COUNT(row); i++)
        session_plan(row[i].shown, row[i].told);
#undef A012
    use_job("N 1\n");
    session_plan("T 0 0 0\n", "clear");
    session_plan("", "Q 2 1");
    session_plan("T 0 0 1\n", "Q 14 1");
    session_plan("S 0 0 0\nT 0 0 0\n", "Q 11 0");
    use_job("N 2\nL 0 1\nP 0 0\n"); /* the least that a packet can be: C and D are 1 */
    session_plan("S 0 7 8\nT 8 1 1\n", "clear");
    session_plan("S 0 7 8\nT 1 1 1\n", "Q 14 2");
    session_plan("S 0 7 8\nT 8 1 0\n", "Q 14 2");
    session_plan("S 0 7 7\nT 7 1 1\n", "Q 14 1");
    use_job("N 3\nL 0 1\nL 1 2\nP 0 0 1\n"); /* C is 1, and D is 2 */
    session_plan("S 0 4 6\nT 6 1 2\n", "clear");
    session_plan("S 0 4 6\nT 6 2 1\n", "Q 14 2");
    session_plan("S 0 4 6\nT 6 2 2\n", "Q 14 2");
    session_plan("S 0 4 6\nT 6 1 1\n", "Q 14 2");

    /* a job that is refused, whatever its plan */
    static const char *const other[] = { "T 0 0 0\n", "", "S 1\n", "S 0 65535 0\nT 9 9 9\n\n" };
    static const struct { const char *shown, *told; } refused[] = {
        { "", "R 2 1" }, { "N 0\n", "R 3 1" }, { "N 2\nL 0 2\n", "R 4 2" }, { "N 2\nL 1 1\n", "R 5 2" },
        { "N 1\nP 0 0\n", "R 6 2" }, { "N 2\nL 0 1\nP 1 0\n", "R 7 3" }, { "N 2\nL 0 1\nL 1 0\nP 0 0 1\n", "R 8 4" },
        { "N 1\nP 0\n", "R 15 2" }, { "N 1\nP 1\n", "R 4 2" },
    };
    for (size_t i = 0; i < COUNT(refused); i++)
        for (size_t other_plan = 0; other_plan < COUNT(other); other_plan++) {
            show_text(&text, refused[i].shown);
            show_text(&plan, other[other_plan]);
            name_cases("job told %s with plan %zu", refused[i].told, other_plan);
            run_check_texts(&text, &plan, other_plan);
            expect(told_as(refused[i].told), "%s", label);
        }
}

/* ---- Forms ---- */

/* Texts and places of which the last 16 bits of the length are 0, and texts of one byte less, for one packet of one hop. */
static void early_lengths(void)
{
    static const char one_hop[] = "N 2\nL 0 1\nP 0 0\n";
    use_job(one_hop);
    show_text(&plan, "S 0 0 1\nT 1 1 1\n");
    name_cases("65,536 places");
    run_read_plan(&tables, &plan, 65536);
    for (int letter = 0; letter < 2; letter++)
        for (size_t bytes = 65535; bytes <= 65536; bytes++) {
            clear_text(&plan);
            add(&plan, "%s", letter ? "S" : "");
            memset(plan.byte + plan.bytes, ' ', bytes - plan.bytes);
            plan.bytes = bytes;
            name_cases("plan of %zu bytes, letter %d", bytes, letter);
            run_both();
            name_cases("plan of %zu bytes, letter %d, and no nodes", bytes, letter);
            use_job(one_hop);
            tables.nodes = 0;
            text.byte[2] = '0';
            run_both();
            name_cases("plan and job of %zu bytes, letter %d", bytes, letter);
            run_check_texts(&plan, &plan, 4);
            use_job(one_hop);
        }
    use_job("N 2\nL 0 1\nP 0 0\nP 0 0\n");
    show_text(&plan, "S 0 0 1\nS 1 0 1\nT 1 2 1\n");
    name_cases("65,536 places for a clash");
    run_check_texts(&text, &plan, 65536);
}

/* Plans in bad form, and some that only look like it, for two packets that have a hop each, and not the same. */
void plan_forms(void)
{
    static const char *const form[] = {
        /* the S lines */
        "S\n", "S\t\n", "S\t0\n", "S\t0\t0\n", "S\t0\t0\t\n", "S\t0\t0\t1\t\n", "S\t0\t0\t1\t1\n", "S\t\t0\t1\n", "S\t0\t\t0\t1\n",
        "S 0 0 1\n", "S\t0\t0 1\n", "S\t0\t0\t1 \n", " S\t0\t0\t1\n", "\tS\t0\t0\t1\n", "S\t0\t0\t1\r\n", "S\r\n", "S0\t0\t0\t1\n",
        "S\t00\t0\t1\n", "S\t0\t00\t1\n", "S\t0\t0\t01\n", "S\t+0\t0\t1\n", "S\t0\t-0\t1\n", "S\t0\t0\t1.\n", "S\t0\t0\t0x1\n",
        "S\t0\t65535\t1\n", "S\t0\t65536\t1\n", "S\t65536\t0\t1\n", "S\t0\t0\t65536\n", "S\t0\t0\t65535\n", "S\t0\t0\t65537\n",
        "S\t4294967296\t0\t1\n", "S\t0\t4294967296\t1\n", "S\t0\t0\t18446744073709551617\n", "S\t0\t0\t1\v\n", "\xD3\t0\t0\t1\n",
        "S\x89" "0\t0\t1\n", "S\t\xB0\t0\t1\n", "\xEF\xBB\xBFS\t0\t0\t1\n", "s\t0\t0\t1\n", "P\t0\t0\t1\n", "T\t0\t0\t1\n", "\n",
        "S\t0\t0\t1\n\n", "S\t0\t0\t1\n#\n", "S\t1\t0\t1\n", "S\t0\t0\t1\nS\t0\t0\t1\n", "S\t0\t0\t1\nS\t2\t0\t0\n",
        "S\t0\t0\t1\nS\t1\t0\t1\nS\t2\t0\t0\n", "S\t0\t0\t1\nS\t1\t0\t1\nS\t2\t0\t0\nS\t3\t0\t0\n",
        "S\t0\t0\t1\nS\t1\t0\t1\nS\t2\t0\t0\nS\t4\t0\t0\n", "S\t0\t0\t1\nS\t1\t0\t1\nS\t2\n",
        "S\t0\t0\t1\nS\t1\t0\t1\nS\t2\t0\t0\nS", "S\t0\t0\t1\nS\t1\t0\t0\n",
        /* with one of two, or both, and no end of the line or of the text */
        "S", "S\t", "S\t0\t0\t1", "S\t0\t0\t1\nS", "S\t0\t0\t1\nS\t1\t0\t1", "S\t0\t0\t1\nS\t1\t0\t1\n",
    };
    static const char *const last[] = {
        "", "T", "T\n", "T\t1\t1\t1", "T\t1\t1\t1\n", "T\t1\t1\n", "T\t1\n", "T\t\n", "T\t1\t1\t1\t\n", "T\t1\t1\t1\t1\n",
        "T\t1\t1\t01\n", "T\t01\t1\t1\n", "T\t1\t1\t1\r\n", "T 1 1 1\n", "TT\t1\t1\t1\n", "T1\t1\t1\n", "\tT\t1\t1\t1\n",
        " T\t1\t1\t1\n", "t\t1\t1\t1\n", "\n", "\r\n", "X\t1\t1\t1\n", "\nT\t1\t1\t1\n", "T\t1\t1\t65535\n", "T\t1\t65536\t1\n",
        "T\t65536\t1\t1\n", "T\t1\t1\t1\n\n", "T\t1\t1\t1\n\n\n", "T\t1\t1\t1\n\r\n", "T\t1\t1\t1\nT\t1\t1\t1\n",
        "T\t1\t1\t1\nT\n", "T\t1\t1\t1\nS\t2\t0\t0\n", "T\t1\t1\t1\nS\t0\t0\t1\n", "T\t1\t1\t1\n ", "T\t1\t1\t1\n#",
        "T\t0\t1\t1\n", "T\t1\t0\t1\n", "T\t1\t1\t0\n", "T\t2\t1\t1\n", "T\t1\t2\t1\n", "T\t1\t1\t2\n", "T\t0\t0\t0\n",
        "\xD4\t1\t1\t1\n", "T\t1\t1\t1\x8A", "T\t1\t1\t+1\n", "T\t1\t1\t1 \n", "T\t1\t1\t\n", "T\t\t1\t1\n",
        "T\t1\t1\t1\n\nT\t1\t1\t1\n",
    };
    early_lengths();
    use_job("N 3\nL 0 1\nL 1 2\nP 0 0\nP 1 1\n");
    for (size_t i = 0; i < COUNT(form); i++)
        for (int with_t = 0; with_t < 2; with_t++) {
            clear_text(&plan);
            add(&plan, "%s%s", form[i], with_t ? "T\t1\t1\t1\n" : "");
            name_cases("form %zu of S lines, T line %d", i, with_t);
            run_both();
        }
    for (size_t i = 0; i < COUNT(last); i++) {
        clear_text(&plan);
        add(&plan, "S\t0\t0\t1\nS\t1\t0\t1\n%s", last[i]);
        name_cases("form %zu of the T line", i);
        run_both();
    }
}

/* S and T lines with three numbers, right or wrong, and an end that is right or wrong too. */
void plan_lines(void)
{
    static const char *const ends[] = { "\n", "", "\t\n", "\t0\n", "\r\n", " \n" };
    static const char *const numbers[] = { "0", "1", "2", "32767", "32768", "65535", "65536", "00", "" };
    use_job("N 2\nL 0 1\nP 0 0\n");
    for (size_t code = 0; code < 9 * 9 * 9; code++)
        for (size_t end = 0; end < COUNT(ends); end++)
            for (int letter = 0; letter < 2; letter++) {
                const char *x = numbers[code % 9], *y = numbers[code / 9 % 9], *z = numbers[code / 81];
                if (end > 1 && code % 7 != 0)
                    continue;
                clear_text(&plan);
                add(&plan, letter ? "S\t0\t0\t1\nT\t%s\t%s\t%s%s" : "S\t%s\t%s\t%s%sT\t1\t1\t1\n", x, y, z, ends[end]);
                name_cases("line %c %s %s %s and end %zu", "ST"[letter], x, y, z, end);
                run_plan(1);
                if (code % 5 == 0)
                    run_check_texts(&text, &plan, 4);
            }
}

/* Every byte at every place of a short plan: before what stands there, and in place of it. Then every byte less, and every end cut
 * off. */
void plan_bytes(void)
{
    static const char shown[] = "S 0 0 1\nS 1 1 2\nT 2 2 1\n";
    enum { BYTES = sizeof shown - 1 };
    use_job("N 2\nL 0 1\nP 0 0\nP 0 0\n");
    for (int byte = 0; byte < 256; byte++)
        for (int instead = 0; instead < 2; instead++)
            for (size_t at = 0; at <= BYTES; at++) {
                show_text(&plan, shown);
                if (!instead || at == BYTES) {
                    memmove(plan.byte + at + 1, plan.byte + at, plan.bytes - at);
                    plan.bytes++;
                }
                plan.byte[at] = (uint8_t)byte;
                name_cases("byte %d at %zu, instead %d", byte, at, instead);
                run_plan(2);
                if (instead && byte % 4 == 0)
                    run_check_texts(&text, &plan, 4);
            }
    for (size_t at = 0; at <= BYTES; at++) {
        show_text(&plan, shown);
        plan.bytes = at;
        name_cases("%zu bytes of a plan", at);
        run_both();
        show_text(&plan, shown);
        memmove(plan.byte + at, plan.byte + at + 1, plan.bytes - at);
        plan.bytes -= at < BYTES;
        name_cases("a plan without byte %zu", at);
        run_both();
    }
}

/* ---- Pairs of mistakes ---- */

/* A plan of session A that is still to be written down. */
static struct draft {
    int lines;
    struct { int number, start, end; const char *tail; } line[6];
    int t[3];
    const char *t_line, *below; /* as printf has the T line, and what stands below it */
    size_t bytes;               /* at least */
    size_t places;              /* lent */
} draft;

static void begin_draft(void)
{
    static const int start[] = { 0, 0, 0, 0 }, hops[] = { 3, 2, 2, 1 }; /* packets 2 and 0 clash */
    draft = (struct draft){ .lines = 4, .t = { 3, 3, 3 }, .t_line = "T\t%d\t%d\t%d\n", .below = "", .places = 4 };
    for (int k = 0; k < 4; k++) {
        draft.line[k].number = k;
        draft.line[k].start = start[k];
        draft.line[k].end = start[k] + hops[k];
        draft.line[k].tail = "";
    }
}

static void write_draft(void)
{
    clear_text(&plan);
    for (int k = 0; k < draft.lines; k++)
        add(&plan, "S\t%d\t%d\t%d%s\n", draft.line[k].number, draft.line[k].start, draft.line[k].end, draft.line[k].tail);
    add(&plan, draft.t_line, draft.t[0], draft.t[1], draft.t[2]);
    add(&plan, "%s", draft.below);
    while (plan.bytes < draft.bytes)
        plan.byte[plan.bytes++] = ' ';
}

/* The mistakes, in the order in which they are told. Those of a line are made on lines 1 to 3, so that line 4 can go. */
enum mistake { TOO_LONG, FORM, NUMBER, FEWER, MORE, T_FORM, T_CUT, T_MISSING, BELOW_T, LATE_START, OTHER_END, TIME, C_TOLD, D_TOLD,
               NO_ROOM, MISTAKES };

/* A refusal: how late it is looked for, its number, and its place. */
struct told { int rank; unsigned refusal, value; };

/* Ways in which the job is refused: as lists, and as a text. */
static const struct told of_lists[] = { { 0, 9, 0 }, { 0, 3, 0 }, { 0, 4, 0 }, { 0, 5, 1 }, { 0, 6, 0 }, { 0, 7, 1 }, { 0, 8, 0 },
                                        { 0, 15, 2 } };
static const struct told of_text[] = { { 0, 1, 0 }, { 0, 2, 1 }, { 0, 3, 1 }, { 0, 4, 2 }, { 0, 5, 3 }, { 0, 6, 5 }, { 0, 7, 6 },
                                       { 0, 8, 5 }, { 0, 15, 6 } };

static void spoil_lists(unsigned refusal)
{
    switch (refusal) {
    case 9: tables.ends.count--; break;
    case 3: tables.nodes = 0; break;
    case 4: tables.origins.value[0] = 4; break;
    case 5: tables.ends.value[1] = 1; break;
    case 6: tables.hops.value[0] = 3; break;
    case 7: tables.sources.value[1] = 0; break;
    case 8: tables.ends.value[1] = 0; break;
    case 15: take_hops(&tables, 2); break;
    }
}

static void spoil_text(unsigned refusal)
{
    static const char *const shown[] = {
        [2] = "N\nL 0 1\n", [3] = "N 1025\n", [4] = "N 1\nL 0 1\n", [5] = "N 4\nL 0 1\nL 1 1\n",
        [6] = "N 4\nL 0 1\nL 1 2\nL 2 3\nP 0 3\n", [7] = "N 4\nL 0 1\nL 1 2\nL 2 3\nP 0 0\nP 0 1\n",
        [8] = "N 2\nL 0 1\nL 1 0\nP 0 0\nP 0 0 1\n", [15] = "N 4\nL 0 1\nL 1 2\nL 2 3\nP 0 0\nP 0\n"
    };
    if (refusal == 1)
        while (text.bytes <= MOST_BYTES)
            add(&text, "P\t0\n");
    else
        show_text(&text, shown[refusal]);
}

/* Makes a mistake, on this line or in this way, and says what is told of it if it is alone. */
static struct told make(enum mistake mistake, int way)
{
    int k = way % 3;
    unsigned line = (unsigned)k + 1;
    switch (mistake) {
    case TOO_LONG: draft.bytes = 65536; return (struct told){ 1, 1, 0 };
    case FORM: draft.line[k].tail = "\t"; return (struct told){ 2, 2, line };
    case NUMBER: draft.line[k].number += 1 + way % 2; return (struct told){ 2, 2, line };
    case FEWER: draft.lines--; return (struct told){ 3, 11, 0 };
    case MORE:
        draft.line[draft.lines].number = draft.lines;
        draft.line[draft.lines++].tail = "";
        return (struct told){ 3, 11, 0 };
    case T_FORM: draft.t_line = way % 2 ? "T\t%d\t%d\t0%d\n" : "X\t%d\t%d\t%d\n"; return (struct told){ 4, 2, 5 };
    case T_CUT: draft.t_line = "T\t%d\t%d\t%d"; return (struct told){ 4, 2, 5 };
    case T_MISSING: draft.t_line = ""; return (struct told){ 4, 2, 5 };
    case BELOW_T: draft.below = way % 2 ? "\n" : "S\t4\t0\t0\n"; return (struct told){ 5, 2, 6 };
    case LATE_START:
        draft.line[k].start += 32768;
        draft.line[k].end += 32768;
        return (struct told){ 6, 12, line };
    case OTHER_END: draft.line[k].end += way % 2 ? -1 : 1; return (struct told){ 6, 14, line };
    case TIME: draft.t[0]--; return (struct told){ 7, 14, 5 };
    case C_TOLD: draft.t[1]++; return (struct told){ 7, 14, 5 };
    case D_TOLD: draft.t[2]++; return (struct told){ 7, 14, 5 };
    case NO_ROOM: draft.places = way % 2 ? 0 : 3; return (struct told){ 8, 10, 0 };
    default: abort();
    }
}

/* Whether two mistakes, given in their order, can be made together: S lines are either too few or too many, and a T line that is
 * cut or missing has no other form and nothing below it. */
static int go_together(enum mistake one, enum mistake other)
{
    if (one == FEWER && other == MORE)
        return 0;
    return !(one >= T_FORM && other <= BELOW_T) || (one == T_FORM && other == BELOW_T);
}

static struct told first_of(struct told x, struct told y)
{
    if (x.rank != y.rank)
        return x.rank < y.rank ? x : y;
    if (x.value != y.value)
        return x.value < y.value ? x : y;
    return x.refusal < y.refusal ? x : y;
}

static void expect_told(struct told told, uint32_t of)
{
    const struct answer *a = &planner.answer;
    expect(a->refusal == told.refusal && a->value == told.value && a->text == of, "%s: refusal %u at %u of text %u, not %u at %u",
           label, a->refusal, a->value, a->text, told.refusal, told.value);
}

/* One mistake in the job, and another in its plan. */
static void of_job_and(enum mistake other, int way)
{
    for (size_t i = 0; i < COUNT(of_lists); i++) {
        use_job(session_a);
        begin_draft();
        make(other, way);
        write_draft();
        spoil_lists(of_lists[i].refusal);
        name_cases("lists refused by %u, and mistake %d in the plan, way %d", of_lists[i].refusal, other, way);
        run_read_plan(&tables, &plan, draft.places);
        expect_told(of_lists[i], 0);
    }
    for (size_t i = 0; i < COUNT(of_text); i++) {
        spoil_text(of_text[i].refusal);
        name_cases("text refused by %u, and mistake %d in the plan, way %d", of_text[i].refusal, other, way);
        run_check_texts(&text, &plan, draft.places);
        expect_told(of_text[i], 1);
    }
}

/* Two mistakes in one plan. */
static void in_plan(enum mistake one, int way, enum mistake other, int other_way)
{
    use_job(session_a);
    begin_draft();
    struct told x = make(one, way), y = make(other, other_way), first = first_of(x, y);
    write_draft();
    name_cases("mistake %d, way %d, and mistake %d, way %d, in a plan", one, way, other, other_way);
    run_read_plan(&tables, &plan, draft.places);
    expect_told(first, 0);
    run_check_texts(&text, &plan, draft.places);
    expect_told(first, first.refusal == 10 ? 0 : 2);
}

void plan_pairs(void)
{
    static const int ways[MISTAKES] = {
        [TOO_LONG] = 1, [FORM] = 3, [NUMBER] = 3, [FEWER] = 1, [MORE] = 1, [T_FORM] = 2, [T_CUT] = 1, [T_MISSING] = 1,
        [BELOW_T] = 2, [LATE_START] = 3, [OTHER_END] = 3, [TIME] = 1, [C_TOLD] = 1, [D_TOLD] = 1, [NO_ROOM] = 2
    };
    for (enum mistake one = 0; one < MISTAKES; one++)
        for (int way = 0; way < ways[one]; way++) {
            of_job_and(one, way);
            for (enum mistake other = one; other < MISTAKES; other++)
                for (int other_way = 0; other_way < ways[other]; other_way++) {
                    int on_two_lines = other == one && ways[one] == 3 && way < other_way;
                    if (on_two_lines || (other != one && go_together(one, other)))
                        in_plan(one, way, other, other_way);
                }
        }
}

/* ---- Limits ---- */

/* Starts around the latest, with the ends that follow from them and with others, of packets that have 10 hops and 1. */
static void limit_plan_starts(void)
{
    static const int edge[] = { 0, 32766, 32767, 32768, 65535, 65536 };
    use_job("N 12\nL 0 1\nL 1 2\nL 2 3\nL 3 4\nL 4 5\nL 5 6\nL 6 7\nL 7 8\nL 8 9\nL 9 10\nP 0 0 1 2 3 4 5 6 7 8 9\nP 9 9\n");
    for (size_t x = 0; x < COUNT(edge); x++)
        for (size_t y = 0; y < COUNT(edge); y++)
            for (int off = 0; off < 9; off++) {
                int ends[] = { edge[x] + 10 + off % 3 - 1, edge[y] + 1 + off / 3 - 1 };
                clear_text(&plan);
                add(&plan, "S\t0\t%d\t%d\nS\t1\t%d\t%d\n", edge[x], ends[0], edge[y], ends[1]);
                add(&plan, "T\t%d\t2\t10\n", ends[0] > ends[1] ? ends[0] : ends[1]);
                name_cases("plan with starts %d %d, ends off by %d and %d", edge[x], edge[y], off % 3 - 1, off / 3 - 1);
                run_both();
                int most = edge[x] > edge[y] ? edge[x] : edge[y];
                if (off == 4)
                    expect(planner.answer.refusal == (most > 65525 ? 2u : most > 32767 ? 12u : 0), "%s", label);
            }
}

/* 1,024 packets of one hop, each over a link of its own: each of some lines late, with another end, misnumbered, gone; and a line
 * more. */
static void far_lines(void)
{
    static const int far[] = { 0, 255, 256, 999, 1000, 1022, 1023 };
    static const char *const line[] = { "S\t%d\t32768\t32769\n", "S\t%d\t0\t0\n", "S\t%d\t0\t1\t\n", "S\t1%d\t0\t1\n", "", "\n" };
    static const struct { unsigned refusal; int at_line; } told[] = { { 12, 1 }, { 14, 1 }, { 2, 1 }, { 2, 1 }, { 2, 1 },
                                                                      { 11, 0 } };
    ring_job(&job, 1024, 1);
    text_of_job(&job, &text);
    tables_of_job(&job, &tables);
    for (size_t i = 0; i < COUNT(far); i++)
        for (size_t other = 0; other < COUNT(line); other++) {
            clear_text(&plan);
            for (int k = 0; k < 1024; k++)
                add(&plan, k == far[i] ? line[other] : "S\t%d\t0\t1\n", k);
            add(&plan, "T\t1\t1\t1\n");
            name_cases("1,024 packets, line %d as %zu", far[i] + 1, other);
            run_both();
            int gone = other == 4 && far[i] == 1023; /* then the others are in order */
            expect(planner.answer.refusal == (gone ? 11 : told[other].refusal)
                       && planner.answer.value == (uint32_t)(gone ? 0 : told[other].at_line * (far[i] + 1)), "%s", label);
        }
    for (int lines = 1023; lines <= 1026; lines++) {
        clear_text(&plan);
        for (int k = 0; k < lines; k++)
            add(&plan, "S\t%d\t0\t1\n", k);
        add(&plan, "T\t1\t1\t1\n");
        name_cases("1,024 packets, %d S lines", lines);
        run_both();
        expect(planner.answer.refusal == (lines == 1024 ? 0 : 11), "%s", label);
    }
}

/* S lines that go on in order, up to so many bytes. The numbers of the last are longer, so that it ends just there. */
static int long_plan(size_t bytes)
{
    static const char *const last[] = { "0\t0", "10\t0", "10\t10", "100\t10", "100\t100", "100\t1000", "1000\t1000", "1000\t10000",
                                        "10000\t10000" };
    int k = 0;
    size_t left;
    clear_text(&plan);
    while ((left = bytes - plan.bytes) > 36) /* so that two lines of some 14 bytes are left, or a bit more */
        add(&plan, "S\t%d\t0\t0\n", k++);
    for (int lines = 2; lines > 0; lines--) {
        char number[20];
        size_t fixed = (size_t)sprintf(number, "S\t%d\t\n", k), numbers = lines == 2 ? left / 2 : left;
        add(&plan, "S\t%d\t%s\n", k++, last[numbers - fixed - 3]);
        left = bytes - plan.bytes;
    }
    if (plan.bytes != bytes)
        abort();
    return k;
}

/* Thousands of S lines in order are one thing, 11, whatever the job; one of them that is not in order is another. */
static void thousands_of_lines(void)
{
    static const char *const shown[] = { "N 1\n", session_a };
    static const struct { const char *line, *told; } last[] = {
        { "", "11" }, { "S\t%d\t0\t0\n", "11" }, { "T\t0\t0\t0\n", "11" }, { "x", "11" }, { "S\t1%d\t0\t0\n", "2" },
        { "S\t0\t0\t0\n", "2" }, { "S\t%d\t0\t0", "2" }, { "S\t%d\t0\n", "2" }, { "S", "2" }
    };
    for (size_t i = 0; i < COUNT(shown); i++)
        for (size_t end = 0; end < COUNT(last); end++) {
            use_job(shown[i]);
            int lines = long_plan(65535 - 30);
            add(&plan, last[end].line, lines);
            name_cases("job %zu, %d S lines and end %zu", i, lines, end);
            run_plan(1024);
            expect(planner.answer.refusal == (unsigned)atoi(last[end].told)
                       && planner.answer.value == (planner.answer.refusal == 2 ? (uint32_t)lines + 1 : 0), "%s", label);
            if (end % 2)
                run_check_texts(&text, &plan, 4);
        }
}

/* Plans of so many bytes: S lines in order, or the same again and again. */
static void limit_plan_bytes(void)
{
    static const char *const again[] = { "\n", "\t", "0", "9", "S\t0\t0\t0\n", "T\t0\t0\t0\n", "S", "T", "\t0", "\r\n", "\xFF" };
    use_job(session_a);
    for (size_t bytes = 65534; bytes <= 65537; bytes++)
        for (int mistake = 0; mistake < 4; mistake++) {
            long_plan(bytes);
            switch (mistake) {
            case 1: plan.byte[0] = 'X'; break;
            case 2: plan.byte[bytes - 1] = '0'; break;
            case 3: plan.byte[2] = '1'; break;
            }
            name_cases("plan of %zu bytes, mistake %d", bytes, mistake);
            run_plan(mistake == 1 ? 0 : 4);
            if (mistake == 0)
                expect(planner.answer.refusal == (bytes > 65535 ? 1 : 11) && planner.answer.value == 0, "%s", label);
            run_check_texts(&text, &plan, mistake == 1 ? 0 : 4);
        }
    for (size_t i = 0; i < COUNT(again); i++)
        for (size_t bytes = 65535; bytes <= 65536; bytes++) {
            clear_text(&plan);
            for (const char *byte = again[i]; plan.bytes < bytes; byte = byte[1] ? byte + 1 : again[i])
                plan.byte[plan.bytes++] = (uint8_t)*byte;
            name_cases("plan of %zu bytes, all alike: %zu", bytes, i);
            run_plan(4);
        }
    long_plan(190000);
    name_cases("plan of 190,000 bytes");
    run_both();
    show_text(&plan, "S 0 0 3\nS 1 0 2\nS 2 1 3\nS 3 0 1\nT 3 3 3\n"); /* the last 16 bits of its length are right */
    for (size_t more = 0; more < 65536; more++)
        plan.byte[plan.bytes++] = ' ';
    name_cases("a plan and 65,536 bytes more");
    run_both();
    expect(planner.answer.refusal == 1 && planner.answer.text == 2, "%s", label);
}

void plan_limits(void)
{
    limit_plan_starts();
    far_lines();
    limit_plan_bytes();
    thousands_of_lines();
}

/* ---- Lent lists ---- */

/* None, one too few, just enough, one more, and others. Six times each: so often, the list lies at every place of its field. */
static void plan_rooms_of(const char *name, const char *shown)
{
    static const char *const below[] = { "", "\n", "S" };
    use_job(shown);
    find_starts(&job, planned);
    for (size_t other = 0; other < COUNT(below); other++)
        for (int clash = 0; clash < 2; clash++) {
            starts.count = 0;
            for (int k = 0; k < job.packets; k++)
                push(&starts, clash ? 0 : planned[k]);
            text_of_plan(&job, &starts, &plan);
            add(&plan, "%s", below[other]);
            size_t packets = (size_t)job.packets, most = packets + 4 < 8 ? 8 : packets + 4;
            for (size_t places = 0; places < most; places++)
                for (int again = 0; again < (places == 0 || places + 1 >= packets ? 6 : 1); again++) {
                    name_cases("plan of %s, clash %d, end %zu, %zu places", name, clash, other, places);
                    run_read_plan(&tables, &plan, places);
                    run_check_texts(&text, &plan, places);
                }
            for (size_t places = 65536; places <= 65537; places++) {
                name_cases("plan of %s, clash %d, end %zu, %zu places", name, clash, other, places);
                run_read_plan(&tables, &plan, places);
                run_check_texts(&text, &plan, places);
            }
        }
}

/* Texts and lists with nothing in them. Six times each: so often, each is now a null pointer, now a pointer to nothing. */
static void nothing_at_all(void)
{
    for (int again = 0; again < 6; again++) {
        use_job("N 1\n");
        clear_text(&plan);
        name_cases("an empty plan, and no places");
        run_read_plan(&tables, &plan, 0);
        expect(planner.answer.refusal == 2 && planner.answer.value == 1, "%s", label);
        run_check_texts(&text, &plan, 0);
        expect(planner.answer.refusal == 2 && planner.answer.value == 1 && planner.answer.text == 2, "%s, with its job", label);
        clear_text(&text);
        name_cases("an empty job, an empty plan, and no places");
        run_check_texts(&text, &plan, 0);
        expect(planner.answer.refusal == 2 && planner.answer.value == 1 && planner.answer.text == 1, "%s", label);
    }
}

void plan_rooms(void)
{
    nothing_at_all();
    plan_rooms_of("session A", session_a);
    plan_rooms_of("no packets", "N 1\n");
    plan_rooms_of("one hop", "N 2\nL 0 1\nP 0 0\n");
    plan_rooms_of("two packets that never meet", "N 3\nL 0 1\nL 1 2\nP 0 0\nP 1 1\n");
    plan_rooms_of("nine packets on one link", "N 2\nL 0 1\nP 0 0\nP 0 0\nP 0 0\nP 0 0\nP 0 0\nP 0 0\nP 0 0\nP 0 0\nP 0 0\n");
}

/* ---- From seeds ---- */

static void random_job_to_plan(enum family family, enum crowd crowd, int large)
{
    random_job(&job, family, crowd, large);
    text_of_job(&job, &text);
    tables_of_job(&job, &tables);
    find_starts(&job, planned);
}

/* Starts for the job, of a kind that has as many as there are packets, and their plan. */
static void random_plan(enum starts_kind kind)
{
    random_starts(&job, planned, kind, &starts);
    text_of_plan(&job, &starts, &plan);
}

/* What the writer wrote is read back as the same starts. */
static void written_plan(int number)
{
    static uint16_t given[MOST_PACKETS + 1];
    static const enum starts_kind kinds[] = { PLANNED, NEARLY_PLANNED, SMALL, SHIFTED, WIDE, LATE, ZEROS, ONE_OVER, SEVERAL_OVER };
    seed((uint64_t)number);
    random_job_to_plan((enum family)(number % FAMILIES), (enum crowd)(number / FAMILIES % CROWDS), number % 200 == 0);
    size_t packets = (size_t)job.packets;
    for (size_t i = 0; i < COUNT(kinds); i++) {
        random_plan(kinds[i]);
        memcpy(given, starts.value, packets * sizeof given[0]);
        name_cases("plan of random job %d, starts of kind %d", number, kinds[i]);
        run_plan(packets + pick(3));
        if (kinds[i] < ONE_OVER)
            expect(starts.count == packets && memcmp(starts.value, given, packets * sizeof given[0]) == 0, "%s: starts", label);
        run_check_texts(&text, &plan, chance(80) ? 4 : pick(8));
        if (chance(30) && packets > 0)
            run_read_plan(&tables, &plan, pick((unsigned)packets));
    }
}

void written_plans(void)
{
    for (int i = 0; i < WRITTEN; i++)
        written_plan(FIRST_WRITTEN + i);
}

/* One to three changes; in every other plan all of them to one line. Some jobs are damaged too. */
static void damaged_plan(int number)
{
    static const enum starts_kind kinds[] = { PLANNED, NEARLY_PLANNED, SMALL, SMALL, LATE, ZEROS };
    seed((uint64_t)number);
    enum family family = (enum family)pick(FAMILIES);
    random_job_to_plan(family, (enum crowd)pick(CROWDS), 0);
    random_plan(kinds[pick(COUNT(kinds))]);
    int changes = between(1, 3), line = chance(50) ? (int)pick((unsigned)lines_of_text(&plan)) : -1;
    while (changes-- > 0)
        damage_plan(&plan, &job, line);
    name_cases("damaged plan %d", number);
    run_plan(chance(80) ? tables.sources.count + pick(2) : pick((unsigned)tables.sources.count + 1));
    if (chance(10))
        damage_text(&text, &job, -1);
    if (chance(50))
        run_check_texts(&text, &plan, chance(80) ? 4 : pick(8));
    if (chance(10)) {
        damage_tables(&tables, &job);
        run_read_plan(&tables, &plan, tables.sources.count);
    }
}

void damaged_plans(void)
{
    for (int i = 0; i < DAMAGED; i++)
        damaged_plan(FIRST_DAMAGED + i);
}
