/* small.c: everything there is of something small: lines, paths, jobs, starts, and pairs of mistakes. */
#include "cases.h"
#include "sections.h"

#include <stdlib.h>
#include <string.h>

#define COUNT(array) (sizeof (array) / sizeof (array)[0])

static struct text text, plan;
static struct tables tables;
static struct list starts;
static struct job job;

/* ---- Texts ---- */

/* A short text on one line: spaces for tabs, _ for spaces, / for line feeds, ? for anything odd. */
static const char *on_one_line(const char *bytes)
{
    static char line[100];
    size_t i = 0;
    for (; bytes[i] && i + 1 < sizeof line; i++)
        line[i] = bytes[i] == '\t' ? ' ' : bytes[i] == ' ' ? '_' : bytes[i] == '\n' ? '/'
                : bytes[i] < ' ' || bytes[i] > '~' ? '?' : bytes[i];
    line[i] = 0;
    return line;
}

/* Texts in bad form, and some that only look like it. */
void wrong_forms(void)
{
    static const char *const form[] = {
        /* the first line */
        "\n", "\t\n", "\t4\n", "N", "N\n", "N\t\n", "N\t4", "N 4", "N 4\n", "n\t4\n", "N\t4\r\n", "\nN\t4\n", "N\t04\n",
        "N\t00\n", "N\t4\t\n", "N\t4\t4\n", "N\t4\t4\t4\n", "N\t+4\n", "N\t-4\n", "N\t65535\n", "N\t65536\n", "N\t1025\n",
        "N\t0\n", "N\t0\t0\n", "N\t1025\t0\n", "L\t0\t1\n", "P\t0\n", "\xCE\t1\n", "N\t\xB1\n", "N\t1\x8A", "N\x89" "1\n",
        "\xEF\xBB\xBFN\t1\n",
        /* the letters */
        "N\t4\nN\t4\n", "N\t4\nX\t0\t1\n", "N\t4\nS\t0\t0\t0\n", "N\t4\nLL\t0\t1\n", "N\t4\n\tL\t0\t1\n", "N\t4\n L\t0\t1\n",
        "N\t4\nl\t0\t1\n", "N\t4\nL\t0\t1\np\t0\t0\n", "N\t1\n\xB1",
        /* links */
        "N\t4\nL\n", "N\t4\nL\t0\n", "N\t4\nL\t0\t1", "N\t4\nL\t0\t1\t2\n", "N\t4\nL\t0\t\t1\n", "N\t4\nL\t\t0\t1\n",
        "N\t9\nL\t0\t1\t+1\n", "N\t9\nL\t+0\t1\n", "N\t4\nL 0 1\n", "N\t4\nL\t0\t1 \n", "N\t4\nL\t0\t9\n", "N\t4\nL\t9\t0\n",
        "N\t4\nL\t9\t9\n", "N\t4\nL\t4\t0\n", "N\t4\nL\t0\t4\n", "N\t4\nL\t3\t0\n", "N\t4\nL\t1\t1\n",
        /* packets */
        "N\t4\nP\n", "N\t4\nP\t\n", "N\t4\nP\t0\t\n", "N\t4\nP 0\n", "N\t4\nP\t0 \n", "N\t4\nP\t 0\n", "N\t9\nP\t+0\n",
        "N\t4\nP\t3\n", "N\t4\nP\t4\n", "N\t4\nP\t4\t0\n", "N\t4\nP\t4\t01\n", "N\t4\nP\t0\t0\n", "N\t4\nL\t0\t1\nP\t0\t1\n",
        "N\t4\nL\t0\t1\nP\t1\t0\n", "N\t4\nL\t3\t0\nP\t3\t0\n", "N\t1\nP\t0\t4294967296\n",
        "N\t1\nP\t18446744073709551616\n", "N\t1\nP\t0\x0B" "0\n",
        /* links below packets, empty lines, a last line that is cut */
        "N\t4\nL\t0\t1\nP\t0\t0\nL\t1\t2\n", "N\t4\nL\t0\t1\nP\t0\t0\nL\t1\t1\n", "N\t4\n\n", "N\t4\n\nP\t0\n", "N\t1\n\n\n",
        "N\t2\nL\t0\t1\n\nP\t0\t0\n", "N\t4\nL\t1\t1", "N\t0\nP\t0", "N\t2\nL\t0\t1\nL\t1\t0\nP\t0\t0\t1",
        /* trouble on two lines */
        "N\t4\nL\t9\t1\nP\t0", "N\t4\nL\t1\t1\nL\t0\t1\nX\n", "N\t4\nP\t4\nP\t0\t01\n", "N\t2\nL\t0\t0\nP\t9\n\n",
        "N\t4\nL\t1\t1\nL\t9\t0\n", "N\t4\nP\t0\t0\nP\t4\n", "N\t0\nX\n", "N\t4\nP\t0\nP\t0\n", "N\t4\nP\t4\nP\t0\n",
        "N\t4\nP\t0\nP\t4\n",
    };
    for (size_t i = 0; i < COUNT(form); i++) {
        clear_text(&text);
        add(&text, "%s", form[i]);
        name_cases("form %s", on_one_line(form[i]));
        run_text(&text, SMALL_ROOM);
        run_own_plan(&text, 4);
        run_text(&text, 0);
        run_read(&text, -1, (int)i % 3);
    }
}

/* A network that has links in both directions. Link 4 is the first that does not exist. */
static const char triangle[] = "N 3\nL 0 1\nL 1 2\nL 1 0\nL 2 0\n";

static void one_path(int source, const int *link, int hops)
{
    show_text(&text, triangle);
    add(&text, "P\t%d", source);
    for (int hop = 0; hop < hops; hop++)
        add(&text, "\t%d", link[hop]);
    add(&text, "\n");
    run_text(&text, SMALL_ROOM);
    if (hops < 3) {
        run_own_plan(&text, 4);
        run_read(&text, -1, 0);
    }

    show_job(&job, triangle);
    tables_of_job(&job, &tables);
    push(&tables.sources, source);
    for (int hop = 0; hop < hops; hop++)
        push(&tables.hops, link[hop]);
    push(&tables.stops, hops);
    starts.count = 0;
    push(&starts, 0);
    run_lists(&tables, &starts, (struct rooms){ 1, 4, SMALL_ROOM });
}

/* Every path of up to three hops, right or wrong, from every source. */
static void short_paths(void)
{
    enum { NUMBERS = 6 };
    for (int source = 0; source < 5; source++)
        for (int hops = 0, codes = 1; hops <= 3; hops++, codes *= NUMBERS)
            for (int code = 0; code < codes; code++) {
                int link[] = { code % NUMBERS, code / NUMBERS % NUMBERS, code / NUMBERS / NUMBERS };
                name_cases("path %d of %d hops from %d", code, hops, source);
                one_path(source, link, hops);
            }
}

/* L and P lines with two numbers, right or wrong, and an end that is right or wrong too. */
void short_lines(void)
{
    static const char *const ends[] = { "", "\t", "\t0", "\t01", "\t65536", "\r", " ", "\tx" };
    static const char *const numbers[] = { "0", "1", "2", "3", "65535", "65536", "00" };
    for (size_t from = 0; from < COUNT(numbers); from++)
        for (size_t to = 0; to < COUNT(numbers); to++)
            for (size_t end = 0; end < COUNT(ends); end++)
                for (int letter = 0; letter < 2; letter++) {
                    show_text(&text, triangle);
                    add(&text, "%c\t%s\t%s%s\nP\t0\t4\n", "LP"[letter], numbers[from], numbers[to], ends[end]);
                    name_cases("line %c %s %s and end %zu", "LP"[letter], numbers[from], numbers[to], end);
                    run_text(&text, SMALL_ROOM);
                    if (from == to) {
                        run_own_plan(&text, 4);
                        run_read(&text, -1, 0);
                    }
                }
    short_paths();
}

/* Every byte at every place of a short job: before what stands there, and in place of it. */
void single_bytes(void)
{
    for (int byte = 0; byte < 256; byte++)
        for (int instead = 0; instead < 2; instead++)
            for (size_t at = 0; at <= 16; at++) {
                show_text(&text, "N 2\nL 0 1\nP 0 0\n");
                if (!instead) {
                    memmove(text.byte + at + 1, text.byte + at, text.bytes - at);
                    text.bytes++;
                }
                text.byte[at] = (uint8_t)byte;
                name_cases("byte %d at %zu, instead %d", byte, at, instead);
                run_text(&text, SMALL_ROOM);
                if (instead)
                    run_read(&text, -1, 0);
            }
}

/* All jobs of three packets over some paths of one network, which has a way back and parallel links. The last path has no hops. */
void small_jobs(void)
{
    static const char net[] = "N 4\nL 0 1\nL 1 2\nL 2 3\nL 1 0\nL 0 1\nL 1 3\nL 2 1\n";
    static const char *const path[] = { "0\t0", "0\t4", "0\t0\t1", "0\t4\t1\t2", "0\t0\t1\t2", "1\t1\t2", "1\t1", "2\t2", "1\t3",
                                        "2\t6\t3", "0\t0\t5", "2\t6\t5", "1\t5", "3" };
    enum { PATHS = COUNT(path) };
    for (int code = 0; code < PATHS * PATHS * PATHS; code++) {
        show_text(&text, net);
        add(&text, "P\t%s\nP\t%s\nP\t%s\n", path[code % PATHS], path[code / PATHS % PATHS], path[code / PATHS / PATHS]);
        name_cases("small job %d", code);
        run_text(&text, SMALL_ROOM);
    }
}

/* ---- Starts ---- */

static void use_job(const char *shown)
{
    show_job(&job, shown);
    tables_of_job(&job, &tables);
}

/* Starts from the digits of a code, to some base. */
static void starts_of_code(int code, int base)
{
    starts.count = 0;
    for (int k = 0; k < job.packets; k++, code /= base)
        push(&starts, code % base);
}

/* The starts as a plan, read back and, with the job as a text, checked. */
static void as_texts(size_t places, size_t clash_places)
{
    text_of_job(&job, &text);
    text_of_plan(&job, &starts, &plan);
    run_read_plan(&tables, &plan, places);
    run_check_texts(&text, &plan, clash_places);
}

/* All starts below 4 of session A; all its leads; lent lists of all small lengths. */
static void starts_of_session_a(void)
{
    use_job(session_a);
    for (int code = 0; code < 256; code++) {
        starts_of_code(code, 4);
        name_cases("starts %d of session A", code);
        run_check(&tables, &starts, (size_t)code % 7);
        run_plan_text(&tables, &starts, (size_t)code % 50);
        as_texts((size_t)code % 6, (size_t)code % 7);
        for (int a = 0; a < 5; a++)
            run_lead(&tables, &starts, a, code % 5, code % 4);
    }
    starts_of_code(0, 4);
    for (int a = 0; a < 6; a++)
        for (int b = 0; b < 6; b++)
            for (int link = 0; link < 5; link++) {
                name_cases("lead of %d over %d on %d in session A", a, b, link);
                run_lead(&tables, &starts, a, b, link);
                run_lead(&tables, &starts, a == 5 ? 65535 : a, b == 5 ? 65535 : b, link == 4 ? 65535 : link);
            }
    for (size_t places = 0; places < 12; places++) {
        name_cases("%zu places lent in session A", places);
        run_starts(&tables, places);
        starts_of_code(0, 4); /* a clash */
        run_check(&tables, &starts, places);
        starts_of_code(1, 4); /* none */
        run_check(&tables, &starts, places);
    }
}

void small_starts(void)
{
    starts_of_session_a();

    use_job("N 3\nL 0 1\nL 0 1\nL 1 0\nL 1 2\nP 0 0 3\nP 0 1 3\nP 1 2\nP 0 0\n");
    name_cases("the planned starts of parallel links and two directions");
    run_starts(&tables, 4);
    for (int code = 0; code < 81; code++) {
        starts_of_code(code, 3);
        name_cases("parallel links and two directions, starts %d", code);
        run_check(&tables, &starts, 5);
        run_plan_text(&tables, &starts, 100);
        as_texts(4, 5);
    }

    use_job("N 5\nL 0 1\nL 1 2\nL 2 3\nL 3 4\nP 2 2\nP 1 1\nP 0 0\nP 0 0 1 2 3\nP 3 3\nP 0 0 1 2\n");
    name_cases("the planned starts of several clashes");
    run_starts(&tables, 6);
    for (int code = 0; code < 729; code++) {
        starts_of_code(code, 3);
        name_cases("several clashes, starts %d", code);
        run_check(&tables, &starts, 4);
        if (code % 9 == 0)
            as_texts(6, 4);
    }

    use_job("N 5\nL 0 1\nL 1 2\nL 2 3\nL 1 4\nL 4 2\nP 0 0 3 4 2\nP 0 0 1 2\nP 1 1\n");
    for (int code = 0; code < 27; code++) {
        starts_of_code(code, 3);
        name_cases("a way around, starts %d", code);
        run_check(&tables, &starts, 4);
        as_texts(3, 4);
        run_starts(&tables, 3);
    }
}

/* ---- Pairs of mistakes in lists ---- */

/* A list too long or too short, and something else wrong. */
static void odd_lengths(void)
{
    struct list *const list[] = { &tables.origins, &tables.ends, &tables.sources, &tables.stops, &tables.hops };
    for (int i = 0; i < 5; i++)
        for (int longer = 0; longer < 2; longer++)
            for (int other = 0; other < 13; other++) {
                use_job(session_a);
                starts_of_code(other, 2);
                if (other >= 9)
                    take_hops(&tables, (size_t)other - 9);
                if (longer)
                    push(list[i], list[i]->value[list[i]->count - 1]);
                else
                    list[i]->count--;
                switch (other) {
                case 1: tables.nodes = 0; break;
                case 2: tables.nodes = 1025; break;
                case 3: tables.origins.value[0] = 9; break;
                case 4: tables.ends.value[1] = tables.origins.value[1]; break;
                case 5: tables.sources.value[0] = 9; break;
                case 6: tables.hops.value[0] = 9; break;
                case 7: tables.stops.value[0] = 7; break;
                case 8: push(&starts, 0); break;
                }
                name_cases("list %d %s, and mistake %d", i, longer ? "longer" : "shorter", other);
                run_lists(&tables, &starts, other % 3 ? (struct rooms){ 8, 4, 60 } : (struct rooms){ 2, 1, 3 });
            }
}

/* One mistake in session A, at a link or packet from 0 to 3. */
enum { MISTAKES = 15 };
static void make_mistake(int mistake, int at)
{
    int link = at % 3;
    switch (mistake) {
    case 0: tables.origins.value[link] = 4; break;
    case 1: tables.ends.value[link] = 4; break;
    case 2: tables.ends.value[link] = tables.origins.value[link]; break;
    case 3: tables.sources.value[at] = 4; break;
    case 4: tables.hops.value[2 * at] = 3; break;
    case 5: tables.hops.value[2 * at] = 65535; break;
    case 6: tables.hops.value[2 * at] = 0; break;
    case 7: tables.nodes = 1025; break;
    case 8: tables.nodes = 0; break;
    case 9: tables.stops.value[at] = 300; break;
    case 10: starts.value[at] = 40000; break;
    case 11: starts.count = 3; break;
    case 12: tables.origins.value[link] = tables.ends.value[link] = 4; break;
    case 13: take_hops(&tables, (size_t)at); break;
    case 14: tables.stops.value[at] = at > 0 ? tables.stops.value[at - 1] : 0; break; /* its hops go to the next */
    }
}

static void two_mistakes(void)
{
    for (int one = 0; one < MISTAKES; one++)
        for (int other = 0; other < MISTAKES; other++)
            for (int at = 0; at < 4; at++) {
                use_job(session_a);
                starts_of_code(0, 2);
                make_mistake(one, at);
                make_mistake(other, 1);
                name_cases("mistake %d at %d and mistake %d", one, at, other);
                run_lists(&tables, &starts, at % 2 ? (struct rooms){ 4, 4, 100 } : (struct rooms){ 0, 0, 0 });
                run_lead(&tables, &starts, 0, 0, 0);
            }
}

/* A path that is too long, and something else wrong at it, before it or after it; but not both too long and without hops. */
static void long_path_and_mistake(void)
{
    for (int at = 0; at < 3; at++)
        for (int other = 0; other < 3; other++)
            for (int mistake = 0; mistake < 7; mistake++) {
                line_network(&tables, 300);
                starts.count = 0;
                for (int k = 0; k < 3; k++) {
                    int source = k == other && mistake == 1 ? 300 : k;
                    int link = k == other && mistake == 2 ? 299 : k == other && mistake == 3 ? 5 : k;
                    push_path(&tables, source, link, k == other && mistake == 6 ? 0 : k == at ? 256 : 2);
                    push(&starts, 0);
                }
                if (mistake == 4)
                    tables.ends.value[2] = 2;
                if (mistake == 5)
                    tables.nodes = 1025;
                name_cases("path %d too long, and mistake %d at %d", at, mistake, other);
                run_lists(&tables, &starts, (struct rooms){ 3, 4, 100 });
            }
}

/* ---- A packet without hops, and another mistake: what is told is said by hand ---- */

static void expect_refusal(unsigned refusal, unsigned place)
{
    const struct answer *a = &planner.answer;
    expect(a->refusal == refusal && a->value == place, "%s: refusal %u at %u, not %u at %u", label, a->refusal, a->value, refusal,
           place);
}

/* A packet without hops, and another mistake at each packet: the packet above is told, and of one packet 4 before 15. */
static void no_hops_in_lists(void)
{
    static const unsigned refusal[] = { 4, 6, 7, 8, 15 };
    for (unsigned at = 0; at < 4; at++)
        for (unsigned other = 0; other < 4; other++)
            for (size_t i = 0; i < COUNT(refusal); i++) {
                int same = other == at;
                if (same && refusal[i] > 4 && refusal[i] < 15)
                    continue; /* there is no hop to be wrong */
                use_job("N 4\nL 0 1\nL 1 2\nL 2 3\nL 1 0\nL 2 1\nL 3 2\nP 0 0 1 2\nP 1 1 2\nP 0 0 1\nP 1 1 2\n");
                starts_of_code(0, 2);
                size_t begin = other > 0 ? tables.stops.value[other - 1] : 0;
                switch (refusal[i]) {
                case 4: tables.sources.value[other] = 4; break;
                case 6: tables.hops.value[begin + 1] = 6; break;
                case 7: tables.hops.value[begin + 1] = tables.hops.value[begin]; break;
                case 8: tables.hops.value[begin + 1] = tables.hops.value[begin] + 3; break; /* the way back */
                case 15: take_hops(&tables, other); break;
                }
                take_hops(&tables, at);
                name_cases("no hops at packet %u, and %u at %u", at, refusal[i], other);
                run_lists(&tables, &starts, (struct rooms){ 4, 4, SMALL_ROOM });
                if (other < at || same)
                    expect_refusal(refusal[i], other);
                else
                    expect_refusal(15, at);
            }
}

/* In session A a packet without hops, and whatever is asked after the packets: rooms, starts, a lead, a plan. */
static void no_hops_and_the_rest(void)
{
    static const char *const plans[] = { "", "S", "T 0 0 0\n", "S 0 0 3\nS 1 0 2\nS 2 1 3\nS 3 0 1\nT 3 3 3\n",
                                         "S 0 40000 40003\nS 1 0 2\nS 2 1 3\nS 3 0 1\nT 3 3 3\n" };
    enum { PLANS = COUNT(plans) };
    for (unsigned at = 0; at < 4; at++)
        for (int other = 0; other < 4; other++) {
            use_job(session_a);
            starts_of_code(0, 2);
            take_hops(&tables, at);
            switch (other) {
            case 1: starts.count = 3; break;
            case 2: starts.value[at] = 32768; break;
            case 3: push(&starts, 65535); break;
            }
            name_cases("no hops at packet %u, and starts %d", at, other);
            for (size_t places = 0; places <= 4; places += 4) {
                run_starts(&tables, places);
                expect_refusal(15, at);
                run_check(&tables, &starts, places);
                expect_refusal(15, at);
                run_plan_text(&tables, &starts, places);
                expect_refusal(15, at);
                run_lead(&tables, &starts, 0, (int)places, 0);
                expect_refusal(15, at);
            }
        }
    for (unsigned at = 0; at < 4; at++)
        for (int i = 0; i <= PLANS; i++) {
            use_job(session_a);
            job.packet[at].hops = 0;
            text_of_job(&job, &text);
            tables_of_job(&job, &tables);
            show_text(&plan, i < PLANS ? plans[i] : "");
            while (i == PLANS && plan.bytes <= MOST_BYTES)
                add(&plan, "S\t0\t0\t0\n");
            for (size_t places = 0; places <= 4; places += 4) {
                name_cases("no hops at packet %u, plan %d, %zu places", at, i, places);
                run_read_plan(&tables, &plan, places);
                expect_refusal(15, at);
                run_check_texts(&text, &plan, places);
                expect_refusal(15, at + 5);
                expect(planner.answer.text == JOBS_TEXT, "%s: of the job's text", label);
            }
        }
}

/* The text is refused so by all that take one. In rooms that are too short too, but for the reader, which looks at them first. */
static void text_refused(unsigned refusal, unsigned line)
{
    for (size_t room = 0; room <= SMALL_ROOM; room += SMALL_ROOM) {
        run_text(&text, room);
        expect_refusal(refusal, line);
        run_own_plan(&text, room);
        expect_refusal(refusal, line);
    }
    run_read(&text, -1, 0);
    expect_refusal(refusal, line);
    run_read(&text, 2, -1);
    expect_refusal(10, 0);
}

/* The links of the triangle, and below them so many packets without mistakes. */
static void packets_above(unsigned packets)
{
    show_text(&text, triangle);
    while (packets-- > 0)
        add(&text, "P\t0\t0\t1\n");
}

/* A P line with a source alone; and above it, below it or on the same line another mistake. */
static void no_hops_in_texts(void)
{
    static char long_path[4 + 2 * 256 + 1] = "P\t0";
    static const struct { unsigned refusal; const char *line; } other[] = {
        { 2, "P\t0\t00\n" }, { 2, "\n" }, { 2, "X\n" }, { 2, "N\t3\n" }, { 3, long_path }, { 4, "P\t3\n" }, { 4, "P\t3\t0\n" },
        { 6, "P\t0\t4\n" }, { 6, "P\t0\t0\t65535\n" }, { 7, "P\t0\t1\n" }, { 7, "P\t2\t3\t1\n" }, { 8, "P\t0\t0\t2\n" },
        { 15, "P\t1\n" },
    }, same[] = {
        { 2, "P\n" }, { 2, "P" }, { 2, "P\t0" }, { 2, "P\t\n" }, { 2, "P\t0\t\n" }, { 2, "P\t00\n" }, { 2, "P\t0\r\n" },
        { 2, "P\t65536\n" }, { 2, "P\t3\t\n" }, { 4, "P\t3\n" }, { 4, "P\t65535\n" }, { 15, "P\t0\n" }, { 15, "P\t2\n" },
    };
    for (int hop = 0; hop < 256; hop++)
        strcat(long_path, "\t0");
    strcat(long_path, "\n");
    for (unsigned above = 0; above < 3; above++) {
        for (size_t i = 0; i < COUNT(other); i++) {
            packets_above(above);
            add(&text, "%sP\t0\n", other[i].line);
            name_cases("no hops below line %zu, and %u packets above", i, above);
            text_refused(other[i].refusal, 6 + above);
            packets_above(above);
            add(&text, "P\t0\n%s", other[i].line);
            name_cases("no hops above line %zu, and %u packets above", i, above);
            text_refused(15, 6 + above);
        }
        for (size_t i = 0; i < COUNT(same); i++) {
            packets_above(above);
            add(&text, "%s", same[i].line);
            name_cases("no hops on line %zu, and %u packets above", i, above);
            text_refused(same[i].refusal, 6 + above);
        }
    }

    /* nodes and links; below a packet they are in bad form, and not looked at */
    static const struct { unsigned refusal, line; const char *shown; } top[] = {
        { 2, 1, "N\nP 0\n" }, { 2, 2, "N 3\nL 0\nP 0\n" }, { 3, 1, "N 0\nP 0\n" }, { 3, 1, "N 1025\nP 0\n" },
        { 4, 2, "N 3\nL 0 3\nP 0\n" }, { 5, 2, "N 3\nL 1 1\nP 0\n" }, { 15, 2, "N 3\nP 0\nL 1 1\n" },
        { 15, 2, "N 3\nP 0\nL 0 3\n" }, { 15, 2, "N 3\nP 0\nL 0 1\n" }, { 15, 2, "N 3\nP 2\nN 0\n" },
    };
    for (size_t i = 0; i < COUNT(top); i++) {
        show_text(&text, top[i].shown);
        name_cases("no hops, and nodes or links %zu", i);
        text_refused(top[i].refusal, top[i].line);
    }
}

void wrong_pairs(void)
{
    odd_lengths();
    two_mistakes();
    long_path_and_mistake();
    no_hops_in_lists();
    no_hops_and_the_rest();
    no_hops_in_texts();
}
