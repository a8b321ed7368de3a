/* bench.c: the planner's C functions against fast.c, on the same jobs, in one run: from text to text, and the check of the plan's starts.
 *
 * Each job is planned and checked by both in turn, several times; the median time of each is taken, and their ratio is what is shown.
 * Neither side's buffers are cleared between two calls: fast.c overwrites its own, the planner clears its own in every call.
 * Then each of the C functions is timed, and what a call took on the job on which it took longest is told.
 * The planner's time from text to text is told by parts:
 *     read     zhevgulor_plan of the job with a last line of bad form, which is refused when everything above it was read; the tables are
 *              looked at there, line by line, and not again
 *     search   zhevgulor_starts without its tables
 *     write    zhevgulor_plan_text without its tables */
#define _POSIX_C_SOURCE 200809L
#include "fast.h"

#include <stdarg.h>
#include <stdio.h>
#include <stdlib.h>
#include <string.h>
#include <time.h>

/* ---- Jobs ---- */

static uint8_t text[ZHEVGULOR_TEXT_BYTES + 1];
static size_t bytes;

static void add(const char *format, ...)
{
    va_list words;
    va_start(words, format);
    bytes += (size_t)vsnprintf((char *)text + bytes, sizeof text - bytes, format, words);
    va_end(words);
    if (bytes + 2 > ZHEVGULOR_TEXT_BYTES) { /* two bytes are left for a last line of bad form */
        fprintf(stderr, "bench: a job is too long\n");
        exit(2);
    }
}

static uint64_t state; /* set anew for each job, so that the smaller jobs are fronts of the larger */

static unsigned random_below(unsigned most)
{
    state = state * 6364136223846793005u + 1442695040888963407u;
    return (unsigned)(state >> 33) % most;
}

/* Nodes in a row, link i from node i to the next. */
static void row(int nodes)
{
    add("N\t%d\n", nodes);
    for (int i = 0; i + 1 < nodes; i++)
        add("L\t%d\t%d\n", i, i + 1);
}

static void along_row(int packets, int hops)
{
    for (int k = 0; k < packets; k++) {
        add("P\t0");
        for (int hop = 0; hop < hops; hop++)
            add("\t%d", hop);
        add("\n");
    }
}

/* A mesh of 12 by 12 nodes with two-way wires. Packets go ten hops: first along their row, then along their column. */
enum { SIDE = 12 };
static int mesh_link[SIDE * SIDE][SIDE * SIDE];

static void mesh_wire(int a, int b, int *links)
{
    add("L\t%d\t%d\nL\t%d\t%d\n", a, b, b, a);
    mesh_link[a][b] = (*links)++;
    mesh_link[b][a] = (*links)++;
}

static void mesh(int packets)
{
    int links = 0;
    add("N\t%d\n", SIDE * SIDE);
    for (int node = 0; node < SIDE * SIDE; node++) {
        if (node % SIDE + 1 < SIDE)
            mesh_wire(node, node + 1, &links);
        if (node + SIDE < SIDE * SIDE)
            mesh_wire(node, node + SIDE, &links);
    }
    for (int k = 0; k < packets;) {
        int a = (int)random_below(SIDE * SIDE), b = (int)random_below(SIDE * SIDE);
        int across = b % SIDE - a % SIDE, down = b / SIDE - a / SIDE;
        if (abs(across) + abs(down) != 10)
            continue;
        add("P\t%d", a);
        for (; across != 0; across -= across > 0 ? 1 : -1) {
            int next = a + (across > 0 ? 1 : -1);
            add("\t%d", mesh_link[a][next]);
            a = next;
        }
        for (; down != 0; down -= down > 0 ? 1 : -1) {
            int next = a + (down > 0 ? SIDE : -SIDE);
            add("\t%d", mesh_link[a][next]);
            a = next;
        }
        add("\n");
        k++;
    }
}

/* A cube of eight dimensions; link 8 * node + i flips bit i. Each packet goes from its node to its image under a permutation of one
 * cycle, which has no fixed point, and flips the bits from the lowest up. */
static void cube(void)
{
    int image[256];
    for (int node = 0; node < 256; node++)
        image[node] = node;
    for (int last = 255; last > 0; last--) {
        int other = (int)random_below((unsigned)last), kept = image[last];
        image[last] = image[other];
        image[other] = kept;
    }
    add("N\t256\n");
    for (int node = 0; node < 256; node++)
        for (int bit = 0; bit < 8; bit++)
            add("L\t%d\t%d\n", node, node ^ 1 << bit);
    for (int source = 0; source < 256; source++) {
        add("P\t%d", source);
        for (int bit = 0, node = source; bit < 8; bit++)
            if ((node ^ image[source]) >> bit & 1) {
                add("\t%d", 8 * node + bit);
                node ^= 1 << bit;
            }
        add("\n");
    }
}

/* Sixty ways of eleven links, which come together at the last link: packets of twelve hops that meet everybody at their end. */
static void prefixes(int packets)
{
    enum { WAYS = 60, HOPS = 11, JOIN = WAYS * HOPS };
    add("N\t%d\n", JOIN + 2);
    for (int way = 0; way < WAYS; way++)
        for (int hop = 0; hop < HOPS; hop++)
            add("L\t%d\t%d\n", way * HOPS + hop, hop + 1 < HOPS ? way * HOPS + hop + 1 : JOIN);
    add("L\t%d\t%d\n", JOIN, JOIN + 1);
    for (int k = 0; k < packets; k++) {
        int way = k % WAYS;
        add("P\t%d", way * HOPS);
        for (int hop = 0; hop < HOPS; hop++)
            add("\t%d", way * HOPS + hop);
        add("\t%d\n", JOIN);
    }
}

/* Shared links in a row, and from each to the next a way straight on, of one link, and a way round, of two. Packets take by turns all
 * the straight ways or all the ways round, so that two of different kinds differ in steps by another number at every shared link. */
static void ladder(int packets)
{
    enum { SHARED = 8 };
    int shared[SHARED], straight[SHARED], round[SHARED][2], links = 0;
    add("N\t%d\n", 3 * SHARED);
    for (int i = 0; i < SHARED; i++) {
        shared[i] = links++;
        add("L\t%d\t%d\n", 3 * i, 3 * i + 1);
        if (i + 1 < SHARED) {
            straight[i] = links++, round[i][0] = links++, round[i][1] = links++;
            add("L\t%d\t%d\nL\t%d\t%d\nL\t%d\t%d\n", 3 * i + 1, 3 * i + 3, 3 * i + 1, 3 * i + 2, 3 * i + 2, 3 * i + 3);
        }
    }
    for (int k = 0; k < packets; k++) {
        add("P\t0");
        for (int i = 0; i < SHARED; i++) {
            add("\t%d", shared[i]);
            if (i + 1 < SHARED && k % 2 == 0)
                add("\t%d", straight[i]);
            else if (i + 1 < SHARED)
                add("\t%d\t%d", round[i][0], round[i][1]);
        }
        add("\n");
    }
}

/* Rows of their own, with two packets along each: many hops, and few meetings. */
static void rows(int packets)
{
    enum { LENGTH = 4 };
    int count = packets / 2;
    add("N\t%d\n", LENGTH + 1);
    for (int row = 0; row < count; row++)
        for (int hop = 0; hop < LENGTH; hop++)
            add("L\t%d\t%d\n", hop, hop + 1);
    for (int k = 0; k < packets; k++) {
        add("P\t0");
        for (int hop = 0; hop < LENGTH; hop++)
            add("\t%d", k / 2 * LENGTH + hop);
        add("\n");
    }
}

static void links_only(void)
{
    add("N\t1024\n");
    for (int i = 0; i < ZHEVGULOR_LINKS; i++)
        add("L\t%d\t%d\n", i % 1024, (i + 1 + i / 1024) % 1024);
}

static void make(const char *name, int packets)
{
    bytes = 0;
    state = 20240501;
    if (strcmp(name, "mesh") == 0)
        mesh(packets);
    else if (strcmp(name, "one link") == 0)
        row(2), along_row(packets, 1);
    else if (strcmp(name, "one path") == 0)
        row(17), along_row(packets, 16);
    else if (strcmp(name, "long paths") == 0)
        row(256), along_row(packets, 255);
    else if (strcmp(name, "cube") == 0)
        cube();
    else if (strcmp(name, "prefixes") == 0)
        prefixes(packets);
    else if (strcmp(name, "rows") == 0)
        rows(packets);
    else if (strcmp(name, "ladder") == 0)
        ladder(packets);
    else
        links_only();
}

/* The job as lists, for the functions that take it so. */
static uint16_t nodes, origins[ZHEVGULOR_LINKS], ends[ZHEVGULOR_LINKS], sources[ZHEVGULOR_PACKETS], stops[ZHEVGULOR_PACKETS],
    hops[ZHEVGULOR_HOPS], starts[ZHEVGULOR_PACKETS];
static size_t link_count, packet_count, hop_count;

static void make_lists(void)
{
    char *at = (char *)text;
    link_count = packet_count = hop_count = 0;
    nodes = (uint16_t)strtol(at + 2, &at, 10);
    while (*++at) {
        if (*at == 'L') {
            origins[link_count] = (uint16_t)strtol(at + 2, &at, 10);
            ends[link_count++] = (uint16_t)strtol(at + 1, &at, 10);
        } else {
            sources[packet_count] = (uint16_t)strtol(at + 2, &at, 10);
            while (*at == '\t')
                hops[hop_count++] = (uint16_t)strtol(at + 1, &at, 10);
            stops[packet_count++] = (uint16_t)hop_count;
        }
    }
}

/* ---- What is timed ---- */

static uint8_t plan[ZHEVGULOR_PLAN_BYTES], fast[ZHEVGULOR_PLAN_BYTES];

#define LISTS nodes, origins, link_count, ends, link_count, sources, packet_count, stops, packet_count, hops, hop_count

static fast_lists lists(void)
{
    return (fast_lists){ nodes, origins, ends, sources, stops, hops, link_count, link_count, packet_count, packet_count, hop_count };
}

static uint32_t clash[ZHEVGULOR_CLASH];
static uint8_t spoilt[sizeof text];

static void run_plan(void) { zhevgulor_plan(text, bytes, plan, sizeof plan); }
static void run_read(void) { zhevgulor_plan(spoilt, bytes + 2, plan, sizeof plan); }
static void run_tables(void) { zhevgulor_tables(LISTS); }
static void run_starts(void) { zhevgulor_starts(LISTS, starts, packet_count); }
static void run_text(void) { zhevgulor_plan_text(LISTS, starts, packet_count, plan, sizeof plan); }
static void run_check(void) { zhevgulor_check(LISTS, starts, packet_count, clash, ZHEVGULOR_CLASH); }
static void run_fast(void) { fast_plan(text, bytes, fast, sizeof fast); }
static void run_fast_read(void) { fast_read(text, bytes); }
static void run_fast_search(void) { fast_read(text, bytes), fast_search(); }
static void run_fast_write(void) { fast_write(fast, sizeof fast); }
static void run_fast_check(void)
{
    fast_lists job = lists();
    fast_check(&job, starts, packet_count, clash, ZHEVGULOR_CLASH);
}

/* The archive is for x86-64, where an answer of 24 bytes goes to where a pointer in front of the arguments leads. Compiled for another
 * processor it is handed over in that way too, and not in that of the processor's own C. */
static zhevgulor_read_answer counted;
#ifdef __x86_64__
#define READ(...) counted = zhevgulor_read(__VA_ARGS__)
#else
void *read_by_pointer(zhevgulor_read_answer *, const uint8_t *, size_t, uint16_t *, size_t, uint16_t *, size_t, uint16_t *, size_t,
                      uint16_t *, size_t, uint16_t *, size_t) __asm__("zhevgulor_read");
#define READ(...) read_by_pointer(&counted, __VA_ARGS__)
#endif

static struct {
    uint16_t origins[ZHEVGULOR_LINKS], ends[ZHEVGULOR_LINKS], sources[ZHEVGULOR_PACKETS], stops[ZHEVGULOR_PACKETS], hops[ZHEVGULOR_HOPS],
        starts[ZHEVGULOR_PACKETS];
} back; /* what was read back */
static size_t plan_bytes;
static uint16_t last_packet;
static zhevgulor_texts_answer texts;

static void run_lists(void)
{
    READ(text, bytes, back.origins, ZHEVGULOR_LINKS, back.ends, ZHEVGULOR_LINKS, back.sources, ZHEVGULOR_PACKETS, back.stops,
         ZHEVGULOR_PACKETS, back.hops, ZHEVGULOR_HOPS);
}
static void run_lead(void) { zhevgulor_lead(LISTS, starts, packet_count, 0, last_packet, hops[0]); }
static void run_read_plan(void) { zhevgulor_read_plan(LISTS, plan, plan_bytes, back.starts, ZHEVGULOR_PACKETS); }
static void run_texts(void) { texts = zhevgulor_check_texts(text, bytes, plan, plan_bytes, clash, ZHEVGULOR_CLASH); }

enum { PLAN, READING, TABLES, STARTS, TEXT, CHECK, FAST, FAST_READ, FAST_SEARCH, FAST_WRITE, FAST_CHECK, TIMED };
static void (*const timed[TIMED])(void) = { run_plan, run_read, run_tables, run_starts, run_text, run_check, run_fast, run_fast_read,
                                            run_fast_search, run_fast_write, run_fast_check };

static double now(void)
{
    struct timespec t;
    clock_gettime(CLOCK_MONOTONIC, &t);
    return (double)t.tv_sec * 1e6 + (double)t.tv_nsec / 1e3;
}

static int by_size(const void *a, const void *b)
{
    double x = *(const double *)a, y = *(const double *)b;
    return x < y ? -1 : x > y;
}

/* Microseconds of a call, which is repeated until two milliseconds are over. */
static double time_of(void (*run)(void))
{
    double begun = now();
    int calls = 0;
    do
        run(), calls++;
    while (now() - begun < 2000);
    return (now() - begun) / calls;
}

/* The parts: those of the planner, and those of fast.c. */
enum { READ_PART, SEARCH_PART, WRITE_PART, PARTS };
static const char *const part_name[PARTS] = { "read", "search", "write" };

typedef struct {
    double plan, fast, part[PARTS], fast_part[PARTS], check, fast_check;
} times;

/* What one takes over another that is a part of it. */
static double over(double whole, double part) { return whole > part ? whole - part : 0; }

static times parts_of(const double *t)
{
    return (times){ t[PLAN], t[FAST], { t[READING], over(t[STARTS], t[TABLES]), over(t[TEXT], t[TABLES]) },
                    { t[FAST_READ], over(t[FAST_SEARCH], t[FAST_READ]), t[FAST_WRITE] }, t[CHECK], t[FAST_CHECK] };
}

/* Microseconds of each, as medians of rounds. In a round each is run in turn. A part that is a difference is taken within a round, so that
 * a processor that changes its speed from round to round does no harm. Where one round takes seconds there are fewer. */
enum { ROUNDS = 31, ENOUGH = 20000000, NUMBERS = sizeof(times) / sizeof(double) };

static times measure(void)
{
    static double took[NUMBERS][ROUNDS];
    double first = now();
    int rounds = 0;
    for (; rounds < ROUNDS && (rounds < 1 || now() - first < ENOUGH); rounds++) {
        double t[TIMED];
        for (int f = 0; f < TIMED; f++)
            t[f] = time_of(timed[f]);
        times round = parts_of(t);
        for (int i = 0; i < NUMBERS; i++)
            took[i][rounds] = ((const double *)&round)[i];
    }
    times median;
    for (int i = 0; i < NUMBERS; i++) {
        qsort(took[i], (size_t)rounds, sizeof took[i][0], by_size);
        ((double *)&median)[i] = took[i][rounds / 2];
    }
    return median;
}

/* Both must say the same of the plan's starts, and of starts that were changed here and there. */
static void agree_on_starts(const char *name)
{
    uint16_t kept[ZHEVGULOR_PACKETS];
    fast_lists job = lists();
    memcpy(kept, starts, sizeof kept);
    for (int turn = 0; turn < 200; turn++) {
        uint32_t one[ZHEVGULOR_CLASH] = { 0 }, other[ZHEVGULOR_CLASH] = { 0 };
        zhevgulor_answer a = zhevgulor_check(LISTS, starts, packet_count, one, ZHEVGULOR_CLASH);
        zhevgulor_answer b = fast_check(&job, starts, packet_count, other, ZHEVGULOR_CLASH);
        if (a.refusal != b.refusal || a.value != b.value || memcmp(one, other, sizeof one) != 0 || (turn == 0 && (a.refusal || a.value))) {
            fprintf(stderr, "bench: the two checks of '%s' differ\n", name);
            exit(1);
        }
        memcpy(starts, kept, sizeof kept);
        for (int change = turn % 3; packet_count > 0 && change >= 0; change--)
            starts[random_below((unsigned)packet_count)] = (uint16_t)random_below(turn % 2 ? 33000 : 100);
    }
    memcpy(starts, kept, sizeof kept);
}

/* Both must answer the same for the job's text, for all of it but its last byte, and for texts in which one byte is another. */
static void agree_on_texts(const char *name)
{
    static const char other[] = "0123456789\t\nNLPX";
    for (int turn = 0; turn < 300; turn++) {
        size_t at = random_below((unsigned)bytes), length = bytes - (turn == 1);
        uint8_t kept = text[at];
        if (turn > 1)
            text[at] = (uint8_t)other[random_below(sizeof other - 1)];
        zhevgulor_answer a = zhevgulor_plan(text, length, plan, sizeof plan), b = fast_plan(text, length, fast, sizeof fast);
        text[at] = kept;
        if (a.refusal != b.refusal || a.value != b.value || (a.refusal == 0 && memcmp(plan, fast, a.value) != 0)) {
            fprintf(stderr, "bench: the two answers to a text of '%s' differ\n", name);
            exit(1);
        }
    }
}

/* What is read back must be what was written. */
static void agree_on_reading(const char *name)
{
    run_lists(), run_read_plan(), run_texts();
    if (counted.refusal || counted.nodes != nodes || counted.links != link_count || counted.packets != packet_count ||
        counted.hops != hop_count || memcmp(back.origins, origins, 2 * link_count) != 0 || memcmp(back.ends, ends, 2 * link_count) != 0 ||
        memcmp(back.sources, sources, 2 * packet_count) != 0 || memcmp(back.stops, stops, 2 * packet_count) != 0 ||
        memcmp(back.hops, hops, 2 * hop_count) != 0 || memcmp(back.starts, starts, 2 * packet_count) != 0 || texts.text ||
        texts.refusal || texts.value) {
        fprintf(stderr, "bench: '%s' is read back as another job or plan\n", name);
        exit(1);
    }
}

/* Both must print the same plan. */
static void agree(const char *name)
{
    zhevgulor_answer a = zhevgulor_plan(text, bytes, plan, sizeof plan), b = fast_plan(text, bytes, fast, sizeof fast);
    if (a.refusal || b.refusal || a.value != b.value || memcmp(plan, fast, a.value) != 0) {
        fprintf(stderr, "bench: the two plans of '%s' differ\n", name);
        exit(1);
    }
    agree_on_texts(name);
    zhevgulor_starts(LISTS, starts, packet_count);
    agree_on_starts(name);
    plan_bytes = zhevgulor_plan(text, bytes, plan, sizeof plan).value;
    last_packet = (uint16_t)(packet_count > 0 ? packet_count - 1 : 0);
    agree_on_reading(name);
    fast_plan(text, bytes, fast, sizeof fast);
    memcpy(spoilt, text, bytes);
    memcpy(spoilt + bytes, "X\n", 2);
    if (zhevgulor_plan(spoilt, bytes + 2, plan, sizeof plan).refusal != 2)
        exit(1);
}

/* ---- How long a call takes ---- */

static struct {
    const char *name;
    void (*run)(void);
    double longest;
} call[] = { { "zhevgulor_plan", run_plan, 0 },      { "zhevgulor_check_texts", run_texts, 0 }, { "zhevgulor_read", run_lists, 0 },
             { "zhevgulor_tables", run_tables, 0 },  { "zhevgulor_starts", run_starts, 0 },     { "zhevgulor_check", run_check, 0 },
             { "zhevgulor_plan_text", run_text, 0 }, { "zhevgulor_read_plan", run_read_plan, 0 }, { "zhevgulor_lead", run_lead, 0 } };
enum { CALLS = sizeof call / sizeof call[0], TRIES = 5 };

/* The median of a few tries. */
static void time_calls(void)
{
    for (int c = 0; c < CALLS; c++) {
        double took[TRIES];
        for (int i = 0; i < TRIES; i++)
            took[i] = time_of(call[c].run);
        qsort(took, TRIES, sizeof took[0], by_size);
        call[c].longest = took[TRIES / 2] > call[c].longest ? took[TRIES / 2] : call[c].longest;
    }
}

static void tell_calls(void)
{
    printf("\nA call of each function, on the job on which it took longest, in microseconds:");
    for (int c = 0; c < CALLS; c++)
        printf(" %s %.0f%s", call[c].name, call[c].longest, c + 1 < CALLS ? "," : ".\n");
}

/* ---- The table ---- */

static double planner_sum[PARTS], fast_sum[PARTS];

static const char *only; /* the one kind of job that is asked for, or null */

/* The greatest ratio of those that are told, and the job that has it. */
typedef struct {
    double ratio;
    char job[100];
} greatest;

static void tell(greatest *most, const char *shown, double ratio)
{
    if (ratio > most->ratio) {
        most->ratio = ratio;
        snprintf(most->job, sizeof most->job, "%s", shown);
    }
}

/* From text to text on all jobs and on those that take fast.c long enough to be told apart from what comes with every call; the search
 * by itself where there is enough of it, and from few packets on one link to many: it grows no more than that of fast.c if it takes no
 * more times as long with many packets than with few; and the check. */
enum { LONG = 100, MANY_MEETINGS = 1000, FEW_PACKETS = 128, MANY_PACKETS = 1024 };
static greatest whole, whole_long, searching, checking;
static double few, many; /* on one link */

static void compare(const char *name, const char *shown, int packets, const times *t)
{
    double search = t->part[SEARCH_PART] / t->fast_part[SEARCH_PART];
    tell(&whole, shown, t->plan / t->fast);
    tell(&checking, shown, t->check / t->fast_check);
    if (t->fast > LONG)
        tell(&whole_long, shown, t->plan / t->fast);
    if (fast_meetings() > MANY_MEETINGS)
        tell(&searching, shown, search);
    if (strcmp(name, "one link") == 0 && (packets == FEW_PACKETS || packets == MANY_PACKETS))
        *(packets == FEW_PACKETS ? &few : &many) = search;
}

static void tell_greatest(void)
{
    printf("\nText to text: at most %.2f times fast.c (%s)", whole.ratio, whole.job);
    if (whole_long.ratio > 0)
        printf("; on jobs of over %d microseconds at most %.2f times (%s)", LONG, whole_long.ratio, whole_long.job);
    printf(".\nCheck of a clear plan: at most %.2f times fast.c (%s).\n", checking.ratio, checking.job);
    if (searching.ratio > 0)
        printf("Search to search, jobs of over %d meetings: at most %.2f times fast.c (%s).\n", MANY_MEETINGS, searching.ratio, searching.job);
    if (few > 0 && many > 0)
        printf("Search to search on one link: %.2f times fast.c with %d packets, %.2f times with %d.\n", few, FEW_PACKETS, many, MANY_PACKETS);
}

static void line(const char *name, const char *shown, int packets)
{
    if (only && strcmp(only, name) != 0)
        return;
    make(name, packets);
    make_lists();
    agree(name);
    times t = measure();
    printf("| %s | %zu | %zu | %.0f | %.0f | %.1f |", shown, bytes, fast_meetings(), t.plan, t.fast, t.plan / t.fast);
    for (int p = 0; p < PARTS; p++) {
        printf(" %.0f |", t.part[p]);
        planner_sum[p] += t.part[p];
        fast_sum[p] += t.fast_part[p];
    }
    printf(" %.0f | %.0f | %.0f | %.0f | %.0f | %.1f |\n", t.fast_part[READ_PART], t.fast_part[SEARCH_PART], t.fast_part[WRITE_PART], t.check,
           t.fast_check, t.check / t.fast_check);
    fflush(stdout);
    compare(name, shown, packets, &t);
    time_calls();
}

/* The part that takes the most times of fast.c's. */
static void furthest(void)
{
    double ratio[] = { planner_sum[READ_PART] / fast_sum[READ_PART], planner_sum[SEARCH_PART] / fast_sum[SEARCH_PART],
                       planner_sum[WRITE_PART] / fast_sum[WRITE_PART] };
    static const char *const name[] = { "reading", "searching", "writing" };
    int most = 0;
    printf("\nOver all jobs together, times of fast.c:");
    for (int i = 0; i < 3; i++) {
        printf(" %s %.1f%s", name[i], ratio[i], i < 2 ? "," : ".\n");
        most = ratio[i] > ratio[most] ? i : most;
    }
    printf("Furthest from the limit: %s.\n", name[most]);
}

int main(int words, char **word)
{
    static const int packets[] = { FEW_PACKETS, 256, 512, MANY_PACKETS };
    char shown[100];
    only = words > 1 ? word[1] : NULL;
    printf("Times in microseconds, medians of up to %d rounds; ratio: planner to fast.c.\n\n", ROUNDS);
    printf("| job | bytes | meetings | planner | fast.c | ratio |");
    for (int p = 0; p < PARTS; p++)
        printf(" %s |", part_name[p]);
    printf(" fast read | fast search | fast write | check | fast check | ratio |\n|---|---|---|---|---|---|---|---|---|---|---|---|---|---|---|\n");
    line("mesh", "mesh 12 × 12, 1,024 packets of 10 hops", 1024);
    line("one link", "1,024 packets on one link", 1024);
    line("one path", "1,024 packets on one path of 16 links", 1024);
    line("long paths", "64 paths of 255 hops", 64);
    line("cube", "cube of 8 dimensions, 256 packets", 256);
    line("rows", "512 rows of 4 links, two packets along each", 1024);
    line("links only", "4,096 links, no packet", 0);
    line("prefixes", "1,024 packets of 12 hops, 60 ways to one last link", 1024);
    line("ladder", "ladder of 8 shared links, 885 packets", 885);
    for (int i = 0; i < 4; i++) {
        sprintf(shown, "growth: mesh, %d packets", packets[i]);
        line("mesh", shown, packets[i]);
    }
    for (int i = 0; i < 4; i++) {
        sprintf(shown, "growth: one link, %d packets", packets[i]);
        line("one link", shown, packets[i]);
    }
    tell_greatest();
    tell_calls();
    if (!only)
        furthest();
    return 0;
}
