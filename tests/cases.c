/* cases.c: see cases.h. */
#include "cases.h"

#include <stdarg.h>
#include <stdio.h>
#include <stdlib.h>
#include <string.h>

long passed, failed;
const char *part = "";
char label[200];
struct outcome planner;
long given[GIVERS][REFUSALS];
long clashes, texts_clashes;
int keeping;
struct kept *kept;
size_t kept_count;

void name_cases(const char *format, ...)
{
    va_list words;
    va_start(words, format);
    vsnprintf(label, sizeof label, format, words);
    va_end(words);
}

void expect(int holds, const char *format, ...)
{
    if (holds) {
        passed++;
        return;
    }
    failed++;
    va_list words;
    va_start(words, format);
    printf("FAILED: ");
    vprintf(format, words);
    printf("\n");
    va_end(words);
}

/* An answer is eight numbers and nothing between them. */
static int same_answer(const struct answer *one, const struct answer *other) { return memcmp(one, other, sizeof *one) == 0; }

static int same(const struct call *call, const struct outcome *one, const struct outcome *other)
{
    return one->trouble == NULL && same_answer(&one->answer, &other->answer)
        && memcmp(one->lent, other->lent, lent_bytes(call)) == 0;
}

/* ---- Cases that fail are saved ---- */

enum { MOST_SAVED = 5 }; /* of each function */

static void print_bytes(FILE *file, const char *name, const uint8_t *byte, size_t bytes)
{
    fprintf(file, "%s (%zu bytes): \"", name, bytes);
    for (size_t i = 0; i < bytes; i++)
        if (byte[i] == '\t')
            fprintf(file, "\\t");
        else if (byte[i] == '\n')
            fprintf(file, "\\n");
        else if (byte[i] < 32 || byte[i] > 126 || byte[i] == '"' || byte[i] == '\\')
            fprintf(file, "\\%03o", byte[i]);
        else
            fputc(byte[i], file);
    fprintf(file, "\"\n");
}

static void print_list(FILE *file, const char *name, const uint16_t *list, size_t count)
{
    fprintf(file, "%s (%zu):", name, count);
    for (size_t i = 0; i < count; i++)
        fprintf(file, " %d", list[i]);
    fprintf(file, "\n");
}

static void print_call(FILE *file, const struct call *c)
{
    fprintf(file, "%s: %s\nlent: %zu %zu %zu %zu %zu\n", function_name[c->function], label,
            c->lent[0], c->lent[1], c->lent[2], c->lent[3], c->lent[4]);
    if (c->plan_bytes > 0)
        print_bytes(file, "plan", c->plan, c->plan_bytes);
    if (c->function == PLAN || c->function == READ || c->function == CHECK_TEXTS) {
        print_bytes(file, "job", c->text, c->text_bytes);
        return;
    }
    fprintf(file, "nodes: %d\n", c->lists.nodes);
    print_list(file, "origins", c->lists.origins, c->lists.origins_count);
    print_list(file, "ends", c->lists.ends, c->lists.ends_count);
    print_list(file, "sources", c->lists.sources, c->lists.sources_count);
    print_list(file, "stops", c->lists.stops, c->lists.stops_count);
    print_list(file, "hops", c->lists.hops, c->lists.hops_count);
    print_list(file, "starts given", c->starts, c->starts_count);
    fprintf(file, "packets and link: %d %d %d\n", c->a, c->b, c->link);
}

static void print_answer(FILE *file, const char *name, const struct outcome *o)
{
    const struct answer *a = &o->answer;
    fprintf(file, "%s: refusal %u, value or place %u, text %u, lead %d, nodes %u, links %u, packets %u, hops %u%s%s\n", name,
            a->refusal, a->value, a->text, a->lead, a->nodes, a->links, a->packets, a->hops,
            o->trouble ? "; " : "", o->trouble ? o->trouble : "");
}

static void print_lent(FILE *file, const struct call *c, const struct outcome *o)
{
    static const char name[] = "  lent list afterwards";
    if (c->function == STARTS || c->function == READ_PLAN || c->function == READ) {
        const uint16_t *list = lent_starts(o);
        for (int i = 0; i < JOB_LISTS && (i == 0 || c->function == READ); list += c->lent[i++])
            print_list(file, name, list, c->lent[i]);
    } else if (c->function == CHECK || c->function == CHECK_TEXTS) {
        fprintf(file, "%s (%zu):", name, c->lent[0]);
        for (size_t i = 0; i < c->lent[0]; i++)
            fprintf(file, " %u", lent_clash(o)[i]);
        fprintf(file, "\n");
    } else {
        print_bytes(file, name, o->lent, lent_bytes(c));
    }
}

/* To be tried by hand. */
static void save_text(const char *name, const char *end, const uint8_t *byte, size_t bytes)
{
    char whole[120];
    FILE *file;
    sprintf(whole, "%s%s", name, end);
    if (byte != NULL && (file = fopen(whole, "w")) != NULL) {
        fwrite(byte, 1, bytes, file);
        fclose(file);
    }
}

static void save(const struct call *c, const struct outcome *simple)
{
    static int cases[FUNCTIONS];
    const char *function = function_name[c->function];
    int number = ++cases[c->function];
    char name[100];
    FILE *file;
    if (number > MOST_SAVED) {
        if (number == MOST_SAVED + 1)
            printf("FAILED: more cases of %s, which are counted but not saved\n", function);
        return;
    }
    sprintf(name, "target/tests/failed-%s%s-%d.txt", part, function, number);
    printf("FAILED: %s: %s: saved as %s\n", function, label, name);
    print_answer(stdout, "  planner", &planner);
    print_answer(stdout, "  simple.c", simple);
    if (memcmp(planner.lent, simple->lent, lent_bytes(c)) != 0)
        printf("  the lent lists differ\n");
    if ((file = fopen(name, "w")) == NULL) {
        perror(name);
        return;
    }
    print_call(file, c);
    print_answer(file, "planner", &planner);
    print_lent(file, c, &planner);
    print_answer(file, "simple.c", simple);
    print_lent(file, c, simple);
    fclose(file);
    sprintf(name, "target/tests/failed-%s%s-%d", part, function, number);
    save_text(name, ".job", c->text, c->text_bytes);
    save_text(name, ".plan", c->plan, c->plan_bytes);
}

/* ---- Cases that are kept ---- */

static void *copy(const void *from, size_t bytes)
{
    void *to = malloc(bytes + 1);
    if (to == NULL)
        abort();
    if (bytes > 0)
        memcpy(to, from, bytes);
    return to;
}

static void copy_list(const uint16_t **list, size_t count) { *list = copy(*list, count * sizeof **list); }

/* Equal bytes have equal ones, and others hardly ever. The lists of a reader are too long to be kept themselves. */
static uint64_t fingerprint(const struct call *c, const struct outcome *outcome)
{
    uint64_t print = 0, word;
    size_t at = 0, bytes = lent_bytes(c);
    for (; at + sizeof word <= bytes; at += sizeof word) {
        memcpy(&word, outcome->lent + at, sizeof word);
        word ^= print;
        print = (word << 1 | word >> 63) * 0x9E3779B97F4A7C15;
    }
    for (; at < bytes; at++)
        print = (print ^ outcome->lent[at]) * 0x9E3779B97F4A7C15;
    return print;
}

int same_as_kept(const struct kept *k, const struct outcome *outcome)
{
    return outcome->trouble == NULL && same_answer(&outcome->answer, &k->answer) && fingerprint(&k->call, outcome) == k->lent;
}

static void keep(const struct call *c)
{
    static size_t room;
    if (kept_count == room && (kept = realloc(kept, (room = 2 * room + 1000) * sizeof kept[0])) == NULL)
        abort();
    struct kept *k = &kept[kept_count++];
    *k = (struct kept){ *c, planner.answer, fingerprint(c, &planner), copy(label, strlen(label) + 1) };
    k->call.text = copy(c->text, c->text_bytes);
    k->call.plan = copy(c->plan, c->plan_bytes);
    copy_list(&k->call.lists.origins, c->lists.origins_count);
    copy_list(&k->call.lists.ends, c->lists.ends_count);
    copy_list(&k->call.lists.sources, c->lists.sources_count);
    copy_list(&k->call.lists.stops, c->lists.stops_count);
    copy_list(&k->call.lists.hops, c->lists.hops_count);
    copy_list(&k->call.starts, c->starts_count);
}

/* ---- One case ---- */

static void run(const struct call *c)
{
    static struct outcome simple;
    ask_planner(c, &planner);
    ask_simple(c, &simple);
    if (!same(c, &planner, &simple)) {
        failed++;
        save(c, &simple);
        return;
    }
    passed++;
    int in_plan = c->function == CHECK_TEXTS && planner.answer.text == PLANS_TEXT;
    given[in_plan ? TEXTS_PLAN : c->function][planner.answer.refusal]++;
    if (planner.answer.refusal == 0 && planner.answer.value == 4) {
        clashes += c->function == CHECK;
        texts_clashes += c->function == CHECK_TEXTS;
    }
    if (keeping)
        keep(c);
}

void run_text(const struct text *text, size_t room)
{
    run(&(struct call){ .function = PLAN, .text = text->byte, .text_bytes = text->bytes, .lent = { room } });
}

void run_read(const struct text *text, int list, int more)
{
    struct call c = { .function = READ, .text = text->byte, .text_bytes = text->bytes };
    for (int i = 0; i < JOB_LISTS; i++)
        c.lent[i] = list_size[i] + (size_t)(list < 0 || list == i ? more : 0);
    run(&c);
}

void run_tables(const struct tables *tables) { run(&(struct call){ .function = TABLES, .lists = lists_of(tables) }); }

void run_starts(const struct tables *tables, size_t places)
{
    run(&(struct call){ .function = STARTS, .lists = lists_of(tables), .lent = { places } });
}

void run_check(const struct tables *tables, const struct list *starts, size_t places)
{
    run(&(struct call){ .function = CHECK, .lists = lists_of(tables), .starts = starts->value, .starts_count = starts->count,
                        .lent = { places } });
}

void run_lead(const struct tables *tables, const struct list *starts, int a, int b, int link)
{
    run(&(struct call){ .function = LEAD, .lists = lists_of(tables), .starts = starts->value, .starts_count = starts->count,
                        .a = a, .b = b, .link = link });
}

void run_plan_text(const struct tables *tables, const struct list *starts, size_t room)
{
    run(&(struct call){ .function = PLAN_TEXT, .lists = lists_of(tables), .starts = starts->value, .starts_count = starts->count,
                        .lent = { room } });
}

void run_read_plan(const struct tables *tables, const struct text *plan, size_t places)
{
    run(&(struct call){ .function = READ_PLAN, .lists = lists_of(tables), .plan = plan->byte, .plan_bytes = plan->bytes,
                        .lent = { places } });
}

void run_check_texts(const struct text *job, const struct text *plan, size_t places)
{
    run(&(struct call){ .function = CHECK_TEXTS, .text = job->byte, .text_bytes = job->bytes, .plan = plan->byte,
                        .plan_bytes = plan->bytes, .lent = { places } });
}

static const char no_packets[] = "T\t0\t0\t0\n";

void run_lists(const struct tables *tables, const struct list *starts, struct rooms rooms)
{
    static struct text plan;
    struct lists lists = lists_of(tables);
    struct answer written = simple_plan_text(&lists, starts->value, starts->count, plan.byte, sizeof plan.byte);
    clear_text(&plan);
    if (written.refusal)
        add(&plan, "%s", no_packets);
    else
        plan.bytes = written.value;
    run_tables(tables);
    run_starts(tables, rooms.starts);
    run_check(tables, starts, rooms.clash);
    run_lead(tables, starts, 0, 1, tables->hops.count > 0 ? tables->hops.value[0] : 0);
    run_plan_text(tables, starts, rooms.plan);
    run_read_plan(tables, &plan, rooms.starts);
}

void run_own_plan(const struct text *job, size_t places)
{
    static struct text plan;
    clear_text(&plan);
    if (planner.answer.refusal)
        add(&plan, "%s", no_packets);
    else
        memcpy(plan.byte, planner.lent, plan.bytes = planner.answer.value);
    run_check_texts(job, &plan, places);
}
