/* calls.c: see calls.h. */
#define _GNU_SOURCE
#include "calls.h"
#include "../include/zhevgulor.h"

#include <setjmp.h>
#include <signal.h>
#include <stdio.h>
#include <stdlib.h>
#include <string.h>
#include <sys/mman.h>

const char *const function_name[FUNCTIONS] = { "plan", "read", "tables", "starts", "check", "lead", "plan_text", "read_plan",
                                              "check_texts" };

static const size_t place_bytes[FUNCTIONS] = {
    [PLAN] = 1, [READ] = sizeof(uint16_t), [STARTS] = sizeof(uint16_t), [CHECK] = sizeof(uint32_t), [PLAN_TEXT] = 1,
    [READ_PLAN] = sizeof(uint16_t), [CHECK_TEXTS] = sizeof(uint32_t)
};

static int lent_lists(const struct call *call) { return call->function == READ ? JOB_LISTS : 1; }
static size_t list_bytes(const struct call *call, int i) { return call->lent[i] * place_bytes[call->function]; }

size_t lent_bytes(const struct call *call)
{
    size_t sum = 0;
    for (int i = 0; i < lent_lists(call); i++)
        sum += list_bytes(call, i);
    return sum;
}

void part_lent(const struct call *call, uint8_t *bytes, void **lent)
{
    for (int i = 0; i < lent_lists(call); i++) {
        lent[i] = bytes;
        bytes += list_bytes(call, i);
    }
}

const uint16_t *lent_starts(const struct outcome *outcome) { return (const uint16_t *)(const void *)outcome->lent; }
const uint32_t *lent_clash(const struct outcome *outcome) { return (const uint32_t *)(const void *)outcome->lent; }

/* What stands in the lent lists before the call. */
static uint8_t pattern[LENT_BYTES];

static void make_pattern(void)
{
    for (size_t i = 0; i < LENT_BYTES; i++)
        pattern[i] = (uint8_t)(151 * i + 77);
}

/* ---- simple.c ---- */

void ask_simple(const struct call *c, struct outcome *outcome)
{
    void *lent[JOB_LISTS];
    part_lent(c, outcome->lent, lent);
    memcpy(outcome->lent, pattern, lent_bytes(c));
    outcome->trouble = NULL;
    switch (c->function) {
    case PLAN: outcome->answer = simple_plan(c->text, c->text_bytes, lent[0], c->lent[0]); break;
    case READ: outcome->answer = simple_read(c->text, c->text_bytes, (uint16_t *const *)lent, c->lent); break;
    case TABLES: outcome->answer = simple_tables(&c->lists); break;
    case STARTS: outcome->answer = simple_starts(&c->lists, lent[0], c->lent[0]); break;
    case CHECK: outcome->answer = simple_check(&c->lists, c->starts, c->starts_count, lent[0], c->lent[0]); break;
    case LEAD: outcome->answer = simple_lead(&c->lists, c->starts, c->starts_count, c->a, c->b, c->link); break;
    case PLAN_TEXT: outcome->answer = simple_plan_text(&c->lists, c->starts, c->starts_count, lent[0], c->lent[0]); break;
    case READ_PLAN: outcome->answer = simple_read_plan(&c->lists, c->plan, c->plan_bytes, lent[0], c->lent[0]); break;
    case CHECK_TEXTS:
        outcome->answer = simple_check_texts(c->text, c->text_bytes, c->plan, c->plan_bytes, lent[0], c->lent[0]);
        break;
    case FUNCTIONS: abort();
    }
}

/* ---- The planner ---- */

struct answer call_planner(const struct call *c, void *const *lent)
{
    const struct lists *l = &c->lists;
#define LISTS l->nodes, l->origins, l->origins_count, l->ends, l->ends_count, l->sources, l->sources_count, \
              l->stops, l->stops_count, l->hops, l->hops_count
    zhevgulor_answer answer = { 0, 0 };
    zhevgulor_lead_answer lead;
    zhevgulor_read_answer read;
    zhevgulor_texts_answer texts;
    switch (c->function) {
    case PLAN: answer = zhevgulor_plan(c->text, c->text_bytes, lent[0], c->lent[0]); break;
    case READ:
        read = zhevgulor_read(c->text, c->text_bytes, lent[0], c->lent[0], lent[1], c->lent[1], lent[2], c->lent[2],
                              lent[3], c->lent[3], lent[4], c->lent[4]);
        return (struct answer){ read.refusal, read.value, 0, read.nodes, read.links, read.packets, read.hops, 0 };
    case TABLES: answer = zhevgulor_tables(LISTS); break;
    case STARTS: answer = zhevgulor_starts(LISTS, lent[0], c->lent[0]); break;
    case CHECK: answer = zhevgulor_check(LISTS, c->starts, c->starts_count, lent[0], c->lent[0]); break;
    case LEAD:
        lead = zhevgulor_lead(LISTS, c->starts, c->starts_count, (uint16_t)c->a, (uint16_t)c->b, (uint16_t)c->link);
        return (struct answer){ lead.refusal, lead.place, .lead = lead.lead };
    case PLAN_TEXT: answer = zhevgulor_plan_text(LISTS, c->starts, c->starts_count, lent[0], c->lent[0]); break;
    case READ_PLAN: answer = zhevgulor_read_plan(LISTS, c->plan, c->plan_bytes, lent[0], c->lent[0]); break;
    case CHECK_TEXTS:
        texts = zhevgulor_check_texts(c->text, c->text_bytes, c->plan, c->plan_bytes, lent[0], c->lent[0]);
        return (struct answer){ texts.refusal, texts.value, .text = texts.text };
    case FUNCTIONS: abort();
    }
    return (struct answer){ answer.refusal, .value = answer.value };
#undef LISTS
}

/* Every list is handed over in a field of its own, between two stretches of memory that nobody may touch: flush with the one
 * behind it, flush with the one before it, or in the middle. What is free beside it holds guard bytes. */
enum { FIELD_BYTES = 1 << 19, FENCE_BYTES = 1 << 16, GUARD_BYTES = 64, GUARD = 0xA5 };
enum { TEXT_FIELD, PLAN_FIELD, ORIGINS_FIELD, ENDS_FIELD, SOURCES_FIELD, STOPS_FIELD, HOPS_FIELD, STARTS_FIELD, LENT_FIELD,
       FIELDS = LENT_FIELD + JOB_LISTS };

static struct field {
    uint8_t *begin, *end;   /* of the field */
    uint8_t *list;
    size_t bytes;           /* of the list */
    const void *original;
} field[FIELDS];

static unsigned long calls; /* so far: the fields are laid out otherwise in each call */

static void make_fields(void)
{
    for (int i = 0; i < FIELDS; i++) {
        uint8_t *all = mmap(NULL, FIELD_BYTES + 2 * FENCE_BYTES, PROT_NONE, MAP_PRIVATE | MAP_ANONYMOUS, -1, 0);
        if (all == MAP_FAILED || mprotect(all + FENCE_BYTES, FIELD_BYTES, PROT_READ | PROT_WRITE) != 0) {
            perror("memory");
            exit(2);
        }
        field[i].begin = all + FENCE_BYTES;
        field[i].end = field[i].begin + FIELD_BYTES;
    }
}

static uint8_t *first_guard(const struct field *f)
{
    return f->list - f->begin < GUARD_BYTES ? f->begin : f->list - GUARD_BYTES;
}

static uint8_t *guards_end(const struct field *f)
{
    uint8_t *behind = f->list + f->bytes;
    return f->end - behind < GUARD_BYTES ? f->end : behind + GUARD_BYTES;
}

/* Lays a list into its field. An empty one is handed over now as a null pointer, now as a pointer to nothing. */
static void *lay(int i, const void *list, size_t bytes)
{
    struct field *f = &field[i];
    if (bytes > FIELD_BYTES)
        abort();
    switch ((calls + (unsigned)i) % 3) {
    case 0: f->list = f->end - bytes; break;
    case 1: f->list = f->begin; break;
    case 2: f->list = f->begin + ((FIELD_BYTES - bytes) / 2 & ~(sizeof(uint32_t) - 1)); break;
    }
    f->bytes = bytes;
    f->original = list;
    memset(first_guard(f), GUARD, (size_t)(guards_end(f) - first_guard(f)));
    if (bytes > 0)
        memcpy(f->list, list, bytes);
    return bytes == 0 && (calls / 3 + (unsigned)i) % 2 == 0 ? NULL : f->list;
}

static const uint16_t *lay_list(int i, const uint16_t *list, size_t count) { return lay(i, list, count * sizeof list[0]); }

static int guards_stand(const struct field *f)
{
    static uint8_t guards[GUARD_BYTES];
    if (guards[0] != GUARD)
        memset(guards, GUARD, sizeof guards);
    const uint8_t *first = first_guard(f), *behind = f->list + f->bytes;
    return memcmp(first, guards, (size_t)(f->list - first)) == 0
        && memcmp(behind, guards, (size_t)(guards_end(f) - behind)) == 0;
}

static const char *trouble_in_fields(const struct call *c)
{
    for (int i = 0; i < LENT_FIELD + lent_lists(c); i++) {
        if (!guards_stand(&field[i]))
            return i >= LENT_FIELD ? "bytes beside a lent list are changed" : "bytes beside an input are changed";
        if (i < LENT_FIELD && field[i].bytes > 0 && memcmp(field[i].list, field[i].original, field[i].bytes) != 0)
            return "an input is changed";
    }
    return NULL;
}

/* A call that touches forbidden memory is given up, and the tests go on. */
static sigjmp_buf give_up;
static volatile sig_atomic_t calling;

static void on_signal(int number)
{
    if (!calling) {
        signal(number, SIG_DFL);
        raise(number);
    }
    siglongjmp(give_up, 1);
}

static void catch_signals(void)
{
    static const int numbers[] = { SIGSEGV, SIGBUS, SIGILL, SIGFPE, SIGABRT };
    static uint8_t stack[1 << 16];
    stack_t other = { .ss_sp = stack, .ss_size = sizeof stack };
    struct sigaction action = { .sa_handler = on_signal, .sa_flags = SA_NODEFER | SA_ONSTACK };
    sigaltstack(&other, NULL);
    for (size_t i = 0; i < sizeof numbers / sizeof numbers[0]; i++)
        sigaction(numbers[i], &action, NULL);
}

void prepare_calls(void)
{
    make_pattern();
    make_fields();
    catch_signals();
}

void ask_planner(const struct call *c, struct outcome *outcome)
{
    struct call laid = *c;
    if (lent_bytes(c) > LENT_BYTES)
        abort();
    calls++;
    laid.text = lay(TEXT_FIELD, c->text, c->text_bytes);
    laid.plan = lay(PLAN_FIELD, c->plan, c->plan_bytes);
    laid.lists.origins = lay_list(ORIGINS_FIELD, c->lists.origins, c->lists.origins_count);
    laid.lists.ends = lay_list(ENDS_FIELD, c->lists.ends, c->lists.ends_count);
    laid.lists.sources = lay_list(SOURCES_FIELD, c->lists.sources, c->lists.sources_count);
    laid.lists.stops = lay_list(STOPS_FIELD, c->lists.stops, c->lists.stops_count);
    laid.lists.hops = lay_list(HOPS_FIELD, c->lists.hops, c->lists.hops_count);
    laid.starts = lay_list(STARTS_FIELD, c->starts, c->starts_count);
    void *lent[JOB_LISTS], *part[JOB_LISTS];
    part_lent(c, pattern, part);
    for (int i = 0; i < lent_lists(c); i++)
        lent[i] = lay(LENT_FIELD + i, part[i], list_bytes(c, i));
    outcome->answer = (struct answer){ 0 };
    outcome->trouble = "the call touches memory that is not its own";
    if (sigsetjmp(give_up, 0) == 0) {
        calling = 1;
        outcome->answer = call_planner(&laid, lent);
        outcome->trouble = trouble_in_fields(c);
    }
    calling = 0;
    part_lent(c, outcome->lent, part);
    for (int i = 0; i < lent_lists(c); i++)
        memcpy(part[i], field[LENT_FIELD + i].list, list_bytes(c, i));
}
