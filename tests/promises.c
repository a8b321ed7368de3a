/* promises.c: the numbers and types of zhevgulor.h, and what it says of lists that were read, of threads and of the stack. What it
 * says of variables is looked up in the archive, by tests/run. */
#define _GNU_SOURCE
#include "../include/zhevgulor.h"
#include "cases.h"
#include "sections.h"

#include <pthread.h>
#include <stdio.h>
#include <stdlib.h>
#include <string.h>
#include <sys/mman.h>
#include <ucontext.h>

/* ---- Numbers ---- */

/* Each number of the header is the tests' own. tests/run shows that this is asked of every one. */
enum { MOST_STACK = 128 * 1024 };
#define SAME(of_header, own) _Static_assert((of_header) == (own), #of_header)
SAME(ZHEVGULOR_TEXT_BYTES, MOST_BYTES);
SAME(ZHEVGULOR_NODES, MOST_NODES);
SAME(ZHEVGULOR_LINKS, MOST_LINKS);
SAME(ZHEVGULOR_PACKETS, MOST_PACKETS);
SAME(ZHEVGULOR_PATH_HOPS, MOST_PATH_HOPS);
SAME(ZHEVGULOR_HOPS, MOST_HOPS);
SAME(ZHEVGULOR_LATEST_START, LATEST_START);
SAME(ZHEVGULOR_PLANNED_START, LATEST_PLANNED);
SAME(ZHEVGULOR_LEAD, GREATEST_LEAD);
SAME(ZHEVGULOR_PLAN_BYTES, MOST_PLAN_BYTES);
SAME(ZHEVGULOR_CLASH, CLASH_NUMBERS);
SAME(ZHEVGULOR_STACK_BYTES, MOST_STACK);
SAME(ZHEVGULOR_JOB, JOBS_TEXT);
SAME(ZHEVGULOR_PLAN, PLANS_TEXT);

/* ---- Types ---- */

/* C fits every number of a call to the parameter it meets, so a narrow parameter would be seen in no answer to a short list. Here
 * the types are the tests' own, to the last one. */
#define TYPE(function, ...) _Static_assert(_Generic(&function, __VA_ARGS__: 1, default: 0), #function)
#define LIST const uint16_t *, size_t
#define LENT uint16_t *, size_t
#define LISTS uint16_t, LIST, LIST, LIST, LIST, LIST
TYPE(zhevgulor_plan, zhevgulor_answer (*)(const uint8_t *, size_t, uint8_t *, size_t));
TYPE(zhevgulor_read, zhevgulor_read_answer (*)(const uint8_t *, size_t, LENT, LENT, LENT, LENT, LENT));
TYPE(zhevgulor_tables, zhevgulor_answer (*)(LISTS));
TYPE(zhevgulor_starts, zhevgulor_answer (*)(LISTS, LENT));
TYPE(zhevgulor_check, zhevgulor_answer (*)(LISTS, LIST, uint32_t *, size_t));
TYPE(zhevgulor_lead, zhevgulor_lead_answer (*)(LISTS, LIST, uint16_t, uint16_t, uint16_t));
TYPE(zhevgulor_plan_text, zhevgulor_answer (*)(LISTS, LIST, uint8_t *, size_t));
TYPE(zhevgulor_read_plan, zhevgulor_answer (*)(LISTS, const uint8_t *, size_t, LENT));
TYPE(zhevgulor_check_texts, zhevgulor_texts_answer (*)(const uint8_t *, size_t, const uint8_t *, size_t, uint32_t *, size_t));

/* An answer is its members, one behind the other, of four bytes each. */
#define SIZE(answer, members) _Static_assert(sizeof(answer) == 4 * (members), #answer)
#define MEMBER(answer, member, number, type) \
    _Static_assert(_Generic(&((answer *)0)->member, type *: 1, default: 0) && offsetof(answer, member) == 4 * (number), \
                   #answer "." #member)
SIZE(zhevgulor_answer, 2);
MEMBER(zhevgulor_answer, refusal, 0, uint32_t);
MEMBER(zhevgulor_answer, value, 1, uint32_t);
SIZE(zhevgulor_lead_answer, 3);
MEMBER(zhevgulor_lead_answer, refusal, 0, uint32_t);
MEMBER(zhevgulor_lead_answer, place, 1, uint32_t);
MEMBER(zhevgulor_lead_answer, lead, 2, int32_t);
SIZE(zhevgulor_read_answer, 6);
MEMBER(zhevgulor_read_answer, refusal, 0, uint32_t);
MEMBER(zhevgulor_read_answer, value, 1, uint32_t);
MEMBER(zhevgulor_read_answer, nodes, 2, uint32_t);
MEMBER(zhevgulor_read_answer, links, 3, uint32_t);
MEMBER(zhevgulor_read_answer, packets, 4, uint32_t);
MEMBER(zhevgulor_read_answer, hops, 5, uint32_t);
SIZE(zhevgulor_texts_answer, 3);
MEMBER(zhevgulor_texts_answer, text, 0, uint32_t);
MEMBER(zhevgulor_texts_answer, refusal, 1, uint32_t);
MEMBER(zhevgulor_texts_answer, value, 2, uint32_t);

/* ---- Lists that were read ---- */

/* As the header shows it: the text is read, and the lists are handed on to be planned and written, and the plan to be read back and
 * checked. The plan is the text's. */
static int planned_in_two_steps(const struct text *text, uint8_t *plan, size_t bytes)
{
    static uint16_t origins[ZHEVGULOR_LINKS], ends[ZHEVGULOR_LINKS], sources[ZHEVGULOR_PACKETS], stops[ZHEVGULOR_PACKETS],
        hops[ZHEVGULOR_HOPS], starts[ZHEVGULOR_PACKETS], again[ZHEVGULOR_PACKETS];
    static uint8_t written[ZHEVGULOR_PLAN_BYTES];
    zhevgulor_read_answer j = zhevgulor_read(text->byte, text->bytes, origins, ZHEVGULOR_LINKS, ends, ZHEVGULOR_LINKS,
        sources, ZHEVGULOR_PACKETS, stops, ZHEVGULOR_PACKETS, hops, ZHEVGULOR_HOPS);
    zhevgulor_answer answer = zhevgulor_starts((uint16_t)j.nodes, origins, j.links, ends, j.links, sources, j.packets,
        stops, j.packets, hops, j.hops, starts, ZHEVGULOR_PACKETS);
    if (j.refusal != 0 || answer.refusal != 0 || answer.value != j.packets)
        return 0;
    answer = zhevgulor_plan_text((uint16_t)j.nodes, origins, j.links, ends, j.links, sources, j.packets,
        stops, j.packets, hops, j.hops, starts, answer.value, written, sizeof written);
    if (answer.refusal != 0 || answer.value != bytes || memcmp(written, plan, bytes) != 0)
        return 0;
    answer = zhevgulor_read_plan((uint16_t)j.nodes, origins, j.links, ends, j.links, sources, j.packets, stops, j.packets,
        hops, j.hops, written, bytes, again, ZHEVGULOR_PACKETS);
    if (answer.refusal != 0 || answer.value != j.packets || memcmp(again, starts, j.packets * sizeof again[0]) != 0)
        return 0;
    uint32_t clash[ZHEVGULOR_CLASH];
    answer = zhevgulor_check((uint16_t)j.nodes, origins, j.links, ends, j.links, sources, j.packets, stops, j.packets,
        hops, j.hops, again, j.packets, clash, ZHEVGULOR_CLASH);
    zhevgulor_texts_answer told = zhevgulor_check_texts(text->byte, text->bytes, written, bytes, clash, ZHEVGULOR_CLASH);
    return answer.refusal == 0 && answer.value == 0 && told.text == 0 && told.refusal == 0 && told.value == 0;
}

void read_and_plan(void)
{
    static struct text text;
    static struct job job;
    static uint8_t plan[ROOM];
    for (int i = 0; i < 200; i++) {
        seed(8000 + (uint64_t)i);
        random_job(&job, (enum family)(i % FAMILIES), (enum crowd)(i / FAMILIES % CROWDS), i == 199);
        text_of_job(&job, &text);
        size_t bytes = simple_plan(text.byte, text.bytes, plan, ROOM).value;
        expect(planned_in_two_steps(&text, plan, bytes), "random job %d, read, planned and read back", i);
    }
}

/* ---- Several threads at once ---- */

enum { THREADS = 4, ROUNDS = 100 };
static struct { struct text text; uint8_t plan[ROOM]; size_t bytes; int wrong; } work[THREADS];

static void *one_thread(void *argument)
{
    int i = (int)(size_t)argument;
    for (int round = 0; round < ROUNDS; round++) {
        uint8_t room[ROOM];
        zhevgulor_answer answer = zhevgulor_plan(work[i].text.byte, work[i].text.bytes, room, sizeof room);
        if (answer.refusal != 0 || answer.value != work[i].bytes || memcmp(room, work[i].plan, work[i].bytes) != 0)
            work[i].wrong++;
    }
    return NULL;
}

void threads(void)
{
    static struct job job;
    pthread_t thread[THREADS];
    for (int i = 0; i < THREADS; i++) {
        seed(9000 + (uint64_t)i);
        random_job(&job, (enum family)i, HOT, 0);
        text_of_job(&job, &work[i].text);
        work[i].bytes = simple_plan(work[i].text.byte, work[i].text.bytes, work[i].plan, ROOM).value;
    }
    for (int i = 0; i < THREADS; i++)
        if (pthread_create(&thread[i], NULL, one_thread, (void *)(size_t)i) != 0)
            abort();
    for (int i = 0; i < THREADS; i++) {
        pthread_join(thread[i], NULL);
        expect(work[i].wrong == 0, "thread %d: %d of %d plans are wrong", i, work[i].wrong, ROUNDS);
    }
}

/* ---- Stack ---- */

enum { STACK = 1 << 20, PAINT = 0x5C };
static ucontext_t here, there;
static const struct call *call;

static void call_there(void)
{
    static struct outcome outcome;
    void *lent[JOB_LISTS];
    part_lent(call, outcome.lent, lent);
    call_planner(call, lent);
}

static void go_there(uint8_t *bottom)
{
    getcontext(&there);
    there.uc_stack.ss_sp = bottom;
    there.uc_stack.ss_size = STACK;
    there.uc_link = &here;
    makecontext(&there, call_there, 0);
    swapcontext(&here, &there);
}

/* Runs all kept calls of a function on a stack of their own, all paint. What has lost its paint was used. */
static size_t stack_of(enum function function, uint8_t *bottom)
{
    memset(bottom, PAINT, STACK);
    for (size_t i = 0; i < kept_count; i++)
        if (kept[i].call.function == function) {
            call = &kept[i].call;
            go_there(bottom);
        }
    size_t clean = 0;
    while (clean < STACK && bottom[clean] == PAINT)
        clean++;
    return STACK - clean;
}

void stack(void)
{
    uint8_t *bottom = mmap(NULL, STACK, PROT_READ | PROT_WRITE, MAP_PRIVATE | MAP_ANONYMOUS, -1, 0);
    if (bottom == MAP_FAILED)
        abort();
    printf("bytes of stack, with some 300 for the call itself (zhevgulor.h: at most %d):", ZHEVGULOR_STACK_BYTES);
    for (enum function f = 0; f < FUNCTIONS; f++) {
        size_t used = stack_of(f, bottom);
        printf(" %s %zu%s", function_name[f], used, f + 1 < FUNCTIONS ? "," : "\n");
        expect(used > 0 && used <= ZHEVGULOR_STACK_BYTES, "%s takes %zu bytes of stack", function_name[f], used);
    }
    munmap(bottom, STACK);
}
