/* lengths.c: lengths of more than 32 bits. A function that looked at 32 of them would see a short list and answer otherwise.
 *
 * The lists are as long as is said, but lie in memory that is reserved and hardly used. So they are handed over where they are, and
 * not copied between fences as in calls.c. The lists lent to the reader are left out: it would have to clear gigabytes. */
#define _GNU_SOURCE
#include "cases.h"
#include "sections.h"

#include <errno.h>
#include <stdio.h>
#include <string.h>
#include <sys/mman.h>

static const size_t TOO_LONG = (size_t)1 << 32; /* the last 32 bits are 0 */

/* So many bytes, all 0; NULL if the system does not have them. */
static void *reserve(size_t bytes, int protection)
{
    void *memory = mmap(NULL, bytes, protection, MAP_PRIVATE | MAP_ANONYMOUS | MAP_NORESERVE, -1, 0);
    if (memory != MAP_FAILED)
        return memory;
    printf("left out, as the system does not reserve %zu bytes: %s\n", bytes, strerror(errno));
    return NULL;
}

/* ---- Inputs ---- */

/* Answered by this refusal at 0, with the lent lists as they were; and otherwise if the lengths lose all but 32 bits. */
static void run_huge(const struct call *whole, const struct call *cut, uint32_t refusal)
{
    static struct outcome before, after;
    void *lent[JOB_LISTS];
    const char *function = function_name[whole->function];
    memset(before.lent, 0x5C, sizeof before.lent);
    memcpy(after.lent, before.lent, sizeof after.lent);
    part_lent(whole, after.lent, lent);
    struct answer answer = call_planner(whole, lent);
    expect(answer.refusal == refusal && answer.value == 0, "%s: %s: refusal %u at %u", function, label, answer.refusal,
           answer.value);
    expect(memcmp(before.lent, after.lent, sizeof after.lent) == 0, "%s: %s: a lent list is changed", function, label);
    expect(call_planner(cut, lent).refusal != refusal, "%s: %s: the same refusal by 32 bits of the length", function, label);
}

static void huge_texts(const void *zeros)
{
    static const enum function function[] = { PLAN, READ, CHECK_TEXTS };
    for (size_t i = 0; i < sizeof function / sizeof function[0]; i++)
        for (size_t more = 0; more <= 4; more += 4) {
            struct call cut = { .function = function[i], .text = zeros, .text_bytes = more, .lent = { ROOM } }, whole;
            if (cut.function == READ)
                memcpy(cut.lent, list_size, sizeof cut.lent);
            whole = cut;
            whole.text_bytes += TOO_LONG;
            name_cases("text of %zu bytes", whole.text_bytes);
            run_huge(&whole, &cut, 1);
        }
}

/* A plan for a job of one node and nothing else, by itself and with the job as a text. */
static void huge_plans(const void *zeros)
{
    static const uint8_t one_node[] = { 'N', '\t', '1', '\n' };
    for (enum function f = READ_PLAN; f <= CHECK_TEXTS; f++)
        for (size_t more = 0; more <= 4; more += 4) {
            struct call cut = { .function = f, .text = one_node, .text_bytes = sizeof one_node, .plan = zeros, .plan_bytes = more,
                                .lists = { .nodes = 1 }, .lent = { 100 } };
            struct call whole = cut;
            whole.plan_bytes += TOO_LONG;
            name_cases("plan of %zu bytes", whole.plan_bytes);
            run_huge(&whole, &cut, 1);
        }
}

/* A job of one node and nothing else, with some lists that are too long. */
static void huge_lists(const uint16_t *zeros)
{
    static const struct { const char *name; int origins, ends, sources, stops, hops, starts; uint32_t refusal; } row[] = {
        { "origins", 1, 0, 0, 0, 0, 0, 9 },
        { "ends", 0, 1, 0, 0, 0, 0, 9 },
        { "links", 1, 1, 0, 0, 0, 0, 3 },
        { "sources", 0, 0, 1, 0, 0, 0, 9 },
        { "stops", 0, 0, 0, 1, 0, 0, 9 },
        { "hops", 0, 0, 0, 0, 1, 0, 9 },
        { "starts", 0, 0, 0, 0, 0, 1, 11 },
    };
    for (size_t i = 0; i < sizeof row / sizeof row[0]; i++)
        for (enum function f = row[i].starts ? CHECK : TABLES; f <= (row[i].starts ? PLAN_TEXT : READ_PLAN); f++) {
            struct call cut = { .function = f, .lent = { 100 }, .starts = zeros,
                                .lists = { .nodes = 1, .origins = zeros, .ends = zeros, .sources = zeros, .stops = zeros,
                                           .hops = zeros } };
            struct call whole = cut;
            whole.lists.origins_count = row[i].origins * TOO_LONG;
            whole.lists.ends_count = row[i].ends * TOO_LONG;
            whole.lists.sources_count = row[i].sources * TOO_LONG;
            whole.lists.stops_count = row[i].stops * TOO_LONG;
            whole.lists.hops_count = row[i].hops * TOO_LONG;
            whole.starts_count = row[i].starts * TOO_LONG;
            name_cases("%zu %s", TOO_LONG, row[i].name);
            run_huge(&whole, &cut, row[i].refusal);
        }
}

/* ---- Rooms ---- */

enum { STRETCH = 1 << 16, PAINT = 0x5C };

static int all_paint(const uint8_t *byte, size_t bytes)
{
    for (size_t i = 0; i < bytes; i++)
        if (byte[i] != PAINT)
            return 0;
    return 1;
}

/* As in a room of 100 places; and 10 if the length loses all but 32 bits. Both ends of the room are painted, and keep their paint
 * but for the answer. */
static void run_huge_room(struct call call, size_t place_bytes, uint8_t *room)
{
    static struct outcome simple;
    const char *function = function_name[call.function];
    call.lent[0] = 100;
    ask_simple(&call, &simple);
    call.lent[0] = TOO_LONG + 3;
    size_t written = simple.answer.value * place_bytes;
    uint8_t *last = room + call.lent[0] * place_bytes - STRETCH;
    memset(room, PAINT, STRETCH);
    memset(last, PAINT, STRETCH);
    struct answer answer = call_planner(&call, (void *[]){ room });
    expect(answer.refusal == 0 && answer.value == simple.answer.value, "%s: %s: refusal %u", function, label, answer.refusal);
    expect(memcmp(room, simple.lent, written) == 0, "%s: %s: a wrong answer", function, label);
    expect(all_paint(room + written, STRETCH - written) && all_paint(last, STRETCH), "%s: %s: more is changed", function, label);
    call.lent[0] = 3;
    expect(call_planner(&call, (void *[]){ room }).refusal == 10, "%s: %s: taken by 32 bits of the length", function, label);
}

static void huge_rooms(uint8_t *room)
{
    static struct text text, plan;
    static struct job job;
    static struct tables tables;
    static const struct list starts = { .count = 4 };
    show_job(&job, session_a);
    text_of_job(&job, &text);
    text_of_plan(&job, &starts, &plan);
    tables_of_job(&job, &tables);
    struct call call = { .text = text.byte, .text_bytes = text.bytes, .plan = plan.byte, .plan_bytes = plan.bytes,
                         .lists = lists_of(&tables), .starts = starts.value, .starts_count = starts.count };
    static const struct { enum function function; size_t place_bytes; } row[] = {
        { PLAN, 1 }, { STARTS, sizeof(uint16_t) }, { CHECK, sizeof(uint32_t) }, { PLAN_TEXT, 1 }, { READ_PLAN, sizeof(uint16_t) },
        { CHECK_TEXTS, sizeof(uint32_t) }
    };
    for (size_t i = 0; i < sizeof row / sizeof row[0]; i++) {
        call.function = row[i].function;
        name_cases("%zu places", TOO_LONG + 3);
        run_huge_room(call, row[i].place_bytes, room);
    }
}

void huge_lengths(void)
{
    size_t inputs = (TOO_LONG + 4) * sizeof(uint16_t), rooms = (TOO_LONG + 3) * sizeof(uint32_t);
    void *zeros = reserve(inputs, PROT_READ), *room = reserve(rooms, PROT_READ | PROT_WRITE);
    if (zeros) {
        huge_texts(zeros);
        huge_plans(zeros);
        huge_lists(zeros);
        munmap(zeros, inputs);
    }
    if (room) {
        huge_rooms(room);
        munmap(room, rooms);
    }
}
