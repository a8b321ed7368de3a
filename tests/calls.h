/* calls.h: one call, asked of the planner as a C program would, or of simple.c. */
#ifndef CALLS_H
#define CALLS_H

#include "simple.h"
#include "wrong.h"

extern const char *const function_name[FUNCTIONS];

struct call {
    enum function function;
    const uint8_t *text;    /* of a job */
    size_t text_bytes;
    const uint8_t *plan;
    size_t plan_bytes;
    struct lists lists;
    const uint16_t *starts; /* given */
    size_t starts_count;
    int a, b, link;
    size_t lent[JOB_LISTS]; /* places lent for the answer: the first list's, and in READ those of all five */
};

/* What came of a call: the answer, and the lent lists afterwards, one behind the other. There is room for a reader's five lists
 * with more than 65,536 places each. */
enum { LENT_BYTES = 800000 };
struct outcome {
    struct answer answer;
    _Alignas(uint32_t) uint8_t lent[LENT_BYTES];
    const char *trouble; /* what must never happen, or NULL */
};

const uint16_t *lent_starts(const struct outcome *outcome);
const uint32_t *lent_clash(const struct outcome *outcome);
size_t lent_bytes(const struct call *call);

void prepare_calls(void); /* once, before the first call */
void ask_planner(const struct call *call, struct outcome *outcome);
void ask_simple(const struct call *call, struct outcome *outcome);

/* The bare call, with the lists where they are. */
struct answer call_planner(const struct call *call, void *const *lent);

/* Where each lent list lies in the bytes of them all. */
void part_lent(const struct call *call, uint8_t *bytes, void **lent);

#endif
