/* fast.h: from a job's text to its plan's text, and the check of starts, written for speed. See fast.c. */
#ifndef FAST_H
#define FAST_H

#include "../include/zhevgulor.h"

/* What zhevgulor_plan does. */
zhevgulor_answer fast_plan(const uint8_t *text, size_t bytes, uint8_t *room, size_t room_bytes);

/* Its parts, which hand the job on in variables of fast.c. */
zhevgulor_answer fast_read(const uint8_t *text, size_t bytes); /* with all checks of a text */
void fast_search(void);
zhevgulor_answer fast_write(uint8_t *room, size_t room_bytes);

/* How often two packets meet on a link: the work of fast_search. */
size_t fast_meetings(void);

/* A job as lists, as zhevgulor.h has them. */
typedef struct {
    uint16_t nodes;
    const uint16_t *origins, *ends, *sources, *stops, *hops;
    size_t origins_count, ends_count, sources_count, stops_count, hops_count;
} fast_lists;

/* What zhevgulor_check does. */
zhevgulor_answer fast_check(const fast_lists *job, const uint16_t *starts, size_t starts_count, uint32_t *clash, size_t clash_count);

#endif
