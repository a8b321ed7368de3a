/* sections.h: the parts of the comparison, each in the file of its name. */
#ifndef SECTIONS_H
#define SECTIONS_H

#include "simple.h"

/* Rooms for plans: of any job, of some 75 packets, of a handful. */
enum { ROOM = MOST_PLAN_BYTES, MIDDLE_ROOM = 1500, SMALL_ROOM = 300 };

void sessions(void);

/* small.c: all there is of something small. */
void wrong_forms(void);
void short_lines(void);
void single_bytes(void);
void small_jobs(void);
void small_starts(void);
void wrong_pairs(void);

/* limits.c: up to every limit and over it. */
void limits(void);
void rooms(void);
void reader_lists(void);
void full_jobs(void);

/* random.c: from seeds. */
extern long gaps; /* starts in a gap */
void random_jobs(void);
void large_random_jobs(void);
void damaged_texts(void);
void damaged_lists(void);
void print_seeds(void);

/* plans.c: plans that are read back. */
void plan_sessions(void);
void plan_forms(void);
void plan_lines(void);
void plan_bytes(void);
void plan_pairs(void);
void plan_limits(void);
void plan_rooms(void);
void written_plans(void);
void damaged_plans(void);
void print_plan_seeds(void);

/* promises.c: what zhevgulor.h says beside the answers. */
void read_and_plan(void);
void threads(void);
void stack(void);

/* lengths.c: lengths of more than 32 bits. */
void huge_lengths(void);

/* teeth.c: what the comparison is worth. */
void teeth(void);
void counts(void);

#endif
