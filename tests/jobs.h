/* jobs.h: makes jobs for the comparison: random ones over several kinds of network, and damaged ones. */
#ifndef JOBS_H
#define JOBS_H

#include "simple.h"

/* Room for texts and lists well over the sizes that are allowed. */
enum { TEXT_ROOM = 200000, LIST_ROOM = 70000 };
struct text { size_t bytes; uint8_t byte[TEXT_ROOM + 1]; };
struct list { size_t count; uint16_t value[LIST_ROOM]; };
struct tables { uint16_t nodes; struct list origins, ends, sources, stops, hops; };

/* Numbers that look random and are the same in every run: after seed(n) always the same ones. */
void seed(uint64_t number);
unsigned pick(unsigned below);              /* 0 to below - 1 */
int between(int least, int most);
int chance(int percent);

/* Building by hand. */
void add(struct text *text, const char *format, ...);
void push(struct list *list, int value);
void push_path(struct tables *tables, int source, int first_link, int hops); /* hops over links first_link, + 1, + 2 ... */
void take_hops(struct tables *tables, size_t k); /* packet k is left without hops; the other packets keep theirs */
void clear_text(struct text *text);
void clear_tables(struct tables *tables);
void line_network(struct tables *tables, int nodes); /* nodes in a row, link i from node i to node i + 1 */
void ring_job(struct job *job, int nodes, int hops); /* as many packets: packet k sets out at node k, over link k, + 1, + 2 ... */
void show_text(struct text *text, const char *shown); /* spaces stand for tabs */
void show_job(struct job *job, const char *shown);
extern const char session_a[];

/* From one form to another. */
void text_of_job(const struct job *job, struct text *text);
void tables_of_job(const struct job *job, struct tables *tables);
struct lists lists_of(const struct tables *tables);
void text_of_plan(const struct job *job, const struct list *starts, struct text *plan); /* as many starts as packets, of any size */

/* Random jobs. */
enum family { LINE, RING, MESH, TREE, CUBE, MULTIGRAPH, DETOURS, FAMILIES };
enum crowd { SPARSE, SEGMENTS, HOT, CROWDS };
extern const char *const family_name[FAMILIES];
extern const char *const crowd_name[CROWDS];
void random_job(struct job *job, enum family family, enum crowd crowd, int large);

/* Starts for a job, given the planned ones. */
enum starts_kind { PLANNED, ZEROS, SMALL, NEARLY_PLANNED, SHIFTED, WIDE, LATE, ONE_OVER, SEVERAL_OVER, ONE_FEWER, ONE_MORE,
                   FEWER_AND_OVER, STARTS_KINDS };
void random_starts(const struct job *job, const int *planned, enum starts_kind kind, struct list *starts);

/* Damage: one change that mostly, but not always, makes the job or the plan wrong. In a text, to the line given (from 0) or, if it
 * is -1, to any. */
void damage_text(struct text *text, const struct job *job, int line);
void damage_plan(struct text *plan, const struct job *job, int line);
int lines_of_text(const struct text *text);
void damage_tables(struct tables *tables, const struct job *job);

#endif
