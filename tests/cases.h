/* cases.h: one case: a call asked of the planner and of simple.c, and the two outcomes compared byte for byte. */
#ifndef CASES_H
#define CASES_H

#include "calls.h"
#include "jobs.h"

extern long passed, failed;

/* What the files of failed cases have in their names, so that two processes do not write to one. */
extern const char *part;

/* Where the cases that follow come from. */
extern char label[200];
void name_cases(const char *format, ...);

/* Something beside the comparison that must hold. */
void expect(int holds, const char *format, ...);

/* The cases. Afterwards `planner` is what the planner did. */
extern struct outcome planner;
void run_text(const struct text *text, size_t room);
void run_read(const struct text *text, int list, int more); /* every list has its size; one, -1 for all, so many places more */
void run_tables(const struct tables *tables);
void run_starts(const struct tables *tables, size_t places);
void run_check(const struct tables *tables, const struct list *starts, size_t places);
void run_lead(const struct tables *tables, const struct list *starts, int a, int b, int link);
void run_plan_text(const struct tables *tables, const struct list *starts, size_t room);
void run_read_plan(const struct tables *tables, const struct text *plan, size_t places);
void run_check_texts(const struct text *job, const struct text *plan, size_t places);

/* All six functions that take lists. The plan that is read back is that of the starts, where they have one. */
struct rooms { size_t starts, clash, plan; };
void run_lists(const struct tables *tables, const struct list *starts, struct rooms rooms);

/* After run_text: the same text, with the plan that was told of it, where one was. */
void run_own_plan(const struct text *job, size_t places);

/* How often each function gave each refusal, 0 being none, and how often a clash was shown. What the check of two texts refuses in
 * the plan has a row of its own. */
enum { REFUSALS = 16, TEXTS_PLAN = FUNCTIONS, GIVERS };
extern long given[GIVERS][REFUSALS];
extern long clashes, texts_clashes; /* by the check of starts, and of two texts */

/* Cases that passed while `keeping` was set, to be asked again: of simple.c with each wrong rule, and for the use of stack. */
struct kept {
    struct call call;
    struct answer answer;
    uint64_t lent; /* the fingerprint of the lent lists */
    char *label;
};
extern int keeping;
extern struct kept *kept;
extern size_t kept_count;
int same_as_kept(const struct kept *kept, const struct outcome *outcome);

#endif
