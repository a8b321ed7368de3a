/* sessions.c: the worked sessions of document 01, with the answers that it gives, or that a later request gives. Those about limits
 * are in limits.c. */
#include "cases.h"
#include "sections.h"

#include <stdio.h>
#include <string.h>

static struct text text;
static struct tables tables;
static struct list starts;
static struct job job;

/* The job has this plan, or this refusal. Both are shown with spaces for tabs. */
static void session_text(const char *name, const char *shown, const char *plan)
{
    static struct text expected;
    unsigned refusal, place;
    show_text(&text, shown);
    show_text(&expected, plan);
    name_cases("session %s", name);
    run_text(&text, ROOM);
    if (sscanf(plan, "R %u %u", &refusal, &place) == 2)
        expect(planner.answer.refusal == refusal && planner.answer.value == place, "%s: %s", label, plan);
    else
        expect(planner.answer.refusal == 0 && planner.answer.value == expected.bytes
                   && memcmp(planner.lent, expected.byte, expected.bytes) == 0, "%s", label);
}

/* It is read into these lists, one digit for each element. Behind them all is zero. */
static void session_read(const char *name, const char *shown, int nodes, const char *const digits[JOB_LISTS])
{
    size_t count[JOB_LISTS], places = 0;
    show_text(&text, shown);
    name_cases("session %s, read", name);
    run_read(&text, -1, 1);
    const uint16_t *list = lent_starts(&planner);
    int right = 1;
    for (int i = 0; i < JOB_LISTS; list += places, i++) {
        count[i] = strlen(digits[i]);
        places = list_size[i] + 1;
        for (size_t at = 0; at < places; at++)
            right &= list[at] == (at < count[i] ? digits[i][at] - '0' : 0);
    }
    const struct answer *a = &planner.answer;
    expect(right && a->refusal == 0 && a->value == 0 && a->nodes == (uint32_t)nodes && a->links == count[0] && a->links == count[1]
               && a->packets == count[2] && a->packets == count[3] && a->hops == count[4], "%s", label);
}

/* It also has these starts, one digit for each, if it comes as lists. */
static void session(const char *name, const char *shown, const char *plan, const char *digits)
{
    size_t packets = strlen(digits);
    session_text(name, shown, plan);
    show_job(&job, shown);
    tables_of_job(&job, &tables);
    name_cases("session %s, as lists", name);
    run_starts(&tables, packets);
    int right = planner.answer.refusal == 0 && planner.answer.value == packets;
    for (size_t k = 0; k < packets; k++)
        right &= lent_starts(&planner)[k] == digits[k] - '0';
    expect(right, "%s", label);
}

/* With this path, over links that follow each other, it is refused as lists. */
static void session_refused(const char *name, const char *shown, int source, int first_link, int hops, unsigned refusal)
{
    show_job(&job, shown);
    tables_of_job(&job, &tables);
    push_path(&tables, source, first_link, hops);
    name_cases("session %s, as lists", name);
    run_tables(&tables);
    expect(planner.answer.refusal == refusal && planner.answer.value == 0, "%s", label);
}

static void give_starts(const char *digits)
{
    starts.count = 0;
    for (; *digits; digits++)
        push(&starts, *digits - '0');
}

/* These starts, one digit for each, are clear, or clash like this. */
static void session_check(const char *digits, const uint32_t *clash)
{
    give_starts(digits);
    name_cases("session A, check of %s", digits);
    run_check(&tables, &starts, 4);
    expect(planner.answer.refusal == 0 && planner.answer.value == (clash ? 4 : 0)
               && (!clash || memcmp(lent_clash(&planner), clash, 4 * sizeof clash[0]) == 0), "%s", label);
}

static void session_lead(int a, int b, int link, int lead)
{
    name_cases("session A, lead of %d over %d", a, b);
    run_lead(&tables, &starts, a, b, link);
    expect(planner.answer.refusal == 0 && planner.answer.lead == lead, "%s", label);
}

void sessions(void)
{
    static const int met[] = { 0, 2, 3, 2 };
    static const uint32_t all_zero[] = { 2, 0, 0, 0 }, second_late[] = { 1, 0, 1, 1 };

    session("A", session_a, "S 0 0 3\nS 1 0 2\nS 2 1 3\nS 3 0 1\nT 3 3 3\n", "0010");
    for (int k = 0; k < 4; k++)
        expect(meetings(&job, k) == met[k], "session A: meetings of packet %d", k);
    session_read("A", session_a, 4, (const char *const[]){ "012", "123", "0102", "3578", "01212012" });
    session_check("0059", NULL);
    session_check("0000", all_zero);
    session_check("0100", second_late);
    give_starts("0010");
    session_lead(1, 0, 1, -1);
    session_lead(0, 1, 1, 1);

    session("one same link", "N 2\nL 0 1\nP 0 0\nP 0 0\nP 0 0\n", "S 0 0 1\nS 1 1 2\nS 2 2 3\nT 3 3 1\n", "012");
    session("first gap", "N 4\nL 0 1\nL 1 2\nL 2 3\nP 0 0 1\nP 1 1\nP 1 1\n", "S 0 0 2\nS 1 0 1\nS 2 2 3\nT 3 3 2\n", "002");
    session("five links", "N 5\nL 0 1\nL 1 2\nL 2 3\nL 1 4\nL 4 2\nP 0 0 3 4 2\nP 0 0 1 2\n", "S 0 0 4\nS 1 2 5\nT 5 2 4\n", "02");

    session_text("there and back", "N 2\nL 0 1\nL 1 0\nP 0 0 1\n", "R 8 4\n");
    session_refused("there and back", "N 2\nL 0 1\nL 1 0\n", 0, 0, 2, 8);
    session_text("wrong end", "N 2\nL 0 1\nL 1 0\nP 0 1\n", "R 7 4\n");
    session_refused("wrong end", "N 2\nL 0 1\nL 1 0\n", 0, 1, 1, 7);
    session("two directions", "N 2\nL 0 1\nL 1 0\nP 0 0\nP 1 1\n", "S 0 0 1\nS 1 0 1\nT 1 1 1\n", "00");

    session_read("no packets", "N 4\nL 0 1\nL 1 2\nL 2 3\n", 4, (const char *const[]){ "012", "123", "", "", "" });
    session("no packets", "N 4\nL 0 1\nL 1 2\nL 2 3\n", "T 0 0 0\n", "");
    session_read("one hop", "N 2\nL 0 1\nP 0 0\n", 2, (const char *const[]){ "0", "1", "0", "1", "0" });
    session("one hop", "N 2\nL 0 1\nP 0 0\n", "S 0 0 1\nT 1 1 1\n", "0");
    session_text("no hops", "N 1\nP 0\n", "R 15 2\n");
    session_refused("no hops", "N 1\n", 0, 0, 0, 15);
    session_text("no hops and no such node", "N 1\nP 1\n", "R 4 2\n");
    session_refused("no hops and no such node", "N 1\n", 1, 0, 0, 4);
    session_text("no hops above a link that is not there", "N 2\nL 0 1\nL 1 0\nP 0 0\nP 1\nP 0 2\n", "R 15 5\n");

    /* what the paper says without a session of its own */
    session("parallel links", "N 2\nL 0 1\nL 0 1\nP 0 0\nP 0 1\n", "S 0 0 1\nS 1 0 1\nT 1 1 1\n", "00");
    session_text("empty", "", "R 2 1\n");
}
