/* random.c: jobs, damaged texts and damaged lists, each drawn from a seed of its own. */
#include "cases.h"
#include "sections.h"

#include <stdio.h>

/* The seeds, and how many of each. */
enum {
    FIRST_JOB = 1000000, JOBS = 12000,
    FIRST_LARGE = 2000000, LARGE = 30,
    FIRST_TEXT = 3000000, TEXTS = 57000,
    FIRST_LISTS = 4000000, LISTS = 28000
};

long gaps;

static struct text text;
static struct tables tables;
static struct list starts;
static struct job job;
static int planned[MOST_PACKETS + 1];

void print_seeds(void)
{
    printf("seeds: %d random jobs from %d, %d large ones from %d, %d damaged texts from %d, %d damaged lists from %d\n",
           JOBS, FIRST_JOB, LARGE, FIRST_LARGE, TEXTS, FIRST_TEXT, LISTS, FIRST_LISTS);
}

/* Two packets, mostly with a link on both paths. */
static void random_lead(void)
{
    unsigned packets = (unsigned)job.packets;
    int a = (int)pick(packets + 1), b = (int)pick(packets + 1), link = (int)pick((unsigned)job.links + 1);
    if (a < job.packets && chance(70)) {
        link = job.packet[a].link[pick((unsigned)job.packet[a].hops)];
        for (int tries = 0; tries < 20 && (b == a || b >= job.packets || place_on_path(&job.packet[b], link) < 0); tries++)
            b = (int)pick(packets);
    }
    run_lead(&tables, &starts, a, b, link);
}

/* One job: as text and as lists, in rooms of all kinds, with starts of all kinds. */
static void random_case(int number, int large)
{
    char name[100];
    enum family family = (enum family)(number % FAMILIES);
    enum crowd crowd = (enum crowd)(number / FAMILIES % CROWDS);
    seed((uint64_t)number);
    random_job(&job, family, crowd, large);
    text_of_job(&job, &text);
    tables_of_job(&job, &tables);
    find_starts(&job, planned);
    gaps += starts_in_gaps(&job, planned);
    size_t packets = (size_t)job.packets, enough = 20 * packets + 20; /* no line is longer than 20 bytes */
    sprintf(name, "random job %d (%s, %s)", number, family_name[family], crowd_name[crowd]);

    name_cases("%s", name);
    run_text(&text, enough);
    size_t bytes = planner.answer.value;
    name_cases("%s, room just enough, one byte less, or any", name);
    run_text(&text, bytes);
    run_text(&text, bytes - 1);
    run_text(&text, pick((unsigned)bytes + 40));
    name_cases("%s, read", name);
    run_read(&text, -1, (int)pick(4));
    if (chance(20))
        run_read(&text, (int)pick(JOB_LISTS), -(int)pick(1024) - 1);

    name_cases("%s, as lists", name);
    run_tables(&tables);
    run_starts(&tables, packets + pick(20));
    run_starts(&tables, pick((unsigned)packets + 1));
    run_starts(&tables, packets);
    int late = -1; /* a packet that starts later than it has meetings */
    for (int k = 0; !large && k < job.packets; k++)
        if (lent_starts(&planner)[k] > meetings(&job, k))
            late = k;
    expect(late < 0, "%s: packet %d starts later than it has meetings", name, late);

    for (int i = 0; i < 7; i++) {
        enum starts_kind kind = i == 0 ? PLANNED : i == 1 ? NEARLY_PLANNED : (enum starts_kind)pick(STARTS_KINDS);
        random_starts(&job, planned, kind, &starts);
        name_cases("%s, starts of kind %d", name, kind);
        run_check(&tables, &starts, chance(70) ? 4 : pick(8));
        if (kind == PLANNED)
            expect(planner.answer.refusal == 0 && planner.answer.value == 0, "%s: the planned starts clash", name);
        run_plan_text(&tables, &starts, chance(70) ? enough : pick((unsigned)enough));
        for (int leads = 0; leads < 3; leads++)
            random_lead();
    }
}

void random_jobs(void)
{
    for (int i = 0; i < JOBS; i++)
        random_case(FIRST_JOB + i, 0);
}

void large_random_jobs(void)
{
    for (int i = 0; i < LARGE; i++)
        random_case(FIRST_LARGE + i, 1);
}

/* One to three changes; in every other text all of them to one line. */
static void damaged_text(int number)
{
    seed((uint64_t)number);
    enum family family = (enum family)pick(FAMILIES);
    random_job(&job, family, (enum crowd)pick(CROWDS), 0);
    text_of_job(&job, &text);
    int changes = between(1, 3), line = chance(50) ? (int)pick((unsigned)lines_of_text(&text)) : -1;
    if (line > 0 && chance(60) && job.packets > 0) /* more often a packet */
        line = 1 + job.links + (int)pick((unsigned)job.packets);
    while (changes-- > 0)
        damage_text(&text, &job, line);
    name_cases("damaged text %d", number);
    run_text(&text, chance(85) ? MIDDLE_ROOM : pick(60));
    if (chance(30))
        run_read(&text, chance(50) ? -1 : (int)pick(JOB_LISTS), between(-1, 20));
}

void damaged_texts(void)
{
    for (int i = 0; i < TEXTS; i++)
        damaged_text(FIRST_TEXT + i);
}

/* One to three changes; the starts fit the job as it was, or as it is now. */
static void damaged_list(int number)
{
    seed((uint64_t)number);
    enum family family = (enum family)pick(FAMILIES);
    random_job(&job, family, (enum crowd)pick(CROWDS), 0);
    find_starts(&job, planned);
    tables_of_job(&job, &tables);
    for (int changes = between(1, 3); changes > 0; changes--)
        damage_tables(&tables, &job);
    random_starts(&job, planned, (enum starts_kind)pick(STARTS_KINDS), &starts);
    if (chance(40))
        for (starts.count = 0; starts.count < tables.sources.count;)
            push(&starts, chance(95) ? between(0, 12) : between(32760, 32780));
    struct rooms rooms;
    rooms.starts = chance(70) ? tables.sources.count + pick(5) : pick(8);
    rooms.clash = chance(70) ? 4 : pick(8);
    rooms.plan = chance(70) ? MIDDLE_ROOM : pick(300);
    name_cases("damaged lists %d", number);
    run_lists(&tables, &starts, rooms);
    random_lead();
}

void damaged_lists(void)
{
    for (int i = 0; i < LISTS; i++)
        damaged_list(FIRST_LISTS + i);
}
