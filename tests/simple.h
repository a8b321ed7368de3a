/* simple.h: the rules of document 01 and of the requests that came later, once more, written to be read and not to be fast.
 *
 * Nothing here looks at the planner under test. Starts are found with a timetable for each link: a packet tries 0, 1, 2 and so on
 * until none of its links has somebody in the step in which it would enter. */
#ifndef SIMPLE_H
#define SIMPLE_H

#include <stddef.h>
#include <stdint.h>

enum {
    MOST_BYTES = 65535,
    MOST_NODES = 1024,
    MOST_LINKS = 4096,
    MOST_PACKETS = 1024,
    MOST_PATH_HOPS = 255,
    MOST_HOPS = 16384,
    LATEST_START = 32767,
    LARGEST_NUMBER = 65535,
    LATEST_PLANNED = 16384, /* of the starts that are found */
    MOST_PLAN_BYTES = 19473,
    GREATEST_LEAD = 33021,
    CLASH_NUMBERS = 4       /* packet, earlier packet, link, step */
};

/* A job. A packet has 1 to MOST_PATH_HOPS hops. There is room for one more of each thing than is allowed, for the wrong rules that
 * let it pass. */
struct link { int from, to; };
struct packet { int source, hops, link[MOST_PATH_HOPS + 1]; };
struct job {
    int nodes;
    int links;
    struct link link[MOST_LINKS + 1];
    int packets;
    struct packet packet[MOST_PACKETS + 1];
};

/* A job as it comes in lists. */
struct lists {
    uint16_t nodes;
    const uint16_t *origins, *ends, *sources, *stops, *hops;
    size_t origins_count, ends_count, sources_count, stops_count, hops_count;
};

/* Refusal 0, and the value, the lead or the counts; or the refusal's number, and its place as the value. Where there are two texts,
 * which of them is refused. */
enum { NO_TEXT, JOBS_TEXT, PLANS_TEXT };
struct answer {
    uint32_t refusal, value;
    int32_t lead;
    uint32_t nodes, links, packets, hops;
    uint32_t text;
};

/* The lists that the reader is lent: how many there are, and the size of each. */
enum { JOB_LISTS = 5 };
extern const size_t list_size[JOB_LISTS];

/* What the nine functions of zhevgulor.h have to answer and to write. */
struct answer simple_plan(const uint8_t *text, size_t bytes, uint8_t *room, size_t room_bytes);
struct answer simple_read(const uint8_t *text, size_t bytes, uint16_t *const *list, const size_t *count);
struct answer simple_tables(const struct lists *lists);
struct answer simple_starts(const struct lists *lists, uint16_t *starts, size_t starts_count);
struct answer simple_check(const struct lists *lists, const uint16_t *starts, size_t starts_count,
                           uint32_t *clash, size_t clash_count);
struct answer simple_lead(const struct lists *lists, const uint16_t *starts, size_t starts_count, int a, int b, int link);
struct answer simple_plan_text(const struct lists *lists, const uint16_t *starts, size_t starts_count,
                               uint8_t *room, size_t room_bytes);
struct answer simple_read_plan(const struct lists *lists, const uint8_t *plan, size_t plan_bytes,
                               uint16_t *starts, size_t starts_count);
struct answer simple_check_texts(const uint8_t *job, size_t job_bytes, const uint8_t *plan, size_t plan_bytes,
                                 uint32_t *clash, size_t clash_count);

/* Pieces of it that the tests use by themselves. */
struct answer read_job(const uint8_t *text, size_t bytes, struct job *job);
void find_starts(const struct job *job, int *start);
struct answer write_plan(const struct job *job, const int *start, uint8_t *room, size_t room_bytes); /* of any starts */
int place_on_path(const struct packet *packet, int link);   /* the hop, or -1 */
int meetings(const struct job *job, int k);
int starts_in_gaps(const struct job *job, const int *start); /* how many packets start in a gap */

#endif
