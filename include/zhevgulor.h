/* zhevgulor.h: the planner of start steps, for programs written in C. The archive, libzhevgulor.a, is for x86-64.
 *
 * Links cannot hold a packet back and every packet's path is given, so all there is to plan is the step in which each packet sets
 * out. Packets stand in a list; each gets the earliest step in which it meets nobody above it in the list on any link.
 *
 *     uint8_t plan[ZHEVGULOR_PLAN_BYTES];
 *     zhevgulor_answer answer = zhevgulor_plan(job, job_bytes, plan, sizeof plan);
 *     if (answer.refusal == 0)
 *         fwrite(plan, 1, answer.value, stdout);
 *     else
 *         fprintf(stderr, "refusal %u at %u\n", (unsigned)answer.refusal, (unsigned)answer.value);
 *
 * Everything is counted from 0, except the lines of a text, which are counted from 1. A packet that starts in step s enters the
 * first link of its path in step s, the second in step s + 1, and so on; its end is s plus the number of its hops.
 *
 * ANSWERS. Every function answers every input. If the member `refusal` of an answer is 0, the input was taken, and the function's
 * comment says what the other members hold. Otherwise `refusal` is a number from this table, and the place stands in `value`, or
 * in `place` where the answer is a lead. Where two texts are handed over, the member `text` says which of them is refused.
 *
 *   no. | what is wrong                                                     | place in a text | place in lists
 *   ----+-------------------------------------------------------------------+-----------------+-----------------------
 *    1  | the text has more than ZHEVGULOR_TEXT_BYTES bytes                 | 0               |
 *    2  | a line is not written as the lines of a job, or of a plan, are    | the line        |
 *    3  | no node at all, or more of something than the macros below allow  | the line        | the packet, if its own
 *       |                                                                   |                 | path is too long; or 0
 *    4  | a node that does not exist                                        | the line        | the link or the packet
 *    5  | a link ends where it begins                                       | the line        | the link
 *    6  | a path names a link that does not exist                           | the line        | the packet
 *    7  | a link of a path begins elsewhere than the packet has come to     | the line        | the packet
 *    8  | a path comes back to a node                                       | the line        | the packet
 *    9  | the lists do not fit together                                     |                 | 0
 *   10  | a list lent for the answer is too short                           | 0               | 0
 *   11  | there are more starts than packets, or fewer                      | 0               | 0
 *   12  | a start is over ZHEVGULOR_LATEST_START                            | the line        | the first such packet
 *   13  | a lead of a packet over itself, of a packet that does not exist,  |                 | 0
 *       | or on a link that is not on both paths                            |                 |
 *   14  | a plan's line does not follow from its starts                     | the line        |
 *   15  | a packet has no hops: it would go nowhere                         | the line        | the packet
 *
 * If several things are wrong, one is told. In a job's text: 1; else the first line with trouble, and on it the lowest number, but
 * of 6, 7 and 8 the one at the earliest hop. In lists: 9; else 3 with place 0; else the first link with trouble, 4 before 5; else
 * the first packet with trouble: 3, then 4, then 15 if it has no hops, and otherwise its hops as in a text. Only then 11, then 12,
 * then 13; and 10 after everything else, but in zhevgulor_read after 1 and before the lines. A plan's text is looked at after its
 * job, and before 10:
 *   1;
 *   else 2, of the lines from the top up to the first that does not begin with S: at the first that is not an S line of a plan, is
 *     not ended by a line feed, or does not name the packet whose turn it is, which is packet 0 on line 1;
 *   else 11, if they are not as many as the packets;
 *   else 2 at the line below them, if that is not a T line, is not ended by a line feed, or is not there;
 *   else 2 at the line below the T line, if anything stands there;
 *   else the first line with trouble, and on it the lower number: 12, or 14 for an end that is not the start and the packet's hops
 *     together, or for a routing time, C or D that is not that of the job with these starts.
 *
 * LENT LISTS. A list is a pointer and the number of its elements. The lists that an answer is written to are lent by the caller.
 * zhevgulor_read has five of them, and its comment says what becomes of them. All other functions have one at most: a refusal
 * leaves it as it was; otherwise the answer is put in its first elements and the rest stays as it was: a plan has no closing zero
 * byte. A lent list may be longer than needed; ZHEVGULOR_PLAN_BYTES bytes, ZHEVGULOR_PACKETS starts and ZHEVGULOR_CLASH numbers are
 * enough for every answer. All other lists are only read, and each has exactly the job's elements: of the starts that
 * zhevgulor_starts or zhevgulor_read_plan wrote, as many are handed on as there are packets, and of the lists that zhevgulor_read
 * wrote, as many elements as it counted.
 *
 * NUMBERS. Nodes, links, packets and starts are 16 bits wide. C cuts a wider number that is handed over to 16 bits before the
 * function sees it, and gcc says so with -Wconversion.
 *
 * POINTERS. Beside the number 0 a pointer may be null, and is not followed in any case. Every other pointer must be aligned for its
 * type and lead to as many elements as are said. A lent list must not overlap any other list of the call. Lists that are read may
 * overlap each other. What stands in them is free: no text and no value in a list does any harm.
 *
 * THREADS. Nothing is kept from one call to the next: the functions have no variables outside the call and use no heap, no file,
 * no clock and no lock. They may be called from any number of threads and from signal handlers, at the same time and on the same
 * inputs, as long as nobody writes to the lists of a call while it runs.
 *
 * STACK. All working space is on the caller's stack. Measured over the calls of the tests, with the frame of the calling function,
 * zhevgulor_check_texts took up to 113,458 bytes, zhevgulor_plan up to 107,176, zhevgulor_check up to 58,066, zhevgulor_starts up to
 * 51,704, zhevgulor_read_plan up to 13,010, zhevgulor_plan_text up to 9,136, and the others less than 900. tests/run measures anew and
 * fails if a call takes more than ZHEVGULOR_STACK_BYTES, which leaves some 17,000 bytes above that.
 *
 * TIME. No call waits for anything, and none takes long. The time of zhevgulor_plan and zhevgulor_starts grows with the bytes or
 * elements that they are handed and with the meetings: how often two packets have one link, at most 8,380,416 times in a job; and a
 * little with packets times hops, for each of which a bit is cleared. The time of the others grows with the bytes and elements alone.
 * The job with the most meetings, 1,024 packets along one path of 16 links, took zhevgulor_plan and zhevgulor_starts 9 milliseconds
 * each where it was measured last (docs/PERFORMANCE.md). There, with the plans that zhevgulor_plan makes, zhevgulor_check_texts took
 * at most 0.22 milliseconds on any job of the benchmark, and each of the other six functions at most 0.1.
 */
#ifndef ZHEVGULOR_H
#define ZHEVGULOR_H

#include <stddef.h>
#include <stdint.h>

#ifdef __cplusplus
extern "C" {
#endif

/* The most of each thing that a job may have. It has at least one node, and each packet has at least one hop; of links and packets
 * a job may have none. */
#define ZHEVGULOR_TEXT_BYTES   65535 /* bytes of its text, and of a plan's */
#define ZHEVGULOR_NODES        1024
#define ZHEVGULOR_LINKS        4096  /* each one-way */
#define ZHEVGULOR_PACKETS      1024
#define ZHEVGULOR_PATH_HOPS    255   /* hops of one path, which has 1 at least */
#define ZHEVGULOR_HOPS         16384 /* hops of all paths together */

#define ZHEVGULOR_LATEST_START 32767 /* the latest start that is taken from outside */

/* What no answer exceeds. */
#define ZHEVGULOR_PLANNED_START 16384 /* a start that is planned */
#define ZHEVGULOR_LEAD          33021 /* a lead, on either side of 0 */

/* What is enough for every call. */
#define ZHEVGULOR_PLAN_BYTES   19473  /* bytes for a plan */
#define ZHEVGULOR_CLASH        4      /* numbers for a clash */
#define ZHEVGULOR_STACK_BYTES  131072 /* bytes of stack */

/* Which of two texts is refused. */
#define ZHEVGULOR_JOB          1
#define ZHEVGULOR_PLAN         2

/* See ANSWERS. */
typedef struct {
    uint32_t refusal;
    uint32_t value;
} zhevgulor_answer;

typedef struct {
    uint32_t refusal;
    uint32_t place; /* 0 unless refused */
    int32_t lead;   /* 0 if refused */
} zhevgulor_lead_answer;

typedef struct {
    uint32_t refusal;
    uint32_t value; /* 0 unless refused */
    uint32_t nodes; /* this and all below: 0 if refused */
    uint32_t links;
    uint32_t packets;
    uint32_t hops;
} zhevgulor_read_answer;

typedef struct {
    uint32_t text; /* ZHEVGULOR_JOB or ZHEVGULOR_PLAN if that text is refused, otherwise 0 */
    uint32_t refusal;
    uint32_t value;
} zhevgulor_texts_answer;

/* From a job's text to its plan's text. On success `value` is the number of bytes written to `room`. It refuses by 1 to 8, by
 * 15, or by 10.
 *
 * The job, with one tab between two fields and one line feed after every line, the last one too:
 *     N  number of nodes                     one line, the first
 *     L  node it leaves  node it enters      one line for each link, in order
 *     P  source  links of the path ...       one line for each packet, in order, below all L lines; one link at least
 * Numbers are decimal, without sign or leading zero, and at most 65535.
 *
 * The plan, written likewise:
 *     S  packet  start  end                  one line for each packet, in order
 *     T  routing time  C  D                  the greatest end, the most packets on one link, the hops of the longest path
 */
zhevgulor_answer zhevgulor_plan(const uint8_t *job, size_t job_bytes, uint8_t *room, size_t room_bytes);

/* Does a plan, whoever wrote it, keep all packets of its job apart? Both come as texts, written as zhevgulor_plan has them. On
 * success `text` is 0, and `value` is 0 or ZHEVGULOR_CLASH, with the clash in `clash`, as zhevgulor_check has them.
 *
 * It refuses by 1 to 8 or 15 with `text` ZHEVGULOR_JOB, as zhevgulor_plan does; else by 1, 2, 11, 12 or 14 with `text`
 * ZHEVGULOR_PLAN; else, exactly if there is a clash and `clash` has fewer than ZHEVGULOR_CLASH elements, by 10 with `text` 0.
 *
 *     uint32_t clash[ZHEVGULOR_CLASH];
 *     zhevgulor_texts_answer told = zhevgulor_check_texts(job, job_bytes, plan, plan_bytes, clash, ZHEVGULOR_CLASH);
 *     if (told.refusal != 0)
 *         printf("%s: refusal %u at %u\n", told.text == ZHEVGULOR_JOB ? "job" : "plan", (unsigned)told.refusal,
 *             (unsigned)told.value);
 *     else if (told.value == 0)
 *         printf("clear\n");
 *     else
 *         printf("packet %u meets packet %u on link %u in step %u\n", (unsigned)clash[0], (unsigned)clash[1],
 *             (unsigned)clash[2], (unsigned)clash[3]);
 */
zhevgulor_texts_answer zhevgulor_check_texts(const uint8_t *job, size_t job_bytes, const uint8_t *plan, size_t plan_bytes,
                                             uint32_t *clash, size_t clash_count);

/* A job as lists. Link i goes from node origins[i] to node ends[i]. Packet k sets out at node sources[k]; the links of its path
 * stand in `hops` from where the path of packet k - 1 stops (from 0 for packet 0) up to, not including, position stops[k].
 * The last stop is therefore the number of hops. Every path has a hop, so stops[0] is at least 1 and every other stop is greater
 * than the one before it: an equal one is 15, a smaller one 9. */
#define ZHEVGULOR_LISTS \
    uint16_t nodes, \
    const uint16_t *origins, size_t origins_count, \
    const uint16_t *ends, size_t ends_count, \
    const uint16_t *sources, size_t sources_count, \
    const uint16_t *stops, size_t stops_count, \
    const uint16_t *hops, size_t hops_count

/* From a job's text to its lists. On success `value` is 0, the answer has the job's counts, and the lists stand in the first
 * elements of those that are lent:
 *     origins, ends      as many as `links`
 *     sources, stops     as many as `packets`
 *     hops               as many as `hops`
 * All elements behind them are 0, to the end of each lent list.
 *
 * It refuses by 1; else by 10 unless each list could take the greatest job, whatever this job needs: ZHEVGULOR_LINKS
 * elements for origins and for ends, ZHEVGULOR_PACKETS for sources and for stops, ZHEVGULOR_HOPS for hops; else by 2 to 8 or 15,
 * as zhevgulor_plan does. Refused by 1 or 10, it leaves the lists as they were. Refused by any other number, it has set every element
 * of every list to 0.
 *
 * What was read is always a job, and can be handed to all functions below:
 *
 *     static uint16_t origins[ZHEVGULOR_LINKS], ends[ZHEVGULOR_LINKS], sources[ZHEVGULOR_PACKETS], stops[ZHEVGULOR_PACKETS],
 *         hops[ZHEVGULOR_HOPS], starts[ZHEVGULOR_PACKETS];
 *     zhevgulor_read_answer j = zhevgulor_read(job, job_bytes, origins, ZHEVGULOR_LINKS, ends, ZHEVGULOR_LINKS,
 *         sources, ZHEVGULOR_PACKETS, stops, ZHEVGULOR_PACKETS, hops, ZHEVGULOR_HOPS);
 *     if (j.refusal == 0)
 *         answer = zhevgulor_starts((uint16_t)j.nodes, origins, j.links, ends, j.links, sources, j.packets, stops, j.packets,
 *             hops, j.hops, starts, ZHEVGULOR_PACKETS);
 */
zhevgulor_read_answer zhevgulor_read(const uint8_t *job, size_t job_bytes,
                                     uint16_t *origins, size_t origins_count, uint16_t *ends, size_t ends_count,
                                     uint16_t *sources, size_t sources_count, uint16_t *stops, size_t stops_count,
                                     uint16_t *hops, size_t hops_count);

/* Are the lists a job? On success `value` is 0. Every function below asks this first and refuses as this one does. */
zhevgulor_answer zhevgulor_tables(ZHEVGULOR_LISTS);

/* The planned starts. On success `value` is the number of packets, and starts[k] is the start of packet k, at most
 * ZHEVGULOR_PLANNED_START. */
zhevgulor_answer zhevgulor_starts(ZHEVGULOR_LISTS, uint16_t *starts, size_t starts_count);

/* Do given starts keep all packets apart? On success `value` is
 *   0 if no two packets enter one link in one step: then nothing is written;
 *   ZHEVGULOR_CLASH if two do: then clash[0] is the first packet in the list that meets one above it, clash[1] the packet that it
 *     meets, clash[2] the link, the first on the path of clash[0] where it meets one above it, and clash[3] the step.
 * With no clash there is nothing to write, so that a list of any length will do. */
zhevgulor_answer zhevgulor_check(ZHEVGULOR_LISTS, const uint16_t *starts, size_t starts_count,
                                 uint32_t *clash, size_t clash_count);

/* By how many steps packet a enters the link later than packet b, under given starts: on success `lead` is negative if a is ahead,
 * 0 exactly if the two enter the link in the same step, and from -ZHEVGULOR_LEAD to ZHEVGULOR_LEAD. */
zhevgulor_lead_answer zhevgulor_lead(ZHEVGULOR_LISTS, const uint16_t *starts, size_t starts_count,
                                     uint16_t a, uint16_t b, uint16_t link);

/* The plan's text, as zhevgulor_plan writes it, for given starts, whether or not packets clash under them. On success `value`
 * is the number of bytes written to `room`. */
zhevgulor_answer zhevgulor_plan_text(ZHEVGULOR_LISTS, const uint16_t *starts, size_t starts_count,
                                     uint8_t *room, size_t room_bytes);

/* The starts that a plan's text says, whoever wrote it and whether or not packets clash under them. On success `value` is the number
 * of packets, and starts[k] is the start of packet k, at most ZHEVGULOR_LATEST_START. After the refusals of the lists it refuses by
 * 1, 2, 11, 12 or 14, with the place in the plan's text, and at last by 10.
 *
 * With lists that are a job and room for all starts, a plan is taken exactly if zhevgulor_plan_text writes it, byte for byte, for
 * some starts, and these are told. With the lists that zhevgulor_read wrote, as above:
 *
 *     answer = zhevgulor_read_plan((uint16_t)j.nodes, origins, j.links, ends, j.links, sources, j.packets, stops, j.packets,
 *         hops, j.hops, plan, plan_bytes, starts, ZHEVGULOR_PACKETS);
 *     if (answer.refusal == 0)
 *         answer = zhevgulor_check((uint16_t)j.nodes, origins, j.links, ends, j.links, sources, j.packets, stops, j.packets,
 *             hops, j.hops, starts, j.packets, clash, ZHEVGULOR_CLASH);
 */
zhevgulor_answer zhevgulor_read_plan(ZHEVGULOR_LISTS, const uint8_t *plan, size_t plan_bytes,
                                     uint16_t *starts, size_t starts_count);

#undef ZHEVGULOR_LISTS

#ifdef __cplusplus
}
#endif

#endif
