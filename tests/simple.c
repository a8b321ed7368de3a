/* simple.c: the rules of document 01 and of the requests that came later, each said in a comment and done in the lines below it.
 *
 * `planted(NAME)` is 1 while the wrong rule NAME of wrong.h is switched on. To read the rules, take it for 0.
 *
 * Where the order of refusals matters it stands in a string, one character for each thing that is asked: a digit for the refusal of
 * that number, B to F for 11 to 15, and a small letter for a group of them. */
#include "simple.h"
#include "wrong.h"

#include <stdio.h>
#include <stdlib.h>
#include <string.h>

enum wrong wrong = NOTHING_WRONG;

static int planted(enum wrong name) { return wrong == name; }

/* What is added to a limit that is off by one. */
#define OFF(limit) (planted(limit##_MORE) - planted(limit##_LESS))

/* A length. A wrong rule keeps only 16 bits of it. */
static size_t length(size_t count, enum wrong cut) { return planted(cut) ? count & 65535 : count; }

static struct answer fine(void) { return (struct answer){ 0 }; }
static struct answer value(size_t number) { return (struct answer){ .value = (uint32_t)number }; }
static struct answer refuse(int number, size_t place) { return (struct answer){ (uint32_t)number, .value = (uint32_t)place }; }

/* ---- Paths ---- */

/* 15: the path of packet k has no hops. The refusal's number, or 0. */
static int no_hops(int hops, size_t k)
{
    if (hops >= 1 + planted(ONE_HOP) - planted(NO_HOPS) || (planted(NO_HOPS_FROM_1000) && k >= 1000))
        return 0;
    return planted(NO_HOPS_IS_3) ? 3 : 15;
}

/* 6: there is no such link. 7: it begins elsewhere than the packet has come to; a link that there is not begins nowhere. 8: it ends
 * at a node where the packet has been. `node` holds the nodes visited so far, the source first. */
static int hop_breaks(char rule, const struct job *job, const int *node, int visited, int link)
{
    int exists = link < job->links;
    switch (rule) {
    case '6': return link >= job->links + OFF(LINK_NUMBER);
    case '7': return !exists || job->link[link].from != node[visited - 1];
    case '8':
        for (int i = planted(VISITED_200) && visited > 200 ? visited - 200 : 0; exists && i < visited; i++)
            if (node[i] == job->link[link].to)
                return 1;
        return 0;
    }
    abort();
}

/* Hop by hop, and at each hop in the order given: the first rule broken, or 0. */
static int walk(const struct job *job, const struct packet *packet, const char *order)
{
    int node[MOST_PATH_HOPS + 2] = { packet->source };
    for (int hop = 0; hop < packet->hops; hop++) {
        for (const char *rule = order; *rule; rule++)
            if (hop_breaks(*rule, job, node, hop + 1, packet->link[hop]))
                return *rule - '0';
        node[hop + 1] = job->link[packet->link[hop]].to;
    }
    return 0;
}

/* Hop by hop 6, 7, 8. */
static int path_refusal(const struct job *job, const struct packet *packet)
{
    if (planted(PATH_RULE_BY_RULE)) {
        int number = walk(job, packet, "6");
        if (!number)
            number = walk(job, packet, "7");
        return number ? number : walk(job, packet, "8");
    }
    return walk(job, packet, planted(PATH_7_BEFORE_6) ? "768" : planted(PATH_8_BEFORE_7) ? "687" : "678");
}

/* ---- Job text ---- */

/* One line, taken apart at its tabs. */
struct line {
    int number;                    /* of the line, from 1 */
    int empty;
    int ended;                     /* by a line feed */
    int below_packet;              /* a P line stands above it */
    int letter;                    /* the first field, or 0 if that is not one byte */
    int all_numbers;               /* all other fields are numbers */
    int values;                    /* how many other fields there are */
    int value[MOST_PATH_HOPS + 2]; /* the first of them; 0 for those that are missing or no number */
};

/* One digit or more, no 0 in front of others, and not above 65,535. All else is -1. */
static int number_of(const uint8_t *byte, size_t bytes)
{
    int number = 0;
    if (bytes == 0 || (bytes > 1 && byte[0] == '0' && !planted(LEADING_ZERO)))
        return -1;
    for (size_t i = 0; i < bytes; i++) {
        if (byte[i] < '0' || byte[i] > '9')
            return -1;
        number = 10 * number + byte[i] - '0';
        if (number > LARGEST_NUMBER + OFF(NUMBER))
            return -1;
    }
    return number;
}

/* Where the field that begins here ends: before the next tab, or with the line. */
static size_t field_end(const uint8_t *byte, size_t from, size_t bytes)
{
    while (from < bytes && byte[from] != '\t' && !(planted(SPACE_FOR_TAB) && byte[from] == ' '))
        from++;
    return from;
}

/* A letter, then numbers, each after one tab. */
static void take_apart(struct line *line, const uint8_t *byte, size_t bytes)
{
    if (planted(CARRIAGE_RETURN) && bytes > 0 && byte[bytes - 1] == '\r')
        bytes--;
    size_t end = field_end(byte, 0, bytes);
    line->empty = bytes == 0;
    line->letter = end == 1 ? byte[0] : 0;
    line->all_numbers = 1;
    line->values = 0;
    memset(line->value, 0, sizeof line->value);
    while (end < bytes) {
        size_t from = end + 1;
        end = field_end(byte, from, bytes);
        int number = number_of(byte + from, end - from);
        if (number < 0)
            line->all_numbers = 0;
        else if (line->values < MOST_PATH_HOPS + 2)
            line->value[line->values] = number;
        line->values++;
    }
}

/* Goes on to the next line; 0 if there is none. Even an empty text has a first line. */
static int next_line(const uint8_t *text, size_t bytes, size_t *at, struct line *line)
{
    if (line->number > 0 && *at == bytes)
        return 0;
    size_t end = *at;
    while (end < bytes && text[end] != '\n')
        end++;
    line->number++;
    line->below_packet |= line->letter == 'P';
    line->ended = end < bytes;
    take_apart(line, text + *at, end - *at);
    *at = line->ended ? end + 1 : bytes;
    return 1;
}

/* 2: N with one number on line 1; then L lines with two numbers; then P lines with one number or more. */
static int bad_form(const struct line *line)
{
    int extra = planted(EXTRA_FIELD);
    if (!line->ended && !(planted(NO_LAST_LINE_FEED) && !line->empty))
        return 1;
    if (!line->all_numbers)
        return 1;
    if (line->number == 1)
        return line->letter != 'N' || line->values < 1 || line->values > 1 + extra;
    switch (line->letter) {
    case 'L': return (line->below_packet && !planted(LINK_BELOW_PACKET)) || line->values < 2 || line->values > 2 + extra;
    case 'P': return line->values < 1 + planted(NO_HOPS_IS_2);
    }
    return 1;
}

static int hops_in_all(const struct job *job)
{
    int sum = 0;
    for (int k = 0; k < job->packets; k++)
        sum += job->packet[k].hops;
    return sum;
}

/* 3: with this line the job has too much of something, or it has no node. */
static int over_size(const struct job *job, const struct line *line)
{
    int hops = line->values - 1;
    switch (line->letter) {
    case 'N': return (line->value[0] < 1 && !planted(NO_NODES)) || line->value[0] > MOST_NODES + OFF(NODES);
    case 'L': return job->links + 1 > MOST_LINKS + OFF(LINKS);
    case 'P': return job->packets + 1 > MOST_PACKETS + OFF(PACKETS)
                  || hops > MOST_PATH_HOPS + OFF(PATH_HOPS)
                  || hops_in_all(job) + hops > MOST_HOPS + OFF(HOPS);
    }
    return 0;
}

/* 4: a link leaves or enters a node that there is not, or a packet has it for its source. */
static int no_such_node(const struct job *job, const struct line *line)
{
    int nodes = job->nodes + OFF(NODE_NUMBER);
    switch (line->letter) {
    case 'L': return line->value[0] >= nodes || line->value[1] >= nodes;
    case 'P': return line->value[0] >= nodes;
    }
    return 0;
}

/* 5: a link ends where it begins. */
static int to_itself(const struct line *line) { return line->letter == 'L' && line->value[0] == line->value[1]; }

/* The source, then the links of the path. */
static struct packet packet_of_line(const struct line *line)
{
    struct packet packet = { .source = line->value[0], .hops = line->values - 1 };
    for (int hop = 0; hop < packet.hops; hop++)
        packet.link[hop] = line->value[hop + 1];
    return packet;
}

/* 15: a packet has no hops. */
static int hops_missing(const struct job *job, const struct line *line)
{
    return line->letter == 'P' ? no_hops(line->values - 1, (size_t)job->packets) : 0;
}

static int hops_refusal(const struct job *job, const struct line *line)
{
    if (line->letter != 'P')
        return 0;
    struct packet packet = packet_of_line(line);
    return path_refusal(job, &packet);
}

/* 2, 3, 4, 5, then F, which is 15, then h, the hops: the number of the first refusal, or 0. 2 to 5 are answered by 1 or 0. For a
 * wrong rule f is 15 of a packet whose source is a node. */
static int line_refusal(const struct job *job, const struct line *line)
{
    const char *order = planted(TEXT_3_BEFORE_2) ? "3245Fh"
                      : planted(TEXT_4_BEFORE_3) ? "2435Fh"
                      : planted(TEXT_5_BEFORE_4) ? "2354Fh"
                      : planted(TEXT_HOPS_BEFORE_4) ? "23h45F"
                      : planted(TEXT_15_BEFORE_3) ? "2f345Fh"
                      : planted(TEXT_15_BEFORE_4) ? "23F45h" : "2345Fh";
    for (; *order; order++) {
        int number = *order == '2' ? 2 * bad_form(line)
                   : *order == '3' ? 3 * over_size(job, line)
                   : *order == '4' ? 4 * no_such_node(job, line)
                   : *order == '5' ? 5 * to_itself(line)
                   : *order == 'f' ? no_such_node(job, line) ? 0 : hops_missing(job, line)
                   : *order == 'F' ? hops_missing(job, line) : hops_refusal(job, line);
        if (number)
            return number;
    }
    return 0;
}

/* What a line without a refusal adds to the job. */
static void add_line(struct job *job, const struct line *line)
{
    switch (line->letter) {
    case 'N': job->nodes = line->value[0]; break;
    case 'L': job->link[job->links++] = (struct link){ line->value[0], line->value[1] }; break;
    case 'P': job->packet[job->packets++] = packet_of_line(line); break;
    }
}

/* Wrong rule TEXT_FORM_FIRST: the first line of bad form, wherever it is. */
static struct answer first_bad_form(const uint8_t *text, size_t bytes)
{
    struct line line = { 0 };
    for (size_t at = 0; next_line(text, bytes, &at, &line);)
        if (bad_form(&line))
            return refuse(2, (size_t)line.number);
    return fine();
}

/* Wrong rule NO_HOPS_FIRST: 15 of a line below, where a packet's line is refused otherwise. */
static struct answer no_hops_early(struct answer found, const uint8_t *text, size_t bytes, size_t at, struct line line,
                                   const struct job *job)
{
    int early = planted(NO_HOPS_FIRST) && line.letter == 'P' && found.refusal != 15;
    while (early && next_line(text, bytes, &at, &line))
        if (line_refusal(job, &line) == 15)
            return refuse(15, (size_t)line.number);
    return found;
}

/* Line after line, down to the first refusal. */
static struct answer read_lines(const uint8_t *text, size_t bytes, struct job *job)
{
    struct line line = { 0 };
    struct answer put_off = fine(); /* by wrong rule NO_HOPS_LAST */
    for (size_t at = 0; next_line(text, bytes, &at, &line);) {
        if (planted(EMPTY_LINE) && line.empty && line.ended)
            continue;
        int number = line_refusal(job, &line), next = number == 15 && planted(NO_HOPS_AT_NEXT);
        struct answer found = refuse(number, (size_t)(line.number - planted(LINES_FROM_0) + next));
        if (number == 15 && planted(NO_HOPS_LAST))
            put_off = put_off.refusal ? put_off : found;
        else if (number)
            return no_hops_early(found, text, bytes, at, line, job);
        add_line(job, &line);
    }
    return put_off;
}

/* 1: the text is too long. */
static int too_long(size_t bytes) { return length(bytes, TEXT_16_BITS) > (size_t)(MOST_BYTES + OFF(BYTES)); }

/* In the order given: 1; A, which is 10, if a lent list is too short; f, bad form anywhere; l, the lines. */
static struct answer read_in_order(const uint8_t *text, size_t bytes, struct job *job, const char *order, int too_short)
{
    job->nodes = job->links = job->packets = 0;
    for (; *order; order++) {
        struct answer found = fine();
        switch (*order) {
        case '1': if (too_long(bytes)) found = refuse(1, 0); break;
        case 'A': if (too_short) found = refuse(10, 0); break;
        case 'f': found = first_bad_form(text, bytes); break;
        case 'l': found = read_lines(text, bytes, job); break;
        }
        if (found.refusal)
            return found;
    }
    return fine();
}

/* 1; then the lines. */
struct answer read_job(const uint8_t *text, size_t bytes, struct job *job)
{
    return read_in_order(text, bytes, job, planted(TEXT_2_BEFORE_1) ? "l1" : planted(TEXT_FORM_FIRST) ? "1fl" : "1l", 0);
}

/* ---- Jobs as lists ---- */

/* 9: there are more or fewer ends than origins, or stops than sources; a stop is below the one before it; or the hops do not end at
 * the last stop, which without packets is 0. */
static struct answer disagree(const struct lists *lists)
{
    size_t last = 0;
    if (length(lists->origins_count, LINKS_16_BITS) != length(lists->ends_count, LINKS_16_BITS)
        || length(lists->sources_count, PACKETS_16_BITS) != length(lists->stops_count, PACKETS_16_BITS))
        return refuse(9, 0);
    for (size_t k = 0; k < lists->stops_count; k++) {
        if (lists->stops[k] < last + (size_t)planted(NO_HOPS_IS_9))
            return refuse(9, 0);
        last = lists->stops[k];
    }
    return last != length(lists->hops_count, HOPS_16_BITS) ? refuse(9, 0) : fine();
}

/* The path of packet k: from the stop before its own, or 0, up to its own stop. */
static size_t path_begin(const struct lists *lists, size_t k) { return k == 0 ? 0 : lists->stops[k - 1]; }
static size_t path_length(const struct lists *lists, size_t k) { return lists->stops[k] - path_begin(lists, k); }

/* 4 of packet k: its source is a node that there is not. */
static int no_source(const struct lists *lists, size_t k) { return lists->sources[k] >= lists->nodes + OFF(NODE_NUMBER); }

/* 15 of packet k. */
static int path_missing(const struct lists *lists, size_t k)
{
    return planted(NO_HOPS_AT_0_UNSEEN) && k == 0 ? 0 : no_hops((int)path_length(lists, k), k);
}

/* Wrong rules LISTS_15_BEFORE_3, NO_HOPS_FIRST and NO_HOPS_LAST: 15 of the first packet, from k on, whose source is a node. */
static struct answer first_missing(const struct lists *lists, size_t k)
{
    for (; k < lists->sources_count; k++)
        if (!no_source(lists, k) && path_missing(lists, k))
            return refuse(15, k);
    return fine();
}

/* 3: too many nodes or none, too many links, packets, or hops together. */
static struct answer sizes(const struct lists *lists)
{
    if ((lists->nodes < 1 && !planted(NO_NODES)) || lists->nodes > MOST_NODES + OFF(NODES)
        || lists->origins_count > (size_t)(MOST_LINKS + OFF(LINKS))
        || lists->sources_count > (size_t)(MOST_PACKETS + OFF(PACKETS))
        || lists->hops_count > (size_t)(MOST_HOPS + OFF(HOPS))) {
        struct answer early = planted(LISTS_15_BEFORE_3) ? first_missing(lists, 0) : fine();
        return early.refusal ? early : refuse(3, 0);
    }
    return fine();
}

/* Link after link, and of each what the order says: 4 for either node, 5. */
static struct answer each_link(const struct lists *lists, const char *order)
{
    int nodes = lists->nodes + OFF(NODE_NUMBER);
    for (size_t i = 0; i < lists->origins_count; i++)
        for (const char *rule = order; *rule; rule++) {
            if (*rule == '4' && (lists->origins[i] >= nodes || lists->ends[i] >= nodes))
                return refuse(4, i);
            if (*rule == '5' && lists->origins[i] == lists->ends[i])
                return refuse(5, i);
        }
    return fine();
}

static struct answer links(const struct lists *lists)
{
    struct answer early = planted(LISTS_LINKS_RULE_BY_RULE) ? each_link(lists, "4") : fine();
    return early.refusal ? early : each_link(lists, planted(LISTS_5_BEFORE_4) ? "54" : "45");
}

static struct packet packet_of_lists(const struct lists *lists, size_t k)
{
    struct packet packet = { .source = lists->sources[k], .hops = (int)path_length(lists, k) };
    for (int hop = 0; hop < packet.hops; hop++)
        packet.link[hop] = lists->hops[path_begin(lists, k) + (size_t)hop];
    return packet;
}

/* What the lists say, as a job: the packets are taken up one by one as they are found in order. */
static struct job the_job;

/* Packet after packet, and of each what the order says: 3 for a path that is too long, 4 for the source, F for 15, h for the
 * hops. */
static struct answer each_packet(const struct lists *lists, const char *order)
{
    the_job.nodes = lists->nodes;
    the_job.links = (int)lists->origins_count;
    for (int i = 0; i < the_job.links; i++)
        the_job.link[i] = (struct link){ lists->origins[i], lists->ends[i] };
    the_job.packets = 0;
    for (size_t k = 0; k < lists->sources_count; k++) {
        int too_long = path_length(lists, k) > (size_t)(MOST_PATH_HOPS + OFF(PATH_HOPS));
        struct packet packet = { 0 };
        if (!too_long)
            packet = packet_of_lists(lists, k);
        for (const char *rule = order; *rule; rule++) {
            int number = *rule == '3' ? 3 * too_long
                       : *rule == '4' ? 4 * no_source(lists, k)
                       : *rule == 'F' ? path_missing(lists, k) : path_refusal(&the_job, &packet);
            if (number)
                return refuse(number, k + (size_t)(number == 15 && planted(NO_HOPS_AT_NEXT)));
        }
        the_job.packet[the_job.packets++] = packet;
    }
    return fine();
}

static struct answer packets(const struct lists *lists)
{
    struct answer early = planted(LISTS_PACKETS_RULE_BY_RULE) ? each_packet(lists, "34") : fine();
    if (early.refusal)
        return early;
    struct answer found = each_packet(lists, planted(LISTS_4_BEFORE_3) ? "43Fh"
                                           : planted(LISTS_HOPS_BEFORE_4) ? "3h4F"
                                           : planted(LISTS_15_BEFORE_4) ? "3F4h"
                                           : planted(NO_HOPS_LAST) ? "34h" : "34Fh");
    int otherwise = found.refusal && found.refusal != 15;
    struct answer missing = planted(NO_HOPS_FIRST) && otherwise ? first_missing(lists, found.value + 1)
                          : planted(NO_HOPS_LAST) && !otherwise ? first_missing(lists, 0) : fine();
    return missing.refusal ? missing : found;
}

/* 9; then 3; then l, the links; then p, the packets. Without a refusal the_job is the job. */
struct answer simple_tables(const struct lists *lists)
{
    const char *order = planted(LISTS_3_BEFORE_9) ? "39lp"
                      : planted(LISTS_LINKS_BEFORE_3) ? "9l3p"
                      : planted(LISTS_PACKETS_BEFORE_LINKS) ? "93pl" : "93lp";
    for (; *order; order++) {
        struct answer found = *order == '9' ? disagree(lists)
                            : *order == '3' ? sizes(lists)
                            : *order == 'l' ? links(lists) : packets(lists);
        if (found.refusal)
            return found;
    }
    return fine();
}

/* ---- Timetables ---- */

/* For each link, who enters it in which step. No path has a link twice, so there are at most as many entries as packets. */
static struct timetable {
    int entries;
    struct { int packet, step; } entry[MOST_PACKETS + 1];
} timetable[MOST_LINKS + 1];

static void clear_timetables(const struct job *job)
{
    for (int link = 0; link < job->links; link++)
        timetable[link].entries = 0;
}

/* The step in which a packet with this start is at this hop of its path. */
static int entry_step(int start, int hop) { return planted(STARTS_COMPARED) ? start : start + hop; }

static void note(int link, int packet, int step)
{
    struct timetable *table = &timetable[link];
    table->entry[table->entries].packet = packet;
    table->entry[table->entries].step = step;
    table->entries++;
}

/* Wrong rules DIRECTIONS_BLOCK and PARALLELS_BLOCK: whether the second link is taken together with the first. */
static int goes_along(struct link x, struct link y)
{
    return planted(DIRECTIONS_BLOCK) ? x.from == y.to && x.to == y.from
         : planted(PARALLELS_BLOCK) && x.from == y.from && x.to == y.to;
}

/* Notes packet k in the timetable of every link of its path. */
static void enter(const struct job *job, int k, int start)
{
    const struct packet *packet = &job->packet[k];
    for (int hop = 0; hop < packet->hops; hop++) {
        note(packet->link[hop], k, entry_step(start, hop));
        if (planted(DIRECTIONS_BLOCK) || planted(PARALLELS_BLOCK))
            for (int other = 0; other < job->links; other++)
                if (other != packet->link[hop] && goes_along(job->link[packet->link[hop]], job->link[other]))
                    note(other, k, entry_step(start, hop));
    }
}

/* Wrong rule FIRST_SHARED_LINK: whether the other packet also uses a link further up the path. */
static int met_further_up(const struct packet *packet, int hop, int other)
{
    for (int p = 0; p < hop; p++)
        for (int i = 0; i < timetable[packet->link[p]].entries; i++)
            if (timetable[packet->link[p]].entry[i].packet == other)
                return 1;
    return 0;
}

/* The first packet listed before that enters the link of this hop in the same step, or -1. */
static int packet_met(const struct packet *packet, int hop, int start)
{
    const struct timetable *table = &timetable[packet->link[hop]];
    int step = entry_step(start, hop);
    if (planted(HOPS_FROM_200_FREE) && hop >= 200)
        return -1;
    for (int i = 0; i < table->entries; i++)
        if (table->entry[i].step == step || (planted(AFTER_LAST_USE) && table->entry[i].step > step))
            if (!(planted(FIRST_SHARED_LINK) && met_further_up(packet, hop, table->entry[i].packet)))
                return table->entry[i].packet;
    return -1;
}

/* ---- Starts ---- */

/* Whether the packet meets anybody at any of its hops. */
static int conflicts(const struct packet *packet, int start)
{
    for (int hop = 0; hop < packet->hops; hop++)
        if (packet_met(packet, hop, start) >= 0)
            return 1;
    return 0;
}

/* Down the list, each packet tries 0, 1, 2 and so on until it conflicts with nobody above it. */
void find_starts(const struct job *job, int *start)
{
    clear_timetables(job);
    for (int k = 0; k < job->packets; k++) {
        start[k] = 0;
        while (!(planted(PACKETS_FROM_1000_AT_0) && k >= 1000) && conflicts(&job->packet[k], start[k]))
            start[k]++;
        enter(job, k, start[k]);
    }
}

/* ---- Counts ---- */

static int end_of(const struct job *job, const int *start, int k) { return start[k] + job->packet[k].hops; }

/* When the last packet to arrive has arrived: 0 without packets. */
static int routing_time(const struct job *job, const int *start)
{
    int most = 0;
    for (int k = 0; k < job->packets; k++) {
        int end = planted(GREATEST_START) ? start[k] : end_of(job, start, k);
        if (end > most || planted(LAST_END))
            most = end;
    }
    return most;
}

/* C: how many packets use the busiest link. */
static int most_on_one_link(const struct job *job)
{
    int on_link[MOST_LINKS + 1] = { 0 }, most = 0;
    for (int k = 0; k < job->packets; k++)
        for (int hop = 0; hop < job->packet[k].hops; hop++)
            on_link[job->packet[k].link[hop]]++;
    for (int link = 0; link < job->links; link++)
        if (on_link[link] > most)
            most = on_link[link];
    return most;
}

/* D: how many hops the longest path has: 0 without packets. */
static int longest_path(const struct job *job)
{
    int most = 0;
    for (int k = 0; k < job->packets; k++)
        if (job->packet[k].hops > most)
            most = job->packet[k].hops;
    return most;
}

int place_on_path(const struct packet *packet, int link)
{
    for (int hop = 0; hop < packet->hops; hop++)
        if (packet->link[hop] == link)
            return hop;
    return -1;
}

/* How often a link of packet k's path is also on the path of a packet above it. */
int meetings(const struct job *job, int k)
{
    int pairs = 0;
    for (int j = 0; j < k; j++)
        for (int hop = 0; hop < job->packet[k].hops; hop++)
            pairs += place_on_path(&job->packet[j], job->packet[k].link[hop]) >= 0;
    return pairs;
}

/* A packet starts in a gap if on a link of its path one packet listed before it comes earlier than it, and another later. */
static int in_gap(const struct packet *packet, int start)
{
    for (int hop = 0; hop < packet->hops; hop++) {
        const struct timetable *table = &timetable[packet->link[hop]];
        int earlier = 0, later = 0;
        for (int i = 0; i < table->entries; i++) {
            earlier |= table->entry[i].step < start + hop;
            later |= table->entry[i].step > start + hop;
        }
        if (earlier && later)
            return 1;
    }
    return 0;
}

int starts_in_gaps(const struct job *job, const int *start)
{
    int gaps = 0;
    clear_timetables(job);
    for (int k = 0; k < job->packets; k++) {
        gaps += in_gap(&job->packet[k], start[k]);
        enter(job, k, start[k]);
    }
    return gaps;
}

/* ---- Lent lists ---- */

/* An answer that does not fit its list is 10, and the list stays as it was. One that fits takes the first places, all others stay
 * as they were, and its length is the value. */
static struct answer deliver(const void *found, size_t count, size_t size, void *room, size_t room_count)
{
    if (count + (size_t)planted(EXACT_ROOM_REFUSED) > length(room_count, LENT_16_BITS)) {
        if (planted(REFUSAL_WRITES) && room_count > 0)
            memcpy(room, found, (room_count < count ? room_count : count) * size);
        return refuse(10, 0);
    }
    if (count > 0)
        memcpy(room, found, count * size);
    if (planted(WRITES_PAST) && room_count > count)
        memset((uint8_t *)room + count * size, 0, size);
    return value(count);
}

/* Wrong rules ROOM_FIRST and ROOM_BEFORE_12: a list that is too short for any answer is refused before what else is wrong. */
static struct answer room_early(struct answer refusal, int too_short)
{
    int before = planted(ROOM_FIRST) ? refusal.refusal > 0 : planted(ROOM_BEFORE_12) && refusal.refusal == 12;
    return before && too_short ? refuse(10, 0) : refusal;
}

/* A line for each packet: S, packet, start, end. Then T, routing time, C, D. */
struct answer write_plan(const struct job *job, const int *start, uint8_t *room, size_t room_bytes)
{
    static char plan[20 * (MOST_PACKETS + 2)];
    int bytes = 0, c = most_on_one_link(job), d = longest_path(job);
    for (int k = 0; k < job->packets; k++)
        bytes += sprintf(plan + bytes, "S\t%d\t%d\t%d\n", k, start[k], end_of(job, start, k));
    bytes += sprintf(plan + bytes, "T\t%d\t%d\t%d\n", routing_time(job, start),
                     planted(C_AND_D_SWAPPED) ? d : c, planted(C_AND_D_SWAPPED) ? c : d);
    return deliver(plan, (size_t)bytes, 1, room, room_bytes);
}

/* ---- What is asked after the lists ---- */

struct question {
    const struct lists *lists;
    const uint16_t *starts;
    size_t starts_count;
    int a, b, link; /* of a lead */
};

/* 12: a start is too late; the lowest such packet is the place. */
static struct answer late(const struct question *q)
{
    struct answer found = fine();
    for (size_t k = 0; k < q->starts_count && !(planted(LATE_FROM_1000_UNSEEN) && k >= 1000); k++)
        if (q->starts[k] > LATEST_START + OFF(START) && (!found.refusal || planted(LATE_AT_HIGHEST)))
            found = refuse(12, k);
    return found;
}

/* 13: the two are one packet, one of them does not exist, or one of them does not use the link. */
static int no_lead(const struct question *q)
{
    return q->a == q->b || q->a >= the_job.packets || q->b >= the_job.packets
        || place_on_path(&the_job.packet[q->a], q->link) < 0
        || place_on_path(&the_job.packet[q->b], q->link) < 0;
}

/* The first refusal, in the order given. B, C and D are 11, 12 and 13, t is for the tables, and s for the part of 13 that can be
 * asked without tables. */
static struct answer ask(const struct question *q, const char *order)
{
    for (; *order; order++) {
        struct answer found = fine();
        switch (*order) {
        case 't': found = simple_tables(q->lists); break;
        case 'B': if (length(q->starts_count, STARTS_16_BITS) != q->lists->sources_count) found = refuse(11, 0); break;
        case 'C': found = late(q); break;
        case 'D': if (no_lead(q)) found = refuse(13, 0); break;
        case 's': if (q->a == q->b) found = refuse(13, 0); break;
        }
        if (found.refusal)
            return found;
    }
    return fine();
}

/* Check and writer: the tables, 11, 12; their 10 comes with the answer. */
static struct answer ask_given(const struct question *q)
{
    return ask(q, planted(STARTS_11_BEFORE_LISTS) ? "BtC" : planted(STARTS_12_BEFORE_11) ? "tCB" : "tBC");
}

static int the_start[MOST_PACKETS + 1];

static void take_starts(const uint16_t *starts)
{
    for (int k = 0; k < the_job.packets; k++)
        the_start[k] = starts[k];
}

/* ---- The reader's lists ---- */

/* Origins, ends, sources, stops, hops. */
enum { ORIGINS, ENDS, SOURCES, STOPS, HOPS };
const size_t list_size[JOB_LISTS] = { MOST_LINKS, MOST_LINKS, MOST_PACKETS, MOST_PACKETS, MOST_HOPS };

/* 10: a list has fewer places than the largest job fills. */
static int lists_too_short(const size_t *count)
{
    static const enum wrong unseen[JOB_LISTS] = { READ_ORIGINS_UNSEEN, READ_ENDS_UNSEEN, READ_SOURCES_UNSEEN, READ_STOPS_UNSEEN,
                                                  READ_HOPS_UNSEEN };
    for (int i = 0; i < JOB_LISTS; i++)
        if (length(count[i], LENT_16_BITS) < list_size[i] + (size_t)planted(READ_SIZE_REFUSED) && !planted(unseen[i]))
            return 1;
    return 0;
}

/* Only wrong rules come to a place past the end. */
static void put(uint16_t *const *list, const size_t *count, int i, int place, int number)
{
    if ((size_t)place < count[i])
        list[i][place] = (uint16_t)number;
}

static void put_job(const struct job *job, uint16_t *const *list, const size_t *count)
{
    int hops = 0, turned = planted(READ_LINKS_TURNED);
    for (int i = 0; i < job->links; i++) {
        put(list, count, turned ? ENDS : ORIGINS, i, job->link[i].from);
        put(list, count, turned ? ORIGINS : ENDS, i, job->link[i].to);
    }
    for (int k = 0; k < job->packets; k++) {
        const struct packet *packet = &job->packet[k];
        put(list, count, SOURCES, k, packet->source);
        put(list, count, STOPS, k, planted(READ_STOPS_AT_BEGIN) ? hops : hops + packet->hops);
        for (int hop = 0; hop < packet->hops; hop++)
            put(list, count, HOPS, hops++, packet->link[hop]);
    }
}

/* Every place of every list, also past its size. */
static void clear_lists(uint16_t *const *list, const size_t *count)
{
    for (int i = 0; i < JOB_LISTS; i++) {
        size_t most = planted(READ_SIZES_CLEARED) ? list_size[i]
                    : planted(READ_1000_PAST_CLEARED) ? list_size[i] + 1000 : count[i];
        size_t places = count[i] < most ? count[i] : most;
        if (places > 0)
            memset(list[i], 0, places * sizeof list[i][0]);
    }
}

static struct answer counts_of(const struct job *job, struct answer answer)
{
    answer.nodes = (uint32_t)job->nodes;
    answer.links = (uint32_t)job->links;
    answer.packets = (uint32_t)job->packets;
    answer.hops = (uint32_t)hops_in_all(job);
    return answer;
}

/* ---- Plan text ---- */

/* What a plan's text says. The first lines that begin with S are its S lines, whatever else stands on them. */
static struct plan {
    const uint8_t *text;
    size_t bytes;
    int s_lines;
    size_t below;                                       /* where the line below them begins */
    int start[MOST_PACKETS + 1], end[MOST_PACKETS + 1]; /* of those that are in order */
    int time, c, d;                                     /* of the T line */
} the_plan;

/* 1: the text is too long. */
static int plan_too_long(size_t bytes) { return length(bytes, PLAN_16_BITS) > (size_t)(MOST_BYTES + OFF(PLAN_BYTES)); }

/* Whether there is a line here that begins with S. */
static int begins_with_s(const struct plan *plan, size_t at, int lines)
{
    if (at == plan->bytes || plan->text[at] != 'S')
        return 0;
    int tab = at + 1 < plan->bytes && plan->text[at + 1] == '\t', ended = memchr(plan->text + at, '\n', plan->bytes - at) != NULL;
    return !(planted(PLAN_S_ENOUGH) && lines == the_job.packets) && !(planted(PLAN_S_FIELD) && !tab)
        && !(planted(PLAN_S_CUT) && !ended);
}

static void find_s_lines(struct plan *plan)
{
    struct line line = { 0 };
    plan->below = 0;
    for (plan->s_lines = 0; begins_with_s(plan, plan->below, plan->s_lines); plan->s_lines++)
        next_line(plan->text, plan->bytes, &plan->below, &line);
}

/* 2: the letter, then three numbers, and a line feed. */
static int bad_plan_line(const struct line *line, int letter)
{
    int cut = !line->ended && !(planted(NO_LAST_LINE_FEED) && !line->empty);
    return cut || line->letter != letter || !line->all_numbers || line->values < 3
        || line->values > 3 + planted(PLAN_EXTRA_FIELD);
}

/* The S lines: 2 for one in bad form, and for one that is not of packet 0, 1, 2 and so on. */
static struct answer s_lines(struct plan *plan)
{
    struct line line = { 0 };
    size_t at = 0;
    for (int k = 0; k < plan->s_lines; k++) {
        int packet = k + planted(PLAN_S_FROM_1), past = planted(PLAN_S_PAST_UNSEEN) && k > the_job.packets;
        next_line(plan->text, plan->bytes, &at, &line);
        if (!past && (bad_plan_line(&line, 'S') || (line.value[0] != packet && !planted(PLAN_S_ANY_NUMBER))))
            return refuse(2, (size_t)(line.number - planted(PLAN_LINES_FROM_0)));
        if (k <= MOST_PACKETS) {
            plan->start[k] = line.value[1];
            plan->end[k] = line.value[2];
        }
    }
    return fine();
}

/* 11: they are not as many as the packets. */
static struct answer as_many(const struct plan *plan)
{
    int packets = the_job.packets, lines = plan->s_lines;
    if (lines == packets || (lines > packets && planted(PLAN_MORE_TAKEN)) || (lines < packets && planted(PLAN_FEWER_TAKEN)))
        return fine();
    return refuse(11, planted(PLAN_11_COUNTED) ? (size_t)lines : planted(PLAN_11_AT_LINE) ? (size_t)lines + 1 : 0);
}

/* The T line, which is the line below the S lines: 2 if it is in bad form or missing. Then 2, at the line below it, for anything
 * that stands there. */
static struct answer t_line(struct plan *plan)
{
    struct line line = { .number = plan->s_lines };
    size_t at = plan->below, place = (size_t)(plan->s_lines + 1 - planted(PLAN_LINES_FROM_0));
    if (at == plan->bytes && planted(PLAN_NO_T_TAKEN))
        return fine();
    if (at == plan->bytes)
        return refuse(2, place - (planted(PLAN_NO_T_AT_LAST) && plan->s_lines > 0));
    next_line(plan->text, plan->bytes, &at, &line);
    if (bad_plan_line(&line, 'T'))
        return refuse(2, place);
    plan->time = line.value[0];
    plan->c = line.value[1];
    plan->d = line.value[2];
    if (at == plan->bytes || planted(PLAN_AFTER_T_TAKEN) || (planted(PLAN_EMPTY_AFTER_T) && plan->text[at] == '\n'))
        return fine();
    return refuse(2, place + !planted(PLAN_AFTER_T_AT_T));
}

/* What the S line of packet k says: 12 for a start that is too late, 14 for an end that is not start and hops together. */
static int breaks_value(const struct plan *plan, int k, char rule)
{
    int end = plan->start[k] + (planted(PLAN_END_IS_START) ? 0 : the_job.packet[k].hops);
    switch (rule) {
    case 'C': return plan->start[k] > LATEST_START + OFF(START) && !(planted(PLAN_LATE_FROM_1000_UNSEEN) && k >= 1000);
    case 'E': return plan->end[k] != end && !planted(PLAN_END_UNSEEN) && !(planted(PLAN_END_FROM_1000_UNSEEN) && k >= 1000);
    }
    abort();
}

/* Line after line, and on each what the order says. */
static struct answer s_values(const struct plan *plan, const char *order)
{
    struct answer found = fine();
    int lines = plan->s_lines < the_job.packets ? plan->s_lines : the_job.packets;
    for (int k = 0; k < lines; k++)
        for (const char *rule = order; *rule; rule++)
            if ((!found.refusal || planted(PLAN_LAST_BAD_LINE)) && breaks_value(plan, k, *rule)) {
                found = refuse(*rule - 'A' + 10, (size_t)(k + 1 - planted(PLAN_VALUES_AT_PACKET)));
                break;
            }
    return found;
}

/* 14 on the T line: for the routing time, C or D. */
static struct answer t_values(const struct plan *plan)
{
    int c = most_on_one_link(&the_job), d = longest_path(&the_job), swapped = planted(C_AND_D_SWAPPED);
    int wrong_time = plan->time != routing_time(&the_job, plan->start) && !planted(PLAN_TIME_UNSEEN);
    int wrong_c = plan->c != (swapped || planted(PLAN_D_FOR_C) ? d : c) && !planted(PLAN_C_UNSEEN);
    int wrong_d = plan->d != (swapped || planted(PLAN_C_FOR_D) ? c : d) && !planted(PLAN_D_UNSEEN);
    if ((wrong_time || wrong_c || wrong_d) && !planted(PLAN_T_UNSEEN))
        return refuse(14, (size_t)(plan->s_lines + !planted(PLAN_VALUES_AT_PACKET)));
    return fine();
}

/* What refuses a plan, in the order given: j, its job; 1; s, the S lines; B, which is 11; t, the T line; v, what the S lines say;
 * w, what the T line says. L is 12 of all lines. The job's refusal was found before, and without one the_job is the job. */
static struct answer plan_in_order(struct answer jobs, const char *order)
{
    struct plan *plan = &the_plan;
    for (; *order; order++) {
        struct answer found = fine();
        switch (*order) {
        case 'j': found = jobs; break;
        case '1': if (plan_too_long(plan->bytes)) found = refuse(1, 0); break;
        case 's': found = s_lines(plan); break;
        case 'B': found = as_many(plan); break;
        case 't': found = t_line(plan); break;
        case 'L': found = s_values(plan, "C"); break;
        case 'v': found = s_values(plan, planted(PLAN_14_BEFORE_12) ? "EC" : "CE"); break;
        case 'w': found = t_values(plan); break;
        }
        found.text = *order == 'j' ? JOBS_TEXT : PLANS_TEXT;
        if (found.refusal)
            return found;
    }
    return fine();
}

/* The job's own refusals; 1; the S lines; 11; the T line; and then, line by line, what they say. */
static struct answer read_plan(struct answer jobs, const uint8_t *text, size_t bytes)
{
    the_plan = (struct plan){ .text = text, .bytes = bytes };
    if (jobs.refusal)
        the_job.packets = 0; /* it may be half read, or another one */
    find_s_lines(&the_plan);
    return plan_in_order(jobs, planted(PLAN_1_BEFORE_JOB) ? "1jsBtvw"
                             : planted(PLAN_2_BEFORE_JOB) ? "1sjBtvw"
                             : planted(PLAN_2_BEFORE_1) ? "js1Btvw"
                             : planted(PLAN_1_LAST) ? "jsBtvw1"
                             : planted(PLAN_11_BEFORE_2) ? "j1Bstvw"
                             : planted(PLAN_T_BEFORE_11) ? "j1stBvw"
                             : planted(PLAN_VALUES_BEFORE_11) ? "j1svBtw"
                             : planted(PLAN_VALUES_BEFORE_T) ? "j1sBvtw"
                             : planted(PLAN_12_OF_ALL_FIRST) ? "j1sBtLvw"
                             : planted(PLAN_T_VALUES_FIRST) ? "j1sBtwv" : "j1sBtvw");
}

/* ---- The nine functions ---- */

enum { LEAST_PLAN = sizeof "T\t0\t0\t0\n" - 1 };

/* The reader: 1; 10; then the lines. After 1 and 10 the lists are as they were. Any other refusal leaves nothing but zeros in them,
 * and a job that is read has nothing but zeros behind it. */
struct answer simple_read(const uint8_t *text, size_t bytes, uint16_t *const *list, const size_t *count)
{
    const char *order = planted(TEXT_2_BEFORE_1) ? "lA1"
                      : planted(TEXT_FORM_FIRST) ? "1Afl"
                      : planted(READ_10_BEFORE_1) ? "A1l"
                      : planted(READ_10_LAST) ? "1lA" : "1Al";
    struct answer answer = read_in_order(text, bytes, &the_job, order, lists_too_short(count));
    int unchanged = answer.refusal == 1 ? !planted(READ_1_CLEARS)
                  : answer.refusal == 10 ? !planted(READ_10_CLEARS)
                  : answer.refusal ? planted(READ_REFUSED_UNCHANGED) : planted(READ_PAST_UNCHANGED);
    if (!unchanged)
        clear_lists(list, count);
    if (!answer.refusal || (planted(READ_HALF_FILLED) && !unchanged))
        put_job(&the_job, list, count);
    return !answer.refusal || planted(READ_REFUSED_COUNTED) ? counts_of(&the_job, answer) : answer;
}

/* From text to text: the text's refusals, then 10. */
struct answer simple_plan(const uint8_t *text, size_t bytes, uint8_t *room, size_t room_bytes)
{
    struct answer refusal = read_job(text, bytes, &the_job);
    if (refusal.refusal)
        return room_early(refusal, room_bytes < LEAST_PLAN);
    find_starts(&the_job, the_start);
    return write_plan(&the_job, the_start, room, room_bytes);
}

/* The planner: the tables, then 10. */
struct answer simple_starts(const struct lists *lists, uint16_t *starts, size_t starts_count)
{
    uint16_t found[MOST_PACKETS + 1];
    struct answer refusal = simple_tables(lists);
    if (refusal.refusal)
        return room_early(refusal, starts_count < lists->sources_count);
    find_starts(&the_job, the_start);
    for (int k = 0; k < the_job.packets; k++)
        found[k] = (uint16_t)the_start[k];
    return deliver(found, (size_t)the_job.packets, sizeof found[0], starts, starts_count);
}

/* Down the list, and along each path, up to the first hop at which a packet meets one above it. Shown are the packet, the one that
 * it meets, the link and the step. 1 and the clash, or 0 if all is clear. */
static int find_clash(const struct job *job, const int *start, uint32_t *clash)
{
    int clashes = 0;
    clear_timetables(job);
    for (int k = 0; k < job->packets; k++) {
        const struct packet *packet = &job->packet[k];
        for (int hop = 0; hop < packet->hops; hop++) {
            int other = packet_met(packet, hop, start[k]);
            if (other < 0)
                continue;
            clashes = 1;
            clash[0] = (uint32_t)(planted(CLASH_PAIR_TURNED) ? other : k);
            clash[1] = (uint32_t)(planted(CLASH_PAIR_TURNED) ? k : other);
            clash[2] = (uint32_t)(planted(CLASH_HOP_FOR_LINK) ? hop : packet->link[hop]);
            clash[3] = (uint32_t)(planted(CLASH_START_FOR_STEP) ? start[k] : entry_step(start[k], hop));
            if (!planted(CLASH_LAST_HOP))
                break;
        }
        if (clashes && !planted(CLASH_HIGHEST_PACKET))
            break;
        enter(job, k, start[k]);
    }
    return clashes;
}

/* The check: the tables, 11, 12; then nothing, or a clash as four numbers; 10 last. */
struct answer simple_check(const struct lists *lists, const uint16_t *starts, size_t starts_count,
                           uint32_t *clash, size_t clash_count)
{
    uint32_t found[CLASH_NUMBERS];
    struct question q = { .lists = lists, .starts = starts, .starts_count = starts_count };
    struct answer refusal = ask_given(&q);
    if (refusal.refusal)
        return room_early(refusal, clash_count < CLASH_NUMBERS);
    take_starts(starts);
    return deliver(found, find_clash(&the_job, the_start, found) ? CLASH_NUMBERS : 0, sizeof found[0], clash, clash_count);
}

/* The lead: the tables, 11, 12, 13; then by how many steps a comes later to the link than b. */
struct answer simple_lead(const struct lists *lists, const uint16_t *starts, size_t starts_count, int a, int b, int link)
{
    struct question q = { .lists = lists, .starts = starts, .starts_count = starts_count, .a = a, .b = b, .link = link };
    struct answer refusal = ask(&q, planted(STARTS_11_BEFORE_LISTS) ? "BtCD"
                                  : planted(STARTS_12_BEFORE_11) ? "tCBD"
                                  : planted(LEAD_13_BEFORE_12) ? "tBDC"
                                  : planted(LEAD_13_BEFORE_LISTS) ? "stBCD" : "tBCD");
    if (refusal.refusal)
        return refusal;
    int lead = entry_step(starts[a], place_on_path(&the_job.packet[a], link))
             - entry_step(starts[b], place_on_path(&the_job.packet[b], link));
    return (struct answer){ .lead = planted(LEAD_TURNED) ? -lead : lead };
}

/* The writer: the tables, 11, 12; then the plan with the starts given, whatever they are; 10 last. */
struct answer simple_plan_text(const struct lists *lists, const uint16_t *starts, size_t starts_count,
                               uint8_t *room, size_t room_bytes)
{
    struct question q = { .lists = lists, .starts = starts, .starts_count = starts_count };
    struct answer refusal = ask_given(&q);
    if (refusal.refusal)
        return room_early(refusal, room_bytes < LEAST_PLAN);
    take_starts(starts);
    return write_plan(&the_job, the_start, room, room_bytes);
}

/* The reader of plans: the tables, then the plan's refusals; then its starts; 10 last. */
struct answer simple_read_plan(const struct lists *lists, const uint8_t *plan, size_t plan_bytes,
                               uint16_t *starts, size_t starts_count)
{
    uint16_t found[MOST_PACKETS + 1];
    struct answer refusal = read_plan(simple_tables(lists), plan, plan_bytes);
    refusal.text = NO_TEXT;
    for (int k = 0; k < the_job.packets; k++)
        found[k] = (uint16_t)(planted(PLAN_ENDS_TOLD) ? the_plan.end[k] : the_plan.start[k]);
    size_t packets = (size_t)the_job.packets, fit = starts_count < packets ? starts_count : packets;
    if (refusal.refusal && planted(PLAN_REFUSAL_WRITES) && fit > 0)
        memcpy(starts, found, fit * sizeof found[0]);
    if (refusal.refusal)
        return room_early(refusal, starts_count < lists->sources_count);
    return deliver(found, packets, sizeof found[0], starts, starts_count);
}

/* Which text a refusal is told of. */
static uint32_t told_of(uint32_t text)
{
    if (planted(TEXTS_UNTOLD))
        return NO_TEXT;
    return text == JOBS_TEXT && planted(TEXTS_JOB_AS_PLAN) ? PLANS_TEXT
         : text == PLANS_TEXT && planted(TEXTS_PLAN_AS_JOB) ? JOBS_TEXT : text;
}

/* The check of two texts: the job's refusals, then the plan's; then nothing, or a clash as four numbers; 10, which is of neither
 * text, last. */
struct answer simple_check_texts(const uint8_t *job, size_t job_bytes, const uint8_t *plan, size_t plan_bytes,
                                 uint32_t *clash, size_t clash_count)
{
    uint32_t found[CLASH_NUMBERS];
    struct answer answer = read_plan(read_job(job, job_bytes, &the_job), plan, plan_bytes);
    if (answer.refusal) {
        answer.text = told_of(answer.text);
        return room_early(answer, clash_count < CLASH_NUMBERS);
    }
    size_t count = find_clash(&the_job, the_plan.start, found) ? CLASH_NUMBERS : 0;
    answer = deliver(found, count, sizeof found[0], clash, clash_count);
    if ((answer.refusal && planted(TEXTS_10_OF_PLAN)) || (answer.value && planted(TEXTS_CLASH_OF_PLAN)))
        answer.text = PLANS_TEXT;
    return answer;
}
