/* jobs.c: see jobs.h. */
#include "jobs.h"

#include <stdarg.h>
#include <stdio.h>
#include <stdlib.h>
#include <string.h>

/* ---- Numbers ----
 *
 * C does not say in which order the arguments of a call are worked out. So that every machine draws the same jobs, no call below
 * has two arguments that draw a number. */

static uint64_t state;

void seed(uint64_t number) { state = number * 0x9E3779B97F4A7C15u + 0x1234567; }

static uint64_t next(void)
{
    uint64_t z = state += 0x9E3779B97F4A7C15u;
    z = (z ^ (z >> 30)) * 0xBF58476D1CE4E5B9u;
    z = (z ^ (z >> 27)) * 0x94D049BB133111EBu;
    return z ^ (z >> 31);
}

unsigned pick(unsigned below) { return (unsigned)((next() >> 33) % below); }
int between(int least, int most) { return least + (int)pick((unsigned)(most - least + 1)); }
int chance(int percent) { return (int)pick(100) < percent; }

/* ---- By hand ---- */

void add(struct text *text, const char *format, ...)
{
    va_list words;
    va_start(words, format);
    int bytes = vsnprintf((char *)text->byte + text->bytes, TEXT_ROOM + 1 - text->bytes, format, words);
    va_end(words);
    if (bytes < 0 || text->bytes + (size_t)bytes > TEXT_ROOM)
        abort();
    text->bytes += (size_t)bytes;
}

void push(struct list *list, int value)
{
    if (list->count == LIST_ROOM)
        abort();
    list->value[list->count++] = (uint16_t)value;
}

void push_path(struct tables *tables, int source, int first_link, int hops)
{
    push(&tables->sources, source);
    for (int hop = 0; hop < hops; hop++)
        push(&tables->hops, first_link + hop);
    push(&tables->stops, (int)tables->hops.count);
}

/* Where the stops are not in order, nothing is taken. */
void take_hops(struct tables *tables, size_t k)
{
    struct list *hops = &tables->hops, *stops = &tables->stops;
    size_t begin = k > 0 ? stops->value[k - 1] : 0, end = stops->value[k];
    if (begin > end || end > hops->count)
        return;
    memmove(hops->value + begin, hops->value + end, (hops->count - end) * sizeof hops->value[0]);
    hops->count -= end - begin;
    for (; k < stops->count; k++)
        stops->value[k] -= (uint16_t)(end - begin);
}

void clear_text(struct text *text) { text->bytes = 0; }

void clear_tables(struct tables *tables)
{
    tables->nodes = 0;
    tables->origins.count = tables->ends.count = tables->sources.count = tables->stops.count = tables->hops.count = 0;
}

void line_network(struct tables *tables, int nodes)
{
    clear_tables(tables);
    tables->nodes = (uint16_t)nodes;
    for (int node = 0; node + 1 < nodes; node++) {
        push(&tables->origins, node);
        push(&tables->ends, node + 1);
    }
}

/* If all start at once nobody meets anybody: on each link every packet is at another hop. */
void ring_job(struct job *job, int nodes, int hops)
{
    job->nodes = job->links = job->packets = nodes;
    for (int k = 0; k < nodes; k++) {
        job->link[k] = (struct link){ k, (k + 1) % nodes };
        job->packet[k] = (struct packet){ .source = k, .hops = hops };
        for (int hop = 0; hop < hops; hop++)
            job->packet[k].link[hop] = (k + hop) % nodes;
    }
}

void show_text(struct text *text, const char *shown)
{
    clear_text(text);
    add(text, "%s", shown);
    for (size_t i = 0; i < text->bytes; i++)
        if (text->byte[i] == ' ')
            text->byte[i] = '\t';
}

void show_job(struct job *job, const char *shown)
{
    static struct text text;
    show_text(&text, shown);
    if (read_job(text.byte, text.bytes, job).refusal)
        abort();
}

const char session_a[] = "N 4\nL 0 1\nL 1 2\nL 2 3\nP 0 0 1 2\nP 1 1 2\nP 0 0 1\nP 2 2\n";

/* ---- From one form to another ---- */

void text_of_job(const struct job *job, struct text *text)
{
    clear_text(text);
    add(text, "N\t%d\n", job->nodes);
    for (int i = 0; i < job->links; i++)
        add(text, "L\t%d\t%d\n", job->link[i].from, job->link[i].to);
    for (int k = 0; k < job->packets; k++) {
        add(text, "P\t%d", job->packet[k].source);
        for (int hop = 0; hop < job->packet[k].hops; hop++)
            add(text, "\t%d", job->packet[k].link[hop]);
        add(text, "\n");
    }
}

void tables_of_job(const struct job *job, struct tables *tables)
{
    clear_tables(tables);
    tables->nodes = (uint16_t)job->nodes;
    for (int i = 0; i < job->links; i++) {
        push(&tables->origins, job->link[i].from);
        push(&tables->ends, job->link[i].to);
    }
    for (int k = 0; k < job->packets; k++) {
        push(&tables->sources, job->packet[k].source);
        for (int hop = 0; hop < job->packet[k].hops; hop++)
            push(&tables->hops, job->packet[k].link[hop]);
        push(&tables->stops, (int)tables->hops.count);
    }
}

struct lists lists_of(const struct tables *t)
{
    return (struct lists){ t->nodes, t->origins.value, t->ends.value, t->sources.value, t->stops.value, t->hops.value,
                           t->origins.count, t->ends.count, t->sources.count, t->stops.count, t->hops.count };
}

void text_of_plan(const struct job *job, const struct list *starts, struct text *plan)
{
    static int start[MOST_PACKETS + 1];
    if (starts->count != (size_t)job->packets)
        abort();
    for (int k = 0; k < job->packets; k++)
        start[k] = starts->value[k];
    plan->bytes = write_plan(job, start, plan->byte, TEXT_ROOM).value;
}

/* ---- Networks ---- */

const char *const family_name[FAMILIES] = { "line", "ring", "mesh", "tree", "hypercube", "multigraph", "detours" };
const char *const crowd_name[CROWDS] = { "sparse", "pieces of a few paths", "one hot link" };

static void one_way(struct job *job, int from, int to)
{
    if (job->links < MOST_LINKS)
        job->link[job->links++] = (struct link){ from, to };
}

static void wire(struct job *job, int x, int y, int two_way)
{
    one_way(job, x, y);
    if (two_way)
        one_way(job, y, x);
}

static void random_network(struct job *job, enum family family, int large)
{
    int two_way = chance(60), wide, high, bits;
    job->links = job->packets = 0;
    switch (family) {
    case LINE:
        job->nodes = between(2, large ? 256 : 14);
        for (int x = 0; x + 1 < job->nodes; x++)
            wire(job, x, x + 1, two_way);
        break;
    case RING:
        job->nodes = between(2, large ? 200 : 12);
        for (int x = 0; x < job->nodes; x++)
            wire(job, x, (x + 1) % job->nodes, two_way);
        break;
    case MESH:
        wide = between(2, large ? 16 : 5);
        high = between(2, large ? 16 : 5);
        job->nodes = wide * high;
        for (int x = 0; x < job->nodes; x++) {
            if (x % wide + 1 < wide)
                wire(job, x, x + 1, 1);
            if (x + wide < job->nodes)
                wire(job, x, x + wide, 1);
        }
        break;
    case TREE:
        job->nodes = between(2, large ? 300 : 20);
        for (int x = 1; x < job->nodes; x++)
            wire(job, (int)pick((unsigned)x), x, 1);
        break;
    case CUBE:
        bits = between(1, large ? 7 : 4);
        job->nodes = 1 << bits;
        for (int x = 0; x < job->nodes; x++)
            for (int bit = 0; bit < bits; bit++)
                one_way(job, x, x ^ 1 << bit);
        break;
    case DETOURS: /* a line, and ways around its links: two packets may part and meet again */
        bits = between(2, large ? 40 : 6);
        job->nodes = 1;
        for (int i = 0; i < bits; i++) {
            int from = job->nodes - 1, around = between(0, 2);
            if (chance(85))
                one_way(job, from, from + around + 1);
            for (int x = 0; x <= around; x++)
                one_way(job, from + x, from + x + 1);
            job->nodes += around + 1;
        }
        break;
    default:
        job->nodes = between(2, large ? 40 : 7);
        for (int i = between(1, large ? 600 : 24); i > 0; i--) {
            int from = (int)pick((unsigned)job->nodes), to = (int)pick((unsigned)job->nodes);
            if (from != to)
                wire(job, from, to, chance(30));
        }
        break;
    }
    if (chance(30) && job->links > 0) /* some links a second time */
        for (int i = between(1, 6); i > 0; i--) {
            struct link twin = job->link[pick((unsigned)job->links)];
            one_way(job, twin.from, twin.to);
        }
    if (chance(20))
        job->nodes += between(1, 3); /* nodes without links */
    if (chance(50)) /* links in no special order */
        for (int i = job->links - 1; i > 0; i--) {
            int j = (int)pick((unsigned)i + 1);
            struct link kept = job->link[i];
            job->link[i] = job->link[j];
            job->link[j] = kept;
        }
}

/* ---- Paths ---- */

/* A link that leaves the node, the search beginning anywhere; -1 if there is none. Unless `free`, not into a node marked. */
static int way_out(const struct job *job, int node, const char *marked, int free)
{
    int first = job->links > 0 ? (int)pick((unsigned)job->links) : 0;
    for (int i = 0; i < job->links; i++) {
        int link = (first + i) % job->links;
        if (job->link[link].from == node && (free || !marked[job->link[link].to]))
            return link;
    }
    return -1;
}

/* A walk from the source that visits no node twice, up to so many hops. If `free` it may. */
static void walk(const struct job *job, struct packet *packet, int source, int most, int free)
{
    static char marked[MOST_NODES];
    int node = source, link;
    memset(marked, 0, sizeof marked);
    packet->source = source;
    packet->hops = 0;
    marked[node] = 1;
    while (packet->hops < most && (link = way_out(job, node, marked, free)) >= 0) {
        packet->link[packet->hops++] = link;
        node = job->link[link].to;
        marked[node] = 1;
    }
}

/* Hops `from` up to, not including, `to` of a path. */
static void piece(const struct job *job, const struct packet *path, int from, int to, struct packet *packet)
{
    packet->source = from < path->hops ? job->link[path->link[from]].from : path->source;
    packet->hops = to - from;
    for (int hop = from; hop < to; hop++)
        packet->link[hop - from] = path->link[hop];
}

/* A walk of one hop at least. A source without a way out is changed for one that has a link. */
static void some_walk(const struct job *job, struct packet *packet, int longest)
{
    int most = between(1, longest);
    walk(job, packet, (int)pick((unsigned)job->nodes), most, 0);
    if (packet->hops == 0)
        walk(job, packet, job->link[pick((unsigned)job->links)].from, most, 0);
}

/* Every packet has a hop, so without links there are none. */
static void random_packets(struct job *job, enum crowd crowd, int packets, int longest)
{
    static struct packet base[4];
    int bases = crowd == HOT ? 1 : between(1, 4), hot, hops = 0;
    for (int i = 0; i < bases; i++)
        walk(job, &base[i], (int)pick((unsigned)job->nodes), longest, 0);
    hot = base[0].hops > 0 ? (int)pick((unsigned)base[0].hops) : 0;
    for (job->packets = 0; job->packets < packets && job->links > 0; job->packets++) {
        struct packet *packet = &job->packet[job->packets];
        const struct packet *path = &base[pick((unsigned)bases)];
        if (crowd == SPARSE || path->hops == 0 || chance(10)) {
            some_walk(job, packet, longest);
        } else {
            int from = between(0, crowd == HOT ? hot : path->hops - 1);
            int to = between(crowd == HOT ? hot + 1 : from + 1, path->hops);
            piece(job, path, from, to, packet);
        }
        hops += packet->hops;
        if (hops > MOST_HOPS)
            break;
    }
}

void random_job(struct job *job, enum family family, enum crowd crowd, int large)
{
    random_network(job, family, large);
    int packets = large ? between(50, crowd == SPARSE ? 500 : 150) : chance(10) ? between(0, 1) : between(2, chance(10) ? 60 : 14);
    int longest = large ? crowd == SPARSE ? 40 : 20 : between(1, 12);
    random_packets(job, crowd, packets, longest);
}

/* ---- Starts ---- */

void random_starts(const struct job *job, const int *planned, enum starts_kind kind, struct list *starts)
{
    int shift = between(0, LATEST_START - MOST_HOPS), width = chance(50) ? 6 : 40;
    starts->count = 0;
    for (int k = 0; k < job->packets; k++)
        switch (kind) {
        case ZEROS: push(starts, 0); break;
        case SMALL: push(starts, between(0, width)); break;
        case NEARLY_PLANNED: push(starts, chance(15) ? between(0, planned[k] + 2) : planned[k]); break;
        case SHIFTED: push(starts, planned[k] + shift + (chance(10) ? between(0, 2) : 0)); break;
        case WIDE: push(starts, between(0, LATEST_START)); break;
        case LATE: push(starts, LATEST_START - between(0, 3)); break;
        case SEVERAL_OVER: push(starts, chance(40) ? between(LATEST_START + 1, 65535) : between(0, LATEST_START)); break;
        default: push(starts, planned[k]); break;
        }
    int over = chance(50) ? LATEST_START + 1 : 65535;
    if (kind == ONE_OVER && job->packets > 0)
        starts->value[pick((unsigned)job->packets)] = (uint16_t)over;
    if ((kind == ONE_FEWER || kind == FEWER_AND_OVER) && starts->count > 0)
        starts->count--;
    if (kind == ONE_MORE)
        push(starts, chance(50) ? 0 : 65535);
    if (kind == FEWER_AND_OVER && starts->count > 0)
        starts->value[pick((unsigned)starts->count)] = 40000;
}

/* ---- Damaged texts ---- */

int lines_of_text(const struct text *text)
{
    int lines = 0;
    for (size_t i = 0; i < text->bytes; i++)
        lines += text->byte[i] == '\n';
    return lines;
}

/* The bytes of a line without its line feed. */
static void find_line(const struct text *text, int line, size_t *begin, size_t *end)
{
    *begin = 0;
    for (; line > 0 && *begin < text->bytes; (*begin)++)
        line -= text->byte[*begin] == '\n';
    for (*end = *begin; *end < text->bytes && text->byte[*end] != '\n';)
        ++*end;
}

/* Puts other bytes in the place of some. */
static void replace(struct text *text, size_t at, size_t gone, const void *bytes, size_t come)
{
    if (text->bytes - gone + come > TEXT_ROOM)
        return;
    memmove(text->byte + at + come, text->byte + at + gone, text->bytes - at - gone);
    memcpy(text->byte + at, bytes, come);
    text->bytes += come - gone;
}

static void replace_words(struct text *text, size_t at, size_t gone, const char *words)
{
    replace(text, at, gone, words, strlen(words));
}

/* A number that is likely to be trouble. */
static int edge(const struct job *job)
{
    const int edges[] = { 0, 1, 2, job->nodes - 1, job->nodes, job->nodes + 1, job->links - 1, job->links, job->links + 1,
                          254, 255, 256, 1023, 1024, 1025, 4095, 4096, 4097, 16383, 16384, 16385, 32767, 32768, 65535 };
    int number = edges[pick(sizeof edges / sizeof edges[0])];
    return number < 0 ? 0 : number;
}

static const char *number_word(const struct job *job)
{
    static const char *const words[] = { "65535", "65536", "65537", "99999", "100000", "131072", "4294967296", "4294967297",
                                         "18446744073709551616", "18446744073709551617", "340282366920938463463374607431768211457",
                                         "00", "01", "000000000000001", "", "-1", "+1", " 1", "1 ", "0x1", "1.", "A", "\r", "1\r" };
    static char word[16];
    if (chance(55))
        return words[pick(sizeof words / sizeof words[0])];
    sprintf(word, "%d", edge(job));
    return word;
}

/* A number of the line: where it stands; 0 if the line has none. */
static int find_number(const struct text *text, size_t begin, size_t end, size_t *from, size_t *to)
{
    int tabs = 0;
    for (size_t i = begin; i < end; i++)
        tabs += text->byte[i] == '\t';
    if (tabs == 0)
        return 0;
    tabs = between(1, tabs);
    for (*from = begin; tabs > 0; ++*from)
        tabs -= text->byte[*from] == '\t';
    for (*to = *from; *to < end && text->byte[*to] != '\t';)
        ++*to;
    return 1;
}

/* Behind the first number of the line, where the links of a path begin. */
static size_t first_number_end(const struct text *text, size_t begin, size_t end)
{
    int tabs = 0;
    while (begin < end && (tabs += text->byte[begin] == '\t') < 2)
        begin++;
    return begin;
}

/* A P line that is well formed but that may break any rule of a path. */
static void wild_packet(const struct job *job, char *line)
{
    static struct packet packet;
    int source = chance(80) ? (int)pick((unsigned)job->nodes) : edge(job);
    packet.hops = 0;
    if (source < job->nodes && chance(60))
        walk(job, &packet, source, between(0, 10), 1);
    else if (chance(80))
        for (int hop = between(0, 6); hop > 0; hop--)
            packet.link[packet.hops++] = (int)pick((unsigned)job->links + 2);
    line += sprintf(line, "P\t%d", source);
    for (int hop = 0; hop < packet.hops; hop++)
        line += sprintf(line, "\t%d", chance(10) ? (int)pick((unsigned)job->links + 2) : packet.link[hop]);
    if (chance(4))
        for (int hop = between(240, 270); hop > 0; hop--)
            line += sprintf(line, "\t%d", (int)pick((unsigned)job->links + 1));
}

/* What can befall a line of any text, at a place of it or at one of its numbers. */
enum damage { A_BIT, A_BYTE, A_BYTE_MORE, A_BYTE_LESS, A_LEADING_ZERO, ANOTHER_NUMBER };

static void damage_line(struct text *text, const struct job *job, enum damage way, size_t at, uint8_t byte, size_t begin, size_t end)
{
    size_t from, to;
    switch (way) {
    case A_BIT:
        if (at < text->bytes)
            text->byte[at] ^= (uint8_t)(1 << pick(8));
        break;
    case A_BYTE:
        if (at < text->bytes)
            text->byte[at] = chance(70) ? byte : (uint8_t)pick(256);
        break;
    case A_BYTE_MORE:
        replace(text, at, 0, &byte, 1);
        break;
    case A_BYTE_LESS:
        if (at < text->bytes)
            replace(text, at, 1, "", 0);
        break;
    case A_LEADING_ZERO:
        if (find_number(text, begin, end, &from, &to))
            replace_words(text, from, 0, "0");
        break;
    case ANOTHER_NUMBER:
        if (find_number(text, begin, end, &from, &to))
            replace_words(text, from, to - from, number_word(job));
        break;
    }
}

void damage_text(struct text *text, const struct job *job, int line)
{
    static const uint8_t odd[] = { '\r', 0, '\t', '\n', ' ', '0', '1', '9', 'N', 'L', 'P', 'l', 'p', 'S', '-', '+', '.', 127, 128,
                                   '0' + 128, 'L' + 128, '\n' + 128, '\t' + 128, 255, '\v', '\f', ',', '/', ':', 'O' };
    static char wild[4000];
    size_t begin, end, from, to, at;
    uint8_t byte;
    int number;
    if (line < 0)
        line = (int)pick((unsigned)lines_of_text(text) + 1);
    find_line(text, line, &begin, &end);
    at = begin + pick((unsigned)(end - begin) + 1);
    byte = odd[pick(sizeof odd)];
    switch (pick(20)) {
    case 0:
        damage_line(text, job, A_BIT, at, byte, begin, end);
        break;
    case 1:
        damage_line(text, job, A_BYTE, at, byte, begin, end);
        break;
    case 2:
    case 3:
        damage_line(text, job, A_BYTE_MORE, at, byte, begin, end);
        break;
    case 4:
        damage_line(text, job, A_BYTE_LESS, at, byte, begin, end);
        break;
    case 5:
        damage_line(text, job, A_LEADING_ZERO, at, byte, begin, end);
        break;
    case 6:
    case 7:
    case 8:
        damage_line(text, job, ANOTHER_NUMBER, at, byte, begin, end);
        break;
    case 9: /* a field more at the end, perhaps an empty one */
        sprintf(wild, "\t%s", chance(40) ? "" : chance(50) ? "0" : number_word(job));
        replace_words(text, end, 0, wild);
        break;
    case 10: /* a field less */
        if (find_number(text, begin, end, &from, &to))
            replace(text, from - 1, to - from + 1, "", 0);
        break;
    case 11: /* another letter */
        if (begin < end)
            text->byte[begin] = chance(70) ? (uint8_t)"NLPST"[pick(5)] : byte;
        break;
    case 12: /* the line once more at the end, or a line in front of it */
        if (chance(50)) {
            size_t bytes = end - begin < 3990 ? end - begin : 3990;
            memcpy(wild, text->byte + begin, bytes);
            wild[bytes] = '\n';
            replace(text, text->bytes, 0, wild, bytes + 1);
        } else {
            replace_words(text, begin, 0, chance(30) ? "\n" : chance(50) ? "L\t0\t1\n" : chance(50) ? "P\t0\n" : "N\t4\n");
        }
        break;
    case 13: /* the text is cut */
        text->bytes = chance(50) && text->bytes > 0 ? text->bytes - 1 : pick((unsigned)text->bytes + 1);
        break;
    case 14: /* a link in place of the line, often one to itself */
        number = chance(40) ? edge(job) : (int)pick((unsigned)job->nodes + 1);
        sprintf(wild, "L\t%d\t%d", number, chance(60) ? number : chance(50) ? edge(job) : (int)pick((unsigned)job->nodes + 1));
        replace_words(text, begin, end - begin, wild);
        break;
    case 15: /* a path is cut to its source */
        from = first_number_end(text, begin, end);
        replace(text, from, end - from, "", 0);
        break;
    default: /* a packet in place of the line */
        wild_packet(job, wild);
        replace_words(text, begin, end - begin, wild);
        break;
    }
}

/* ---- Damaged plans ---- */

/* A number of the line, made greater or smaller by one. */
static void off_by_one(struct text *text, size_t begin, size_t end)
{
    size_t from, to;
    char word[24] = { 0 };
    if (!find_number(text, begin, end, &from, &to) || to - from > 6)
        return;
    memcpy(word, text->byte + from, to - from);
    sprintf(word, "%d", atoi(word) + (chance(50) ? 1 : -1));
    replace_words(text, from, to - from, word);
}

/* The line, with its line feed, once more in front of another line, and perhaps no longer where it was. */
static void copy_line(struct text *text, int line, int to_line, int gone)
{
    static uint8_t copy[4000];
    size_t begin, end, bytes;
    find_line(text, line, &begin, &end);
    end += end < text->bytes;
    bytes = end - begin;
    if (bytes > sizeof copy)
        return;
    memcpy(copy, text->byte + begin, bytes);
    if (gone)
        replace(text, begin, bytes, "", 0);
    find_line(text, to_line, &begin, &end);
    replace(text, begin, 0, copy, bytes);
}

/* Another start in place of the line, mostly with the end that follows from it. */
static void other_start(struct text *text, const struct job *job, int line, size_t begin, size_t end)
{
    static const int edges[] = { 0, 1, 2, 9, 10, 16384, 32766, LATEST_START, LATEST_START + 1, 65279, 65535, 65536 };
    int start = chance(60) ? edges[pick(sizeof edges / sizeof edges[0])] : between(0, 40);
    int hops = line < job->packets ? job->packet[line].hops : 0;
    char words[80];
    sprintf(words, "S\t%d\t%d\t%d", line, start, start + hops + (chance(85) ? 0 : between(-1, 1)));
    replace_words(text, begin, end - begin, words);
}

/* S lines that go on in order in front of the last line, which is T. */
static void more_s_lines(struct text *text, int more)
{
    char words[80];
    for (; more > 0; more--) {
        int line = lines_of_text(text) - 1;
        size_t begin, end;
        find_line(text, line, &begin, &end);
        sprintf(words, "S\t%d\t%d\t%d\n", line, more, chance(50) ? more : 0);
        replace_words(text, begin, 0, words);
    }
}

void damage_plan(struct text *text, const struct job *job, int line)
{
    static const uint8_t odd[] = { '\r', 0, '\t', '\n', ' ', '0', '1', '9', 'S', 'T', 's', 't', 'N', 'P', 'Q', '-', '+', '.', 127,
                                   128, '0' + 128, 'S' + 128, '\n' + 128, '\t' + 128, 255, '\v', '\f', ',', '/', ':' };
    static const char *const below[] = { "\n", "T\t0\t0\t0\n", "S\t0\t0\t0\n", "T", "\r\n", " ", "S", "\t" };
    int lines = lines_of_text(text);
    size_t begin, end, from, to, at;
    uint8_t byte;
    int way;
    char words[80];
    if (line < 0)
        line = (int)pick((unsigned)lines + 1);
    find_line(text, line, &begin, &end);
    at = begin + pick((unsigned)(end - begin) + 1);
    byte = odd[pick(sizeof odd)];
    way = (int)pick(24);
    switch (way) {
    case A_BIT:
    case A_BYTE:
    case A_BYTE_MORE:
    case A_BYTE_LESS:
    case A_LEADING_ZERO:
    case ANOTHER_NUMBER:
        damage_line(text, job, (enum damage)way, at, byte, begin, end);
        break;
    case 6: /* a field more, or less */
        if (chance(50))
            replace_words(text, end, 0, chance(40) ? "\t" : "\t0");
        else if (find_number(text, begin, end, &from, &to))
            replace(text, from - 1, to - from + 1, "", 0);
        break;
    case 7: /* another letter */
        if (begin < end)
            text->byte[begin] = chance(70) ? (uint8_t)"STNP"[pick(4)] : byte;
        break;
    case 8: /* the line twice */
        copy_line(text, line, line, 0);
        break;
    case 9: /* the line elsewhere */
        copy_line(text, line, (int)pick((unsigned)lines + 1), 1);
        break;
    case 10: /* two neighbours change places */
        copy_line(text, line, line + 1, 1);
        break;
    case 11: /* a line less */
        replace(text, begin, end - begin + (end < text->bytes), "", 0);
        break;
    case 12: /* the text is cut */
        text->bytes = chance(50) && text->bytes > 0 ? text->bytes - 1 : pick((unsigned)text->bytes + 1);
        break;
    case 13: /* no T line */
        find_line(text, lines - 1, &begin, &end);
        text->bytes = begin;
        break;
    case 14: /* something below it */
        replace_words(text, text->bytes, 0, below[pick(sizeof below / sizeof below[0])]);
        break;
    case 15: /* lines that end as elsewhere */
        replace_words(text, end, 0, "\r");
        break;
    case 16: /* S lines too many */
        if (lines > 0)
            more_s_lines(text, chance(90) ? between(1, 3) : between(4, 60));
        break;
    case 17: /* an S line too few, the others in order */
        find_line(text, lines - 2, &begin, &end);
        if (lines > 1)
            replace(text, begin, end - begin + 1, "", 0);
        break;
    case 18:
    case 19: /* another start */
        other_start(text, job, line, begin, end);
        break;
    case 20: /* another T line */
        find_line(text, lines - 1, &begin, &end);
        sprintf(words, "T\t%d\t%d\t%d", between(0, 20), between(0, 4), between(0, 4));
        replace_words(text, begin, end - begin, words);
        break;
    default: /* a number off by one */
        off_by_one(text, begin, end);
        break;
    }
}

/* ---- Damaged lists ---- */

static void change(struct list *list, int value)
{
    if (list->count > 0)
        list->value[pick((unsigned)list->count)] = (uint16_t)value;
}

static void longer_or_shorter(struct list *list, const struct job *job)
{
    if (chance(50) || list->count == 0)
        push(list, edge(job));
    else
        list->count--;
}

/* A packet after the others: a long one, or one that may break any rule of a path. */
static void add_packet(struct tables *tables, const struct job *job)
{
    static struct packet packet;
    int source = chance(85) ? (int)pick((unsigned)job->nodes) : edge(job);
    packet.hops = 0;
    if (source < job->nodes)
        walk(job, &packet, source, between(0, 10), 1);
    push(&tables->sources, source);
    for (int hop = 0; hop < packet.hops; hop++)
        push(&tables->hops, chance(5) ? (int)pick((unsigned)job->links + 2) : packet.link[hop]);
    if (chance(20))
        for (int hop = between(240, 270); hop > 0; hop--)
            push(&tables->hops, (int)pick((unsigned)job->links + 1));
    push(&tables->stops, (int)tables->hops.count);
}

void damage_tables(struct tables *tables, const struct job *job)
{
    struct list *const every[] = { &tables->origins, &tables->ends, &tables->sources, &tables->stops, &tables->hops };
    unsigned at;
    switch (pick(17)) {
    case 0:
        tables->nodes = (uint16_t)(chance(50) ? edge(job) : (int)pick((unsigned)job->nodes + 1));
        break;
    case 1:
        change(&tables->origins, edge(job));
        break;
    case 2:
        change(&tables->ends, edge(job));
        break;
    case 3: /* a link to itself */
        if (tables->origins.count > 0 && tables->origins.count <= tables->ends.count) {
            at = pick((unsigned)tables->origins.count);
            tables->ends.value[at] = tables->origins.value[at];
        }
        break;
    case 4:
        change(&tables->sources, chance(50) ? edge(job) : (int)pick((unsigned)job->nodes + 1));
        break;
    case 5:
        change(&tables->stops, chance(50) ? edge(job) : (int)pick((unsigned)tables->hops.count + 2));
        break;
    case 6: /* the last stop */
        if (tables->stops.count > 0)
            tables->stops.value[tables->stops.count - 1] += chance(50) ? 1 : 65535;
        break;
    case 7: /* a stop moves, so that two neighbours part their hops otherwise */
        if (tables->stops.count > 1) {
            at = pick((unsigned)tables->stops.count - 1);
            tables->stops.value[at] += chance(50) ? 1 : 65535;
        }
        break;
    case 8:
        change(&tables->hops, edge(job));
        break;
    case 9:
        change(&tables->hops, (int)pick((unsigned)job->links + 1));
        break;
    case 10:
        longer_or_shorter(every[pick(5)], job);
        break;
    case 11: /* two lists that belong together */
        at = chance(50) ? 0 : 2;
        longer_or_shorter(every[at], job);
        longer_or_shorter(every[at + 1], job);
        break;
    case 12: /* a packet loses its hops */
        if (tables->stops.count > 0)
            take_hops(tables, pick((unsigned)tables->stops.count));
        break;
    case 13: /* a stop is the one before it, so that a packet's hops go to the packet below it */
        if (tables->stops.count > 1) {
            at = pick((unsigned)tables->stops.count - 1);
            tables->stops.value[at] = at > 0 ? tables->stops.value[at - 1] : 0;
        }
        break;
    default:
        add_packet(tables, job);
        break;
    }
}
