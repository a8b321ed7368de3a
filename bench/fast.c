/* fast.c: what a C programmer would write who wants a plan as the planner makes it, or the check of one, as fast as possible: the
 * yardstick of the benchmark.
 *
 * The steps in which a link is entered stand side by side in memory. A packet goes along its path, and every step on one of its links
 * rules out one start, which is a bit; the first bit that is not set is its start. So the work for a packet is the number of its
 * meetings, each of which is looked at once; docs/PERFORMANCE.md says what a planner could gain that need not do so, or that need not mark
 * a start by a bit. A word of bits is kept in hand for as long as the steps fall in it, bits are cleared up to the latest step alone,
 * links past the last one that is used are passed over, what was seen is stamped and never cleared, and nothing is kept on the stack. */
#include "fast.h"

#include <string.h>

enum { NODES = ZHEVGULOR_NODES, LINKS = ZHEVGULOR_LINKS, PACKETS = ZHEVGULOR_PACKETS, PATH = ZHEVGULOR_PATH_HOPS, HOPS = ZHEVGULOR_HOPS };

static unsigned nodes, links, packets;
static uint16_t from[LINKS], to[LINKS];
static uint16_t stop[PACKETS + 1];     /* stop[k] is where the path of packet k begins */
static uint16_t path[HOPS + PATH + 2]; /* with room for a path that turns out to be too much */

static uint16_t load[LINKS];           /* how many packets take the link */
static uint16_t first[LINKS], next[LINKS], entered[HOPS]; /* the steps on a link: from entered[first] to entered[next] */
static uint16_t start[PACKETS];
static uint32_t visited[NODES], visit; /* the visit in which a node was seen last */
static size_t meetings;

/* ---- Reading ---- */

/* The number at a place, and the place behind it, where a tab or a line feed stands; null if that is not so. Below every place there is
 * a byte that is no digit, so that the end is not looked for. */
static inline const uint8_t *number(const uint8_t *at, unsigned *value)
{
    unsigned sum = *at - (unsigned)'0', digit;
    if (sum > 9)
        return NULL;
    if (sum == 0)
        at++;
    else
        while ((digit = *++at - (unsigned)'0') <= 9)
            if ((sum = 10 * sum + digit) > 65535)
                return NULL;
    *value = sum;
    return *at == '\t' || *at == '\n' ? at : NULL;
}

static inline const uint8_t *field(const uint8_t *at, unsigned *value) { return *at == '\t' ? number(at + 1, value) : NULL; }

static inline int judge_link(unsigned a, unsigned b)
{
    return a >= nodes || b >= nodes ? 4 : a == b ? 5 : 0;
}

/* A packet's source, that it has hops, and each of them; each link's load grows by these. */
static inline int judge_path(const uint16_t *from, const uint16_t *to, unsigned node, const uint16_t *own, unsigned count)
{
    if (node >= nodes)
        return 4;
    if (count == 0)
        return 15;
    if (++visit == 0) { /* once in four thousand million visits */
        memset(visited, 0, sizeof visited);
        visit = 1;
    }
    visited[node] = visit;
    for (unsigned i = 0; i < count; i++) {
        unsigned link = own[i];
        if (link >= links)
            return 6;
        if (from[link] != node)
            return 7;
        node = to[link];
        if (visited[node] == visit)
            return 8;
        visited[node] = visit;
        load[link]++;
    }
    return 0;
}

/* The lines, from the top. The bytes end in a line feed, or in a zero byte that stands behind them. */
static zhevgulor_answer read_lines(const uint8_t *at, const uint8_t *end)
{
    uint32_t line = 1;
    unsigned a, b, hops = 0;
    int refusal = 0;
    if (*at != 'N' || !(at = field(at + 1, &nodes)) || *at++ != '\n')
        return (zhevgulor_answer){ 2, line };
    if (nodes < 1 || nodes > NODES)
        return (zhevgulor_answer){ 3, line };
    for (; at < end && *at == 'L'; at++) {
        line++;
        if (!(at = field(at + 1, &a)) || !(at = field(at, &b)) || *at != '\n')
            return (zhevgulor_answer){ 2, line };
        if (links == LINKS)
            return (zhevgulor_answer){ 3, line };
        if ((refusal = judge_link(a, b)))
            return (zhevgulor_answer){ (uint32_t)refusal, line };
        from[links] = (uint16_t)a;
        to[links] = (uint16_t)b;
        load[links++] = 0;
    }
    for (; at < end; at++) {
        uint16_t *own = path + hops;
        unsigned count = 0;
        line++;
        if (*at != 'P' || !(at = field(at + 1, &a)))
            return (zhevgulor_answer){ 2, line };
        while (*at == '\t') { /* of a path that is too long the last hop is written over and over */
            if (!(at = number(at + 1, &b)))
                return (zhevgulor_answer){ 2, line };
            own[count] = (uint16_t)b;
            count += count <= PATH;
        }
        if (*at != '\n')
            return (zhevgulor_answer){ 2, line };
        if (packets == PACKETS || count > PATH || hops + count > HOPS)
            return (zhevgulor_answer){ 3, line };
        if ((refusal = judge_path(from, to, a, own, count)))
            return (zhevgulor_answer){ (uint32_t)refusal, line };
        hops += count;
        stop[++packets] = (uint16_t)hops;
    }
    return (zhevgulor_answer){ 0, 0 };
}

zhevgulor_answer fast_read(const uint8_t *text, size_t bytes)
{
    static uint8_t ended[ZHEVGULOR_TEXT_BYTES + 1];
    links = packets = 0;
    stop[0] = 0;
    if (bytes > ZHEVGULOR_TEXT_BYTES)
        return (zhevgulor_answer){ 1, 0 };
    if (bytes > 0 && text[bytes - 1] == '\n')
        return read_lines(text, text + bytes);
    if (bytes > 0)
        memcpy(ended, text, bytes);
    ended[bytes] = 0;
    return read_lines(ended, ended + bytes);
}

/* ---- Searching ---- */

/* A place for each entry to come, those of a link side by side. No link from `used` on has an entry. */
static unsigned used;

static void open_rooms(unsigned hops)
{
    unsigned sum = 0;
    for (used = 0; sum < hops; used++) {
        first[used] = next[used] = (uint16_t)sum;
        sum += load[used];
    }
}

/* Bits before that of start 0 take the marks that lie before it. */
enum { BEFORE = (PATH / 64 + 1) * 64 };
static uint64_t ruled_out[(BEFORE + HOPS + PATH) / 64 + 2];

static unsigned first_free(const uint16_t *own, unsigned count)
{
    for (unsigned i = 0; i < count; i++) {
        const uint16_t *step = entered + first[own[i]], *last = entered + next[own[i]];
        unsigned back = BEFORE - i, at = 0;
        uint64_t word = 0;
        meetings += (size_t)(last - step);
        for (; step < last; step++) {
            unsigned bit = *step + back;
            if (bit / 64 != at) {
                ruled_out[at] |= word;
                at = bit / 64;
                word = 0;
            }
            word |= (uint64_t)1 << bit % 64;
        }
        ruled_out[at] |= word;
    }
    unsigned at = BEFORE / 64;
    while (~ruled_out[at] == 0)
        at++;
    return 64 * at + (unsigned)__builtin_ctzll(~ruled_out[at]) - BEFORE;
}

void fast_search(void)
{
    unsigned latest = 0;
    meetings = 0;
    open_rooms(stop[packets]);
    for (unsigned k = 0; k < packets; k++) {
        const uint16_t *own = path + stop[k];
        unsigned count = stop[k + 1] - (unsigned)stop[k];
        memset(ruled_out, 0, ((BEFORE + latest) / 64 + 2) * sizeof ruled_out[0]);
        start[k] = (uint16_t)first_free(own, count);
        for (unsigned i = 0; i < count; i++)
            entered[next[own[i]]++] = (uint16_t)(start[k] + i);
        latest = start[k] + count > latest ? start[k] + count : latest;
    }
}

size_t fast_meetings(void) { return meetings; }

/* ---- Writing ---- */

static inline uint8_t *put_digit(uint8_t *out, unsigned n)
{
    *out = (uint8_t)('0' + n);
    return out + 1;
}

static inline uint8_t *put_pair(uint8_t *out, unsigned n)
{
    static const char pair[] = "00010203040506070809101112131415161718192021222324252627282930313233343536373839404142434445464748495051525354"
                               "555657585960616263646566676869707172737475767778798081828384858687888990919293949596979899";
    memcpy(out, pair + 2 * n, 2);
    return out + 2;
}

static inline uint8_t *put(uint8_t *out, unsigned n)
{
    *out++ = '\t';
    if (n < 10)
        return put_digit(out, n);
    if (n < 100)
        return put_pair(out, n);
    if (n < 1000)
        return put_pair(put_digit(out, n / 100), n % 100);
    if (n >= 10000)
        out = put_digit(out, n / 10000);
    return put_pair(put_pair(out, n / 100 % 100), n % 100);
}

static uint8_t *put_line(uint8_t *out, uint8_t letter, unsigned a, unsigned b, unsigned c)
{
    *out++ = letter;
    out = put(put(put(out, a), b), c);
    *out++ = '\n';
    return out;
}

zhevgulor_answer fast_write(uint8_t *room, size_t room_bytes)
{
    static uint8_t text[ZHEVGULOR_PLAN_BYTES];
    uint8_t *out = room_bytes < ZHEVGULOR_PLAN_BYTES ? text : room, *begun = out;
    unsigned time = 0, c = 0, d = 0;
    for (unsigned k = 0; k < packets; k++) {
        unsigned count = stop[k + 1] - (unsigned)stop[k], last = start[k] + count;
        time = last > time ? last : time;
        d = count > d ? count : d;
        out = put_line(out, 'S', k, start[k], last);
    }
    for (unsigned i = 0; i < used; i++)
        c = load[i] > c ? load[i] : c;
    out = put_line(out, 'T', time, c, d);
    size_t bytes = (size_t)(out - begun);
    if (bytes > room_bytes)
        return (zhevgulor_answer){ 10, 0 };
    if (begun != room)
        memcpy(room, begun, bytes);
    return (zhevgulor_answer){ 0, (uint32_t)bytes };
}

zhevgulor_answer fast_plan(const uint8_t *text, size_t bytes, uint8_t *room, size_t room_bytes)
{
    zhevgulor_answer answer = fast_read(text, bytes);
    if (answer.refusal)
        return answer;
    fast_search();
    return fast_write(room, room_bytes);
}

/* ---- Checking ---- */

/* The tables, 11 and 12; each link's load is counted on the way. */
static zhevgulor_answer judge(const fast_lists *job, const uint16_t *starts, size_t starts_count)
{
    size_t hops = 0;
    int refusal = 0;
    if (job->origins_count != job->ends_count || job->sources_count != job->stops_count)
        return (zhevgulor_answer){ 9, 0 };
    for (size_t k = 0; k < job->stops_count; k++) {
        if (job->stops[k] < hops)
            return (zhevgulor_answer){ 9, 0 };
        hops = job->stops[k];
    }
    if (hops != job->hops_count)
        return (zhevgulor_answer){ 9, 0 };
    if (job->nodes < 1 || job->nodes > NODES || job->origins_count > LINKS || job->sources_count > PACKETS || hops > HOPS)
        return (zhevgulor_answer){ 3, 0 };
    nodes = job->nodes;
    links = (unsigned)job->origins_count;
    for (unsigned link = 0; link < links; link++) {
        if ((refusal = judge_link(job->origins[link], job->ends[link])))
            return (zhevgulor_answer){ (uint32_t)refusal, link };
        load[link] = 0;
    }
    for (unsigned k = 0, begin = 0; k < job->stops_count; begin = job->stops[k++]) {
        unsigned count = job->stops[k] - begin;
        refusal = count > PATH ? 3 : judge_path(job->origins, job->ends, job->sources[k], job->hops + begin, count);
        if (refusal)
            return (zhevgulor_answer){ (uint32_t)refusal, k };
    }
    if (starts_count != job->sources_count)
        return (zhevgulor_answer){ 11, 0 };
    for (unsigned k = 0; k < starts_count; k++)
        if (starts[k] > ZHEVGULOR_LATEST_START)
            return (zhevgulor_answer){ 12, k };
    return (zhevgulor_answer){ 0, 0 };
}

/* Cuts the steps of each link before the first that stands there twice. Whether there is none. Steps that rise have none. */
static int cut_repeats(void)
{
    static uint32_t seen[ZHEVGULOR_LATEST_START + PATH], turn; /* the turn in which a step was seen last */
    int clear = 1;
    for (unsigned link = 0; link < used; link++) {
        unsigned i = first[link] + 1u, last = next[link];
        while (i < last && entered[i - 1] < entered[i])
            i++;
        if (i >= last)
            continue;
        if (++turn == 0) {
            memset(seen, 0, sizeof seen);
            turn = 1;
        }
        for (i = first[link]; i < last && seen[entered[i]] != turn; i++)
            seen[entered[i]] = turn;
        if (i < last) {
            next[link] = (uint16_t)i;
            clear = 0;
        }
    }
    return clear;
}

/* The first packet with a hop at which its link's steps are cut, and the first that enters the link in the same step. */
static void show(const fast_lists *job, const uint16_t *starts, uint32_t *clash)
{
    unsigned k = 0, i = 0, begin = 0, j = 0, before = 0;
    while (first[job->hops[i]] < next[job->hops[i]])
        first[job->hops[i++]]++;
    while (job->stops[k] <= i)
        begin = job->stops[k++];
    unsigned link = job->hops[i], step = starts[k] + i - begin;
    for (;; before = job->stops[j++])
        if (step >= starts[j] && before + step - starts[j] < job->stops[j] && job->hops[before + step - starts[j]] == link)
            break;
    clash[0] = k, clash[1] = j, clash[2] = link, clash[3] = step;
}

zhevgulor_answer fast_check(const fast_lists *job, const uint16_t *starts, size_t starts_count, uint32_t *clash, size_t clash_count)
{
    zhevgulor_answer answer = judge(job, starts, starts_count);
    if (answer.refusal)
        return answer;
    open_rooms((unsigned)job->hops_count);
    for (unsigned k = 0, i = 0; k < job->stops_count; k++)
        for (unsigned step = starts[k], end = job->stops[k]; i < end; i++, step++)
            entered[next[job->hops[i]]++] = (uint16_t)step;
    if (cut_repeats())
        return (zhevgulor_answer){ 0, 0 };
    if (clash_count < ZHEVGULOR_CLASH)
        return (zhevgulor_answer){ 10, 0 };
    show(job, starts, clash);
    return (zhevgulor_answer){ 0, ZHEVGULOR_CLASH };
}
