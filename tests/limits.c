/* limits.c: every limit, and one over it; what happens only close to a limit; lengths of more than 16 bits; rooms that are just
 * enough, and one byte less. */
#include "cases.h"
#include "sections.h"

#include <stdio.h>
#include <stdlib.h>
#include <string.h>

#define COUNT(array) (sizeof (array) / sizeof (array)[0])

static struct text text, plan;
static struct tables tables;
static struct list starts;
static struct job job;

/* Texts with the network of line_network, path by path. */
static void line_text(int nodes)
{
    clear_text(&text);
    add(&text, "N\t%d\n", nodes);
    for (int node = 0; node + 1 < nodes; node++)
        add(&text, "L\t%d\t%d\n", node, node + 1);
}

static void add_path(int source, int first_link, int hops)
{
    add(&text, "P\t%d", source);
    for (int hop = 0; hop < hops; hop++)
        add(&text, "\t%d", first_link + hop);
    add(&text, "\n");
}

/* The last line ends like this. */
static void end_last_line(const char *end)
{
    text.bytes--;
    add(&text, "%s", end);
}

/* As many starts as there are packets, all 0. */
static void zero_starts(void)
{
    starts.count = 0;
    while (starts.count < tables.sources.count)
        push(&starts, 0);
}

/* The lists of `tables`, asked of every function, with rooms that are large enough. */
static void run_tables_everywhere(void)
{
    zero_starts();
    run_lists(&tables, &starts, (struct rooms){ 1025, 4, ROOM });
}

/* The text, planned, checked with its plan, and read. */
static void run_text_everywhere(size_t room)
{
    run_text(&text, room);
    run_own_plan(&text, 4);
    run_read(&text, -1, 0);
}

/* The job, as a text and as lists, asked of every function. The starts given are all 0. */
static void run_job_everywhere(void)
{
    text_of_job(&job, &text);
    tables_of_job(&job, &tables);
    run_text_everywhere(ROOM);
    run_tables_everywhere();
}

/* ---- Sizes ---- */

/* Nodes, and numbers of nodes around their count. */
static void limit_nodes(void)
{
    static const int count[] = { 0, 1, 2, 1023, 1024, 1025, 65535 };
    for (size_t i = 0; i < COUNT(count); i++)
        for (int node = count[i] > 0 ? count[i] - 1 : 0; node <= count[i] + 1 && node <= 65535; node++) {
            name_cases("%d nodes, node %d", count[i], node);
            int last = count[i] > 1 ? count[i] - 1 : 0; /* it has a link, if there are two nodes */
            for (int hops = 0; hops < 2; hops++) {
                clear_text(&text);
                add(&text, "N\t%d\n", count[i]);
                if (hops)
                    add(&text, "L\t%d\t%d\n", last, last == 0);
                add_path(node, 0, hops);
                run_text_everywhere(SMALL_ROOM);
                clear_tables(&tables);
                tables.nodes = (uint16_t)count[i];
                if (hops) {
                    push(&tables.origins, last);
                    push(&tables.ends, last == 0);
                }
                push_path(&tables, node, 0, hops);
                run_tables_everywhere();
            }
            clear_text(&text);
            add(&text, "N\t%d\nL\t0\t%d\nL\t%d\t0\n", count[i], node, node);
            run_text_everywhere(SMALL_ROOM);
            for (int turned = 0; turned < 2; turned++) {
                clear_tables(&tables);
                tables.nodes = (uint16_t)count[i];
                push(&tables.origins, turned ? node : 0);
                push(&tables.ends, turned ? 0 : node);
                run_tables_everywhere();
            }
        }
}

static void limit_links(void)
{
    static const char *const last_line[] = { "L\t0\t1\n", "L\t0\t9\n", "L\t1\t1\n", "L\t0\t01\n", "L\t0\n", "L\t0\t1",
                                             "P\t0\t4095\n", "P\t0\t4096\n" };
    for (int links = 4095; links <= 4096; links++)
        for (size_t i = 0; i < COUNT(last_line); i++) {
            clear_text(&text);
            add(&text, "N\t2\n");
            for (int link = 0; link < links; link++)
                add(&text, "L\t0\t1\n");
            add(&text, "%s", last_line[i]);
            name_cases("%d links and line %zu", links, i);
            run_text_everywhere(ROOM);
        }
    static const int count[] = { 4095, 4096, 4097, 65535, 65536, 65537 };
    for (size_t i = 0; i < COUNT(count); i++)
        for (int mistake = 0; mistake < 4; mistake++) {
            clear_tables(&tables);
            tables.nodes = mistake == 1 ? 0 : 2;
            for (int link = 0; link < count[i]; link++) {
                push(&tables.origins, 0);
                push(&tables.ends, mistake == 2 && link == count[i] - 1 ? 2 : 1);
            }
            push_path(&tables, 0, count[i] - 1, 1);
            if (mistake == 3)
                tables.ends.count--;
            name_cases("%d links as lists, mistake %d", count[i], mistake);
            run_tables_everywhere();
        }
}

/* Each packet has a link of its own. */
static void limit_packets(void)
{
    static const char *const last_line[] = { "P\t0\t0\n", "P\t0\n", "P\t1024\n", "P\t1024\t0\n", "P\t0\t1024\n", "P\t0\t00\n",
                                             "P\t0\t0", "P\t0", "L\t0\t1\n" };
    for (int packets = 1023; packets <= 1024; packets++)
        for (size_t i = 0; i < COUNT(last_line); i++) {
            ring_job(&job, 1024, 1);
            job.packets = packets;
            text_of_job(&job, &text);
            add(&text, "%s", last_line[i]);
            name_cases("%d packets and line %zu", packets, i);
            run_text_everywhere(ROOM);
        }
    static const int count[] = { 1023, 1024, 1025, 65535, 65536, 65537 };
    for (size_t i = 0; i < COUNT(count); i++)
        for (int mistake = 0; mistake < 8; mistake++) {
            size_t last = (size_t)count[i] - 1;
            ring_job(&job, 1024, 1);
            job.packets = 0;
            tables_of_job(&job, &tables);
            for (int k = 0; k < count[i]; k++) /* of more packets than there may be the last have no hops: a stop has 16 bits */
                push_path(&tables, k % 1024, k % 1024, mistake != 6 && k < 1025);
            switch (mistake) {
            case 1: tables.nodes = 0; break;
            case 2: tables.sources.value[last] = 1024; break;
            case 3: tables.stops.value[last - 1] = (uint16_t)(tables.hops.count + 1); break; /* the stops fall */
            case 4: tables.stops.count--; break;
            case 5: tables.stops.value[last]++; break;
            case 7: take_hops(&tables, last); break;
            }
            name_cases("%d packets as lists, mistake %d", count[i], mistake);
            run_tables_everywhere();
            if (mistake == 0 && count[i] <= 1024) {
                name_cases("places for %d starts, just enough and one fewer", count[i]);
                run_starts(&tables, (size_t)count[i]);
                run_starts(&tables, last);
            }
            if (mistake == 6) {
                run_tables(&tables);
                expect(planner.answer.refusal == (count[i] > 1024 ? 3 : 15) && planner.answer.value == 0, "%s", label);
            }
        }
}

static void limit_path(void)
{
    static const char *const end[] = { "\n", "\t\n", "\t01\n", "", "\t255\n", "\t0\n", "\t9999\n" };
    static const int count[] = { 0, 1, 2, 254, 255, 256, 257 };
    for (size_t c = 0; c < COUNT(count); c++)
        for (size_t i = 0; i < COUNT(end); i++)
            for (int source = 0; source <= 300; source += 300) {
                line_text(260);
                add_path(0, 0, 3);
                add_path(source, 0, count[c]);
                end_last_line(end[i]);
                name_cases("path of %d hops from %d, end %zu", count[c], source, i);
                run_text_everywhere(ROOM);
            }
    for (size_t c = 0; c < COUNT(count); c++)
        for (int mistake = 0; mistake < 6; mistake++) {
            int hops = count[c];
            line_network(&tables, 260);
            push_path(&tables, mistake == 5 ? 260 : 0, 0, 3);
            push_path(&tables, 2, 2, mistake == 4 ? hops : 5);
            push_path(&tables, mistake == 1 ? 260 : 0, mistake == 2 ? 4 : 0, hops);
            push_path(&tables, mistake == 3 ? 260 : 4, 4, 2);
            name_cases("path of %d hops as lists, mistake %d", hops, mistake);
            run_tables_everywhere();
        }
}

/* Hops in all. A text has room for so many only if their links have small numbers. */
static void limit_hops(void)
{
    static const char *const end[] = { "\n", "\t01\n", "", "\t9999\n" };
    for (int last_hops = 83; last_hops <= 86; last_hops++)
        for (size_t i = 0; i <= COUNT(end); i++) {
            int source = i < COUNT(end) ? 0 : 300;
            line_text(101);
            for (int k = 0; k < 163; k++)
                add_path(0, 0, 100);
            add_path(source, 0, last_hops);
            end_last_line(i < COUNT(end) ? end[i] : "\n");
            name_cases("%d hops in all, end %zu, source %d", 16300 + last_hops, i, source);
            run_text_everywhere(ROOM);
        }
    for (int last_hops = 63; last_hops <= 66; last_hops++)
        for (int mistake = 0; mistake < 6; mistake++) {
            line_network(&tables, 300);
            for (int k = 0; k < 64; k++)
                push_path(&tables, 0, 0, 255);
            push_path(&tables, mistake == 1 ? 300 : 0, 0, last_hops);
            switch (mistake) {
            case 2: tables.ends.value[0] = 300; break;
            case 3: tables.stops.value[64]++; break;
            case 4: tables.stops.value[30] = 0; break;
            case 5: tables.stops.value[30] = tables.stops.value[29]; break; /* packet 30 has no hops, and 31 too many */
            }
            name_cases("%d hops in all as lists, mistake %d", 16320 + last_hops, mistake);
            run_tables_everywhere();
        }
    static const int count[] = { 255, 16384, 16385, 65534, 65535, 65536, 65537 };
    for (size_t i = 0; i < COUNT(count); i++) {
        line_network(&tables, 300);
        for (int hop = 0; hop < count[i]; hop++)
            push(&tables.hops, hop % 255);
        name_cases("%d hops of nobody", count[i]);
        run_tables_everywhere();
        push(&tables.sources, 0);
        push(&tables.stops, count[i] & 65535);
        name_cases("%d hops of one packet", count[i]);
        run_tables_everywhere();
    }
}

/* ---- Bytes ---- */

/* A job that is in order, of any number of bytes. */
static void text_of_length(size_t bytes)
{
    clear_text(&text);
    add(&text, "N\t1024\n");
    for (int link = 0; link < 4096; link++)
        add(&text, "L\t%d\t%d\n", 1000 + link % 23, 1001 + link % 23);
    for (int k = 0; bytes - text.bytes > 150; k++)
        add_path(1001, 4003 - 23 * (k % 20), 20);
    while (bytes - text.bytes > 17) /* lines of 9 bytes until 9 to 17 are left, which are one line */
        add(&text, "P\t1000\t0\n");
    switch (bytes - text.bytes) {
    case 9: add(&text, "P\t1000\t0\n"); break;
    case 10: add(&text, "P\t1000\t23\n"); break;
    case 11: add(&text, "P\t1000\t115\n"); break;
    case 12: add(&text, "P\t1000\t1150\n"); break;
    case 13: add(&text, "P\t1000\t115\t1\n"); break;
    case 14: add(&text, "P\t1000\t115\t24\n"); break;
    case 15: add(&text, "P\t1000\t115\t116\n"); break;
    case 16: add(&text, "P\t1000\t115\t1151\n"); break;
    case 17: add(&text, "P\t1000\t1150\t1151\n"); break;
    }
    if (text.bytes != bytes)
        abort();
}

static void limit_bytes(void)
{
    for (size_t bytes = 65534; bytes <= 65537; bytes++)
        for (int mistake = 0; mistake < 5; mistake++) {
            text_of_length(bytes);
            switch (mistake) {
            case 1: text.byte[0] = 'X'; break;
            case 2: text.byte[bytes - 1] = '0'; break;
            case 3: text.byte[2] = '0'; break;
            }
            name_cases("text of %zu bytes, mistake %d", bytes, mistake);
            run_text_everywhere(mistake == 4 ? 10 : ROOM);
            if (mistake == 0)
                expect(planner.answer.refusal == (bytes > 65535), "%s, read", label);
        }
    for (size_t bytes = 65535; bytes <= 65536; bytes++)
        for (int list = 0; list < JOB_LISTS; list++)
            for (int more = -1; more <= 1; more++) {
                text_of_length(bytes);
                name_cases("text of %zu bytes, list %d with %d places more", bytes, list, more);
                run_read(&text, list, more);
            }
    text_of_length(190000);
    name_cases("190,000 bytes");
    run_text_everywhere(ROOM);
    run_text(&text, 0);

    static const char *const heads[] = { "", "N\t1\nP\t0", "N\t2\nL\t0\t1\nP\t0\t0" };
    static const char *const again[] = { "\n", "\t", "0", "9", "P\t0\n", "N\t1\n", "\t0", "N", "\r\n", "\xFF", " ", "\nP\t0\t0" };
    for (size_t i = 0; i < COUNT(again); i++)
        for (size_t head = 0; head < COUNT(heads); head++)
            for (size_t bytes = 65535; bytes <= 65536; bytes++) {
                clear_text(&text);
                add(&text, "%s", heads[head]);
                for (const char *byte = again[i]; text.bytes < bytes; byte = byte[1] ? byte + 1 : again[i])
                    text.byte[text.bytes++] = (uint8_t)*byte;
                name_cases("%zu bytes, all alike: %zu after head %zu", bytes, i, head);
                run_text_everywhere(ROOM);
            }
}

/* ---- Starts ---- */

static void limit_starts(void)
{
    static const int edge[] = { 0, 1, 16384, 32766, 32767, 32768, 65535 };
    line_network(&tables, 12);
    push_path(&tables, 0, 0, 10);
    push_path(&tables, 9, 9, 1);
    push_path(&tables, 0, 0, 1);
    for (size_t x = 0; x < COUNT(edge); x++)
        for (size_t y = 0; y < COUNT(edge); y++)
            for (size_t z = 0; z < COUNT(edge); z++) {
                starts.count = 0;
                push(&starts, edge[x]);
                push(&starts, edge[y]);
                push(&starts, edge[z]);
                name_cases("starts %d %d %d", edge[x], edge[y], edge[z]);
                run_check(&tables, &starts, 4);
                run_check(&tables, &starts, 0);
                run_lead(&tables, &starts, 0, 1, 9);
                run_lead(&tables, &starts, 1, 0, 9);
                run_lead(&tables, &starts, 1, 1, 9);
                run_lead(&tables, &starts, 1, 2, 9);
                run_lead(&tables, &starts, 0, 2, 0);
                run_plan_text(&tables, &starts, SMALL_ROOM);
                run_plan_text(&tables, &starts, 5);
                name_cases("starts %d %d and one too few", edge[x], edge[y]);
                starts.count = 2;
                run_check(&tables, &starts, 2);
                run_lead(&tables, &starts, 1, 1, 9);
                run_plan_text(&tables, &starts, 5);
            }
    line_network(&tables, 256);
    push_path(&tables, 0, 0, 255);
    push_path(&tables, 254, 254, 1);
    starts.count = 0;
    push(&starts, 32767);
    push(&starts, 0);
    name_cases("the greatest and the least lead");
    run_lead(&tables, &starts, 0, 1, 254);
    expect(planner.answer.refusal == 0 && planner.answer.lead == 33021, "the greatest lead");
    run_lead(&tables, &starts, 1, 0, 254);
    expect(planner.answer.refusal == 0 && planner.answer.lead == -33021, "the least lead");
}

/* ---- Close to a limit ---- */

/* A rule may hold for the first hops, nodes, links or packets, and no more for the last. So each thing below happens once, and far
 * behind all that is like it. */

static void add_link(int from, int to) { job.link[job.links++] = (struct link){ from, to }; }

/* Packets `first` and `second` meet on this link in step `step` if both start at 0, and nobody else meets anybody. */
static void run_one_meeting(int first, int second, int link, int step)
{
    run_job_everywhere();
    run_lead(&tables, &starts, second, first, link);
    run_starts(&tables, tables.sources.count);
    expect(planner.answer.refusal == 0 && lent_starts(&planner)[first] == 0 && lent_starts(&planner)[second] == 1,
           "%s: starts", label);
    run_check(&tables, &starts, 4);
    const uint32_t *clash = lent_clash(&planner);
    expect(planner.answer.value == 4 && clash[0] == (uint32_t)second && clash[1] == (uint32_t)first
           && clash[2] == (uint32_t)link && clash[3] == (uint32_t)step, "%s: clash", label);
    text_of_plan(&job, &starts, &plan);
    run_check_texts(&text, &plan, 4);
    expect(planner.answer.value == 4 && clash[0] == (uint32_t)second && clash[1] == (uint32_t)first, "%s: clash of texts", label);
}

/* Two paths of 255 hops, side by side, that share the link of one hop. */
static void far_hops(void)
{
    static const int shared[] = { 0, 127, 128, 199, 200, 253, 254 };
    for (size_t i = 0; i < COUNT(shared); i++) {
        job.nodes = 256;
        job.links = 0;
        job.packets = 2;
        for (int k = 0; k < 2; k++) {
            job.packet[k] = (struct packet){ .source = 0, .hops = 255 };
            for (int hop = 0; hop < 255; hop++) {
                int again = k == 1 && hop == shared[i];
                job.packet[k].link[hop] = again ? hop : job.links;
                if (!again)
                    add_link(hop, hop + 1);
            }
        }
        name_cases("two paths of 255 hops that share hop %d", shared[i]);
        run_one_meeting(0, 1, shared[i], shared[i]);
    }
}

/* A path of 255 hops, the last of which comes back to a node: from 0 the path is a ring. */
static void far_nodes(void)
{
    static const int back[] = { 0, 1, 54, 55, 127, 128, 252, 253 };
    for (int first = 0; first + 255 <= 1024; first += 769)
        for (size_t i = 0; i < COUNT(back); i++) {
            job.nodes = first + 255;
            job.links = 0;
            job.packets = 1;
            job.packet[0] = (struct packet){ .source = first, .hops = 255 };
            for (int hop = 0; hop < 255; hop++) {
                job.packet[0].link[hop] = hop;
                add_link(first + hop, first + (hop < 254 ? hop + 1 : back[i]));
            }
            name_cases("path from node %d whose hop 254 comes back to its node %d", first, back[i]);
            run_job_everywhere();
            expect(planner.answer.refusal == 8 && planner.answer.value == 0, "%s", label);
        }
}

static void far_links(void)
{
    job.nodes = 2;
    job.links = 0;
    while (job.links < 4096)
        add_link(0, 1);
    job.packets = 2;
    job.packet[0] = job.packet[1] = (struct packet){ .source = 0, .hops = 1, .link = { 4095 } };
    name_cases("two packets on the last of 4,096 links");
    run_one_meeting(0, 1, 4095, 0);
}

/* 1,024 packets, of which two have one link. The others have links of their own. */
static void far_packets(void)
{
    static const struct { int first, second; } pair[] = { { 0, 1023 }, { 255, 256 }, { 999, 1000 }, { 1022, 1023 } };
    for (size_t i = 0; i < COUNT(pair); i++) {
        ring_job(&job, 1024, 1);
        job.packet[pair[i].second] = job.packet[pair[i].first];
        name_cases("1,024 packets, %d and %d on one link", pair[i].first, pair[i].second);
        run_one_meeting(pair[i].first, pair[i].second, pair[i].first, 0);
    }
}

/* 1,024 packets, of which one has no hops: the others have one, or, where they fit into lists alone, sixteen. Packet 1,023 sets out
 * at the last node. */
static void far_no_hops(void)
{
    static const int far[] = { 0, 255, 256, 511, 999, 1000, 1022, 1023 };
    for (size_t i = 0; i < COUNT(far); i++)
        for (int hops = 1; hops <= 16; hops += 15) {
            ring_job(&job, 1024, hops);
            job.packet[far[i]].hops = 0;
            name_cases("1,024 packets of %d hops, only %d has none", hops, far[i]);
            if (hops == 1) {
                text_of_job(&job, &text);
                run_text_everywhere(ROOM);
                expect(planner.answer.refusal == 15 && planner.answer.value == (uint32_t)(far[i] + 1026), "%s, read", label);
            }
            tables_of_job(&job, &tables);
            run_tables_everywhere();
            expect(planner.answer.refusal == 15 && planner.answer.value == (uint32_t)far[i], "%s", label);
        }
}

/* 1,024 starts, of which one is too late. */
static void far_starts(void)
{
    static const int late[] = { 0, 255, 256, 999, 1000, 1022, 1023 };
    ring_job(&job, 1024, 1);
    tables_of_job(&job, &tables);
    for (size_t i = 0; i < COUNT(late); i++) {
        zero_starts();
        starts.value[late[i]] = 32768;
        name_cases("1,024 starts, only %d too late", late[i]);
        run_plan_text(&tables, &starts, ROOM);
        run_lead(&tables, &starts, 0, 1, 0);
        run_check(&tables, &starts, 4);
        expect(planner.answer.refusal == 12 && planner.answer.value == (uint32_t)late[i], "%s", label);
    }
}

/* ---- Lengths of more than 16 bits ---- */

/* Each list in turn with 65,536 elements too many: the last 16 bits of its length are right. What is added is the last element
 * again, so that the stops do not fall and end with the hops. */
static void long_inputs(void)
{
    static const char *const name[] = { "origins", "ends", "sources", "stops", "hops", "starts" };
    struct list *const list[] = { &tables.origins, &tables.ends, &tables.sources, &tables.stops, &tables.hops, &starts };
    for (size_t i = 0; i < COUNT(list); i++) {
        line_network(&tables, 4);
        push_path(&tables, 0, 0, 3);
        push_path(&tables, 0, 0, 2);
        zero_starts();
        for (int more = 0; more < 65536; more++)
            push(list[i], list[i]->value[list[i]->count - 1]);
        name_cases("65,536 %s too many", name[i]);
        run_lists(&tables, &starts, (struct rooms){ 2, 4, ROOM });
        expect(planner.answer.refusal == (list[i] == &starts ? 11 : 9), "%s", label);
    }
}

void limits(void)
{
    far_hops();
    far_nodes();
    far_links();
    far_packets();
    far_no_hops();
    far_starts();
    long_inputs();
    limit_nodes();
    limit_links();
    limit_packets();
    limit_path();
    limit_hops();
    limit_bytes();
    limit_starts();
}

/* ---- Rooms ---- */

/* Enough, just enough, one byte less, none, and others. Six times each: so often, the list lies at every place of its field. */
static void rooms_of(const char *name)
{
    text_of_job(&job, &text);
    tables_of_job(&job, &tables);
    zero_starts();
    name_cases("rooms of %s", name);
    run_plan_text(&tables, &starts, ROOM);
    size_t bytes_written = planner.answer.value;
    run_text(&text, ROOM);
    size_t bytes = planner.answer.value;
    for (int other = -2; other <= 6; other++) {
        size_t around = (size_t)(other < 3 ? other : 20 * other);
        for (int again = 0; again < 6; again++) {
            name_cases("rooms of %s: %zu for %zu bytes", name, bytes + around, bytes);
            run_text(&text, bytes + around);
            run_plan_text(&tables, &starts, bytes_written + around);
        }
    }
    for (size_t room = 0; room < bytes; room += 1 + room / 4) {
        name_cases("rooms of %s: %zu for %zu bytes", name, room, bytes);
        run_text(&text, room);
        run_plan_text(&tables, &starts, room);
    }
    for (size_t places = 0; places <= (size_t)job.packets + 3; places++) {
        name_cases("%zu places for the starts of %s", places, name);
        run_starts(&tables, places);
    }
}

/* The longest plans: 1,024 lines, with late starts and with starts of every number of digits. */
static void long_plans(void)
{
    static const int digits[] = { 0, 9, 10, 99, 100, 999, 1000, 9999, 10000, 32767, 93, 94, 983, 984, 9983, 9984 };
    line_network(&tables, 17);
    for (int k = 0; k < 1024; k++)
        push_path(&tables, 0, 0, 16);
    for (int late = 0; late < 2; late++) {
        starts.count = 0;
        for (int k = 0; k < 1024; k++)
            push(&starts, late ? 32767 : digits[k % 16]);
        name_cases("1,024 lines");
        run_plan_text(&tables, &starts, ROOM);
        size_t bytes = planner.answer.value;
        for (size_t room = bytes - 1; room <= bytes + 1; room++) {
            name_cases("1,024 lines of %zu bytes, room %zu", bytes, room);
            run_plan_text(&tables, &starts, room);
        }
        run_check(&tables, &starts, 4);
    }
}

/* Rooms of which the last 16 bits of the length would be too short. */
static void long_rooms(void)
{
    show_job(&job, session_a);
    text_of_job(&job, &text);
    tables_of_job(&job, &tables);
    zero_starts();
    for (size_t places = 65536; places <= 65537; places++) {
        name_cases("%zu places for session A", places);
        run_text(&text, places);
        run_starts(&tables, places);
        run_plan_text(&tables, &starts, places);
        run_check(&tables, &starts, places);
        expect(planner.answer.refusal == 0 && planner.answer.value == 4, "%s", label);
    }
}

/* The reader's lists likewise, and 3,000 places longer than their sizes. The texts are taken, refused for a line, and too long. */
static void long_reader_lists(void)
{
    static const char *const shown[] = { session_a, "N 2\nL 0 1\nP 0 0\n\n", "N 2\nL 0 1\nL 1 0\nP 0 0\nP 0 0 1\n",
                                         "N 2\nL 0 1\nP 0 0\nP 1\n", "" };
    for (size_t i = 0; i < COUNT(shown); i++) {
        show_text(&text, shown[i]);
        if (text.bytes == 0)
            text_of_length(65536);
        for (int list = 0; list < JOB_LISTS; list++) {
            name_cases("lists of text %zu, list %d long", i, list);
            run_read(&text, list, 3000);
            run_read(&text, list, 65536 - (int)list_size[list]);
        }
        name_cases("lists of text %zu, all long", i);
        run_read(&text, -1, 3000);
        run_read(&text, -1, 70000);
    }
}

void rooms(void)
{
    show_job(&job, session_a);
    rooms_of("session A");
    show_job(&job, "N 1\n");
    rooms_of("no packets");
    show_job(&job, "N 2\nL 0 1\nP 0 0\n");
    rooms_of("one hop");
    show_job(&job, "N 2\nL 0 1\nP 0 0\nP 0 0\nP 0 0\nP 0 0\nP 0 0\nP 0 0\nP 0 0\nP 0 0\nP 0 0\nP 0 0\nP 0 0\nP 0 0\n");
    rooms_of("twelve packets on one link");
    long_plans();
    long_rooms();
    long_reader_lists();
}

/* ---- The reader's lists ---- */

/* Of their sizes, six times: so often, each lies at every place of its field. Then longer, and each in turn too short. */
static void reader_lists_of(const char *name)
{
    for (int again = 0; again < 6; again++) {
        name_cases("lists of %s", name);
        run_read(&text, -1, 0);
    }
    for (int list = -1; list < JOB_LISTS; list++) {
        static const int more[] = { -1024, -1023, -2, -1, 1, 2, 300 };
        for (size_t i = 0; i < COUNT(more); i++) {
            name_cases("lists of %s, list %d with %d places more", name, list, more[i]);
            run_read(&text, list, more[i]);
        }
    }
}

void reader_lists(void)
{
    static const char *const shown[] = {
        session_a, "N 1\n", "N 2\nL 0 1\nP 0 0\nP 0 0\n", "N 2\nL 0 1\n", "N 3\nL 2 1\nL 1 2\nP 2 0\nP 1 1\nP 2 0\n",
        "N 1\nP 0\nP 0\n", "N 3\nL 2 1\nL 1 2\nP 2 0\nP 1 1\nP 2\n",
        "", "N 2\nL 0 1\nP 0 0\n\n", "N 0\n", "N 2\nL 0 1\nL 2 0\n", "N 2\nL 0 1\nL 1 1\n", "N 2\nL 0 1\nP 0 0\nP 0 1\n",
        "N 2\nL 0 1\nP 0 0\nP 1 0\n", "N 2\nL 0 1\nL 1 0\nP 0 0\nP 0 0 1\n"
    };
    for (size_t i = 0; i < COUNT(shown); i++) {
        char name[20];
        sprintf(name, "text %zu", i);
        show_text(&text, shown[i]);
        reader_lists_of(name);
    }
}

/* ---- Jobs as large as can be. They take long, so each is asked once and none is kept. ---- */

void full_jobs(void)
{
    for (int last_hops = 16; last_hops <= 17; last_hops++) { /* all over links 0 to 15; one hop more needs one link more */
        line_text(18);
        for (int k = 0; k < 1023; k++)
            add_path(0, 0, 16);
        add_path(0, 0, last_hops);
        name_cases("1,024 packets, %d hops in all", 1023 * 16 + last_hops);
        run_text_everywhere(ROOM);
        expect(planner.answer.refusal == (last_hops == 16 ? 0 : 3), "%s, read", label);
    }
    for (int packets = 1024; packets <= 1025; packets++) {
        line_text(2);
        for (int k = 0; k < packets; k++)
            add_path(0, 0, 1);
        name_cases("%d packets on one link", packets);
        run_text_everywhere(ROOM);
        expect(planner.answer.refusal == (packets == 1024 ? 0 : 3), "%s, read", label);
    }
    line_network(&tables, 256);
    for (int k = 0; k < 64; k++)
        push_path(&tables, 0, 0, 255);
    push_path(&tables, 191, 191, 64);
    name_cases("16,384 hops over 255 links");
    run_starts(&tables, 65);
    expect(planner.answer.refusal == 0, "%s", label);
}
