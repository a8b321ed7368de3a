/* wrong.h: wrong rules that simple.c can be made to follow, one at a time.
 *
 * A comparison that never fails shows nothing until it is seen to fail. So each mistake below, switched on in simple.c alone, has
 * to be noticed in every function that is named with it. */
#ifndef WRONG_H
#define WRONG_H

enum function { PLAN, READ, TABLES, STARTS, CHECK, LEAD, PLAN_TEXT, READ_PLAN, CHECK_TEXTS, FUNCTIONS };

enum {
    BY_PLAN = 1 << PLAN,
    BY_READ = 1 << READ,
    BY_STARTS = 1 << STARTS,
    BY_CHECK = 1 << CHECK,
    BY_LEAD = 1 << LEAD,
    BY_PLAN_TEXT = 1 << PLAN_TEXT,
    BY_READ_PLAN = 1 << READ_PLAN,
    BY_TEXTS = 1 << CHECK_TEXTS,
    BY_PLAN_READERS = BY_READ_PLAN | BY_TEXTS,                  /* those that take a plan as text */
    BY_TEXT = BY_PLAN | BY_READ | BY_TEXTS,                     /* those that take a job as text */
    BY_FORM = BY_TEXT | BY_READ_PLAN,                           /* those that take a text */
    BY_PLANNERS = BY_PLAN | BY_STARTS,
    BY_CHECKS = BY_CHECK | BY_TEXTS,                            /* those that show a clash */
    BY_WRITERS = BY_PLAN | BY_PLAN_TEXT,
    BY_COUNTS = BY_WRITERS | BY_PLAN_READERS,                   /* those that know a T line */
    BY_LENT = BY_PLANNERS | BY_CHECKS | BY_PLAN_TEXT | BY_READ_PLAN, /* those with one list lent for the answer */
    BY_GIVEN = BY_CHECK | BY_LEAD | BY_PLAN_TEXT,               /* those that take starts */
    BY_LISTS = 1 << TABLES | BY_STARTS | BY_GIVEN | BY_READ_PLAN, /* those that take a job as lists */
    BY_ALL = BY_TEXT | BY_LISTS
};

#define OFF_BY_ONE(X, name, functions, words) \
    X(name##_MORE, functions, words ": one more passes") \
    X(name##_LESS, functions, words ": the last that is allowed is refused")

#define WRONG_RULES(X) \
    /* errors that look reasonable */ \
    X(STARTS_COMPARED, BY_PLANNERS | BY_CHECKS | BY_LEAD, "starts are compared, not the steps in which a link is entered") \
    X(FIRST_SHARED_LINK, BY_PLANNERS | BY_CHECKS, "two packets are kept apart at their first shared link only") \
    X(AFTER_LAST_USE, BY_PLANNERS, "a packet starts after the last use of its links, not in the first gap") \
    X(LAST_END, BY_COUNTS, "the routing time is the last packet's end") \
    X(GREATEST_START, BY_COUNTS, "the routing time is the greatest start") \
    X(DIRECTIONS_BLOCK, BY_PLANNERS | BY_CHECKS, "the two directions of a wire block each other") \
    X(PARALLELS_BLOCK, BY_PLANNERS | BY_CHECKS, "parallel links block each other") \
    /* refusals in another order: text */ \
    X(TEXT_2_BEFORE_1, BY_TEXT, "text: the lines come before the length") \
    X(TEXT_3_BEFORE_2, BY_TEXT, "text: 3 before 2 on a line") \
    X(TEXT_4_BEFORE_3, BY_TEXT, "text: 4 before 3 on a line") \
    X(TEXT_5_BEFORE_4, BY_TEXT, "text: 5 before 4 on a line") \
    X(TEXT_HOPS_BEFORE_4, BY_TEXT, "text: the hops before 4 on a line") \
    X(TEXT_15_BEFORE_3, BY_TEXT, "text: 15 before 3 on a line") \
    X(TEXT_15_BEFORE_4, BY_TEXT, "text: 15 before 4 on a line") \
    X(TEXT_FORM_FIRST, BY_TEXT, "text: bad form further down before any other refusal further up") \
    /* ... paths */ \
    X(PATH_7_BEFORE_6, BY_ALL, "path: 7 before 6 at a hop") \
    X(PATH_8_BEFORE_7, BY_ALL, "path: 8 before 7 at a hop") \
    X(PATH_RULE_BY_RULE, BY_ALL, "path: 6 of all hops, then 7 of all, then 8 of all") \
    /* ... lists */ \
    X(LISTS_3_BEFORE_9, BY_LISTS, "lists: 3 before 9") \
    X(LISTS_LINKS_BEFORE_3, BY_LISTS, "lists: the links before the sizes") \
    X(LISTS_PACKETS_BEFORE_LINKS, BY_LISTS, "lists: the packets before the links") \
    X(LISTS_5_BEFORE_4, BY_LISTS, "lists: 5 before 4 of a link") \
    X(LISTS_LINKS_RULE_BY_RULE, BY_LISTS, "lists: 4 of all links before 5 of any") \
    X(LISTS_4_BEFORE_3, BY_LISTS, "lists: 4 before 3 of a packet") \
    X(LISTS_HOPS_BEFORE_4, BY_LISTS, "lists: the hops before 4 of a packet") \
    X(LISTS_15_BEFORE_3, BY_LISTS, "lists: 15 of any packet before the sizes") \
    X(LISTS_15_BEFORE_4, BY_LISTS, "lists: 15 before 4 of a packet") \
    X(LISTS_PACKETS_RULE_BY_RULE, BY_LISTS, "lists: 3 and 4 of all packets before the hops of any") \
    /* ... packets without hops */ \
    X(NO_HOPS_FIRST, BY_ALL, "15 of a packet before all else of the packets above it") \
    X(NO_HOPS_LAST, BY_ALL, "15 of a packet after all else of the packets below it") \
    /* ... after them */ \
    X(ROOM_FIRST, BY_LENT, "10 before every other refusal") \
    X(ROOM_BEFORE_12, BY_CHECKS | BY_PLAN_TEXT | BY_READ_PLAN, "10 before 12") \
    X(STARTS_11_BEFORE_LISTS, BY_GIVEN, "11 before the lists are looked at") \
    X(STARTS_12_BEFORE_11, BY_GIVEN, "12 before 11") \
    X(LEAD_13_BEFORE_12, BY_LEAD, "13 before 12") \
    X(LEAD_13_BEFORE_LISTS, BY_LEAD, "13 for a packet with itself before the lists are looked at") \
    /* limits */ \
    OFF_BY_ONE(X, BYTES, BY_TEXT, "bytes of a text") \
    OFF_BY_ONE(X, NODES, BY_ALL, "nodes") \
    OFF_BY_ONE(X, LINKS, BY_ALL, "links") \
    OFF_BY_ONE(X, PACKETS, BY_ALL, "packets") \
    OFF_BY_ONE(X, PATH_HOPS, BY_ALL, "hops of a path") \
    OFF_BY_ONE(X, HOPS, BY_ALL, "hops in all") \
    OFF_BY_ONE(X, START, BY_GIVEN | BY_PLAN_READERS, "a start") \
    OFF_BY_ONE(X, NUMBER, BY_FORM, "a number in a text") \
    OFF_BY_ONE(X, NODE_NUMBER, BY_ALL, "a node's number") \
    OFF_BY_ONE(X, LINK_NUMBER, BY_ALL, "a link's number") \
    X(NO_NODES, BY_ALL, "nodes: none at all passes") \
    X(NO_HOPS, BY_ALL, "hops of a path: none at all passes") \
    X(ONE_HOP, BY_ALL, "hops of a path: a single one is refused by 15") \
    /* rules that hold up to some number below a limit, and then no more */ \
    X(HOPS_FROM_200_FREE, BY_PLANNERS | BY_CHECKS, "hops from 200 on never conflict") \
    X(PACKETS_FROM_1000_AT_0, BY_PLANNERS, "packets from 1,000 on start at 0") \
    X(VISITED_200, BY_ALL, "8 is seen only of the last 200 nodes visited") \
    X(LATE_FROM_1000_UNSEEN, BY_GIVEN, "12 is not seen from packet 1,000 on") \
    X(NO_HOPS_FROM_1000, BY_ALL, "15 is not seen from packet 1,000 on") \
    X(READ_1000_PAST_CLEARED, BY_READ, "reader: of the places past a list's size only 1,000 are cleared") \
    /* lengths of which only 16 bits are looked at */ \
    X(TEXT_16_BITS, BY_TEXT, "16 bits of a text's length") \
    X(LINKS_16_BITS, BY_LISTS, "9: 16 bits of the numbers of origins and ends") \
    X(PACKETS_16_BITS, BY_LISTS, "9: 16 bits of the numbers of sources and stops") \
    X(HOPS_16_BITS, BY_LISTS, "9: 16 bits of the number of hops") \
    X(STARTS_16_BITS, BY_GIVEN, "11: 16 bits of the number of starts") \
    X(LENT_16_BITS, BY_LENT | BY_READ, "10: 16 bits of the places of a lent list") \
    /* bad forms that are taken */ \
    X(CARRIAGE_RETURN, BY_FORM, "form: a carriage return before the line feed passes") \
    X(LEADING_ZERO, BY_FORM, "form: leading zeros pass") \
    X(LINK_BELOW_PACKET, BY_TEXT, "form: an L line below a P line passes") \
    X(NO_LAST_LINE_FEED, BY_FORM, "form: the last line feed may be missing") \
    X(EMPTY_LINE, BY_TEXT, "form: empty lines are skipped") \
    X(EXTRA_FIELD, BY_TEXT, "form: one number too many on an N or L line passes") \
    X(SPACE_FOR_TAB, BY_FORM, "form: a space parts fields as a tab does") \
    /* places and answers */ \
    X(LINES_FROM_0, BY_TEXT, "lines are counted from 0") \
    X(LATE_AT_HIGHEST, BY_GIVEN, "12 at the highest packet, not at the lowest") \
    X(NO_HOPS_AT_NEXT, BY_ALL, "15 at the line or packet after the one without hops") \
    X(NO_HOPS_AT_0_UNSEEN, BY_LISTS, "lists: 15 is not seen of packet 0, which has no stop before its own") \
    X(NO_HOPS_IS_3, BY_ALL, "a packet without hops is refused by 3") \
    X(NO_HOPS_IS_2, BY_TEXT, "text: a packet without hops is refused by 2") \
    X(NO_HOPS_IS_9, BY_LISTS, "lists: equal stops are refused by 9") \
    X(C_AND_D_SWAPPED, BY_COUNTS, "C and D are swapped") \
    X(CLASH_HIGHEST_PACKET, BY_CHECKS, "the highest clashing packet is shown") \
    X(CLASH_LAST_HOP, BY_CHECKS, "the last clashing hop is shown") \
    X(CLASH_PAIR_TURNED, BY_CHECKS, "the earlier packet of a clash is shown first") \
    X(CLASH_HOP_FOR_LINK, BY_CHECKS, "the hop of a clash is shown for its link") \
    X(CLASH_START_FOR_STEP, BY_CHECKS, "the start is shown for the step of a clash") \
    X(LEAD_TURNED, BY_LEAD, "the lead has the other sign") \
    /* lent lists */ \
    X(EXACT_ROOM_REFUSED, BY_LENT, "10 although the room is just enough") \
    X(REFUSAL_WRITES, BY_LENT, "10, but as much as fits is written") \
    X(WRITES_PAST, BY_LENT, "one place after the answer is changed too") \
    /* the reader's lists */ \
    X(READ_10_BEFORE_1, BY_READ, "reader: 10 before 1") \
    X(READ_10_LAST, BY_READ, "reader: 10 after the lines") \
    X(READ_SIZE_REFUSED, BY_READ, "reader: 10 although every list has its size") \
    X(READ_ORIGINS_UNSEEN, BY_READ, "reader: origins may be too short") \
    X(READ_ENDS_UNSEEN, BY_READ, "reader: ends may be too short") \
    X(READ_SOURCES_UNSEEN, BY_READ, "reader: sources may be too short") \
    X(READ_STOPS_UNSEEN, BY_READ, "reader: stops may be too short") \
    X(READ_HOPS_UNSEEN, BY_READ, "reader: hops may be too short") \
    X(READ_1_CLEARS, BY_READ, "reader: the lists are all zero after 1") \
    X(READ_10_CLEARS, BY_READ, "reader: the lists are all zero after 10") \
    X(READ_REFUSED_UNCHANGED, BY_READ, "reader: other refusals leave the lists as they were") \
    X(READ_HALF_FILLED, BY_READ, "reader: after other refusals the lists hold what was read until then") \
    X(READ_REFUSED_COUNTED, BY_READ, "reader: the counts of a refused text are those read until then") \
    X(READ_PAST_UNCHANGED, BY_READ, "reader: places past the counts are left as they were") \
    X(READ_SIZES_CLEARED, BY_READ, "reader: places past a list's size are left as they were") \
    X(READ_LINKS_TURNED, BY_READ, "reader: origins and ends are taken for each other") \
    X(READ_STOPS_AT_BEGIN, BY_READ, "reader: a stop is where the path begins") \
    /* plans read back: refusals in another order */ \
    X(PLAN_1_BEFORE_JOB, BY_PLAN_READERS, "plan: its length before its job") \
    X(PLAN_2_BEFORE_JOB, BY_PLAN_READERS, "plan: its S lines before its job") \
    X(PLAN_2_BEFORE_1, BY_PLAN_READERS, "plan: the S lines before the length") \
    X(PLAN_1_LAST, BY_PLAN_READERS, "plan: the length last") \
    X(PLAN_11_BEFORE_2, BY_PLAN_READERS, "plan: 11 before the S lines") \
    X(PLAN_T_BEFORE_11, BY_PLAN_READERS, "plan: the T line before 11") \
    X(PLAN_VALUES_BEFORE_11, BY_PLAN_READERS, "plan: 12 and 14 before 11") \
    X(PLAN_VALUES_BEFORE_T, BY_PLAN_READERS, "plan: 12 and 14 of the S lines before 2 of the T line") \
    X(PLAN_14_BEFORE_12, BY_PLAN_READERS, "plan: 14 before 12 on a line") \
    X(PLAN_12_OF_ALL_FIRST, BY_PLAN_READERS, "plan: 12 of all lines before 14 of any") \
    X(PLAN_T_VALUES_FIRST, BY_PLAN_READERS, "plan: 14 of the T line before 12 and 14 of the S lines") \
    /* ... its lines */ \
    X(PLAN_S_FROM_1, BY_PLAN_READERS, "plan: S lines are numbered from 1") \
    X(PLAN_S_ANY_NUMBER, BY_PLAN_READERS, "plan: an S line may name any packet") \
    X(PLAN_S_ENOUGH, BY_PLAN_READERS, "plan: an S line too many is taken for the T line") \
    X(PLAN_S_PAST_UNSEEN, BY_PLAN_READERS, "plan: of the S lines too many only the first is looked at") \
    X(PLAN_S_FIELD, BY_PLAN_READERS, "plan: a line that begins with S and has no tab behind it ends the S lines") \
    X(PLAN_S_CUT, BY_PLAN_READERS, "plan: an S line without line feed ends the S lines") \
    X(PLAN_EXTRA_FIELD, BY_PLAN_READERS, "plan: one number too many on a line passes") \
    X(PLAN_MORE_TAKEN, BY_PLAN_READERS, "plan: more S lines than packets pass") \
    X(PLAN_FEWER_TAKEN, BY_PLAN_READERS, "plan: fewer S lines than packets pass") \
    X(PLAN_NO_T_TAKEN, BY_PLAN_READERS, "plan: the T line may be missing") \
    X(PLAN_AFTER_T_TAKEN, BY_PLAN_READERS, "plan: anything may stand below the T line") \
    X(PLAN_EMPTY_AFTER_T, BY_PLAN_READERS, "plan: an empty line may stand below the T line") \
    OFF_BY_ONE(X, PLAN_BYTES, BY_PLAN_READERS, "bytes of a plan") \
    X(PLAN_16_BITS, BY_PLAN_READERS, "16 bits of a plan's length") \
    /* ... what they say */ \
    X(PLAN_END_UNSEEN, BY_PLAN_READERS, "plan: 14 is not looked for on S lines") \
    X(PLAN_END_IS_START, BY_PLAN_READERS, "plan: 14 unless an end is the start") \
    X(PLAN_T_UNSEEN, BY_PLAN_READERS, "plan: 14 is not looked for on the T line") \
    X(PLAN_TIME_UNSEEN, BY_PLAN_READERS, "plan: the routing time may be any") \
    X(PLAN_C_UNSEEN, BY_PLAN_READERS, "plan: C may be any") \
    X(PLAN_D_UNSEEN, BY_PLAN_READERS, "plan: D may be any") \
    X(PLAN_D_FOR_C, BY_PLAN_READERS, "plan: D is expected for C") \
    X(PLAN_C_FOR_D, BY_PLAN_READERS, "plan: C is expected for D") \
    X(PLAN_LATE_FROM_1000_UNSEEN, BY_PLAN_READERS, "plan: 12 is not seen from packet 1,000 on") \
    X(PLAN_END_FROM_1000_UNSEEN, BY_PLAN_READERS, "plan: 14 is not seen from packet 1,000 on") \
    /* ... places and answers */ \
    X(PLAN_LINES_FROM_0, BY_PLAN_READERS, "plan: for 2 lines are counted from 0") \
    X(PLAN_VALUES_AT_PACKET, BY_PLAN_READERS, "plan: for 12 and 14 lines are counted from 0") \
    X(PLAN_LAST_BAD_LINE, BY_PLAN_READERS, "plan: 12 or 14 of the last line that has it") \
    X(PLAN_11_COUNTED, BY_PLAN_READERS, "plan: the place of 11 is the number of S lines") \
    X(PLAN_11_AT_LINE, BY_PLAN_READERS, "plan: the place of 11 is the line below the S lines") \
    X(PLAN_NO_T_AT_LAST, BY_PLAN_READERS, "plan: a missing T line is told at the last line that there is") \
    X(PLAN_AFTER_T_AT_T, BY_PLAN_READERS, "plan: what stands below the T line is told at the T line") \
    X(PLAN_ENDS_TOLD, BY_READ_PLAN, "plan: the ends are told, not the starts") \
    X(PLAN_REFUSAL_WRITES, BY_READ_PLAN, "plan: a refusal leaves starts behind") \
    /* two texts */ \
    X(TEXTS_PLAN_AS_JOB, BY_TEXTS, "texts: the plan's refusal is told as the job's") \
    X(TEXTS_JOB_AS_PLAN, BY_TEXTS, "texts: the job's refusal is told as the plan's") \
    X(TEXTS_UNTOLD, BY_TEXTS, "texts: it is not told whose refusal it is") \
    X(TEXTS_10_OF_PLAN, BY_TEXTS, "texts: 10 is told as the plan's refusal") \
    X(TEXTS_CLASH_OF_PLAN, BY_TEXTS, "texts: a clash is told of the plan's text")

#define WRONG_NAME(name, functions, words) name,
enum wrong { NOTHING_WRONG, WRONG_RULES(WRONG_NAME) WRONG_COUNT };
#undef WRONG_NAME

extern enum wrong wrong; /* the one that is switched on */

#endif
