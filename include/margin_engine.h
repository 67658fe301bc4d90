/*
 * The margin engine's calls, for programs in C (x86-64 Linux). `./install PREFIX` puts this header and the library libmargin_engine.a under
 * PREFIX, and `pkg-config --cflags --libs margin_engine` says how to compile and link with them.
 *
 * Every call takes any bytes and any numbers, ends, and returns
 *
 *     0                     the answer was written,
 *     100 * line + number   refused, and nothing was written: 309 is refusal 9 at line 3.
 *
 * margin_report, which takes a match, adds 1000000 * position to it: 2000309 is the same in the second position.
 *
 * docs/REFUSALS.md says what each number means. The header is line 0 and node i is line i + 1; refusals 1 and those from 11 on have line 0.
 *
 * A pointer is followed by its length: the number of entries that it points to, not of bytes. Each pointer must be valid for that many
 * entries and not null, also where the length is 0; the areas that a call may write (pointers without const) must lie apart from each
 * other and from those that it only reads, the text, the index, the policy and the file. This is all that a caller must see to, but for the stack:
 * 64 KB have room for every call, by measurement and not by proof. Nothing is kept between calls.
 *
 * `numbers` gets as many of an answer's numbers as it has room for. Entries past the answer keep what they held, in every area.
 *
 * Worths, bounds, margins and losses are whole numbers of grains, G of them to a point; in a report losses are thousandths of a point.
 *
 * A number in a text ends in the last of its columns. Before its digits may stand zeros, before these a minus if it is below 0, and before
 * that blanks alone; a minus before zeros alone is refused. Every call answers the same whatever zeros and blanks stand there.
 */
#ifndef MARGIN_ENGINE_H
#define MARGIN_ENGINE_H

#include <stddef.h>
#include <stdint.h>

#ifdef __cplusplus
extern "C" {
#endif

/* The largest table, its text, the most positions of a match, the greatest margin, budget and seed. Areas of the first three lengths have room for
 * every answer. */
#define MARGIN_MOST_NODES 1024
#define MARGIN_MOST_BYTES 25625
#define MARGIN_MOST_POSITIONS 500
#define MARGIN_GREATEST_MARGIN INT64_C(40000000000000)
#define MARGIN_GREATEST_BUDGET 1024
#define MARGIN_GREATEST_SEED INT64_C(2147483647)

/* What a refused call returned, taken apart. */
#define MARGIN_NUMBER(code) ((code) % 100)
#define MARGIN_LINE(code) ((code) / 100 % 10000)
#define MARGIN_POSITION(code) ((code) / 1000000)

/*
 * Reads a table. Refuses 1 to 10 and 18.
 *
 * numbers (8): the number of nodes, T, the lowest end, the highest end, K (the most C on a path), G, the number of leaves, the second
 * total (0 for none: columns 5-6 of the header hold blanks or zeros alone). The weights under a C sum to T or to the second total; G is T
 * to the power K, or with a second total each of the two to the power of the most C of it on a path, multiplied.
 * The other four get an entry for each node, by node number, as far as each has room:
 * kind: 0 for L, 1 for M, 2 for N, 3 for C.
 * stop: one past the last node under the node.
 * weight: the weight, 0 where there is none.
 * height: a leaf's utility minus the lowest end, 0 at other nodes.
 */
uint64_t margin_read(const uint8_t *text, size_t text_len, int64_t *numbers, size_t numbers_len, uint8_t *kind, size_t kind_len,
                     uint16_t *stop, size_t stop_len, uint8_t *weight, size_t weight_len, uint32_t *height, size_t height_len);

/*
 * The exact worth. Refuses 1 to 10 and 18.
 *
 * numbers (2): the worth, G.
 */
uint64_t margin_worth(const uint8_t *text, size_t text_len, int64_t *numbers, size_t numbers_len);

/*
 * Judges the play of root child `number`, counted from 1. Refuses 1 to 10 and 18, and 14 where an M or N root with two children or more
 * has no such child.
 *
 * numbers (3 or 1), without sign: 1, the loss and the number of level children, at an M or N root with two children or more; elsewhere 0
 * alone, for every `number`, as there is no decision: nobody chooses at a C or L root, and a single play is forced. The loss is the root's
 * worth minus the child's at M, the child's minus the root's at N. A child is level with the best where its loss is 0, so that at least
 * one is.
 */
uint64_t margin_judge(const uint8_t *text, size_t text_len, int64_t number, uint64_t *numbers, size_t numbers_len);

/*
 * The bounded search at a margin from 0 to MARGIN_GREATEST_MARGIN. Refuses 1 to 10 and 18, 12 for another margin, and 11 where `leaves`
 * has fewer entries than the table has leaves.
 *
 * leaves: the node numbers of the leaves read, in reading sequence.
 * numbers (7): low, high, the node number of the play (0 for none: the root is no play), the number of leaves read, G, high minus low, and
 * 0, as no budget is spent.
 *
 * The exact worth lies from low to high, which are at most the margin apart, and the play's worth is within the margin of it. Of the
 * root's children that were entered, the play is the one with the highest low at an M root, of several the one with the highest high; at an N
 * root the one with the lowest high, of several the one with the lowest low; then the first. margin_judge takes another number for a play, its
 * place among the root's children, from 1: the first child is node 1, and the next after node i is stop[i] of margin_read.
 */
uint64_t margin_search(const uint8_t *text, size_t text_len, int64_t margin, uint16_t *leaves, size_t leaves_len, int64_t *numbers,
                       size_t numbers_len);

/*
 * The same search with at most `budget` leaves read, 0 to MARGIN_GREATEST_BUDGET; margin_search is this one with the greatest. Refuses 1 to 10
 * and 18, 12 as margin_search does, 17 for another budget, and 11 where `leaves` has fewer entries than the table has leaves, whatever the budget.
 *
 * leaves and numbers as in margin_search, but that the last number is 1 where the budget was spent: where margin_search reads more leaves than
 * that.
 *
 * A budget that is not spent changes nothing in the answer. Where it is spent, the leaves are the first that margin_search reads, as many as
 * the budget; the exact worth still lies from low to high, and the play is worth at least low at an M root, at most high at an N root, but the
 * margin need not be kept. A child that was met when no read was left has the table's two ends as its bounds, and may be the play. With a
 * budget of 0 there is no play, and low and high are the table's two ends times G.
 */
uint64_t margin_search_within(const uint8_t *text, size_t text_len, int64_t margin, int64_t budget, uint16_t *leaves, size_t leaves_len,
                              int64_t *numbers, size_t numbers_len);

/*
 * Builds a table's index of ends, for margin_search_indexed. Refuses 1 to 10 and 18, and 11 where `lows` or `highs` has fewer entries than the
 * table has nodes.
 *
 * lows, highs: for each M, N and C, by node number, the lowest and the highest utility among the leaves under it, in points. The entries of
 * leaves keep what they held.
 */
uint64_t margin_index(const uint8_t *text, size_t text_len, int64_t *lows, size_t lows_len, int64_t *highs, size_t highs_len);

/*
 * The search at a margin with the index that margin_index builds from the same text. Refuses 1 to 10 and 18; then 22 where `lows` or `highs`
 * has fewer entries than the table has nodes, or holds at an M, N or C what is not the table's own (the entries of leaves may hold anything);
 * then 12 as margin_search does; then 11 where `leaves` has fewer entries than the table has leaves.
 *
 * leaves and numbers as in margin_search; there is no budget.
 *
 * What margin_search says of the bounds and the play holds here too, and mostly fewer leaves are read, as a line counts what is unread under it
 * at its own two ends and not at the table's: in seven tables from real play at most four leaves in ten of each, where margin_search reads more
 * than eight. The answer is the same whatever the other leaves are, provided that the index is; of margin_search it is the same whatever they are
 * within the table's ends. So it is for those who know all utilities and want an answer that rests on few of them. It takes about as long as
 * margin_search, as the index is worked out again to compare.
 */
uint64_t margin_search_indexed(const uint8_t *text, size_t text_len, int64_t margin, const int64_t *lows, size_t lows_len, const int64_t *highs,
                               size_t highs_len, uint16_t *leaves, size_t leaves_len, int64_t *numbers, size_t numbers_len);

/*
 * The turned table; both totals are kept. Refuses 1 to 10 and 18, and 11 where `buffer` is shorter than the text.
 *
 * buffer: the turned text, text_len bytes. Its numbers have blanks alone before them, so that turning twice gives the text of the same table
 * with blanks for zeros.
 */
uint64_t margin_turn(const uint8_t *text, size_t text_len, uint8_t *buffer, size_t buffer_len);

/* What rollouts know of a node. */
struct margin_record {
    int64_t low;
    int64_t high;
};

/*
 * Rollouts on a table without C, under a list of policy bytes. Refuses 1 to 10 and 18, 13 where the table has a C, and 11 where `leaves`
 * has fewer entries than the table has leaves or `store` fewer than it has nodes.
 *
 * policy: which of its candidates a walk takes at each inner node that it comes to. A byte b is used up there, and of m candidates, counted
 * from 0, number b mod m is taken; past the list's end the first. The list may be empty. The worth is the same under every list.
 * store: a record for each node, by node number, as last updated.
 * leaves: the node numbers of the leaves read, in reading sequence.
 * numbers (2): the worth, the number of leaves read. A grain is a point here, as there is no C. Where the two ends are equal, no leaf is
 * read.
 */
uint64_t margin_rollout(const uint8_t *text, size_t text_len, const uint8_t *policy, size_t policy_len, struct margin_record *store,
                        size_t store_len, uint16_t *leaves, size_t leaves_len, int64_t *numbers, size_t numbers_len);

/*
 * The report on a match file: positions one after another, each a play number in 4 columns and a newline, and then a table as long as its
 * header's count says. Each play is judged as by margin_judge, and its loss is marked by the scale of this number, 1 or 2. Refuses 20, with
 * position 0, for any other scale, before all else. Then with the position's number, from 1: 15 where a position begins after 500, 16 where a
 * play-number line is ill-written or the file ends in a position, 2 to 10 and 18 for its table, 14 as margin_judge does. At the end 11, with
 * position 0, where `kinds`, `losses` or `marks` has fewer entries than there are positions.
 *
 * kinds: for each position the kind of its root, as in margin_read.
 * losses: for each position its loss in thousandths of a point, rounded down; -1 where there is no decision, as by margin_judge.
 * marks: for each position 0 where there is no decision, else the mark of its loss: 1 no mark, 2 doubtful, 3 an error, 4 a blunder. By scale
 * 1, that of books in print, a loss is doubtful from 40 thousandths on, an error from 80, a blunder from 160; by scale 2, that of new books,
 * from 20, 50 and 100.
 * numbers (5): the number of positions, the number of decisions at M, the sum of their losses as listed, the same two at N.
 */
uint64_t margin_report(const uint8_t *file, size_t file_len, int64_t scale, uint8_t *kinds, size_t kinds_len, int64_t *losses,
                       size_t losses_len, uint8_t *marks, size_t marks_len, int64_t *numbers, size_t numbers_len);

/*
 * Writes a table to test with, from four numbers: equal numbers give equal bytes, wherever and whenever. Refuses 19 where the seed is not 0 to
 * MARGIN_GREATEST_SEED, `branching` not 2 to 5, `depth` not 0 to 9, `dice` neither 0 (without) nor 1 (with), or the table would have more than
 * MARGIN_MOST_NODES nodes; then 11 where `buffer` is shorter than the text; one of MARGIN_MOST_BYTES never is.
 *
 * buffer: the text, 25 bytes for the header and for each node, with blanks before its numbers. margin_read accepts it; margin_rollout refuses 13
 * where it has a C, as of any table.
 * numbers (1): how many bytes were written.
 *
 * M and N play by turns, M at the root, and `depth` plays lead to a leaf; with a depth of 0 there is one leaf alone. Each M and N has `branching`
 * children. Without dice these are what comes after the play, and T is 1. With dice each of them is a C with as many children of its own, and T is
 * 5 * (branching - 1), at depth 0 too: the C of play i, counted from 1, gives its child i the weight 4 * (branching - 1), four times in five, and
 * each other child the weight 1. The ends are 0 and 100. For each leaf, in the order of the lines, a state that begins as the seed becomes
 * s = (1103515245 * s + 12345) mod 2147483648, and the leaf is worth s / 65536, rounded down, mod 101.
 */
uint64_t margin_recipe(int64_t seed, int64_t branching, int64_t depth, int64_t dice, uint8_t *buffer, size_t buffer_len, int64_t *numbers,
                       size_t numbers_len);

#ifdef __cplusplus
}
#endif

#endif
