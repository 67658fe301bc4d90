/* Calls every function of the header on document 01's tables A and B, on a forced play, on level plays, on plays that tie in the search, on a
 * match, on a first roll, whose table has two totals, on B with zeros before its numbers, and on a table by recipe, and says where an answer is not
 * as it should be: calls B A FORCED LEVEL TIES MATCH ROLL RECIPE, the files of the first seven and of the last. What it expects is printed in
 * document 01, or read off the tables. */
#include <stdio.h>
#include <string.h>

#include "margin_engine.h"

static uint8_t b[MARGIN_MOST_BYTES], a[MARGIN_MOST_BYTES], forced[MARGIN_MOST_BYTES], level[MARGIN_MOST_BYTES];
static uint8_t ties[MARGIN_MOST_BYTES], match[MARGIN_MOST_BYTES], roll[MARGIN_MOST_BYTES], recipe[MARGIN_MOST_BYTES];
static size_t b_len, a_len, forced_len, level_len, ties_len, match_len, roll_len, recipe_len;
static int bad;

#define SAME(count, got, ...) same(__LINE__, count, sizeof (got)[0], (got), (const int64_t[]){__VA_ARGS__})

/* Compares `count` entries of an array whose entries have `size` bytes; an entry past the answer must be as it was, all ones. */
static void same(int line, size_t count, size_t size, const void *got, const int64_t *expected) {
    const uint8_t *bytes = got;
    for (size_t i = 0; i < count; i++) {
        int64_t entry = 0;
        memcpy(&entry, bytes + i * size, size);
        if (entry != expected[i]) {
            printf("calls.c:%d: entry %zu is %lld, not %lld\n", line, i, (long long)entry, (long long)expected[i]);
            bad = 1;
        }
    }
    for (size_t i = count * size; i < (count + 1) * size; i++) {
        if (bytes[i] != 0xff) {
            printf("calls.c:%d: the entry after the answer was written\n", line);
            bad = 1;
            return;
        }
    }
}

static void returned(const char *call, uint64_t code, uint64_t expected) {
    if (code != expected) {
        printf("calls.c: %s returned %llu, not %llu\n", call, (unsigned long long)code, (unsigned long long)expected);
        bad = 1;
    }
}

static size_t load(const char *path, uint8_t *text) {
    FILE *file = fopen(path, "rb");
    if (file == NULL) return 0;
    size_t length = fread(text, 1, MARGIN_MOST_BYTES, file);
    fclose(file);
    return length;
}

static void reading(void) {
    int64_t numbers[9];
    uint8_t kind[6], weight[6];
    uint16_t stop[6];
    uint32_t height[6];
    memset(numbers, 0xff, sizeof numbers);
    memset(kind, 0xff, sizeof kind);
    memset(stop, 0xff, sizeof stop);
    memset(weight, 0xff, sizeof weight);
    memset(height, 0xff, sizeof height);
    returned("margin_read", margin_read(b, b_len, numbers, 9, kind, 6, stop, 6, weight, 6, height, 6), 0);
    SAME(8, numbers, 5, 4, 0, 8, 1, 4, 3, 0);
    SAME(5, kind, 1, 0, 3, 0, 0);
    SAME(5, stop, 5, 2, 5, 4, 5);
    SAME(5, weight, 0, 0, 0, 3, 1);
    SAME(5, height, 0, 5, 0, 2, 8);
}

/* 64 four times on a path and 63 once on another: 64 to the power 4 is the greatest grain count, so 63 times that is too great. */
static const char grains[] = "   86364       0       0\n"
                             "   0 M                  \n"
                             "   1 C    0             \n"
                             "   2 C    1   64        \n"
                             "   3 C    2   64        \n"
                             "   4 C    3   64        \n"
                             "   5 L    4   64       0\n"
                             "   6 C    0             \n"
                             "   7 L    6   63       0\n";

/* A first roll of weights that sum to 15, then all rolls, which sum to 36. The second total becomes 36, as T is, then 16, which no C sums to, and
 * 15 again. */
static void two_totals(void) {
    int64_t numbers[9];
    uint8_t kind[1], weight[1];
    uint16_t stop[1];
    uint32_t height[1];
    memset(numbers, 0xff, sizeof numbers);
    for (int i = 0; i < 3; i++) {
        memcpy(roll + 4, (const char *[]){"36", "16", "15"}[i], 2);
        const uint64_t code = margin_read(roll, roll_len, numbers, 9, kind, 0, stop, 0, weight, 0, height, 0);
        returned("margin_read of two totals", code, (const uint64_t[]){3, 109, 0}[i]);
        if (code != 0) SAME(0, numbers, 0);
    }
    SAME(8, numbers, 1006, 36, -3000, 3000, 2, 540, 945, 15);
    returned("margin_worth of too many grains", margin_worth((const uint8_t *)grains, sizeof grains - 1, numbers, 9), 18);
}

static void worth(void) {
    int64_t numbers[3];
    memset(numbers, 0xff, sizeof numbers);
    returned("margin_worth", margin_worth(b, b_len, numbers, 3), 0);
    SAME(2, numbers, 20, 4);
}

static void judging(void) {
    uint64_t numbers[4];
    memset(numbers, 0xff, sizeof numbers);
    returned("margin_judge of no child", margin_judge(b, b_len, 3, numbers, 4), 14);
    SAME(0, numbers, 0);
    returned("margin_judge", margin_judge(b, b_len, 2, numbers, 4), 0);
    SAME(3, numbers, 1, 6, 1);
    memset(numbers, 0xff, sizeof numbers);
    returned("margin_judge with level plays", margin_judge(level, level_len, 2, numbers, 4), 0);
    SAME(3, numbers, 1, 3, 2);
    memset(numbers, 0xff, sizeof numbers);
    returned("margin_judge of a forced play", margin_judge(forced, forced_len, 3, numbers, 4), 0);
    SAME(1, numbers, 0);
}

static void searching(void) {
    int64_t numbers[8];
    uint16_t leaves[3];
    memset(numbers, 0xff, sizeof numbers);
    memset(leaves, 0xff, sizeof leaves);
    returned("margin_search in a short list", margin_search(b, b_len, 12, leaves, 2, numbers, 8), 11);
    SAME(0, numbers, 0);
    SAME(0, leaves, 0);
    returned("margin_search", margin_search(b, b_len, 12, leaves, 3, numbers, 8), 0);
    SAME(7, numbers, 20, 32, 1, 1, 4, 12, 0);
    SAME(1, leaves, 1);
}

/* Plays of low 0 and of highs 2, 3 and 3; with one read the second and the third are met unread, from 0 to 10. */
static void ties_broken(void) {
    int64_t numbers[8];
    uint16_t leaves[6];
    memset(numbers, 0xff, sizeof numbers);
    memset(leaves, 0xff, sizeof leaves);
    returned("margin_search of plays that tie", margin_search(ties, ties_len, 3, leaves, 6, numbers, 8), 0);
    SAME(7, numbers, 0, 3, 4, 3, 1, 3, 0);
    SAME(3, leaves, 2, 5, 8);
    memset(leaves, 0xff, sizeof leaves);
    returned("margin_search_within one read", margin_search_within(ties, ties_len, 3, 1, leaves, 6, numbers, 8), 0);
    SAME(7, numbers, 0, 10, 4, 1, 1, 10, 1);
    SAME(1, leaves, 2);
}

static void searching_within(void) {
    int64_t numbers[8];
    uint16_t leaves[5];
    memset(numbers, 0xff, sizeof numbers);
    memset(leaves, 0xff, sizeof leaves);
    returned("margin_search_within a budget out of range", margin_search_within(a, a_len, 0, MARGIN_GREATEST_BUDGET + 1, leaves, 2, numbers, 8), 17);
    SAME(0, numbers, 0);
    SAME(0, leaves, 0);
    returned("margin_search_within", margin_search_within(a, a_len, 0, 2, leaves, 5, numbers, 8), 0);
    SAME(7, numbers, 3, 10, 1, 2, 1, 7, 1);
    SAME(2, leaves, 2, 3);
    returned("margin_search_within what is needed", margin_search_within(a, a_len, 0, 3, leaves, 5, numbers, 8), 0);
    SAME(7, numbers, 3, 3, 1, 3, 1, 0, 0);
    SAME(3, leaves, 2, 3, 5);
}

/* Under the N of A stand 3 and 5, 2 and 9: once leaf 2 is read, the first is known to be 3, so that leaf 3 is not. B has another index. */
static void indexing(void) {
    int64_t numbers[8], lows[8], highs[8];
    uint16_t leaves[5];
    memset(numbers, 0xff, sizeof numbers);
    memset(lows, 0xff, sizeof lows);
    memset(highs, 0xff, sizeof highs);
    memset(leaves, 0xff, sizeof leaves);
    returned("margin_index in a short list", margin_index(a, a_len, lows, 8, highs, 6), 11);
    SAME(0, lows, 0);
    SAME(0, highs, 0);
    returned("margin_index", margin_index(a, a_len, lows, 8, highs, 8), 0);
    SAME(7, lows, 2, 3, -1, -1, 2, -1, -1);
    SAME(7, highs, 9, 5, -1, -1, 9, -1, -1);
    returned("margin_search_indexed of another table", margin_search_indexed(b, b_len, 0, lows, 8, highs, 8, leaves, 5, numbers, 8), 22);
    returned("margin_search_indexed with a short index", margin_search_indexed(a, a_len, -1, lows, 6, highs, 8, leaves, 3, numbers, 8), 22);
    returned("margin_search_indexed at no margin", margin_search_indexed(a, a_len, -1, lows, 7, highs, 7, leaves, 3, numbers, 8), 12);
    returned("margin_search_indexed in a short list", margin_search_indexed(a, a_len, 0, lows, 7, highs, 7, leaves, 3, numbers, 8), 11);
    SAME(0, numbers, 0);
    SAME(0, leaves, 0);
    returned("margin_search_indexed", margin_search_indexed(a, a_len, 0, lows, 7, highs, 7, leaves, 5, numbers, 8), 0);
    SAME(7, numbers, 3, 3, 1, 2, 1, 0, 0);
    SAME(2, leaves, 2, 5);
}

static void turning(void) {
    static uint8_t turned[MARGIN_MOST_BYTES], twice[MARGIN_MOST_BYTES];
    returned("margin_turn", margin_turn(b, b_len, turned, sizeof turned), 0);
    returned("margin_turn of the turned", margin_turn(turned, b_len, twice, sizeof twice), 0);
    if (memcmp(b, twice, b_len) != 0 || memcmp(b, turned, b_len) == 0) {
        printf("calls.c: B turned twice is not B, or once is\n");
        bad = 1;
    }
}

/* Table B with zeros before its numbers. */
static char zeros[] = "000500040000000000000008\n"
                      "0000 M                  \n"
                      "0001 L00000     00000005\n"
                      "0002 C00000             \n"
                      "0003 L000020000300000002\n"
                      "0004 L000020000100000008\n";

/* It has B's worth, and turned twice it is B with blanks; a lowest end of -0000000 is refused. */
static void padding(void) {
    static uint8_t turned[MARGIN_MOST_BYTES], twice[MARGIN_MOST_BYTES];
    const size_t length = sizeof zeros - 1;
    int64_t numbers[3];
    memset(numbers, 0xff, sizeof numbers);
    returned("margin_worth of zeros", margin_worth((const uint8_t *)zeros, length, numbers, 3), 0);
    SAME(2, numbers, 20, 4);
    returned("margin_turn of zeros", margin_turn((const uint8_t *)zeros, length, turned, sizeof turned), 0);
    returned("margin_turn of these turned", margin_turn(turned, length, twice, sizeof twice), 0);
    if (length != b_len || memcmp(b, twice, b_len) != 0) {
        printf("calls.c: B with zeros, turned twice, is not B\n");
        bad = 1;
    }
    zeros[8] = '-';
    returned("margin_worth of minus zeros", margin_worth((const uint8_t *)zeros, length, numbers, 3), 2);
}

static void rollouts(void) {
    int64_t numbers[3];
    uint16_t leaves[5];
    struct margin_record store[8];
    const uint8_t ones[2] = {1, 1};
    memset(numbers, 0xff, sizeof numbers);
    memset(leaves, 0xff, sizeof leaves);
    memset(store, 0xff, sizeof store);
    returned("margin_rollout of B", margin_rollout(b, b_len, ones, 0, store, 8, leaves, 5, numbers, 3), 13);
    returned("margin_rollout", margin_rollout(a, a_len, ones, 0, store, 8, leaves, 5, numbers, 3), 0);
    SAME(2, numbers, 3, 3);
    SAME(3, leaves, 2, 3, 5);
    if (store[0].low != 3 || store[0].high != 3 || store[4].low != 0 || store[4].high != 2 || store[6].high != 10 || store[7].low != -1) {
        printf("calls.c: the store of A is not as its rollouts leave it\n");
        bad = 1;
    }
    returned("margin_rollout with a policy", margin_rollout(a, a_len, ones, 2, store, 8, leaves, 5, numbers, 3), 0);
    SAME(2, numbers, 3, 4);
    SAME(4, leaves, 6, 2, 3, 5);
}

/* A match of seven positions, the last of them a C; play 1 of the second becomes play 3, which there is none of, and play 1 again. */
static void report(void) {
    const size_t second = 5 + 25 * 6; /* after a play number, a header and five nodes */
    int64_t numbers[6], losses[8];
    uint8_t kinds[8], marks[8];
    memset(numbers, 0xff, sizeof numbers);
    memset(kinds, 0xff, sizeof kinds);
    memset(losses, 0xff, sizeof losses);
    memset(marks, 0xff, sizeof marks);
    returned("margin_report by scale 3", margin_report(match, match_len, 3, kinds, 8, losses, 0, marks, 8, numbers, 6), 20);
    returned("margin_report in a short list", margin_report(match, match_len, 1, kinds, 8, losses, 6, marks, 8, numbers, 6), 11);
    returned("margin_report with too few marks", margin_report(match, match_len, 1, kinds, 8, losses, 8, marks, 6, numbers, 6), 11);
    match[second + 3] = '3';
    const uint64_t code = margin_report(match, match_len, 2, kinds, 8, losses, 8, marks, 8, numbers, 6);
    returned("margin_report of no child", code, 2000014);
    returned("its number", MARGIN_NUMBER(code), 14);
    returned("its line", MARGIN_LINE(code), 0);
    returned("its position", MARGIN_POSITION(code), 2);
    SAME(0, numbers, 0);
    SAME(0, kinds, 0);
    SAME(0, losses, 0);
    SAME(0, marks, 0);
    match[second + 3] = '1';
    losses[6] = 0; /* so that the -1 of no decision is seen to be written */
    returned("margin_report by scale 1", margin_report(match, match_len, 1, kinds, 8, losses, 8, marks, 8, numbers, 6), 0);
    SAME(5, numbers, 7, 4, 165, 2, 277);
    SAME(7, kinds, 1, 1, 1, 2, 1, 2, 3);
    SAME(7, losses, 0, 27, 55, 111, 83, 166, -1);
    SAME(7, marks, 1, 1, 2, 3, 3, 4, 0);
    returned("margin_report by scale 2", margin_report(match, match_len, 2, kinds, 8, losses, 8, marks, 8, numbers, 6), 0);
    SAME(7, marks, 1, 2, 3, 4, 3, 4, 0);
}

/* Seed 1, branching 2, depth 1, with dice: the states are 1103527590, 377401575, 662824084 and 1147902781. */
static const char made_by_hand[] = "   7   5       0     100\n"
                                   "   0 M                  \n"
                                   "   1 C    0             \n"
                                   "   2 L    1    4      72\n"
                                   "   3 L    1    1       1\n"
                                   "   4 C    0             \n"
                                   "   5 L    4    1      13\n"
                                   "   6 L    4    4      42\n";

/* The recipe of the example, with 31 nodes, and the one above, whose first play is worth (4 x 72 + 1) / 5 points. */
static void recipes(void) {
    static uint8_t made[MARGIN_MOST_BYTES];
    const size_t length = sizeof made_by_hand - 1;
    int64_t numbers[3];
    memset(made, 0xff, sizeof made);
    memset(numbers, 0xff, sizeof numbers);
    returned("margin_recipe of no seed", margin_recipe(MARGIN_GREATEST_SEED + 1, 2, 1, 1, made, sizeof made, numbers, 3), 19);
    returned("margin_recipe of no branching", margin_recipe(1, 6, 1, 1, made, sizeof made, numbers, 3), 19);
    returned("margin_recipe of no depth", margin_recipe(1, 2, -1, 1, made, 0, numbers, 3), 19);
    returned("margin_recipe of no dice", margin_recipe(1, 2, 1, 2, made, sizeof made, numbers, 3), 19);
    returned("margin_recipe of 2047 nodes", margin_recipe(1, 2, 5, 1, made, sizeof made, numbers, 3), 19);
    returned("margin_recipe in a short buffer", margin_recipe(1, 2, 1, 1, made, length - 1, numbers, 3), 11);
    SAME(0, made, 0);
    SAME(0, numbers, 0);
    returned("margin_recipe", margin_recipe(1, 2, 1, 1, made, length, numbers, 3), 0);
    SAME(1, numbers, 200);
    if (length != 200 || memcmp(made_by_hand, made, length) != 0 || made[length] != 0xff) {
        printf("calls.c: the table of seed 1 is not as it is worked out by hand\n");
        bad = 1;
    }
    returned("margin_worth of it", margin_worth(made, length, numbers, 3), 0);
    SAME(2, numbers, 289, 5);
    memset(made, 0xff, sizeof made);
    memset(numbers, 0xff, sizeof numbers);
    returned("margin_recipe of the example", margin_recipe(7, 2, 2, 1, made, sizeof made, numbers, 3), 0);
    SAME(1, numbers, 800);
    if (recipe_len != 800 || memcmp(recipe, made, recipe_len) != 0 || made[recipe_len] != 0xff) {
        printf("calls.c: the table of seed 7 is not that of the example\n");
        bad = 1;
    }
}

int main(int argc, char **argv) {
    if (argc != 9 || (b_len = load(argv[1], b)) == 0 || (a_len = load(argv[2], a)) == 0 || (forced_len = load(argv[3], forced)) == 0 ||
        (level_len = load(argv[4], level)) == 0 || (ties_len = load(argv[5], ties)) == 0 || (match_len = load(argv[6], match)) == 0 ||
        (roll_len = load(argv[7], roll)) == 0 || (recipe_len = load(argv[8], recipe)) == 0) {
        fprintf(stderr, "usage: calls B A FORCED LEVEL TIES MATCH ROLL RECIPE\n");
        return 2;
    }
    reading();
    two_totals();
    worth();
    judging();
    searching();
    searching_within();
    ties_broken();
    indexing();
    turning();
    padding();
    rollouts();
    report();
    recipes();
    return bad;
}
