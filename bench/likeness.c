/* Two cards alike beside the same in plain C (plain.c), which checks no card: once by qsort and memcmp, and once by two counts for each column.
 *
 * All are first held to each other: for every k and m the answers on pairs that are alike, that differ in one column, in how often a column stands,
 * and on any two. Then they take turns in this process, each call on another pair than the one before, and the best time of each counts. A ratio is
 * a peer's time by the engine's: above 1 the engine is faster.
 */
#include <string.h>

#include "bench.h"
#include "bridgecrumb.h"
#include "chance.h"
#include "job.h"
#include "plain.h"

#define ROUNDS 60
#define PAIRS 256
#define TURNS 16  /* through all pairs, in a round */
#define TRIED 200 /* pairs of each kind, of each k and m */

typedef uint64_t (*contestant)(const uint8_t *first, size_t first_len, const uint8_t *second, size_t second_len);

struct pair {
    uint8_t first[34], second[34];
    size_t first_len, second_len;
};

/* ---- the pairs */

static uint32_t any_column(int k)
{
    return 1 + below(((uint32_t)1 << k) - 1);
}

/* columns by a coin, and each again in the second card, in any order */
static void put_alike(struct pair *pair, int k, int m)
{
    size_t length = 2 + 2 * (size_t)m;
    *pair = (struct pair){{k, m}, {k, m}, length, length};
    for (int j = 0; j < m; j++) {
        uint32_t column = any_column(k);
        int place = below(j + 1);
        put_column(pair->first, j, column);
        put_column(pair->second, j, card_column(pair->second, place));
        put_column(pair->second, place, column);
    }
}

/* the same with one column of the second card replaced by another; there is none where k is 1 */
static void put_near(struct pair *pair, int k, int m)
{
    put_alike(pair, k, m);
    uint32_t column;
    int j = below(m);
    do
        column = any_column(k);
    while (column == card_column(pair->second, j));
    put_column(pair->second, j, column);
}

/* columns 0 and 1 are equal, and the last one stands for column 0 in the second card: of three columns or more the same ones, not as often each */
static void put_repeated(struct pair *pair, int k, int m)
{
    put_alike(pair, k, m);
    if (m > 1)
        put_column(pair->first, 1, card_column(pair->first, 0));
    memcpy(pair->second, pair->first, pair->first_len);
    put_column(pair->second, 0, card_column(pair->first, m - 1));
}

/* a second card of its own */
static void put_any(struct pair *pair, int k, int m)
{
    struct pair other;
    put_alike(&other, 1 + below(16), 1 + below(16));
    put_alike(pair, k, m);
    memcpy(pair->second, other.second, other.second_len);
    pair->second_len = other.second_len;
}

/* ---- the answers */

static inline uint64_t engine_alike(const uint8_t *first, size_t first_len, const uint8_t *second, size_t second_len)
{
    return bridgecrumb_alike(false, first, first_len, false, second, second_len);
}

/* answers whether they are alike */
static int check(const struct pair *pair)
{
    uint64_t answer = engine_alike(pair->first, pair->first_len, pair->second, pair->second_len);
    if (answer != plain_sorted(pair->first, pair->first_len, pair->second, pair->second_len)
        || answer != plain_counted(pair->first, pair->first_len, pair->second, pair->second_len))
        stop("two cards are alike for the engine and not for plain C, or the other way");
    return answer != 0;
}

/* answers how many pairs there were */
static size_t check_all(void)
{
    struct pair pair;
    size_t tried = 0;
    for (int k = 1; k <= 16; k++)
        for (int m = 1; m <= 16; m++)
            for (int t = 0; t < TRIED; t++) {
                put_alike(&pair, k, m);
                if (!check(&pair))
                    stop("the same columns in another order are not alike");
                if (k > 1) {
                    put_near(&pair, k, m);
                    if (check(&pair))
                        stop("with one column replaced they are alike");
                }
                put_repeated(&pair, k, m);
                check(&pair);
                put_any(&pair, k, m);
                check(&pair);
                tried += k > 1 ? 4 : 3;
            }
    return tried;
}

/* ---- the times */

/* seconds for each call; a loop of its own for each contestant, so that naming the editions costs the engine no call more */
__attribute__((always_inline)) static inline double turn(contestant call, const struct pair *pairs, uint64_t answer)
{
    double start = now();
    for (int t = 0; t < TURNS; t++)
        for (int p = 0; p < PAIRS; p++)
            if (call(pairs[p].first, pairs[p].first_len, pairs[p].second, pairs[p].second_len) != answer)
                stop("a pair is not what it was made to be");
    return (now() - start) / (TURNS * PAIRS);
}

struct times {
    double engine, sorted, counted; /* the engine's seconds, and the peers' ratios */
};

static struct times row(const char *kind, void (*put)(struct pair *pair, int k, int m), uint64_t answer, int k, int m)
{
    static struct pair pairs[PAIRS];
    double engine = 1e9, sorted = 1e9, counted = 1e9;
    for (int p = 0; p < PAIRS; p++)
        put(&pairs[p], k, m);
    for (int round = 0; round < ROUNDS; round++) {
        engine = least_of(engine, turn(engine_alike, pairs, answer));
        sorted = least_of(sorted, turn(plain_sorted, pairs, answer));
        counted = least_of(counted, turn(plain_counted, pairs, answer));
    }
    printf("%-24s %3d %3d %8.1f %8.2f %8.2f\n", kind, k, m, engine * 1e9, sorted / engine, counted / engine);
    fflush(stdout);
    return (struct times){engine, sorted / engine, counted / engine};
}

static void keep_least(struct times *least, struct times these)
{
    least->sorted = least_of(least->sorted, these.sorted);
    least->counted = least_of(least->counted, these.counted);
}

void bench_likeness(void)
{
    static const int sizes[][2] = {{1, 1}, {4, 3}, {10, 5}, {12, 4}, {8, 8}, {16, 12}, {16, 16}};
    struct times largest = {0, 0, 0}, least = {0, 1e9, 1e9};
    size_t tried = check_all();
    printf("%-24s %3s %3s %8s %8s %8s\n", "alike, second card", "k", "m", "ns", "qsort", "counts");
    for (size_t s = 0; s < sizeof sizes / sizeof *sizes; s++) {
        largest = row("in another order", put_alike, 256, sizes[s][0], sizes[s][1]);
        keep_least(&least, largest);
    }
    for (size_t s = 1; s < sizeof sizes / sizeof *sizes; s++) /* one data disk has one column alone */
        keep_least(&least, row("one column another", put_near, 0, sizes[s][0], sizes[s][1]));
    printf("best of %d rounds each, through %d pairs; the answers on %zu pairs are plain C's\n", ROUNDS, PAIRS, tried);
    printf("the call is at least %.2f times as fast as qsort and memcmp, %.2f times as two counts for each column; both check no card\n",
           least.sorted, least.counted);
    printf("16 + 16 disks alike take it %.1f ns\n", largest.engine * 1e9);
}
