/* The least-wear call beside three other ways to its answer: the engine's own list of equations, scanned for the least; and two in plain C, which
 * check no card: a walk through all sums of checks, and the same after an elimination of what is lost, with the wears of eight disks at a time out of
 * a table.
 *
 * All are first held to each other: for every k and m, on cards with any wears, any disks and losses. Then they take turns in this process, and the
 * best time of each counts. A ratio is a peer's time by the engine's: above 1 the engine is faster. Last the converter's times, which has no peer.
 */
#include <string.h>

#include "bench.h"
#include "bridgecrumb.h"
#include "chance.h"
#include "wear.h"

#define ROUNDS 20
#define JOBS 16
#define TRIED 6 /* cards of each k and m */
#define ENTRIES 65536

typedef uint64_t (*contestant)(const struct ask *ask);

/* ---- the contestants */

static uint64_t engine_least(const struct ask *ask)
{
    return bridgecrumb_least_wear(true, ask->card, ask->card_len, ask->disk, ask->lost);
}

/* the first entry that totals least among those without a lost disk */
static uint64_t list_and_scan(const struct ask *ask)
{
    static uint32_t list[ENTRIES];
    size_t count = BRIDGECRUMB_VALUE(bridgecrumb_equations(true, ask->card, ask->card_len, ask->disk, list, ENTRIES));
    uint32_t least = UINT32_MAX, best = 0;
    for (size_t e = 0; e < count; e++)
        if ((list[e] & ask->lost) == 0) {
            uint32_t total = sum_wears(wears_of(ask), list[e]);
            if (total < least) {
                least = total;
                best = list[e];
            }
        }
    return least == UINT32_MAX ? NONE : 256 * (uint64_t)best;
}

static const contestant contestants[] = {engine_least, list_and_scan, plain_walk, plain_cleared_walk};
enum { ENGINE, SCAN, WALK, CLEARED, CONTESTANTS };

/* ---- what is asked */

/* columns by a coin, and any wears up to the largest */
static void put_card(struct ask *ask, int k, int m, int largest_wear)
{
    *ask = (struct ask){{0x02, k, m}, 3 + 2 * (size_t)m + k + m, 0, 0};
    for (int j = 0; j < m; j++)
        put_column(ask->card + 1, j, 1 + below(((uint32_t)1 << k) - 1));
    for (int d = 0; d < k + m; d++)
        ask->card[3 + 2 * m + d] = 1 + below(largest_wear);
}

static void put_chain_card(struct ask *ask, int k)
{
    put_card(ask, k, k, 255);
    put_chain(ask->card + 1, k);
}

/* any disk, and a loss of so many others at the most */
static void put_loss(struct ask *ask, int most)
{
    int n = data_disks(ask) + parity_disks(ask);
    ask->disk = below(n);
    ask->lost = 0;
    for (int d = 0; d < most; d++)
        ask->lost |= (uint32_t)1 << below(n);
    ask->lost &= ~((uint32_t)1 << ask->disk);
}

/* ---- the answers */

/* answers whether there is an equation */
static int check(const struct ask *ask)
{
    uint64_t answer = engine_least(ask);
    for (int c = 1; c < CONTESTANTS; c++)
        if (contestants[c](ask) != answer)
            stop("the equations of least wear differ");
    return answer != NONE;
}

/* answers how many were asked */
static size_t check_all(void)
{
    size_t tried = 0, given = 0;
    for (int k = 1; k <= 16; k++)
        for (int m = 1; m <= 16; m++)
            for (int t = 0; t < TRIED; t++) {
                struct ask ask;
                put_card(&ask, k, m, t % 2 ? 255 : 3); /* of few wears many totals are equal */
                put_loss(&ask, t / 2 * m / 2);
                given += check(&ask);
                tried++;
            }
    if (given * 4 < tried || given == tried)
        stop("too many losses, or none, leave no equation");
    return tried;
}

/* ---- the times */

/* seconds for each call */
static double turn(contestant call, const struct ask *asks, int turns)
{
    double start = now();
    for (int t = 0; t < turns; t++)
        for (int a = 0; a < JOBS; a++)
            if (BRIDGECRUMB_NUMBER(call(&asks[a])) != 0)
                stop("there is no equation where there was one");
    return (now() - start) / (turns * JOBS);
}

/* answers the least ratios to the peers, and the engine's time */
static void row(const char *kind, const struct ask *of, int lost, double least[CONTESTANTS])
{
    static struct ask asks[JOBS];
    double best[CONTESTANTS] = {1e9, 1e9, 1e9, 1e9};
    int turns = 1 + (4096 >> parity_disks(of));
    for (int a = 0; a < JOBS; a++)
        do {
            asks[a] = *of;
            put_loss(&asks[a], lost);
        } while (!check(&asks[a]) || __builtin_popcount(asks[a].lost) != lost);
    for (int round = 0; round < ROUNDS; round++)
        for (int c = 0; c < CONTESTANTS; c++)
            best[c] = least_of(best[c], turn(contestants[c], asks, turns));
    printf("%-14s %3d %3d %5d %10.3f", kind, data_disks(of), parity_disks(of), lost, best[ENGINE] * 1e6);
    for (int c = 1; c < CONTESTANTS; c++) {
        least[c] = least_of(least[c], best[c] / best[ENGINE]);
        printf(" %8.2f", best[c] / best[ENGINE]);
    }
    printf("\n");
    fflush(stdout);
}

/* seconds for each call of the converter */
static void convert(const struct ask *of)
{
    struct ask ask = *of;
    size_t first_len = 2 + 2 * (size_t)parity_disks(of);
    double up = 1e9, down = 1e9;
    uint8_t first[34];
    memcpy(first, of->card + 1, first_len);
    for (int round = 0; round < ROUNDS; round++) {
        double start = now();
        for (int c = 0; c < 10000; c++)
            if (bridgecrumb_card_up(first, first_len, ask.card, ask.card_len) != 0)
                stop("a card does not go up");
        double middle = now();
        for (int c = 0; c < 10000; c++)
            if (bridgecrumb_card_down(ask.card, ask.card_len, first, first_len) != 0)
                stop("a card does not go down");
        up = least_of(up, (middle - start) / 10000);
        down = least_of(down, (now() - middle) / 10000);
    }
    if (memcmp(first, of->card + 1, first_len) != 0)
        stop("down after up gives other bytes");
    printf("the converter takes %.1f ns up and %.1f ns down with 16 + 16 disks\n", up * 1e9, down * 1e9);
}

void bench_wear(void)
{
    static const int sizes[][2] = {{16, 16}, {16, 12}, {16, 8}, {8, 8}, {12, 4}, {4, 3}};
    double least[CONTESTANTS] = {0, 1e9, 1e9, 1e9}, largest[CONTESTANTS] = {0, 1e9, 1e9, 1e9};
    struct ask ask;
    size_t tried = check_all();
    printf("%-14s %3s %3s %5s %10s %8s %8s %8s\n", "least wear", "k", "m", "lost", "us", "scan", "walk", "cleared");
    for (size_t s = 0; s < sizeof sizes / sizeof *sizes; s++) {
        put_card(&ask, sizes[s][0], sizes[s][1], 255);
        for (int lost = 0; lost <= sizes[s][1] / 2; lost += sizes[s][1] / 2)
            row("dense", &ask, lost, s == 0 ? largest : least);
    }
    put_chain_card(&ask, 16);
    row("chain", &ask, 0, least);
    row("chain", &ask, 3, least);
    printf("best of %d rounds each, through %d disks and losses; the answers on %zu others are equal too\n", ROUNDS, JOBS, tried);
    printf("dense k = m = 16: the call is at least %.2f times as fast as list and scan, %.2f times as the walk, %.2f times as the cleared one\n",
           largest[SCAN], largest[WALK], largest[CLEARED]);
    printf("on the other cards: %.2f, %.2f and %.2f times\n", least[SCAN], least[WALK], least[CLEARED]);
    put_card(&ask, 16, 16, 1);
    convert(&ask);
}
