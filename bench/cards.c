/* The stepped card beside the same call in plain C (plain.c), which looks for the parity sets among all numbers.
 *
 * Both are first held to each other: the answer and every byte, for all distances, parity and data disks up to 20 and buffers about the right
 * length. Then they take turns in this process, and the best time of each counts. The ratio is plain C's time by the engine's: above 1 the engine is
 * faster.
 */
#include <string.h>

#include "bench.h"
#include "bridgecrumb.h"
#include "plain.h"

#define ROUNDS 60
#define CALLS 4000
#define MOST 20
#define CARDS 32 /* so many can be made */

typedef uint64_t (*contestant)(size_t d, size_t m, size_t k, uint8_t *out, size_t out_len);

/* the distance, the parity and the data disks of a card */
struct numbers {
    size_t d, m, k;
};

/* ---- the bytes */

/* answers whether the card is written */
static int check(struct numbers of, size_t out_len)
{
    uint8_t engines[2 * MOST + 4], plains[2 * MOST + 4];
    memset(engines, 0xa5, sizeof engines);
    memset(plains, 0xa5, sizeof plains);
    uint64_t answer = bridgecrumb_card_stepped(of.d, of.m, of.k, engines, out_len);
    if (answer != plain_stepped(of.d, of.m, of.k, plains, out_len) || memcmp(engines, plains, sizeof engines) != 0) {
        fprintf(stderr, "d = %zu, m = %zu, k = %zu, %zu bytes: ", of.d, of.m, of.k, out_len);
        stop("the stepped card or its answer differs from plain C's");
    }
    return answer == 0;
}

static void check_all(void)
{
    struct numbers of;
    int written = 0;
    for (of.d = 0; of.d <= MOST; of.d++)
        for (of.m = 0; of.m <= MOST; of.m++)
            for (of.k = 0; of.k <= MOST; of.k++)
                for (size_t out_len = 2 * of.m; out_len <= 2 * of.m + 4; out_len++)
                    written += check(of, out_len);
    if (written != CARDS)
        stop("the stepped cards are more or fewer than there are");
}

/* ---- the times */

/* seconds for each of so many calls */
static double turn(contestant call, struct numbers of)
{
    uint8_t card[2 * MOST + 2];
    double start = now();
    for (int c = 0; c < CALLS; c++)
        if (call(of.d, of.m, of.k, card, 2 + 2 * of.m) != 0)
            stop("a stepped card is refused");
    return (now() - start) / CALLS;
}

/* answers the ratio */
static double row(struct numbers of)
{
    double engine = 1e9, plain = 1e9;
    for (int round = 0; round < ROUNDS; round++) {
        engine = least_of(engine, turn(bridgecrumb_card_stepped, of));
        plain = least_of(plain, turn(plain_stepped, of));
    }
    printf("%-24zu %3zu %3zu %8.1f %8.2f\n", of.d, of.k, of.m, engine * 1e9, plain / engine);
    fflush(stdout);
    return plain / engine;
}

void bench_cards(void)
{
    static const struct numbers rows[] = {{3, 2, 1}, {3, 3, 4}, {3, 4, 11}, {3, 5, 16}, {4, 4, 4}, {4, 5, 11}, {4, 6, 16}};
    double least = 1e9;
    check_all();
    printf("%-24s %3s %3s %8s %8s\n", "stepped card, distance", "k", "m", "ns", "plain");
    for (size_t r = 0; r < sizeof rows / sizeof *rows; r++)
        least = least_of(least, row(rows[r]));
    printf("best of %d rounds each; all %d cards, and all answers for numbers up to %d, are plain C's\n", ROUNDS, CARDS, MOST);
    printf("the stepped card is at least %.2f times as fast as plain C\n", least);
}
