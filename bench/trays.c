/* Quick repair of a tray of eight stripes beside a plain C peeling loop (plain.c) and beside the engine's rebuilder, called for each stripe.
 *
 * All take turns on the same tray in this process, and the best time of each counts. Before each turn the lost strips get other
 * bytes, and after it the tray is the encoded one and the answer the plain loop's; neither is in the time. A ratio is the
 * contestant's time by quick repair's: above 1 quick repair is faster.
 */
#include <string.h>

#include "bench.h"
#include "bridgecrumb.h"
#include "chance.h"
#include "libraries.h"
#include "plain.h"

#define ROUNDS 60
#define STRIPES 8
#define LARGEST_TRAY (STRIPES * 15 * 65536)

static uint8_t tray[LARGEST_TRAY] __attribute__((aligned(64)));
static uint8_t right[LARGEST_TRAY];
static size_t tray_len;
static struct job jobs[STRIPES]; /* the tray's stripes: one card, one strip length */
static uint32_t lost[STRIPES];

/* 10 + 4, each bit of each column by a coin; each data disk is in some column, so that it can be lost alone */
static void coins(struct job *job)
{
    uint16_t columns[4];
    uint32_t within;
    job->card_len = 10;
    do {
        within = 0;
        for (int j = 0; j < 4; j++) {
            columns[j] = below(1024);
            within |= columns[j];
        }
    } while (within != 1023 || bridgecrumb_card_write(false, 10, 4, columns, 4, NULL, 0, job->card, job->card_len) != 0);
}

/* ---- the contestants */

/* the disks that were mended, and what is left of each lost set */
struct answer {
    size_t steps;
    uint32_t left[STRIPES];
};

typedef void (*contestant)(struct answer *answer);

/* the budget is enough for every disk of the tray */
static void quick_repair(struct answer *answer)
{
    uint64_t got =
        bridgecrumb_quick_repair(false, jobs->card, jobs->card_len, jobs->strip_len, lost, STRIPES, 32 * STRIPES, tray, tray_len, answer->left);
    if (BRIDGECRUMB_NUMBER(got) != 0)
        stop("quick repair refuses");
    answer->steps = BRIDGECRUMB_VALUE(got);
}

static void plain(struct answer *answer)
{
    answer->steps = 0;
    for (int s = 0; s < STRIPES; s++)
        answer->steps += plain_peel(&jobs[s], &answer->left[s]);
}

static void rebuild(struct answer *answer)
{
    answer->steps = 0;
    for (int s = 0; s < STRIPES; s++) {
        const struct job *job = &jobs[s];
        uint64_t got = bridgecrumb_rebuild(false, job->card, job->card_len, job->strip_len, job->lost, job->stripe, job->stripe_len);
        if (BRIDGECRUMB_NUMBER(got) != 0)
            stop("the rebuilder refuses");
        answer->steps += BRIDGECRUMB_VALUE(got);
        answer->left[s] = 0;
    }
}

enum { ENGINE, PLAIN, REBUILD, CONTESTANTS };

static const struct {
    const char *name;
    contestant call;
} contestants[CONTESTANTS] = {{"quick repair", quick_repair}, {"plain", plain}, {"rebuild", rebuild}};

/* ---- the bytes */

/* eight encoded stripes; stripe s loses the disks of the set, each s disks further */
static void encoded_tray(const struct job *card, size_t strip_len, uint32_t set)
{
    for (int s = 0; s < STRIPES; s++) {
        jobs[s] = *card;
        job_take(&jobs[s], strip_len, tray, s);
        jobs[s].lost = lost[s] = set << s;
        fill(jobs[s].stripe, jobs[s].stripe_len);
        plain_encode(&jobs[s]);
    }
    tray_len = STRIPES * jobs[0].stripe_len;
    memcpy(right, tray, tray_len);
}

/* other bytes in the lost strips */
static void spoil(void)
{
    for (int s = 0; s < STRIPES; s++)
        fill_strips(&jobs[s], lost[s]);
}

/* the tray is right again, and every lost disk was mended */
static void check(const char *name, const struct answer *answer)
{
    size_t steps = 0;
    uint32_t left = 0;
    for (int s = 0; s < STRIPES; s++) {
        steps += __builtin_popcount(lost[s]);
        left |= answer->left[s];
    }
    if (memcmp(tray, right, tray_len) != 0 || answer->steps != steps || left != 0) {
        fprintf(stderr, "%s, strip length %zu: ", name, jobs->strip_len);
        stop("the tray is not mended");
    }
}

/* ---- the times */

/* seconds for each of so many calls on a spoiled tray */
static double turn(int c, size_t calls)
{
    struct answer answer;
    memset(&answer, 0xff, sizeof answer);
    spoil();
    double start = now();
    for (size_t i = 0; i < calls; i++)
        contestants[c].call(&answer);
    double taken = (now() - start) / calls;
    check(contestants[c].name, &answer);
    return taken;
}

static void time_contestants(double best[CONTESTANTS])
{
    size_t calls = 1 + 16000000 / tray_len;
    for (int c = 0; c < CONTESTANTS; c++) {
        best[c] = 1e9;
        turn(c, 1);
    }
    for (int round = 0; round < ROUNDS; round++)
        for (int c = 0; c < CONTESTANTS; c++)
            best[c] = least_of(best[c], turn(c, calls));
}

/* ---- the rows */

/* two rows; keeps the least ratios */
static void rows(const char *name, const struct job *card, uint32_t set, double least[CONTESTANTS])
{
    for (size_t strip_len = 4096; strip_len <= 65536; strip_len *= 16) {
        double best[CONTESTANTS];
        encoded_tray(card, strip_len, set);
        time_contestants(best);
        printf("%-24s %3d %3d %6zu %8.2f", name, card->card[0], card->card[1], strip_len, STRIPES * card->card[0] * strip_len / best[ENGINE] / 1e9);
        for (int c = PLAIN; c < CONTESTANTS; c++) {
            least[c] = least_of(least[c], best[c] / best[ENGINE]);
            printf(" %8.2f", best[c] / best[ENGINE]);
        }
        printf("\n");
        fflush(stdout);
    }
}

void bench_trays(void)
{
    static struct job own, dense;
    double least[CONTESTANTS] = {1e9, 1e9, 1e9};
    own_card(&own);
    coins(&dense);
    printf("%-24s %3s %3s %6s %8s", "quick repair, lost disks", "k", "m", "L", "GB/s");
    for (int c = PLAIN; c < CONTESTANTS; c++)
        printf(" %8s", contestants[c].name);
    printf("\n");
    rows("own, 1 data disk each", &own, 1, least);
    rows("own, 2 data disks each", &own, 3, least);
    rows("by a coin, 1 disk each", &dense, 1, least);
    printf("%d stripes, best of %d rounds each; every round's bytes and answers are the plain loop's\n", STRIPES, ROUNDS);
    printf("at these strip lengths quick repair is at least %.2f times as fast as the plain loop; as the rebuilder: %.2f\n", least[PLAIN],
           least[REBUILD]);
}
