/* The update beside the same call in plain C, its loops alone, which check nothing (both in plain.c), and the engine's encoder on the whole stripe.
 *
 * Each is first held to the bytes of the plain encoder and to the loops' answer, then all take turns in this process, and the best time of each
 * counts. The calls go round four stripes and two new strips: a call right after another on the same stripe waits for the stores of the one
 * before. Strips of more than 4,096 bytes are long enough for one stripe. A ratio is the contestant's time by the update's: above 1 the update is
 * faster.
 */
#include <string.h>

#include "bench.h"
#include "bridgecrumb.h"
#include "chance.h"
#include "plain.h"

#define ROUNDS 60
#define STRIPES 4
#define LARGEST_STRIPE (32 * 65536)
#define DISK 3 /* whose strip is rewritten */

static uint8_t stripes[LARGEST_STRIPE] __attribute__((aligned(64)));
static uint8_t new_strips[2][65536] __attribute__((aligned(64)));
static uint8_t right[2][LARGEST_STRIPE]; /* the encoded stripe with each of the new strips */
static struct job jobs[STRIPES];         /* one card, one strip length, the same bytes */
static size_t count;                     /* of the stripes */

/* the first `naming` columns have every data disk, the others every one but DISK */
static void naming_card(struct job *job, int k, int m, int naming)
{
    job_start(job, k, m);
    for (int j = 0; j < m; j++) {
        uint32_t column = ((uint32_t)1 << k) - 1;
        if (j >= naming)
            column ^= (uint32_t)1 << DISK;
        put_column(job->card, j, column);
    }
}

/* ---- the contestants */

typedef uint64_t (*contestant)(struct job *job, const uint8_t *new_strip);

static uint64_t update(struct job *job, const uint8_t *new_strip)
{
    return bridgecrumb_update(false, job->card, job->card_len, job->strip_len, job->stripe, job->stripe_len, DISK, new_strip, job->strip_len);
}

static uint64_t plain(struct job *job, const uint8_t *new_strip)
{
    return plain_update(job, DISK, new_strip, job->strip_len);
}

static uint64_t loops(struct job *job, const uint8_t *new_strip)
{
    return 256 * (uint64_t)update_loops(job, DISK, new_strip);
}

/* the whole stripe, whatever its data strips have */
static uint64_t encode(struct job *job, const uint8_t *new_strip)
{
    (void)new_strip;
    return bridgecrumb_encode(false, job->card, job->card_len, job->strip_len, job->stripe, job->stripe_len);
}

/* with the new strip, and the answer of an update */
static uint64_t encode_shown(struct job *job, const uint8_t *new_strip)
{
    uint64_t strips = 1;
    memcpy(job_strip(job, DISK), new_strip, job->strip_len);
    for (int j = 0; j < job->card[1]; j++)
        strips += job_column(job, j) >> DISK & 1;
    return 256 * strips + encode(job, new_strip);
}

enum { ENGINE, PLAIN, LOOPS, ENCODE, CONTESTANTS };

/* a call, and the form of it that leaves the new strip in the stripe */
static const struct {
    const char *name;
    contestant call, shown;
} contestants[CONTESTANTS] = {{"update", update, update}, {"plain", plain, plain}, {"loops", loops, loops}, {"encode", encode, encode_shown}};

/* ---- the bytes */

/* the stripes, each encoded with the second new strip, so that the first one changes them */
static void encoded_stripes(const struct job *card, size_t strip_len)
{
    count = strip_len <= 4096 ? STRIPES : 1;
    for (size_t s = 0; s < count; s++) {
        jobs[s] = *card;
        job_take(&jobs[s], strip_len, stripes, s);
    }
    size_t stripe_len = jobs[0].stripe_len;
    fill(stripes, stripe_len);
    for (int v = 0; v < 2; v++) {
        fill(new_strips[v], strip_len);
        memcpy(job_strip(jobs, DISK), new_strips[v], strip_len);
        plain_encode(jobs);
        memcpy(right[v], stripes, stripe_len);
    }
    for (size_t s = 0; s < count; s++)
        memcpy(jobs[s].stripe, right[1], stripe_len);
}

static void check_stripe(int c, const struct job *job, const uint8_t *wanted)
{
    if (memcmp(job->stripe, wanted, job->stripe_len) != 0) {
        fprintf(stderr, "%s, strip length %zu: ", contestants[c].name, job->strip_len);
        stop("the stripe differs from the plain encoder's");
    }
}

/* each stripe with each of the new strips */
static void check(int c, uint64_t answer)
{
    for (int v = 0; v < 2; v++)
        for (size_t s = 0; s < count; s++) {
            if (contestants[c].shown(&jobs[s], new_strips[v]) != answer)
                stop("an answer differs from the loops'");
            check_stripe(c, &jobs[s], right[v]);
        }
}

/* the engine and plain C answer this, and the stripe stays as it is */
static void check_refusal(struct job *job, size_t disk, uint64_t answer)
{
    size_t new_len = 15;
    uint64_t got = bridgecrumb_update(false, job->card, job->card_len, job->strip_len, job->stripe, job->stripe_len, disk, new_strips[0], new_len);
    if (got != answer || plain_update(job, disk, new_strips[0], new_len) != answer)
        stop("a refused update has another answer");
    check_stripe(ENGINE, &jobs[0], right[1]);
}

/* plain C refuses what the engine refuses: the new strip is a byte short, then one more argument after the other is wrong, the last one first */
static void check_refusals(void)
{
    struct job card;
    naming_card(&card, 16, 16, 16);
    encoded_stripes(&card, 16);
    struct job job = jobs[0];
    check_refusal(&job, DISK, 19);
    job.stripe_len--;
    check_refusal(&job, DISK, 7);
    check_refusal(&job, 16, 18);
    check_refusal(&job, 32, 9);
    job.strip_len = 0;
    check_refusal(&job, 32, 6);
    job.card[8] = job.card[9] = 0;
    check_refusal(&job, 32, 5 + 256 * 3);
    job.card_len--;
    check_refusal(&job, 32, 4);
    job.card[1] = 17;
    check_refusal(&job, 32, 3);
    job.card[0] = 0;
    check_refusal(&job, 32, 2);
    job.card_len = 1;
    check_refusal(&job, 32, 1);
}

/* ---- the times */

/* seconds for each of so many calls, on all stripes with one new strip, then on all with the other */
static double turn(int c, size_t calls)
{
    contestant call = contestants[c].call;
    size_t s = 0, v = 0;
    double start = now();
    for (size_t i = 0; i < calls; i++) {
        call(&jobs[s], new_strips[v]);
        if (++s == count) {
            s = 0;
            v ^= 1;
        }
    }
    return (now() - start) / calls;
}

/* an update's work goes by the strips that it writes, the encoder's by every data disk and parity */
static size_t calls_of(int c, size_t strips)
{
    const struct job *job = jobs;
    size_t calls = 8 + 8000000 / (job->strip_len * (c == ENCODE ? (size_t)job->card[0] * job->card[1] : 2 * strips));
    return calls < 4000 ? calls : 4000;
}

static void time_contestants(size_t strips, double best[CONTESTANTS])
{
    for (int c = 0; c < CONTESTANTS; c++) {
        best[c] = 1e9;
        check(c, 256 * (uint64_t)strips);
    }
    for (int round = 0; round < ROUNDS; round++)
        for (int c = 0; c < CONTESTANTS; c++)
            best[c] = least_of(best[c], turn(c, calls_of(c, strips)));
}

/* ---- the rows */

/* a row for each strip length; keeps the least ratios from 100 bytes on */
static void rows(int k, int m, int naming, double least[CONTESTANTS])
{
    static const size_t strip_lens[] = {1, 16, 100, 1000, 4096, 10000, 65536};
    char name[32];
    struct job card;
    naming_card(&card, k, m, naming);
    snprintf(name, sizeof name, "in %d %s", naming, naming == 1 ? "column" : "columns");
    for (size_t l = 0; l < sizeof strip_lens / sizeof *strip_lens; l++) {
        double best[CONTESTANTS];
        encoded_stripes(&card, strip_lens[l]);
        size_t strips = update_loops(jobs, DISK, new_strips[1]);
        time_contestants(strips, best);
        printf("%-24s %3d %3d %6zu %8.1f", name, k, m, strip_lens[l], best[ENGINE] * 1e9);
        for (int c = PLAIN; c < CONTESTANTS; c++) {
            if (strip_lens[l] >= 100)
                least[c] = least_of(least[c], best[c] / best[ENGINE]);
            printf(" %8.2f", best[c] / best[ENGINE]);
        }
        printf("\n");
        fflush(stdout);
    }
}

void bench_updates(void)
{
    double least[CONTESTANTS] = {1e9, 1e9, 1e9, 1e9};
    check_refusals();
    printf("%-24s %3s %3s %6s %8s", "update, data disk", "k", "m", "L", "ns");
    for (int c = PLAIN; c < CONTESTANTS; c++)
        printf(" %8s", contestants[c].name);
    printf("\n");
    rows(10, 1, 1, least);
    rows(10, 4, 1, least);
    rows(10, 4, 4, least);
    rows(16, 16, 1, least);
    rows(16, 16, 4, least);
    rows(16, 16, 16, least);
    printf("best of %d rounds each; every contestant's bytes are the plain encoder's, and its answers the loops'\n", ROUNDS);
    printf("from 100 bytes on the update is at least %.2f times as fast as plain C; as its loops alone: %.2f; as encoding the stripe: %.2f\n",
           least[PLAIN], least[LOOPS], least[ENCODE]);
}
