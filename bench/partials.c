/* The partial rebuild beside the same call in plain C (plain.c), and where nothing stays undetermined beside the engine's rebuilder.
 *
 * A loss is a few data disks that come back, alone or together with data disk 0 and the parities that name it, none of which does. Each contestant
 * is first held to the bytes of the plain encoder in the strips that come back, to what stood there in the others, and to plain C's answer; then
 * all take turns in this process, and the best time of each counts. A ratio is the contestant's time by the partial rebuild's: above 1 the partial
 * rebuild is faster.
 */
#include <string.h>

#include "bench.h"
#include "bridgecrumb.h"
#include "chance.h"
#include "plain.h"

#define ROUNDS 60
#define LARGEST_STRIPE (32 * 65536)

static uint8_t stripe[LARGEST_STRIPE] __attribute__((aligned(64)));
static uint8_t right[LARGEST_STRIPE]; /* the encoded stripe */

/* ---- the cards and the losses */

/* data disk 0 and the parities that name it: none of them is determined where all are lost */
static uint32_t first_row(const struct job *job)
{
    uint32_t row = 1;
    for (int j = 0; j < job->card[1]; j++)
        row |= (job_column(job, j) & 1) << (job->card[0] + j);
    return row;
}

/* the disks that plain C leaves of a loss, by a stripe of zeros */
static uint32_t left_of(struct job job, uint32_t lost)
{
    uint8_t zeros[32] = {0};
    job_take(&job, 1, zeros, 0);
    job.lost = lost;
    return (uint32_t)(plain_partial_rebuild(&job) >> 8);
}

/* whether these disks come back, lost alone and together with disk 0's row, of three disks or more, which does not; a check is then left among the
 * survivors */
static int fits(const struct job *job, uint32_t disks)
{
    uint32_t row = first_row(job);
    if (__builtin_popcount(row) < 3 || __builtin_popcount(disks | row) > job->card[1])
        return 0;
    return left_of(*job, disks) == 0 && left_of(*job, disks | row) == row;
}

/* each bit of each column by a coin */
static void coins(struct job *job, int k, int m, uint32_t disks)
{
    do {
        job_start(job, k, m);
        for (int j = 0; j < m; j++)
            put_column(job->card, j, 1 + below(((uint32_t)1 << k) - 1));
    } while (!fits(job, disks));
}

static void chain(struct job *job, int k, uint32_t disks)
{
    job_start(job, k, k);
    put_chain(job->card, k);
    if (!fits(job, disks))
        stop("the chain's loss is another");
}

/* ---- the contestants */

typedef uint64_t (*contestant)(struct job *job);

static uint64_t partial(struct job *job)
{
    return bridgecrumb_partial_rebuild(false, job->card, job->card_len, job->strip_len, job->lost, job->stripe, job->stripe_len);
}

static uint64_t rebuild(struct job *job)
{
    return bridgecrumb_rebuild(false, job->card, job->card_len, job->strip_len, job->lost, job->stripe, job->stripe_len);
}

enum { ENGINE, PLAIN, REBUILD, CONTESTANTS };

static const struct {
    const char *name;
    contestant call;
} contestants[CONTESTANTS] = {{"partial", partial}, {"plain", plain_partial_rebuild}, {"rebuild", rebuild}};

/* ---- the bytes */

/* other bytes in the lost strips, and the call: afterwards the stripe is the encoded one, but for the disks that are left */
static void check(int c, struct job *job, uint32_t left)
{
    static uint8_t before[LARGEST_STRIPE];
    uint64_t answer = 256 * (uint64_t)(c == REBUILD ? (uint32_t)__builtin_popcount(job->lost) : left);
    fill_strips(job, job->lost);
    memcpy(before, stripe, job->stripe_len);
    if (contestants[c].call(job) != answer)
        stop("an answer of a rebuild differs from plain C's");
    for (int d = 0; d < job->card[0] + job->card[1]; d++) {
        const uint8_t *wanted = (left >> d & 1 ? before : right) + d * job->strip_len;
        if (memcmp(job_strip(job, d), wanted, job->strip_len) != 0) {
            fprintf(stderr, "%s, strip length %zu, disk %d: ", contestants[c].name, job->strip_len, d);
            stop("the strip is another");
        }
    }
}

/* the engine and plain C answer this, and the stripe stays as it is */
static void check_refusal(struct job *job, uint64_t answer)
{
    static uint8_t before[LARGEST_STRIPE];
    memcpy(before, stripe, sizeof stripe);
    for (int c = ENGINE; c <= PLAIN; c++)
        if (contestants[c].call(job) != answer || memcmp(before, stripe, sizeof stripe) != 0)
            stop("a refused partial rebuild has another answer, or writes");
}

/* plain C refuses what the engine refuses, in a fatal loss: a survivor is spoiled, then one more argument after the other is wrong, the last one
 * first */
static void check_refusals(const struct job *card, uint32_t lost)
{
    struct job job = *card;
    encoded_stripe(&job, 17, stripe, right);
    job.lost = lost;
    fill(stripe, 17); /* disk 0 is lost */
    uint32_t survivors = ~lost & (uint32_t)(((uint64_t)1 << (job.card[0] + job.card[1])) - 1);
    int noticed = 0;
    for (int d = 1; d < job.card[0] + job.card[1]; d++)
        if (survivors >> d & 1) {
            job_strip(&job, d)[16] ^= 1;
            if (plain_partial_rebuild(&job) == 12) {
                check_refusal(&job, 12);
                noticed++;
            }
            job_strip(&job, d)[16] ^= 1;
        }
    if (noticed == 0)
        stop("no survivor is in a check");
    job.stripe_len--;
    check_refusal(&job, 7);
    if (job.card[0] + job.card[1] < 32) {
        job.lost |= (uint32_t)1 << 31;
        check_refusal(&job, 8);
    }
    job.strip_len = 65537;
    check_refusal(&job, 6);
    put_column(job.card, 2, 0);
    check_refusal(&job, 5 + 256 * 2);
    job.card_len--;
    check_refusal(&job, 4);
    job.card[1] = 0;
    check_refusal(&job, 3);
    job.card[0] = 17;
    check_refusal(&job, 2);
    job.card_len = 1;
    check_refusal(&job, 1);
}

/* ---- the times */

/* the best of the times so far and that of one more round of calls */
static double better(double best, struct job *job, contestant call)
{
    size_t calls = job_calls(job);
    double start = now();
    for (size_t c = 0; c < calls; c++)
        call(job);
    return least_of(best, (now() - start) / calls);
}

/* ---- the rows */

struct ratios {
    double below, from; /* the least to plain C below 1,000 bytes, and from there on */
    double least, most; /* to the rebuilder */
};

static void print_row(const char *name, const struct job *job, uint32_t left, const double best[CONTESTANTS])
{
    char row[32];
    snprintf(row, sizeof row, "%s, %d of %d", name, __builtin_popcount(job->lost & ~left), __builtin_popcount(job->lost));
    printf("%-24s %3d %3d %6zu %8.1f %8.2f", row, job->card[0], job->card[1], job->strip_len, best[ENGINE] * 1e9, best[PLAIN] / best[ENGINE]);
    if (left == 0)
        printf(" %8.2f\n", best[REBUILD] / best[ENGINE]);
    else
        printf(" %8s\n", "-");
    fflush(stdout);
}

/* a row for each strip length */
static void rows(const char *name, const struct job *card, uint32_t lost, struct ratios *ratios)
{
    static const size_t strip_lens[] = {1, 15, 16, 100, 127, 1000, 4096, 65536};
    uint32_t left = left_of(*card, lost);
    int last = left == 0 ? REBUILD : PLAIN;
    for (size_t l = 0; l < sizeof strip_lens / sizeof *strip_lens; l++) {
        double best[CONTESTANTS] = {1e9, 1e9, 1e9};
        struct job job = *card;
        encoded_stripe(&job, strip_lens[l], stripe, right);
        job.lost = lost;
        for (int c = 0; c <= last; c++)
            check(c, &job, left);
        for (int round = 0; round < ROUNDS; round++)
            for (int c = 0; c <= last; c++)
                best[c] = better(best[c], &job, contestants[c].call);
        print_row(name, &job, left, best);
        double *plain = strip_lens[l] < 1000 ? &ratios->below : &ratios->from;
        *plain = least_of(*plain, best[PLAIN] / best[ENGINE]);
        if (left == 0) {
            ratios->least = least_of(ratios->least, best[REBUILD] / best[ENGINE]);
            ratios->most = -least_of(-ratios->most, -best[REBUILD] / best[ENGINE]);
        }
    }
}

void bench_partials(void)
{
    static struct job cards[3];
    static const char *const names[] = {"by a coin", "by a coin", "chain"};
    static const uint32_t disks[] = {1 << 1, 1 << 1 | 1 << 5 | 1 << 9, 1 << 1 | 1 << 5 | 1 << 9};
    struct ratios ratios = {1e9, 1e9, 1e9, 0};
    coins(&cards[0], 10, 4, disks[0]);
    coins(&cards[1], 16, 16, disks[1]);
    chain(&cards[2], 16, disks[2]);
    printf("%-24s %3s %3s %6s %8s", "partial rebuild, of lost", "k", "m", "L", "ns");
    for (int c = PLAIN; c < CONTESTANTS; c++)
        printf(" %8s", contestants[c].name);
    printf("\n");
    for (int i = 0; i < 3; i++) {
        check_refusals(&cards[i], disks[i] | first_row(&cards[i]));
        rows(names[i], &cards[i], disks[i], &ratios);
        rows(names[i], &cards[i], disks[i] | first_row(&cards[i]), &ratios);
    }
    printf("best of %d rounds each; every contestant's bytes are the plain encoder's or stay, and its answers are plain C's\n", ROUNDS);
    printf("from 1,000 bytes on the partial rebuild is at least %.2f times as fast as plain C; on shorter strips %.2f times\n", ratios.from,
           ratios.below);
    printf("where all comes back, the rebuilder takes %.2f to %.2f of its time\n", ratios.least, ratios.most);
}
