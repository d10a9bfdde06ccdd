/* Turned stripes. Turning and turning back beside two calls of memcpy, one for each part of the stripe that stays together, which check nothing. The
 * rebuilder of a turned stripe beside the engine's rebuilder on the stripe turned back, with the same lost disks, and beside three calls: turning
 * back into a second buffer, rebuilding and turning.
 *
 * Each contestant is first held to the bytes that the rule gives, strip by strip, and to its answer; then all take turns in this process, and the
 * best time of each counts. A ratio is the contestant's time by that of the call on turned stripes: above 1 that call is faster.
 */
#include <string.h>

#include "bench.h"
#include "bridgecrumb.h"
#include "chance.h"
#include "plain.h"

#define ROUNDS 60
#define LARGEST_STRIPE (32 * 65536)

static uint8_t stripe[LARGEST_STRIPE] __attribute__((aligned(64)));
static uint8_t turned[LARGEST_STRIPE] __attribute__((aligned(64)));
static uint8_t spare[LARGEST_STRIPE] __attribute__((aligned(64)));
static uint8_t right[LARGEST_STRIPE], right_turned[LARGEST_STRIPE]; /* the encoded stripe, and the same turned */
static uint32_t r, slots;                                           /* the stripe's number, and its lost slots */

static size_t disks_of(const struct job *job)
{
    return (size_t)job->card[0] + job->card[1];
}

static size_t slot_of(const struct job *job, size_t disk)
{
    return (disk + (uint64_t)r) % disks_of(job);
}

/* the largest number of a stripe that is turned by so many slots */
static uint32_t number_of(const struct job *job, uint32_t by)
{
    return UINT32_MAX - (UINT32_MAX - by) % (uint32_t)disks_of(job);
}

/* ---- the contestants that turn */

typedef uint64_t (*contestant)(struct job *job);

static uint64_t turn(struct job *job)
{
    return bridgecrumb_turn(false, job->card, job->card_len, job->strip_len, r, stripe, job->stripe_len, turned, job->stripe_len);
}

static uint64_t turn_back(struct job *job)
{
    return bridgecrumb_turn_back(false, job->card, job->card_len, job->strip_len, r, turned, job->stripe_len, stripe, job->stripe_len);
}

/* the strips of the last disks, so many bytes, come round to the front */
static size_t round_of(const struct job *job)
{
    return r % disks_of(job) * job->strip_len;
}

static uint64_t copy(struct job *job)
{
    size_t front = round_of(job), rest = job->stripe_len - front;
    memcpy(turned + front, stripe, rest);
    memcpy(turned, stripe + rest, front);
    return 0;
}

static uint64_t copy_back(struct job *job)
{
    size_t front = round_of(job), rest = job->stripe_len - front;
    memcpy(stripe, turned + front, rest);
    memcpy(stripe + rest, turned, front);
    return 0;
}

/* ---- the contestants that rebuild */

static uint64_t rebuild_turned(struct job *job)
{
    return bridgecrumb_rebuild_turned(false, job->card, job->card_len, job->strip_len, r, slots, turned, job->stripe_len);
}

static uint64_t rebuild(struct job *job)
{
    return bridgecrumb_rebuild(false, job->card, job->card_len, job->strip_len, job->lost, stripe, job->stripe_len);
}

static uint64_t three_calls(struct job *job)
{
    size_t len = job->stripe_len;
    bridgecrumb_turn_back(false, job->card, job->card_len, job->strip_len, r, turned, len, spare, len);
    uint64_t answer = bridgecrumb_rebuild(false, job->card, job->card_len, job->strip_len, job->lost, spare, len);
    bridgecrumb_turn(false, job->card, job->card_len, job->strip_len, r, spare, len, turned, len);
    return answer;
}

/* what stands in which buffer afterwards */
struct racer {
    const char *name;
    contestant call;
    uint8_t *written;
    const uint8_t *wanted;
};

enum { ENGINE, FIRST, SECOND, RACERS };

static const struct racer turning[] = {{"turn", turn, turned, right_turned}, {"memcpy", copy, turned, right_turned}};
static const struct racer turning_back[] = {{"turn back", turn_back, stripe, right}, {"memcpy", copy_back, stripe, right}};
static const struct racer rebuilding[] = {
    {"turned", rebuild_turned, turned, right_turned}, {"rebuild", rebuild, stripe, right}, {"3 calls", three_calls, turned, right_turned}};

/* ---- the bytes */

/* the job takes an encoded stripe; it stands in both orders, and twice */
static void both_orders(struct job *job, size_t strip_len)
{
    encoded_stripe(job, strip_len, stripe, right);
    for (size_t disk = 0; disk < disks_of(job); disk++)
        memcpy(right_turned + slot_of(job, disk) * strip_len, right + disk * strip_len, strip_len);
    memcpy(turned, right_turned, job->stripe_len);
}

/* other bytes in these strips of the buffer that is written, and in no other; then the call, and its bytes and answer */
static void check(const struct racer *racer, struct job *job, uint64_t set, uint64_t answer)
{
    for (size_t s = 0; s < disks_of(job); s++)
        if (set >> s & 1)
            fill(racer->written + s * job->strip_len, job->strip_len);
    memset(spare, 0x5a, job->stripe_len);
    if (racer->call(job) != answer || memcmp(racer->written, racer->wanted, job->stripe_len) != 0 || memcmp(stripe, right, job->stripe_len) != 0
        || memcmp(turned, right_turned, job->stripe_len) != 0) {
        fprintf(stderr, "%s, strip length %zu, r %u: ", racer->name, job->strip_len, r);
        stop("the stripe or the answer is another");
    }
}

/* ---- the times */

static void race(const struct racer *racers, int count, struct job *job, size_t calls, double best[RACERS])
{
    for (int c = 0; c < count; c++)
        best[c] = 1e9;
    for (int round = 0; round < ROUNDS; round++)
        for (int c = 0; c < count; c++) {
            contestant call = racers[c].call;
            double start = now();
            for (size_t i = 0; i < calls; i++)
                call(job);
            best[c] = least_of(best[c], (now() - start) / calls);
        }
}

/* ---- the rows */

static void print_start(const char *name, uint32_t number, const struct job *job, double seconds)
{
    char row[32];
    snprintf(row, sizeof row, "%s, %u", name, number);
    printf("%-24s %3d %3d %6zu %10.1f", row, job->card[0], job->card[1], job->strip_len, seconds * 1e9);
}

/* a row for each strip length; keeps the least ratio of all, and that of the longest */
static void turn_rows(const struct racer *racers, const struct job *card, uint32_t by, double *least, double *longest)
{
    static const size_t strip_lens[] = {16, 256, 4096, 65536};
    struct job job = *card;
    r = number_of(&job, by);
    for (size_t l = 0; l < sizeof strip_lens / sizeof *strip_lens; l++) {
        double best[RACERS];
        both_orders(&job, strip_lens[l]);
        for (int c = 0; c <= FIRST; c++)
            check(&racers[c], &job, UINT64_MAX, 0);
        size_t calls = 2 + 8000000 / job.stripe_len;
        race(racers, FIRST + 1, &job, calls < 4000 ? calls : 4000, best);
        double ratio = best[FIRST] / best[ENGINE];
        print_start(racers->name, by, &job, best[ENGINE]);
        printf(" %8.2f %8.2f\n", job.stripe_len / best[ENGINE] / 1e9, ratio);
        fflush(stdout);
        *least = least_of(*least, ratio);
        if (strip_lens[l] == 65536)
            *longest = least_of(*longest, ratio);
    }
}

#define LENGTHS 6
static const size_t rebuilt_lens[LENGTHS] = {1, 16, 100, 256, 4096, 65536};

/* the first disks are lost, and stand in the last slot and in those that come after it, from slot 0 on; keeps the least ratios of each length */
static void rebuild_rows(const char *name, const struct job *card, int lost, double least[LENGTHS][RACERS])
{
    struct job job = *card;
    r = number_of(&job, (uint32_t)disks_of(&job) - 1);
    job.lost = ((uint32_t)1 << lost) - 1;
    slots = 0;
    for (int disk = 0; disk < lost; disk++)
        slots |= (uint32_t)1 << slot_of(&job, disk);
    for (int l = 0; l < LENGTHS; l++) {
        double best[RACERS];
        both_orders(&job, rebuilt_lens[l]);
        for (int c = 0; c < RACERS; c++)
            check(&rebuilding[c], &job, rebuilding[c].written == stripe ? job.lost : slots, 256 * (uint64_t)lost);
        race(rebuilding, RACERS, &job, job_calls(&job), best);
        print_start(name, lost, &job, best[ENGINE]);
        for (int c = FIRST; c < RACERS; c++) {
            printf(" %8.2f", best[c] / best[ENGINE]);
            least[l][c] = least_of(least[l][c], best[c] / best[ENGINE]);
        }
        printf("\n");
        fflush(stdout);
    }
}

/* each bit of each column by a coin, so that the first three disks can be lost */
static void coins(struct job *job, int k, int m)
{
    do {
        job_start(job, k, m);
        for (int j = 0; j < m; j++)
            put_column(job->card, j, 1 + below(((uint32_t)1 << k) - 1));
    } while (bridgecrumb_verdict(false, job->card, job->card_len, 7) != 0);
}

void bench_turns(void)
{
    static struct job cards[3];
    static const char *const names[] = {"C1", "by a coin", "by a coin"};
    double least = 1e9, longest = 1e9, rebuilt[LENGTHS][RACERS];
    job_start(&cards[0], 4, 3);
    put_column(cards[0].card, 0, 7);
    put_column(cards[0].card, 1, 11);
    put_column(cards[0].card, 2, 13);
    coins(&cards[1], 8, 8);
    coins(&cards[2], 16, 16);
    printf("%-24s %3s %3s %6s %10s %8s %8s\n", "turned, r modulo n", "k", "m", "L", "ns", "GB/s", "memcpy");
    for (int i = 0; i < 3; i++) {
        turn_rows(turning, &cards[i], 5, &least, &longest);
        turn_rows(turning_back, &cards[i], 5, &least, &longest);
    }
    turn_rows(turning, &cards[2], 0, &least, &longest);
    turn_rows(turning_back, &cards[2], 0, &least, &longest);
    printf("%-24s %3s %3s %6s %10s %8s %8s\n", "rebuild turned, lost", "k", "m", "L", "ns", rebuilding[FIRST].name, rebuilding[SECOND].name);
    for (int l = 0; l < LENGTHS; l++)
        rebuilt[l][FIRST] = rebuilt[l][SECOND] = 1e9;
    for (int i = 0; i < 3; i++)
        for (int lost = 1; lost <= 3; lost++)
            rebuild_rows(names[i], &cards[i], lost, rebuilt);
    printf("best of %d rounds each; every contestant's bytes are those of the rule and of the plain encoder\n", ROUNDS);
    printf("turning is at least %.2f times as fast as two memcpy calls at 65,536 bytes, and %.2f times at all lengths\n", longest, least);
    printf("the turned rebuild is at least this many times as fast, by L:");
    for (int l = 0; l < LENGTHS; l++)
        printf(" %7zu", rebuilt_lens[l]);
    for (int c = FIRST; c < RACERS; c++) {
        printf("\n  %-58s", c == FIRST ? "as the rebuilder on the stripe turned back" : "as turning back, rebuilding and turning");
        for (int l = 0; l < LENGTHS; l++)
            printf(" %7.2f", rebuilt[l][c]);
    }
    printf("\n");
}
