/* The encoder and the rebuilder beside peers: plain C (plain.c), liberasurecode's flat XOR kernel and API, and ISA-L (libraries.c).
 *
 * Each is first held to the bytes of the plain loop, then all take turns on the same stripe in this process, and the best time
 * of each counts. A ratio is the peer's time by the engine's: above 1 the engine is faster.
 */
#include <string.h>

#include "bench.h"
#include "bridgecrumb.h"
#include "chance.h"
#include "libraries.h"
#include "plain.h"

#define ROUNDS 60
#define LARGEST_STRIPE (32 * 65536)
#define PEERS 5

static uint8_t stripe[LARGEST_STRIPE] __attribute__((aligned(64)));
static uint8_t right[LARGEST_STRIPE];

/* ---- the cards */

/* each column has every data disk */
static void ones(struct job *job, int k, int m)
{
    job_start(job, k, m);
    for (int j = 0; j < m; j++)
        put_column(job->card, j, ((uint32_t)1 << k) - 1);
}

/* each column has one data disk */
static void one_bit(struct job *job, int k, int m)
{
    job_start(job, k, m);
    for (int j = 0; j < m; j++)
        put_column(job->card, j, (uint32_t)1 << j % k);
}

/* each bit of each column by a coin; at least two data disks in each, and data disks 0 and 1 can be lost together */
static void coins(struct job *job, int k, int m)
{
    do {
        job_start(job, k, m);
        for (int j = 0; j < m; j++) {
            uint32_t column;
            do
                column = pseudo_random() & (((uint32_t)1 << k) - 1);
            while ((column & (column - 1)) == 0);
            put_column(job->card, j, column);
        }
    } while (bridgecrumb_verdict(false, job->card, job->card_len, 3) != 0);
}

/* ---- the contestants */

typedef void (*contestant)(struct job *job);

static void engine_encode(struct job *job)
{
    if (bridgecrumb_encode(false, job->card, job->card_len, job->strip_len, job->stripe, job->stripe_len) != 0)
        stop("the encoder refuses");
}

static void engine_rebuild(struct job *job)
{
    if (BRIDGECRUMB_NUMBER(bridgecrumb_rebuild(false, job->card, job->card_len, job->strip_len, job->lost, job->stripe, job->stripe_len)) != 0)
        stop("the rebuilder refuses");
}

/* a peer's call, and the form of it that leaves its result in the stripe */
struct peer {
    const char *name;
    contestant call, shown;
};

enum { PLAIN, MULTIPLYING, KERNEL, API, ISAL };

static const struct peer encoders[PEERS] = {
    {"plain", plain_encode, plain_encode},    {"multiply", multiplying_encode, multiplying_encode},
    {"kernel", kernel_encode, kernel_encode}, {"API", api_encode, api_encode_shown},
    {"ISA-L", isal_encode, isal_encode},
};

static const struct peer rebuilders[PEERS] = {
    [KERNEL] = {"kernel", kernel_decode, kernel_decode},
    [API] = {"API", api_decode, api_decode_shown},
};

/* ---- the bytes */

/* other bytes in the strips that the call writes, then the call: the stripe is right again */
static void check(struct job *job, const char *name, contestant shown, uint32_t written)
{
    fill_strips(job, written);
    shown(job);
    if (memcmp(stripe, right, job->stripe_len) != 0) {
        fprintf(stderr, "%s, strip length %zu: ", name, job->strip_len);
        stop("the stripe differs from the plain loop's");
    }
}

/* ---- the times */

/* the best of the times so far and that of one more round of calls */
static double better(double best, struct job *job, contestant call)
{
    size_t calls = job_calls(job);
    double start = now();
    for (size_t c = 0; c < calls; c++)
        call(job);
    return least_of(best, (now() - start) / calls);
}

/* least ratio to each peer, over the rows that count for it */
static void keep_least(double least[PEERS], const double ratios[PEERS])
{
    for (int p = 0; p < PEERS; p++)
        if (ratios[p] > 0)
            least[p] = least_of(least[p], ratios[p]);
}

static void print_row(const char *name, const struct job *job, double engine, const double ratios[PEERS])
{
    printf("%-24s %3d %3d %6zu %8.2f", name, job->card[0], job->card[1], job->strip_len, job->card[0] * job->strip_len / engine / 1e9);
    for (int p = 0; p < PEERS; p++)
        if (ratios[p] > 0)
            printf(" %8.2f", ratios[p]);
        else
            printf(" %8s", "-");
    printf("\n");
    fflush(stdout);
}

struct race {
    const char *name;
    contestant engine;
    const struct peer *peers;
    unsigned among;   /* bit p: peer p takes part */
    uint32_t written; /* the disks that the calls write */
};

/* checks engine and peers, lets them take turns, prints the row; a peer that takes no part has the ratio 0 */
static void run(const struct race *race, struct job *job, double ratios[PEERS])
{
    double engine = 1e9, best[PEERS] = {1e9, 1e9, 1e9, 1e9, 1e9};
    check(job, "engine", race->engine, race->written);
    for (int p = 0; p < PEERS; p++)
        if (race->among >> p & 1)
            check(job, race->peers[p].name, race->peers[p].shown, race->written);
    for (int round = 0; round < ROUNDS; round++) {
        engine = better(engine, job, race->engine);
        for (int p = 0; p < PEERS; p++)
            if (race->among >> p & 1)
                best[p] = better(best[p], job, race->peers[p].call);
    }
    for (int p = 0; p < PEERS; p++)
        ratios[p] = race->among >> p & 1 ? best[p] / engine : 0;
    print_row(race->name, job, engine, ratios);
}

/* ---- the rows */

static void print_head(const char *name)
{
    printf("%-24s %3s %3s %6s %8s", name, "k", "m", "L", "GB/s");
    for (int p = 0; p < PEERS; p++)
        printf(" %8s", encoders[p].name);
    printf("\n");
}

/* one row for a strip length; keeps the least ratios */
static void print_race(const struct race *race, struct job *job, size_t strip_len, double least[PEERS])
{
    double ratios[PEERS];
    encoded_stripe(job, strip_len, stripe, right);
    libraries_open(job, race->among >> API & 1);
    run(race, job, ratios);
    libraries_close();
    keep_least(least, ratios);
}

static uint32_t parities_of(const struct job *job)
{
    return (uint32_t)((((uint64_t)1 << job->card[1]) - 1) << job->card[0]);
}

/* the libraries take part where strips are aligned as they need it, the API on its own code */
static void encode_rows(const char *name, struct job *job, int own, double least[PEERS])
{
    static const size_t strip_lens[] = {4096, 65536, 1, 16, 100, 1000};
    struct race race = {name, engine_encode, encoders, 0, parities_of(job)};
    for (int l = 0; l < 6; l++) {
        race.among = 1u << PLAIN | 1u << MULTIPLYING;
        if (l < 2)
            race.among |= 1u << KERNEL | 1u << ISAL | (unsigned)own << API;
        print_race(&race, job, strip_lens[l], least);
    }
}

static void rebuild_rows(const char *name, struct job *job, int own, uint32_t lost, double least[PEERS])
{
    struct race race = {name, engine_rebuild, rebuilders, 1u << KERNEL | (unsigned)own << API, lost};
    job->lost = lost;
    print_race(&race, job, 4096, least);
    print_race(&race, job, 65536, least);
}

/* the encoder on columns of one data disk and of all, in turn: a steady one takes as long for both; keeps the least and the most ratio */
static void steady_rows(int k, int m, double *least, double *most)
{
    static const size_t strip_lens[] = {1, 16, 100, 1000, 4096, 65536};
    struct job sparse, dense;
    one_bit(&sparse, k, m);
    ones(&dense, k, m);
    for (int l = 0; l < 6; l++) {
        double of_sparse = 1e9, of_dense = 1e9, plain_sparse = 1e9, plain_dense = 1e9;
        encoded_stripe(&sparse, strip_lens[l], stripe, right);
        check(&sparse, "engine", engine_encode, parities_of(&sparse));
        encoded_stripe(&dense, strip_lens[l], stripe, right);
        check(&dense, "engine", engine_encode, parities_of(&dense));
        for (int round = 0; round < ROUNDS; round++) {
            of_sparse = better(of_sparse, &sparse, engine_encode);
            of_dense = better(of_dense, &dense, engine_encode);
            plain_sparse = better(plain_sparse, &sparse, plain_encode);
            plain_dense = better(plain_dense, &dense, plain_encode);
        }
        double ratio = of_sparse / of_dense;
        printf("%-24s %3d %3d %6zu %8.3f %8.3f\n", "one bit by all ones", k, m, strip_lens[l], ratio, plain_sparse / plain_dense);
        fflush(stdout);
        *least = least_of(*least, ratio);
        *most = -least_of(-*most, -ratio);
    }
}

void bench_stripes(void)
{
    static struct job dense[4], own;
    static const char *const names[] = {"all ones", "all ones", "by a coin", "by a coin"};
    double least = 1e9, most = 0;
    double of_dense[PEERS] = {1e9, 1e9, 1e9, 1e9, 1e9}, of_own[PEERS] = {1e9, 1e9, 1e9, 1e9, 1e9}, of_rebuild[PEERS] = {1e9, 1e9, 1e9, 1e9, 1e9};
    ones(&dense[0], 10, 4);
    ones(&dense[1], 16, 16);
    coins(&dense[2], 10, 4);
    coins(&dense[3], 16, 16);
    own_card(&own);
    print_head("encode, columns");
    for (int c = 0; c < 4; c++)
        encode_rows(names[c], &dense[c], 0, of_dense);
    encode_rows("liberasurecode's own", &own, 1, of_own);
    printf("%-24s %3s %3s %6s %8s %8s\n", "time on columns", "k", "m", "L", "engine", "plain");
    steady_rows(10, 4, &least, &most);
    steady_rows(16, 16, &least, &most);
    print_head("rebuild, lost disks");
    rebuild_rows("own, 1 data disk", &own, 1, 1, of_rebuild);
    rebuild_rows("own, 2 data disks", &own, 1, 3, of_rebuild);
    rebuild_rows("all ones, 1 data disk", &dense[0], 0, 1, of_rebuild);
    rebuild_rows("by a coin, 1 data disk", &dense[2], 0, 1, of_rebuild);
    rebuild_rows("by a coin, 2 data disks", &dense[2], 0, 3, of_rebuild);
    printf("best of %d rounds each; every row's bytes are the plain loop's; the engine is at least this many times as fast as\n", ROUNDS);
    printf("  liberasurecode's kernel, encoding by dense columns:  %.2f\n", of_dense[KERNEL]);
    printf("  liberasurecode's kernel, encoding by its own code:   %.2f\n", of_own[KERNEL]);
    printf("  the plain loop, encoding, over all strip lengths:    %.2f\n", least_of(of_dense[PLAIN], of_own[PLAIN]));
    printf("  the multiplying loop, over all strip lengths:        %.2f\n", least_of(of_dense[MULTIPLYING], of_own[MULTIPLYING]));
    printf("its time on columns of one data disk is %.3f to %.3f of that on columns of all; it rebuilds at least this many times as fast as\n", least,
           most);
    printf("  liberasurecode's kernel, rebuilding:                 %.2f\n", of_rebuild[KERNEL]);
    printf("  liberasurecode's API, rebuilding:                    %.2f\n", of_rebuild[API]);
}
