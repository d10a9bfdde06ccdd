/* The record writer beside libc's memcpy and a plain C writer, and the reader and the body call on short strips beside long ones.
 *
 * memcpy copies a finished record of the same length into the same output. The plain writer puts the contents, copies strip
 * by strip by memcpy, and checks nothing. All take turns in this process, and the best time of each counts. A ratio is the
 * peer's time by the engine's: above 1 the engine is faster.
 */
#include <string.h>

#include "bench.h"
#include "bridgecrumb.h"
#include "chance.h"
#include "job.h"

#define ROUNDS 60
#define LARGEST_STRIPE (32 * 65536)
#define LARGEST_RECORD (10 + 10 * 33 + 34 + LARGEST_STRIPE)

static uint8_t stripe[LARGEST_STRIPE] __attribute__((aligned(64)));
static uint8_t out[LARGEST_RECORD] __attribute__((aligned(64)));
static uint8_t right[LARGEST_RECORD] __attribute__((aligned(64))); /* the record, by the plain writer */
static size_t length;

/* each bit of each column by a coin */
static void coins(struct job *job, int k, int m)
{
    job_start(job, k, m);
    for (int j = 0; j < m; j++) {
        uint32_t column;
        do
            column = pseudo_random() & (((uint32_t)1 << k) - 1);
        while (column == 0);
        put_column(job->card, j, column);
    }
}

/* ---- the writers */

static void put_number(uint8_t *bytes, int width, size_t number)
{
    for (int b = 0; b < width; b++)
        bytes[b] = number >> 8 * b & 255;
}

static size_t plain_write(const struct job *job, uint8_t *record)
{
    size_t n = job->card[0] + job->card[1], at = 20 + 10 * n;
    memcpy(record, "FXC1", 4);
    put_number(record + 4, 4, job->strip_len);
    put_number(record + 8, 2, n + 1);
    memset(record + 10, 0, 10 * n + 10);
    put_number(record + 12, 4, at);
    put_number(record + 16, 4, job->card_len);
    memcpy(record + at, job->card, job->card_len);
    at += job->card_len;
    for (size_t d = 0; d < n; d++) {
        uint8_t *entry = record + 20 + 10 * d;
        entry[0] = job->lost >> d & 1 ? 2 : 1;
        entry[1] = d;
        if (job->lost >> d & 1)
            continue;
        put_number(entry + 2, 4, at);
        put_number(entry + 6, 4, job->strip_len);
        memcpy(record + at, job_strip(job, d), job->strip_len);
        at += job->strip_len;
    }
    return at;
}

static void call_engine(const struct job *job)
{
    uint64_t answer = bridgecrumb_record_write(job->card, job->card_len, job->strip_len, job->lost, job->stripe, job->stripe_len, out, length);
    if (answer != 256 * (uint64_t)length)
        stop("the writer's answer is not the record's length");
}

static void call_plain(const struct job *job)
{
    if (plain_write(job, out) != length)
        stop("the plain writer's record has another length");
}

static void call_memcpy(const struct job *job)
{
    (void)job;
    memcpy(out, right, length);
}

/* ---- the times */

enum { ENGINE, MEMCPY, PLAIN, WRITERS };

static void (*const writers[WRITERS])(const struct job *job) = {call_engine, call_memcpy, call_plain};

static void time_writers(const struct job *job, double best[WRITERS])
{
    size_t calls = 1 + 4000000 / length;
    if (calls > 2000)
        calls = 2000;
    for (int w = 0; w < WRITERS; w++)
        best[w] = 1e9;
    for (int round = 0; round < ROUNDS; round++)
        for (int w = 0; w < WRITERS; w++) {
            double start = now();
            for (size_t c = 0; c < calls; c++)
                writers[w](job);
            best[w] = least_of(best[w], (now() - start) / calls);
        }
}

static void start_job(struct job *job, size_t strip_len, uint32_t lost)
{
    job_take(job, strip_len, stripe, 0);
    job->lost = lost;
    length = plain_write(job, right);
}

/* answers the engine's speed by memcpy's */
static double write_row(struct job *job, size_t strip_len, uint32_t lost)
{
    double best[WRITERS];
    start_job(job, strip_len, lost);
    memset(out, 0x5a, length);
    call_engine(job);
    if (memcmp(out, right, length) != 0)
        stop("the record differs from the plain writer's");
    time_writers(job, best);
    printf("%-24s %3d %3d %6zu %8zu %8.2f %8.2f %8.2f\n", lost ? "disks 0 and 2" : "none", job->card[0], job->card[1], strip_len, length,
           length / best[ENGINE] / 1e9, best[MEMCPY] / best[ENGINE], best[PLAIN] / best[ENGINE]);
    fflush(stdout);
    return best[MEMCPY] / best[ENGINE];
}

/* ---- the reader and the body call */

static double read_time(const uint8_t *file, size_t file_len)
{
    size_t fields[4];
    uint16_t columns[16];
    double start = now();
    for (int c = 0; c < 1000; c++)
        if (bridgecrumb_record_read(file, file_len, fields, columns) != 0)
            stop("the reader refuses");
    return (now() - start) / 1000;
}

static double body_time(const uint8_t *file, size_t file_len, size_t disk)
{
    size_t place[2];
    double start = now();
    for (int c = 0; c < 1000; c++)
        if (bridgecrumb_record_body(file, file_len, disk, place) != 0)
            stop("the body call refuses");
    return (now() - start) / 1000;
}

/* strips of 1 byte and of 65,536 take turns; answers the larger of the two calls' times on long strips by that on short ones */
static double read_row(struct job *job, uint32_t lost)
{
    static uint8_t brief[512];
    size_t brief_len, last = job->card[0] + job->card[1] - 1;
    double best[4] = {1e9, 1e9, 1e9, 1e9};
    start_job(job, 1, lost);
    brief_len = length;
    memcpy(brief, right, brief_len);
    start_job(job, 65536, lost);
    for (int round = 0; round < ROUNDS; round++) {
        best[0] = least_of(best[0], read_time(brief, brief_len));
        best[1] = least_of(best[1], read_time(right, length));
        best[2] = least_of(best[2], body_time(brief, brief_len, last));
        best[3] = least_of(best[3], body_time(right, length, last));
    }
    printf("%-24s %3d %3d %10.1f %10.1f %8.2f %10.1f %10.1f %8.2f\n", lost ? "disks 0 and 2" : "none", job->card[0], job->card[1], best[0] * 1e9,
           best[1] * 1e9, best[1] / best[0], best[2] * 1e9, best[3] * 1e9, best[3] / best[2]);
    fflush(stdout);
    return best[1] / best[0] > best[3] / best[2] ? best[1] / best[0] : best[3] / best[2];
}

void bench_records(void)
{
    static const size_t strip_lens[] = {65536, 4096, 256};
    static struct job jobs[3];
    double least[3] = {1e9, 1e9, 1e9}, most = 0;
    coins(&jobs[0], 4, 3);
    coins(&jobs[1], 10, 5);
    coins(&jobs[2], 16, 16);
    fill(stripe, sizeof stripe);
    printf("%-24s %3s %3s %6s %8s %8s %8s %8s\n", "write record, lost", "k", "m", "L", "T", "GB/s", "memcpy", "plain");
    for (int c = 0; c < 3; c++)
        for (int l = 0; l < 3; l++)
            for (uint32_t lost = 0; lost <= 5; lost += 5)
                least[l] = least_of(least[l], write_row(&jobs[c], strip_lens[l], lost));
    printf("%-24s %3s %3s %10s %10s %8s %10s %10s %8s\n", "read record, lost", "k", "m", "read ns, 1", "65536", "ratio", "body ns, 1", "65536",
           "ratio");
    for (int c = 0; c < 3; c++)
        for (uint32_t lost = 0; lost <= 5; lost += 5) {
            double ratio = read_row(&jobs[c], lost);
            most = ratio > most ? ratio : most;
        }
    printf("best of %d rounds each; every record's bytes are the plain writer's; writing has at least this part of memcpy's speed\n", ROUNDS);
    for (int l = 0; l < 3; l++)
        printf("  L = %-6zu %.2f\n", strip_lens[l], least[l]);
    printf("reading a record of strips of 65,536 bytes takes at most %.2f times as long as one of strips of 1 byte\n", most);
}
