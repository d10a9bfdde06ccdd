/* One stripe with its card: what engine and peers get alike. */
#ifndef JOB_H
#define JOB_H

#include <stddef.h>
#include <stdint.h>

struct job {
    uint8_t card[34];
    size_t card_len, strip_len;
    uint8_t *stripe;
    size_t stripe_len;
    uint32_t lost; /* data disks only where the libraries take part */
};

static inline void put_column(uint8_t *card, int j, uint32_t column)
{
    card[2 + 2 * j] = column & 255;
    card[3 + 2 * j] = column >> 8;
}

static inline uint32_t card_column(const uint8_t *card, int j)
{
    return card[2 + 2 * j] + 256u * card[3 + 2 * j];
}

/* a chain of k data disks: column j is data disks j and j + 1 */
static inline void put_chain(uint8_t *card, int k)
{
    for (int j = 0; j < k; j++)
        put_column(card, j, (uint32_t)1 << j | (uint32_t)1 << (j + 1) % k);
}

/* the head of the card; its columns are put one by one */
static inline void job_start(struct job *job, int k, int m)
{
    job->card[0] = k;
    job->card[1] = m;
    job->card_len = 2 + 2 * (size_t)m;
}

static inline uint32_t job_column(const struct job *job, int j)
{
    return card_column(job->card, j);
}

static inline uint8_t *job_strip(const struct job *job, int disk)
{
    return job->stripe + disk * job->strip_len;
}

/* the job's stripe is that of number s among the stripes that stand in these bytes */
static inline void job_take(struct job *job, size_t strip_len, uint8_t *bytes, size_t s)
{
    job->strip_len = strip_len;
    job->stripe_len = (size_t)(job->card[0] + job->card[1]) * strip_len;
    job->stripe = bytes + s * job->stripe_len;
}

/* how many calls make a round that can be timed: the more, the shorter the strips */
static inline size_t job_calls(const struct job *job)
{
    size_t calls = 1 + 4000000 / (job->strip_len * job->card[0] * job->card[1]);
    return calls < 2000 ? calls : 2000;
}

#endif
