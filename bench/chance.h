/* Chance, the same in every run: xorshift64; and stripes by chance. */
#ifndef CHANCE_H
#define CHANCE_H

#include <stddef.h>
#include <stdint.h>
#include <string.h>

#include "plain.h"

static uint64_t seed = 0x9e3779b97f4a7c15;

static inline uint32_t pseudo_random(void)
{
    seed ^= seed << 13;
    seed ^= seed >> 7;
    seed ^= seed << 17;
    return (uint32_t)(seed >> 32);
}

static inline uint32_t below(uint32_t limit)
{
    return pseudo_random() % limit;
}

static inline void fill(uint8_t *bytes, size_t count)
{
    for (size_t t = 0; t < count; t++)
        bytes[t] = pseudo_random() & 255;
}

/* other bytes in the strips of a set */
static inline void fill_strips(const struct job *job, uint32_t set)
{
    for (int d = 0; d < job->card[0] + job->card[1]; d++)
        if (set >> d & 1)
            fill(job_strip(job, d), job->strip_len);
}

/* the job takes a stripe by chance, encoded, of which a copy is kept */
static inline void encoded_stripe(struct job *job, size_t strip_len, uint8_t *stripe, uint8_t *right)
{
    job_take(job, strip_len, stripe, 0);
    fill(stripe, job->stripe_len);
    plain_encode(job);
    memcpy(right, stripe, job->stripe_len);
}

#endif
