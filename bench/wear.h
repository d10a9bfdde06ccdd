/* What is asked of the least-wear call and of its peers in plain C, which check no card. */
#ifndef WEAR_H
#define WEAR_H

#include "job.h"

#define NONE 11 /* the answer where no equation survives */

/* a card of edition 2, which is one of edition 1 from byte 1 on; the disk, and the lost set without it */
struct ask {
    uint8_t card[67];
    size_t card_len;
    uint32_t disk, lost;
};

static inline int data_disks(const struct ask *ask)
{
    return ask->card[1];
}

static inline int parity_disks(const struct ask *ask)
{
    return ask->card[2];
}

static inline const uint8_t *wears_of(const struct ask *ask)
{
    return ask->card + 3 + 2 * parity_disks(ask);
}

/* what the set's disks total */
static inline uint32_t sum_wears(const uint8_t *wears, uint32_t set)
{
    uint32_t total = 0;
    for (; set != 0; set &= set - 1)
        total += wears[__builtin_ctz(set)];
    return total;
}

/* every sum of checks, one check after the other coming in or going out; those with the disk and without a lost one are looked at */
uint64_t plain_walk(const struct ask *ask);

/* the lost disks are cleared from the checks by elimination; then one equation among the survivors, to which every sum of the checks among them is
 * added, with the wears of eight disks at a time out of a table */
uint64_t plain_cleared_walk(const struct ask *ask);

#endif
