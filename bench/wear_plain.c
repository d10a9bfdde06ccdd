#include "wear.h"

/* parity j's check: the disks of its column and its own */
static uint32_t check_of(const struct ask *ask, int j)
{
    return card_column(ask->card + 1, j) | (uint32_t)1 << (data_disks(ask) + j);
}

/* the list's order: by size, then by parity disks, then by number */
static int before(const struct ask *ask, uint32_t one, uint32_t other)
{
    int sizes = __builtin_popcount(one) - __builtin_popcount(other), k = data_disks(ask);
    int parities = __builtin_popcount((uint64_t)one >> k) - __builtin_popcount((uint64_t)other >> k);
    return sizes != 0 ? sizes < 0 : parities != 0 ? parities < 0 : one < other;
}

/* the best equation so far, and what it totals */
struct best {
    uint32_t equation, total;
};

static void keep_best(const struct ask *ask, struct best *best, uint32_t equation, uint32_t total)
{
    if (total < best->total || (total == best->total && before(ask, equation, best->equation)))
        *best = (struct best){equation, total};
}

static uint64_t answer_of(struct best best)
{
    return best.total == UINT32_MAX ? NONE : 256 * (uint64_t)best.equation;
}

uint64_t plain_walk(const struct ask *ask)
{
    uint32_t word = 0, disk = (uint32_t)1 << ask->disk, checks[16];
    struct best best = {0, UINT32_MAX};
    for (int j = 0; j < parity_disks(ask); j++)
        checks[j] = check_of(ask, j);
    for (uint32_t x = 1; x >> parity_disks(ask) == 0; x++) {
        word ^= checks[__builtin_ctz(x)];
        if ((word & (ask->lost | disk)) == disk)
            keep_best(ask, &best, word ^ disk, sum_wears(wears_of(ask), word ^ disk));
    }
    return answer_of(best);
}

/* clears the set's disks from the checks, and answers how many come first that have one of them */
static int clear_disks(uint32_t *checks, int m, uint32_t set)
{
    int count = 0;
    for (; set != 0 && count < m; set &= set - 1) {
        int d = __builtin_ctz(set), pivot = count;
        while (pivot < m && !(checks[pivot] >> d & 1))
            pivot++;
        if (pivot == m)
            continue;
        uint32_t check = checks[pivot];
        checks[pivot] = checks[count];
        checks[count] = check;
        for (int j = count + 1; j < m; j++)
            if (checks[j] >> d & 1)
                checks[j] ^= check;
        count++;
    }
    return count;
}

static void fill_tables(const uint8_t *wears, int n, uint16_t tables[4][256])
{
    for (int b = 0; 8 * b < n; b++) {
        tables[b][0] = 0;
        for (int x = 1; x < 256; x++) {
            int d = 8 * b + __builtin_ctz(x);
            tables[b][x] = tables[b][x & (x - 1)] + (d < n ? wears[d] : 0);
        }
    }
    for (int b = (n + 7) / 8; b < 4; b++)
        tables[b][0] = 0;
}

static uint32_t look_up(uint16_t tables[4][256], uint32_t set)
{
    return tables[0][set & 255] + tables[1][set >> 8 & 255] + tables[2][set >> 16 & 255] + tables[3][set >> 24];
}

uint64_t plain_cleared_walk(const struct ask *ask)
{
    int m = parity_disks(ask);
    uint32_t disk = (uint32_t)1 << ask->disk, checks[16];
    uint16_t tables[4][256];
    for (int j = 0; j < m; j++)
        checks[j] = check_of(ask, j);
    int gone = clear_disks(checks, m, ask->lost), with_disk = clear_disks(checks + gone, m - gone, disk);
    if (with_disk == 0)
        return NONE;
    fill_tables(wears_of(ask), data_disks(ask) + m, tables);
    uint32_t word = checks[gone] ^ disk;
    struct best best = {word, look_up(tables, word)};
    for (uint32_t x = 1; x >> (m - gone - 1) == 0; x++) {
        word ^= checks[gone + 1 + __builtin_ctz(x)];
        uint32_t total = look_up(tables, word);
        if (total <= best.total)
            keep_best(ask, &best, word, total);
    }
    return answer_of(best);
}
