/* The encoder with columns that valgrind's memcheck takes for undefined: it then reports every branch and address that depends on a column.
 * steady MODE FROM TO makes the calls of the strip lengths from FROM to TO:
 *   checked: with a stripe that is one byte short, so that each is refused after the card check and two tests of lengths;
 *   encoded: with the whole stripe, so that each is accepted, and the parity strips are compared with a plain sum;
 *   control: as checked, and then an encoder of this file that branches on the columns and looks one up in a table: the search has to find both;
 *   another: the rebuilder on the same cards, refused right after the card check: how many reports that check makes.
 * Prints how many calls there were, and how many parity bytes did not depend on the columns for memcheck. tests/steady compares the reports.
 */
#include <stdio.h>
#include <stdlib.h>
#include <string.h>

#include <valgrind/memcheck.h>

#include "bridgecrumb.h"

/* The lengths from 1 to 48 and these are tried with every k and m, those above 1,024 only with the shapes below: time. */
static const size_t lengths[] = {63, 64, 65, 100, 127, 128, 129, 200, 255, 256, 300, 1000, 1024, 4096, 5000, 8192, 65536};
static const uint8_t shapes[][2] = {{1, 1}, {2, 1}, {4, 3}, {9, 4}, {10, 4}, {10, 5}, {5, 10}, {16, 1}, {1, 16}, {16, 16}};

enum { SPARSE, DENSE, MIXED, KINDS };

/* the card of edition 1 as it is, for the test; and the one that is lent, with undefined columns, of either edition */
static uint8_t card[34], lent[67];
static size_t lent_len;
static bool second;
/* the stripe that is lent, and the one that it has to become */
static uint8_t stripe[32 * 65536], sums[32 * 65536];
static unsigned long calls, independent;

static void fail(const char *what, size_t length)
{
    fprintf(stderr, "steady: %d+%d disks, strips of %lu: %s\n", card[0], card[1], (unsigned long)length, what);
    exit(1);
}

static unsigned column_of(int kind, unsigned k, unsigned j)
{
    unsigned all = (1u << k) - 1, one = 1u << j % k, mixed = (j + 1) * 2654435761u >> 9 & all;
    if (kind == SPARSE)
        return one;
    if (kind == DENSE)
        return j % 2 && all != one ? all - one : all;
    return mixed ? mixed : all;
}

static void make_card(int kind, unsigned k, unsigned m)
{
    card[0] = k;
    card[1] = m;
    for (unsigned j = 0; j < m; j++) {
        unsigned column = column_of(kind, k, j);
        card[2 + 2 * j] = column & 255;
        card[3 + 2 * j] = column >> 8;
    }
}

/* edition 2 has a byte more at the front, and wears at the end */
static void lend_card(bool in_edition_2)
{
    size_t m = card[1], n = card[0] + m;
    second = in_edition_2;
    lent_len = 2 + 2 * m + (second ? 1 + n : 0);
    lent[0] = 0x02;
    memcpy(lent + second, card, 2 + 2 * m);
    for (size_t i = 0; second && i < n; i++)
        lent[3 + 2 * m + i] = 1 + 37 * i % 255;
    VALGRIND_MAKE_MEM_UNDEFINED(lent + second + 2, 2 * m);
}

/* The answer is made defined before it is looked at: what is reported has to be the archive's. */
static void answered(uint64_t answer, size_t length, unsigned wanted)
{
    VALGRIND_MAKE_MEM_DEFINED(&answer, sizeof answer);
    calls++;
    if (answer != wanted)
        fail("another answer than wanted", length);
}

static void call(size_t length, size_t stripe_len, unsigned wanted)
{
    answered(bridgecrumb_encode(second, lent, lent_len, length, stripe, stripe_len), length, wanted);
}

/* strips of no byte: the first thing that is refused after the card */
static void call_another(size_t length)
{
    answered(bridgecrumb_rebuild(second, lent, lent_len, 0, 0, stripe, 0), length, BRIDGECRUMB_STRIP_LENGTH);
}

/* Makes each parity strip the sum of its column's data disks. With the card that is lent it is a control: the `if` depends on a column. */
__attribute__((noinline)) static void sum(const uint8_t *from_card, size_t length, uint8_t *to)
{
    unsigned k = from_card[0], m = from_card[1];
    memset(to + k * length, 0, m * length);
    for (unsigned j = 0; j < m; j++)
        for (unsigned i = 0; i < k; i++)
            if ((from_card[2 + 2 * j] + 256u * from_card[3 + 2 * j]) >> i & 1)
                for (size_t t = 0; t < length; t++)
                    to[(k + j) * length + t] ^= to[i * length + t];
}

/* The other control: an address that depends on a column. */
__attribute__((noinline)) static uint8_t look_up(const uint8_t *from_card)
{
    return sums[from_card[2]];
}

/* Counts those first and last bytes of parity strips that memcheck takes for defined, that is for independent of the columns. No byte is, where
 * every column bit was multiplied with every data byte; all would be, were the columns not undefined or the bytes not written. */
static void count_independent(size_t length)
{
    for (unsigned j = 0; j < card[1]; j++) {
        const uint8_t *strip = stripe + (card[0] + j) * length;
        uint8_t first = 0, last = 0;
        (void)VALGRIND_GET_VBITS(strip, &first, 1);
        (void)VALGRIND_GET_VBITS(strip + length - 1, &last, 1);
        independent += (first == 0) + (last == 0);
    }
}

static void encode(size_t length, size_t stripe_len)
{
    call(length, stripe_len, BRIDGECRUMB_ACCEPTED);
    count_independent(length);
    VALGRIND_MAKE_MEM_DEFINED(stripe, stripe_len);
    sum(card, length, sums);
    if (memcmp(stripe, sums, stripe_len) != 0)
        fail("the stripe is not what the columns say", length);
}

static void try_card(const char *mode, size_t length)
{
    size_t stripe_len = (card[0] + card[1]) * length;
    for (size_t i = 0; i < stripe_len; i++)
        stripe[i] = sums[i] = 1 + (i * 40503 >> 5) % 255; /* never 0: 0 times an undefined bit is a defined 0 */
    if (strcmp(mode, "encoded") == 0)
        encode(length, stripe_len);
    else if (strcmp(mode, "another") == 0)
        call_another(length);
    else
        call(length, stripe_len - 1, BRIDGECRUMB_BUFFER_LENGTH);
    if (strcmp(mode, "control") == 0) {
        sum(lent + second, length, stripe);
        stripe[0] = look_up(lent + second);
    }
}

/* each kind of columns in edition 1, and mixed ones in edition 2 too */
static void try(const char *mode, unsigned k, unsigned m, size_t length)
{
    for (int kind = 0; kind < KINDS; kind++) {
        make_card(kind, k, m);
        lend_card(false);
        try_card(mode, length);
    }
    lend_card(true);
    try_card(mode, length);
}

static void try_shapes(const char *mode, size_t length)
{
    if (length <= 1024)
        for (unsigned disks = 0; disks < 256; disks++)
            try(mode, 1 + disks / 16, 1 + disks % 16, length);
    else
        for (size_t s = 0; s < sizeof shapes / sizeof *shapes; s++)
            try(mode, shapes[s][0], shapes[s][1], length);
}

int main(int argc, char **argv)
{
    if (argc != 4 || !RUNNING_ON_VALGRIND) {
        fprintf(stderr, "usage: valgrind steady checked|encoded|control|another FROM TO\n");
        return 2;
    }
    size_t from = strtoul(argv[2], NULL, 10), to = strtoul(argv[3], NULL, 10);
    for (size_t length = from; length <= to && length <= 48; length++)
        try_shapes(argv[1], length);
    for (size_t l = 0; l < sizeof lengths / sizeof *lengths; l++)
        if (from <= lengths[l] && lengths[l] <= to)
            try_shapes(argv[1], lengths[l]);
    printf("%lu %lu\n", calls, independent);
    return 0;
}
