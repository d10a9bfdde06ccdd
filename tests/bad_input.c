/* Every call from C, as the header declares it: null pointers of length 0, wrong lengths, numbers and sets out of range. The answers stand here,
 * with the number that the documents' order of faults gives; a refused call changes no lent byte. What an accepted call writes, and that
 * no call reaches outside its buffers, is tried in rust/calls. Ends with the number of calls.
 */
#include <stdio.h>
#include <stdlib.h>
#include <string.h>

#include "bad_input.h"

static const uint8_t c1[] = {4, 3, 7, 0, 11, 0, 13, 0}, c3[] = {2, 2, 1, 0, 2, 0}, c4[] = {1, 2, 1, 0, 1, 0}, c6[] = {2, 1, 1, 0};
static const uint8_t most[34] = {16, 16, 1, 0, 1, 0, 1, 0, 1, 0, 1, 0, 1, 0, 1, 0, 1,
                                 0,  1,  0, 1, 0, 1, 0, 1, 0, 1, 0, 1, 0, 1, 0, 1, 0}; /* 32 disks */
static const uint8_t wrong[] = {17, 1, 1, 0, 2, 2, 1, 0, 4, 0}; /* a card of 17 data disks, one of no parity disk, one whose column 1 is wrong */
static const uint16_t columns[] = {7, 11, 13, 1}, wrong_columns[] = {7, 16, 0};
static const uint8_t c7[] = {0x11, 0x22, 0x44, 0x88, 0x77, 0xbb, 0xdd}; /* a stripe of C1 */
static uint8_t record[104];                                             /* of C1 with that stripe and disk 2 lost */

struct lent lent;
static struct lent before; /* what it was before the call */
static unsigned tried;

void begin(void)
{
    memset(&lent, 0xa5, sizeof lent);
    memcpy(lent.stripe, c7, sizeof c7);
    before = lent;
}

void compare(const char *call, uint64_t answer, unsigned number, uint64_t value)
{
    tried++;
    if (answer == number + 256 * value && (number == 0 || memcmp(&lent, &before, sizeof lent) == 0))
        return;
    fprintf(stderr, "%s: number %u, value %llu; %u and %llu are wanted, and no change where it is refused\n", call, BRIDGECRUMB_NUMBER(answer),
            (unsigned long long)BRIDGECRUMB_VALUE(answer), number, (unsigned long long)value);
    exit(1);
}

static void cards(void)
{
    static const uint8_t bad[] = {0, 0, 17, 4, 3, 0, 0, 11, 0, 16, 0};
    TRY(0, 0, card_read(false, c1, 8, lent.numbers, lent.columns, lent.wears));
    TRY(1, 0, card_read(false, NULL, 0, lent.numbers, lent.columns, lent.wears));
    TRY(1, 0, card_read(false, c1, 1, lent.numbers, lent.columns, lent.wears));
    TRY(2, 0, card_read(false, bad, 2, lent.numbers, lent.columns, lent.wears));
    TRY(2, 0, card_read(false, bad + 2, 8, lent.numbers, lent.columns, lent.wears));
    TRY(3, 0, card_read(false, c1 + 4, 4, lent.numbers, lent.columns, lent.wears));
    TRY(4, 0, card_read(false, c1, 7, lent.numbers, lent.columns, lent.wears));
    TRY(5, 0, card_read(false, bad + 3, 8, lent.numbers, lent.columns, lent.wears)); /* columns 0 and 2 are wrong: the first */
    TRY(0, 0, card_write(false, 4, 3, columns, 3, NULL, 0, lent.out, 8));
    TRY(2, 0, card_write(false, 0, 0, NULL, 0, NULL, 0, NULL, 0));
    TRY(2, 0, card_write(false, SIZE_MAX, 3, columns, 3, NULL, 0, lent.out, 8));
    TRY(3, 0, card_write(false, 4, 0, NULL, 0, NULL, 0, NULL, 0));
    TRY(3, 0, card_write(false, 4, ((size_t)1 << 32) + 3, columns, 3, NULL, 0, lent.out, 8));
    TRY(4, 0, card_write(false, 4, 3, NULL, 0, NULL, 0, NULL, 0));
    TRY(4, 0, card_write(false, 4, 3, columns, 4, NULL, 0, lent.out, 8));
    TRY(5, 1, card_write(false, 4, 3, wrong_columns, 3, NULL, 0, NULL, 0));
    TRY(7, 0, card_write(false, 4, 3, columns, 3, NULL, 0, NULL, 0));
    TRY(7, 0, card_write(false, 4, 3, columns, 3, NULL, 0, lent.out, 9));
}

static void two_cards(void)
{
    static const uint8_t turned[] = {4, 3, 13, 0, 7, 0, 11, 0}, swapped[] = {4, 3, 7, 0, 11, 0, 14, 0};
    static const uint8_t two_ones[] = {2, 3, 1, 0, 1, 0, 2, 0}, two_twos[] = {2, 3, 1, 0, 2, 0, 2, 0};
    static const uint8_t one_three[] = {2, 2, 1, 0, 3, 0}, threes[] = {2, 2, 3, 0, 3, 0}, ones[] = {2, 2, 1, 0, 1, 0};
    static const uint8_t one_six[] = {3, 2, 1, 0, 6, 0}, two_five[] = {3, 2, 2, 0, 5, 0};
    uint8_t last[34]; /* the last of 16 columns is another */
    memcpy(last, most, 34);
    last[33] = 0x80;
    TRY(0, 1, alike(false, c1, 8, false, c1, 8));
    TRY(0, 1, alike(false, c1, 8, false, turned, 8)); /* the same columns in another order */
    TRY(0, 1, alike(false, most, 34, false, most, 34));
    TRY(0, 0, alike(false, most, 34, false, last, 34));
    TRY(0, 0, alike(false, c1, 8, false, swapped, 8));        /* data disks 0 and 1 swapped: only the vectors are equal */
    TRY(0, 0, alike(false, one_three, 6, false, threes, 6));  /* here too */
    TRY(0, 0, alike(false, two_ones, 8, false, two_twos, 8)); /* the same columns, not as often each */
    TRY(0, 0, alike(false, one_six, 6, false, two_five, 6));  /* equal sum and XOR */
    TRY(0, 0, alike(false, c4, 6, false, ones, 6));           /* another k alone */
    TRY(0, 0, alike(false, ones, 6, false, c6, 4));           /* another m */
    TRY(1, 0, alike(false, NULL, 0, false, NULL, 0));
    TRY(1, 0, alike(false, NULL, 0, false, wrong + 4, 6));
    TRY(1, 0, alike(false, c1, 8, false, NULL, 0));
    TRY(2, 0, alike(false, wrong, 4, false, c1, 1));
    TRY(2, 0, alike(false, c1, 8, false, wrong, 4));
    TRY(3, 0, alike(false, c1, 8, false, wrong + 2, 4));
    TRY(4, 0, alike(false, c1, 8, false, c1, 7));
    TRY(5, 1, alike(false, wrong + 4, 6, false, NULL, 0)); /* the first card's fault before the second's */
    TRY(5, 1, alike(false, c1, 8, false, wrong + 4, 6));   /* the second card's column, though k and m are others */
}

static void stepped_cards(void)
{
    TRY(0, 0, card_stepped(3, 3, 4, lent.out, 8));
    TRY(0, 0, card_stepped(4, 3, 1, lent.out, 8));
    TRY(0, 0, card_stepped(4, 6, 16, lent.out, 14));
    TRY(2, 0, card_stepped(0, 0, 0, NULL, 0));
    TRY(2, 0, card_stepped(3, 3, 17, lent.out, 8));
    TRY(2, 0, card_stepped(3, 3, ((size_t)1 << 32) + 4, lent.out, 8));
    TRY(2, 0, card_stepped(SIZE_MAX, SIZE_MAX, SIZE_MAX, NULL, 0));
    TRY(3, 0, card_stepped(0, 0, 1, NULL, 0));
    TRY(3, 0, card_stepped(9, 17, 16, lent.out, 36));
    TRY(3, 0, card_stepped(3, ((size_t)1 << 63) + 3, 4, lent.out, 8)); /* 2 + 2m is 8 in 64 bits */
    TRY(3, 0, card_stepped(3, SIZE_MAX, 4, NULL, 0));                  /* and here 0 */
    TRY(20, 0, card_stepped(0, 1, 1, NULL, 0));
    TRY(20, 0, card_stepped(5, 3, 16, lent.out, 8));
    TRY(20, 0, card_stepped(((size_t)1 << 32) + 3, 3, 4, lent.out, 8));
    TRY(20, 0, card_stepped(SIZE_MAX, 16, 16, lent.out, 34));
    TRY(21, 0, card_stepped(3, 1, 1, NULL, 0));
    TRY(21, 0, card_stepped(4, 1, 16, lent.out, 4));
    TRY(21, 0, card_stepped(3, 3, 5, lent.out, 8));
    TRY(21, 0, card_stepped(4, 3, 2, lent.out, 9));
    TRY(21, 0, card_stepped(3, 16, 16, lent.out, 34));
    TRY(7, 0, card_stepped(3, 3, 4, NULL, 0));
    TRY(7, 0, card_stepped(3, 3, 4, lent.out, 7));
    TRY(7, 0, card_stepped(4, 6, 16, lent.out, 15));
}

static void sets(void)
{
    TRY(0, 14, verdict(false, c1, 8, 14));
    TRY(0, 14, verdict(false, c1, 8, 15)); /* disk 0 is determined */
    TRY(0, 127, verdict(false, c1, 8, 127));
    TRY(0, 0, verdict(false, c1, 8, 7));
    TRY(0, 0, verdict(false, c1, 8, 0));
    TRY(0, 2, verdict(false, c6, 4, 6));                      /* a disk in no column */
    TRY(0, 0xffffffff, verdict(false, most, 34, 0xffffffff)); /* every disk of 32 */
    TRY(1, 0, verdict(false, NULL, 0, 0xffffffff));
    TRY(8, 0, verdict(false, c1, 8, 0x80));
    TRY(8, 0, verdict(false, c1, 8, 0xffffffff));
    TRY(0, 14, list(false, c1, 8, lent.slice, 14, lent.numbers));
    TRY(1, 0, list(false, NULL, 0, NULL, 0, lent.numbers));
    TRY(10, 14, list(false, c1, 8, NULL, 0, lent.numbers));
    TRY(10, 2, list(false, c3, 6, lent.slice, 1, lent.numbers)); /* C12 */
    TRY(10, 1, list(false, c4, 6, NULL, 0, lent.numbers));       /* every code has an entry */
    TRY(0, 4, equations(false, c1, 8, 0, lent.slice, 4));
    TRY(0, 0, equations(false, c6, 4, 1, NULL, 0)); /* a disk in no column has none */
    TRY(1, 0, equations(false, NULL, 0, SIZE_MAX, NULL, 0));
    TRY(9, 0, equations(false, c1, 8, 7, NULL, 0));
    TRY(9, 0, equations(false, c1, 8, (size_t)1 << 32, lent.slice, 4));
    TRY(10, 4, equations(false, c1, 8, 0, lent.slice, 3));
}

static void stripes(void)
{
    TRY(0, 0, encode(false, c1, 8, 1, lent.stripe, 7));
    TRY(1, 0, encode(false, NULL, 0, 0, NULL, 0));
    TRY(6, 0, encode(false, c1, 8, 0, NULL, 0));                            /* L = 0 fits the null stripe, and is refused */
    TRY(6, 0, encode(false, c3, 6, ((size_t)1 << 62) + 1, lent.stripe, 4)); /* four times L is 4 in 64 bits */
    TRY(7, 0, encode(false, c1, 8, 1, NULL, 0));
    TRY(7, 0, encode(false, c1, 8, 65536, lent.stripe, 7));
    TRY(0, 3, rebuild(false, c1, 8, 1, 7, lent.stripe, 7));
    TRY(0, 0, rebuild(false, c1, 8, 1, 0, lent.stripe, 7)); /* nothing lost: a check */
    TRY(1, 0, rebuild(false, NULL, 0, 0, 0xffffffff, NULL, 0));
    TRY(6, 0, rebuild(false, c1, 8, SIZE_MAX, 0xffffffff, NULL, 0));
    TRY(8, 0, rebuild(false, c1, 8, 1, 0x80, NULL, 0));
    TRY(7, 0, rebuild(false, c1, 8, 1, 14, NULL, 0));
    TRY(7, 0, rebuild(false, c1, 8, 1, 14, lent.stripe, 8));
    TRY(11, 0, rebuild(false, c1, 8, 1, 14, lent.stripe, 7)); /* C10 */
    TRY(11, 0, rebuild(false, c3, 6, 1, 15, lent.stripe, 4));
    TRY(12, 0, rebuild(false, c3, 6, 1, 1, lent.stripe, 4)); /* disk 1 and its mirror differ */
}

static void partial_rebuilds(void)
{
    TRY(0, 14, partial_rebuild(false, c1, 8, 1, 15, lent.stripe, 7));
    TRY(0, 14, partial_rebuild(false, c1, 8, 1, 14, lent.stripe, 7)); /* C10's loss, and no 11 */
    TRY(0, 127, partial_rebuild(false, c1, 8, 1, 127, lent.stripe, 7));
    TRY(0, 0, partial_rebuild(false, c1, 8, 1, 7, lent.stripe, 7));
    TRY(0, 0, partial_rebuild(false, c1, 8, 1, 0, lent.stripe, 7)); /* nothing lost: a check */
    TRY(0, 0xffffffff, partial_rebuild(false, most, 34, 1, 0xffffffff, lent.out, 32));
    TRY(1, 0, partial_rebuild(false, NULL, 0, 0, 0xffffffff, NULL, 0));
    TRY(2, 0, partial_rebuild(false, wrong, 4, 0, 0xffffffff, NULL, 0));
    TRY(3, 0, partial_rebuild(false, wrong + 2, 4, 0, 0xffffffff, NULL, 0));
    TRY(4, 0, partial_rebuild(false, c1, 7, 0, 0xffffffff, NULL, 0));
    TRY(5, 1, partial_rebuild(false, wrong + 4, 6, 0, 0xffffffff, NULL, 0));
    TRY(6, 0, partial_rebuild(false, c1, 8, 0, 0xffffffff, NULL, 0));
    TRY(6, 0, partial_rebuild(false, c1, 8, SIZE_MAX, 0xffffffff, NULL, 0));
    TRY(6, 0, partial_rebuild(false, c3, 6, ((size_t)1 << 62) + 1, 15, lent.stripe, 4)); /* four times L is 4 in 64 bits */
    TRY(8, 0, partial_rebuild(false, c1, 8, 1, 0x80, NULL, 0));
    TRY(8, 0, partial_rebuild(false, c1, 8, 1, 0xffffffff, lent.stripe, 7));
    TRY(7, 0, partial_rebuild(false, c1, 8, 1, 14, NULL, 0));
    TRY(7, 0, partial_rebuild(false, c1, 8, 1, 15, lent.stripe, 6));
    TRY(7, 0, partial_rebuild(false, c1, 8, 1, 15, lent.stripe, 8));
    TRY(12, 0, partial_rebuild(false, c3, 6, 1, 1, lent.stripe, 4)); /* disk 1 and its mirror differ */
    TRY(12, 0, partial_rebuild(false, c3, 6, 1, 5, lent.stripe, 4)); /* in a fatal loss too */
    /* disk 31 would come back, but disk 0 is not what its mirrors are */
    TRY(12, 0, partial_rebuild(false, most, 34, 1, 0x80000002, (uint8_t *)&lent, 32));
}

static void trays(void)
{
    static const uint32_t sets[] = {3, 0x80, 0, 0, 0, 0, 0, 0, 0};
    TRY(0, 2, quick_repair(false, c1, 8, 1, sets, 1, SIZE_MAX, lent.stripe, 7, lent.sets));
    TRY(0, 0, quick_repair(false, c1, 8, 1, sets, 1, 0, lent.stripe, 7, lent.sets));
    TRY(1, 0, quick_repair(false, NULL, 0, 0, NULL, 0, 0, NULL, 0, lent.sets));
    TRY(6, 0, quick_repair(false, c1, 8, 0, NULL, 0, 0, NULL, 0, lent.sets));
    TRY(17, 0, quick_repair(false, c1, 8, 1, NULL, 0, 1, NULL, 0, lent.sets));
    TRY(17, 0, quick_repair(false, c1, 8, 1, sets, 9, 1, lent.stripe, 7, lent.sets));
    TRY(8, 0, quick_repair(false, c1, 8, 1, sets, 2, 1, NULL, 0, lent.sets));
    TRY(7, 0, quick_repair(false, c1, 8, 1, sets, 1, 1, NULL, 0, lent.sets));
    TRY(7, 0, quick_repair(false, c1, 8, 1, sets + 2, 2, 1, lent.stripe, 7, lent.sets)); /* one stripe for two sets */
    TRY(7, 0, quick_repair(false, c1, 8, 1, sets, 1, 1, lent.stripe, 6, lent.sets));
}

static void updates(void)
{
    static const uint8_t new_strip[] = {0x10, 0};
    TRY(0, 4, update(false, c1, 8, 1, lent.stripe, 7, 0, new_strip, 1));
    TRY(0, 1, update(false, c6, 4, 1, lent.stripe, 3, 1, new_strip, 1)); /* a disk in no column */
    TRY(1, 0, update(false, NULL, 0, 0, NULL, 0, SIZE_MAX, NULL, 0));
    TRY(6, 0, update(false, c1, 8, 0, NULL, 0, SIZE_MAX, NULL, 0));
    TRY(6, 0, update(false, c3, 6, ((size_t)1 << 62) + 1, lent.stripe, 4, 0, new_strip, 1)); /* four times L is 4 in 64 bits */
    TRY(9, 0, update(false, c1, 8, 1, NULL, 0, 7, NULL, 0));
    TRY(9, 0, update(false, c1, 8, 1, lent.stripe, 7, (size_t)1 << 32, new_strip, 1));
    TRY(9, 0, update(false, c1, 8, 1, lent.stripe, 7, SIZE_MAX, new_strip, 1));
    TRY(18, 0, update(false, c1, 8, 1, NULL, 0, 4, NULL, 0));
    TRY(18, 0, update(false, c1, 8, 1, lent.stripe, 7, 6, new_strip, 1));
    TRY(7, 0, update(false, c1, 8, 1, NULL, 0, 0, NULL, 0));
    TRY(7, 0, update(false, c1, 8, 1, lent.stripe, 6, 0, new_strip, 2));
    TRY(7, 0, update(false, c1, 8, 1, lent.stripe, 8, 3, new_strip, 1));
    TRY(19, 0, update(false, c1, 8, 1, lent.stripe, 7, 0, NULL, 0));
    TRY(19, 0, update(false, c1, 8, 1, lent.stripe, 7, 3, new_strip, 2));
}

static void records(void)
{
    TRY(0, 104, record_write(c1, 8, 1, 4, lent.stripe, 7, lent.out, 104));
    memcpy(record, lent.out, sizeof record);
    TRY(1, 0, record_write(NULL, 0, 0, 0xffffffff, NULL, 0, NULL, 0));
    TRY(6, 0, record_write(c1, 8, 65537, 0x80, NULL, 0, NULL, 0));
    TRY(8, 0, record_write(c1, 8, 1, 0x80, NULL, 0, NULL, 0));
    TRY(7, 0, record_write(c1, 8, 1, 0, NULL, 0, NULL, 0));
    TRY(16, 0, record_write(c1, 8, 1, 0, lent.stripe, 7, NULL, 0));
    TRY(16, 0, record_write(c1, 8, 1, 0, lent.stripe, 7, lent.out, 104));
    TRY(0, 0, record_read(record, 104, lent.numbers, lent.columns));
    TRY(13, 0, record_read(NULL, 0, lent.numbers, lent.columns));
    TRY(13, 0, record_read(record, 9, lent.numbers, lent.columns));
    TRY(14, 0, record_read(record, 97, lent.numbers, lent.columns));
    TRY(15, 0, record_read(record, 103, lent.numbers, lent.columns));
    TRY(0, 0, record_body(record, 104, 6, lent.numbers));
    TRY(13, 0, record_body(NULL, 0, SIZE_MAX, lent.numbers));
    TRY(14, 0, record_body(record, 89, SIZE_MAX, lent.numbers));
    TRY(15, 0, record_body(record, 103, SIZE_MAX, lent.numbers));
    TRY(9, 0, record_body(record, 104, 7, lent.numbers));
    TRY(9, 0, record_body(record, 104, SIZE_MAX, lent.numbers));
    TRY(16, 0, record_body(record, 104, 2, lent.numbers));
}

int main(void)
{
    cards();
    two_cards();
    stepped_cards();
    sets();
    stripes();
    partial_rebuilds();
    trays();
    updates();
    records();
    editions();
    turns();
    printf("bad input: %u calls from C, all by the documents' numbers\n", tried);
    return 0;
}
