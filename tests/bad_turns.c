/* The calls on turned stripes, with cards of both editions. */
#include "bad_input.h"

/* C1 in both editions; two disks, of which the other is the mirror of the first; 32 disks, all parities of data disk 0 alone */
static const uint8_t c1[] = {4, 3, 7, 0, 11, 0, 13, 0}, pair[] = {1, 1, 1, 0};
static const uint8_t worn[] = {2, 4, 3, 7, 0, 11, 0, 13, 0, 1, 9, 1, 1, 1, 1, 1};
static const uint8_t most[34] = {16, 16, 1, 0, 1, 0, 1, 0, 1, 0, 1, 0, 1, 0, 1, 0, 1, 0, 1, 0, 1, 0, 1, 0, 1, 0, 1, 0, 1, 0, 1, 0, 1, 0};
/* a card of 17 data disks, one of no parity disk, one whose column 1 is wrong; of edition 2, another first byte and a wear of 0 */
static const uint8_t wrong[] = {17, 1, 1, 0, 2, 2, 1, 0, 4, 0};
static const uint8_t another[] = {1, 0, 0, 7, 0, 11, 0, 13, 0, 1, 9, 1, 1, 1, 1, 1};
static const uint8_t zero[] = {2, 4, 3, 7, 0, 11, 0, 13, 0, 1, 9, 1, 1, 1, 1, 0};
static const uint8_t four[] = {2, 2, 1, 0, 2, 0};
static const uint8_t bytes[32] = {1, 2, 3, 4, 5, 6, 7};
static const uint32_t last = 0xffffffff;

static void turned(void)
{
    TRY(0, 0, turn(false, c1, 8, 1, 0, bytes, 7, lent.out, 7));
    TRY(0, 0, turn(false, c1, 8, 1, last, bytes, 7, lent.out, 7));
    TRY(0, 0, turn(true, worn, 16, 1, 0x80000000, bytes, 7, lent.out, 7));
    TRY(0, 0, turn(false, pair, 4, 16, last, bytes, 32, lent.out, 32));
    TRY(0, 0, turn(false, most, 34, 1, last, bytes, 32, lent.out, 32));
    TRY(1, 0, turn(false, NULL, 0, 0, last, NULL, 0, NULL, 0));
    TRY(2, 0, turn(false, wrong, 4, 0, last, NULL, 0, NULL, 0));
    TRY(3, 0, turn(false, wrong + 2, 4, 0, last, NULL, 0, NULL, 0));
    TRY(4, 0, turn(false, c1, 7, 0, last, NULL, 0, NULL, 0));
    TRY(5, 1, turn(false, wrong + 4, 6, 0, last, NULL, 0, NULL, 0));
    TRY(22, 0, turn(true, another, 16, 0, last, NULL, 0, NULL, 0));
    TRY(23, 0, turn(true, zero, 16, 0, last, NULL, 0, NULL, 0));
    TRY(6, 0, turn(false, c1, 8, 0, 1, NULL, 0, NULL, 0)); /* L = 0 fits the null buffers, and is refused */
    TRY(6, 0, turn(false, c1, 8, 65537, 1, bytes, 7, lent.out, 8));
    TRY(6, 0, turn(false, four, 6, ((size_t)1 << 62) + 1, 1, bytes, 4, lent.out, 4)); /* four times L is 4 in 64 bits */
    TRY(7, 0, turn(false, c1, 8, 1, 1, NULL, 0, NULL, 0));
    TRY(7, 0, turn(false, c1, 8, 1, 1, NULL, 0, lent.out, 7));
    TRY(7, 0, turn(false, c1, 8, 1, 1, bytes, 7, NULL, 0));
    TRY(7, 0, turn(false, c1, 8, 1, 1, bytes, 6, lent.out, 7));
    TRY(7, 0, turn(false, c1, 8, 1, 1, bytes, 7, lent.out, 6));
    TRY(7, 0, turn(false, c1, 8, 1, 1, bytes, 8, lent.out, 7));
    TRY(7, 0, turn(false, c1, 8, 1, 1, bytes, 7, lent.out, 8));
    TRY(7, 0, turn(false, c1, 8, 1, 1, bytes, 8, lent.out, 8)); /* of equal lengths */
    TRY(7, 0, turn(false, c1, 8, 1, 1, bytes, 6, lent.out, 8)); /* 14 together */
    TRY(7, 0, turn(false, c1, 8, 65536, 1, bytes, 7, lent.out, 7));
}

static void turned_back(void)
{
    TRY(0, 0, turn_back(false, c1, 8, 1, 0, bytes, 7, lent.out, 7));
    TRY(0, 0, turn_back(false, c1, 8, 1, last, bytes, 7, lent.out, 7));
    TRY(0, 0, turn_back(true, worn, 16, 1, 0x80000000, bytes, 7, lent.out, 7));
    TRY(0, 0, turn_back(false, pair, 4, 16, last, bytes, 32, lent.out, 32));
    TRY(0, 0, turn_back(false, most, 34, 1, last, bytes, 32, lent.out, 32));
    TRY(1, 0, turn_back(false, NULL, 0, 0, last, NULL, 0, NULL, 0));
    TRY(2, 0, turn_back(false, wrong, 4, 0, last, NULL, 0, NULL, 0));
    TRY(3, 0, turn_back(false, wrong + 2, 4, 0, last, NULL, 0, NULL, 0));
    TRY(4, 0, turn_back(false, c1, 7, 0, last, NULL, 0, NULL, 0));
    TRY(5, 1, turn_back(false, wrong + 4, 6, 0, last, NULL, 0, NULL, 0));
    TRY(22, 0, turn_back(true, another, 16, 0, last, NULL, 0, NULL, 0));
    TRY(23, 0, turn_back(true, zero, 16, 0, last, NULL, 0, NULL, 0));
    TRY(6, 0, turn_back(false, c1, 8, 0, 1, NULL, 0, NULL, 0));
    TRY(6, 0, turn_back(false, c1, 8, 65537, 1, bytes, 7, lent.out, 8));
    TRY(6, 0, turn_back(false, four, 6, ((size_t)1 << 62) + 1, 1, bytes, 4, lent.out, 4));
    TRY(7, 0, turn_back(false, c1, 8, 1, 1, NULL, 0, NULL, 0));
    TRY(7, 0, turn_back(false, c1, 8, 1, 1, NULL, 0, lent.out, 7));
    TRY(7, 0, turn_back(false, c1, 8, 1, 1, bytes, 7, NULL, 0));
    TRY(7, 0, turn_back(false, c1, 8, 1, 1, bytes, 6, lent.out, 7));
    TRY(7, 0, turn_back(false, c1, 8, 1, 1, bytes, 7, lent.out, 6));
    TRY(7, 0, turn_back(false, c1, 8, 1, 1, bytes, 8, lent.out, 7));
    TRY(7, 0, turn_back(false, c1, 8, 1, 1, bytes, 7, lent.out, 8));
    TRY(7, 0, turn_back(false, c1, 8, 1, 1, bytes, 8, lent.out, 8));
    TRY(7, 0, turn_back(false, c1, 8, 1, 1, bytes, 6, lent.out, 8));
    TRY(7, 0, turn_back(false, c1, 8, 65536, 1, bytes, 7, lent.out, 7));
}

/* C7's stripe stands in disk order: it is the turned one where r is a multiple of 7, and 2^31 + 5 and 2^32 - 4 are */
static void rebuilt(void)
{
    TRY(0, 3, rebuild_turned(false, c1, 8, 1, 0, 7, lent.stripe, 7));
    TRY(0, 3, rebuild_turned(false, c1, 8, 1, last - 3, 7, lent.stripe, 7));
    TRY(0, 1, rebuild_turned(false, c1, 8, 1, 0x80000005, 1, lent.stripe, 7));
    TRY(0, 3, rebuild_turned(true, worn, 16, 1, 7, 7, lent.stripe, 7));
    TRY(0, 0, rebuild_turned(false, c1, 8, 1, 14, 0, lent.stripe, 7)); /* nothing lost: a check */
    TRY(0, 1, rebuild_turned(false, pair, 4, 4, last, 2, lent.stripe, 8));
    TRY(0, 1, rebuild_turned(false, most, 34, 1, last, 0x80000000, lent.out, 32)); /* slot 31 has disk 0 */
    TRY(1, 0, rebuild_turned(false, NULL, 0, 0, last, last, NULL, 0));
    TRY(2, 0, rebuild_turned(false, wrong, 4, 0, last, last, NULL, 0));
    TRY(3, 0, rebuild_turned(false, wrong + 2, 4, 0, last, last, NULL, 0));
    TRY(4, 0, rebuild_turned(false, c1, 7, 0, last, last, NULL, 0));
    TRY(5, 1, rebuild_turned(false, wrong + 4, 6, 0, last, last, NULL, 0));
    TRY(22, 0, rebuild_turned(true, another, 16, 0, last, last, NULL, 0));
    TRY(23, 0, rebuild_turned(true, zero, 16, 0, last, last, NULL, 0));
    TRY(6, 0, rebuild_turned(false, c1, 8, 0, 1, last, NULL, 0)); /* before 8 and 7 */
    TRY(6, 0, rebuild_turned(false, c1, 8, SIZE_MAX, 1, last, lent.stripe, 7));
    TRY(6, 0, rebuild_turned(false, four, 6, ((size_t)1 << 62) + 1, 1, 15, lent.stripe, 4)); /* four times L is 4 in 64 bits */
    TRY(8, 0, rebuild_turned(false, c1, 8, 1, 1, 0x80, NULL, 0));                            /* slot n, before 7 */
    TRY(8, 0, rebuild_turned(false, c1, 8, 1, 1, 0x80000000, lent.stripe, 6));
    TRY(8, 0, rebuild_turned(false, c1, 8, 1, last, 0x80, lent.stripe, 7));
    TRY(8, 0, rebuild_turned(false, c1, 8, 1, 0, last, lent.stripe, 7));
    TRY(8, 0, rebuild_turned(false, pair, 4, 1, last, 4, lent.stripe, 2));
    TRY(7, 0, rebuild_turned(false, c1, 8, 1, 1, 0x7f, NULL, 0)); /* before 11 */
    TRY(7, 0, rebuild_turned(false, c1, 8, 1, 1, 0, lent.stripe, 6));
    TRY(7, 0, rebuild_turned(false, c1, 8, 1, 1, 0, lent.stripe, 8));
    TRY(7, 0, rebuild_turned(false, c1, 8, 65536, 1, 0, lent.stripe, 7));
    TRY(7, 0, rebuild_turned(false, most, 34, 1, 0, last, lent.out, 31));
    TRY(11, 0, rebuild_turned(false, most, 34, 1, last, last, lent.out, 32)); /* every slot of 32 */
    TRY(11, 0, rebuild_turned(false, most, 34, 1, last, 1, lent.out, 32));    /* slot 0 has disk 1, which is in no column */
    TRY(11, 0, rebuild_turned(false, c1, 8, 1, 0, 14, lent.stripe, 7));       /* C10 */
    TRY(11, 0, rebuild_turned(false, c1, 8, 1, 5, 0x43, lent.stripe, 7));     /* C10's disks 1 to 3 in slots 6, 0 and 1, before 12 */
    TRY(12, 0, rebuild_turned(false, c1, 8, 1, 5, 0x21, lent.stripe, 7));     /* disks 0 and 2: not turned so */
    TRY(12, 0, rebuild_turned(true, worn, 16, 1, last, 0, lent.stripe, 7));
}

void turns(void)
{
    turned();
    turned_back();
    rebuilt();
}
