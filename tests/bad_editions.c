/* Cards of edition 2 given to every call that takes one, the converters and the least-wear call. */
#include "bad_input.h"

/* C1 in edition 1, in edition 2 with disk 1 tired, and with every wear 1 */
static const uint8_t c1[] = {4, 3, 7, 0, 11, 0, 13, 0};
static const uint8_t worn[] = {2, 4, 3, 7, 0, 11, 0, 13, 0, 1, 9, 1, 1, 1, 1, 1};
static const uint8_t ones[] = {2, 4, 3, 7, 0, 11, 0, 13, 0, 1, 1, 1, 1, 1, 1, 1};
/* column 1 is wrong, and a wear is 0; a wear alone is 0; another first byte, with k and m wrong too */
static const uint8_t two_faults[] = {2, 4, 3, 7, 0, 16, 0, 13, 0, 1, 9, 1, 1, 1, 1, 0};
static const uint8_t zero[] = {2, 4, 3, 7, 0, 11, 0, 13, 0, 1, 9, 1, 1, 1, 1, 0};
static const uint8_t another[] = {1, 0, 0, 7, 0, 11, 0, 13, 0, 1, 9, 1, 1, 1, 1, 1};
static const uint8_t no_data[] = {2, 0, 0}, no_parity[] = {2, 4, 17};

static void second_cards(void)
{
    TRY(0, 0, card_read(true, worn, 16, lent.numbers, lent.columns, lent.wears));
    TRY(1, 0, card_read(true, NULL, 0, lent.numbers, lent.columns, lent.wears));
    TRY(1, 0, card_read(true, another, 2, lent.numbers, lent.columns, lent.wears));
    TRY(22, 0, card_read(true, another, 3, lent.numbers, lent.columns, lent.wears));
    TRY(22, 0, card_read(true, another, 16, lent.numbers, lent.columns, lent.wears));
    TRY(22, 0, card_read(true, c1, 8, lent.numbers, lent.columns, lent.wears)); /* edition 1 named as 2 */
    TRY(2, 0, card_read(true, no_data, 3, lent.numbers, lent.columns, lent.wears));
    TRY(3, 0, card_read(true, no_parity, 3, lent.numbers, lent.columns, lent.wears));
    TRY(4, 0, card_read(true, two_faults, 9, lent.numbers, lent.columns, lent.wears)); /* no wears */
    TRY(4, 0, card_read(true, zero, 15, lent.numbers, lent.columns, lent.wears));
    TRY(4, 0, card_read(false, worn, 16, lent.numbers, lent.columns, lent.wears)); /* and 2 as 1: m is 4 */
    TRY(5, 1, card_read(true, two_faults, 16, lent.numbers, lent.columns, lent.wears));
    TRY(23, 0, card_read(true, zero, 16, lent.numbers, lent.columns, lent.wears));
}

static void second_writes(void)
{
    static const uint16_t columns[] = {7, 11, 13, 1}, wrong[] = {7, 16, 0};
    static const uint8_t wears[] = {1, 9, 1, 1, 1, 1, 255, 1}, none[7] = {0};
    TRY(0, 0, card_write(true, 4, 3, columns, 3, wears, 7, lent.out, 16));
    TRY(2, 0, card_write(true, 0, 0, NULL, 0, NULL, 0, NULL, 0));
    TRY(2, 0, card_write(true, SIZE_MAX - 2, 3, columns, 3, NULL, 0, lent.out, 9)); /* n is 0 in 64 bits */
    TRY(3, 0, card_write(true, 4, ((size_t)1 << 63) + 3, columns, 3, wears, 7, lent.out, 16));
    TRY(4, 0, card_write(true, 4, 3, wrong, 3, NULL, 0, NULL, 0));
    TRY(4, 0, card_write(true, 4, 3, wrong, 3, none, 6, lent.out, 15));
    TRY(4, 0, card_write(true, 4, 3, columns, 3, wears, 8, lent.out, 17));
    TRY(4, 0, card_write(true, 4, 3, columns, 4, wears, 7, lent.out, 16));
    TRY(4, 0, card_write(false, 4, 3, columns, 3, wears, 7, lent.out, 8)); /* edition 1 has no wears */
    TRY(4, 0, card_write(false, 4, 3, wrong, 3, none, 1, lent.out, 8));
    TRY(5, 1, card_write(true, 4, 3, wrong, 3, none, 7, NULL, 0));
    TRY(23, 0, card_write(true, 4, 3, columns, 3, none, 7, NULL, 0));
    TRY(7, 0, card_write(true, 4, 3, columns, 3, wears, 7, NULL, 0));
    TRY(7, 0, card_write(true, 4, 3, columns, 3, wears, 7, lent.out, 8));
}

static void conversions(void)
{
    TRY(0, 0, card_up(c1, 8, lent.out, 16));
    TRY(1, 0, card_up(NULL, 0, NULL, 0));
    TRY(4, 0, card_up(ones, 16, lent.out, 16));
    TRY(7, 0, card_up(c1, 8, NULL, 0));
    TRY(7, 0, card_up(c1, 8, lent.out, 8));
    TRY(0, 0, card_down(ones, 16, lent.out, 8));
    TRY(1, 0, card_down(NULL, 0, NULL, 0));
    TRY(22, 0, card_down(c1, 8, lent.out, 8));
    TRY(5, 1, card_down(two_faults, 16, NULL, 0));
    TRY(23, 0, card_down(zero, 16, NULL, 0));
    TRY(7, 0, card_down(worn, 16, NULL, 0));
    TRY(7, 0, card_down(worn, 16, lent.out, 16));
    TRY(24, 0, card_down(worn, 16, lent.out, 8));
}

static void least_wears(void)
{
    static const uint8_t c6[] = {2, 1, 1, 0};
    TRY(0, 76, least_wear(true, worn, 16, 0, 0));
    TRY(0, 76, least_wear(true, worn, 16, 0, 1)); /* the disk is lost, named or not */
    TRY(0, 112, least_wear(true, worn, 16, 0, 4));
    TRY(0, 22, least_wear(true, ones, 16, 0, 0)); /* ties in the list's order */
    TRY(0, 22, least_wear(false, c1, 8, 0, 0));
    TRY(0, 112, least_wear(false, c1, 8, 0, 14)); /* a fatal loss that leaves disk 0 determined */
    TRY(1, 0, least_wear(true, NULL, 0, SIZE_MAX, 0xffffffff));
    TRY(22, 0, least_wear(true, another, 16, SIZE_MAX, 0xffffffff));
    TRY(5, 1, least_wear(true, two_faults, 16, SIZE_MAX, 0xffffffff));
    TRY(23, 0, least_wear(true, zero, 16, SIZE_MAX, 0xffffffff));
    TRY(8, 0, least_wear(true, worn, 16, SIZE_MAX, 0x80));
    TRY(8, 0, least_wear(true, worn, 16, 0, 0xffffffff));
    TRY(9, 0, least_wear(true, worn, 16, 7, 127));
    TRY(9, 0, least_wear(true, worn, 16, (size_t)1 << 32, 127));
    TRY(9, 0, least_wear(true, worn, 16, SIZE_MAX, 0));
    TRY(11, 0, least_wear(true, worn, 16, 1, 14));
    TRY(11, 0, least_wear(true, worn, 16, 0, 0x42));
    TRY(11, 0, least_wear(true, worn, 16, 6, 127));
    TRY(11, 0, least_wear(false, c6, 4, 1, 0)); /* a disk in no column */
}

/* what the other calls answer is that of edition 1; they refuse an edition-2 card as the reader does */
static void other_calls(void)
{
    static const uint32_t sets[] = {3};
    static const uint8_t new_strip[] = {0x10};
    TRY(0, 1, alike(true, worn, 16, false, c1, 8));
    TRY(0, 1, alike(true, worn, 16, true, ones, 16));
    TRY(22, 0, alike(true, another, 16, true, zero, 16));
    TRY(23, 0, alike(false, c1, 8, true, zero, 16));
    TRY(5, 1, alike(true, two_faults, 16, true, another, 16));
    TRY(0, 0, encode(true, worn, 16, 1, lent.stripe, 7));
    TRY(23, 0, encode(true, zero, 16, 0, NULL, 0));
    TRY(0, 14, verdict(true, worn, 16, 15));
    TRY(22, 0, verdict(true, another, 16, 0xffffffff));
    TRY(0, 14, list(true, worn, 16, lent.slice, 14, lent.numbers));
    TRY(10, 14, list(true, worn, 16, NULL, 0, lent.numbers));
    TRY(23, 0, list(true, zero, 16, NULL, 0, lent.numbers));
    TRY(0, 4, equations(true, worn, 16, 0, lent.slice, 4));
    TRY(23, 0, equations(true, zero, 16, SIZE_MAX, NULL, 0));
    TRY(0, 3, rebuild(true, worn, 16, 1, 7, lent.stripe, 7));
    TRY(23, 0, rebuild(true, zero, 16, 0, 0xffffffff, NULL, 0));
    TRY(0, 14, partial_rebuild(true, worn, 16, 1, 15, lent.stripe, 7));
    TRY(23, 0, partial_rebuild(true, zero, 16, 0, 0xffffffff, NULL, 0));
    TRY(0, 2, quick_repair(true, worn, 16, 1, sets, 1, SIZE_MAX, lent.stripe, 7, lent.sets));
    TRY(23, 0, quick_repair(true, zero, 16, 0, NULL, 0, 0, NULL, 0, lent.sets));
    TRY(0, 4, update(true, worn, 16, 1, lent.stripe, 7, 0, new_strip, 1));
    TRY(23, 0, update(true, zero, 16, 0, NULL, 0, SIZE_MAX, NULL, 0));
    TRY(4, 0, record_write(worn, 16, 1, 0, lent.stripe, 7, lent.out, 112)); /* records have edition 1 */
}

void editions(void)
{
    second_cards();
    second_writes();
    conversions();
    least_wears();
    other_calls();
}
