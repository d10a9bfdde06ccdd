/* The calls of libbridgecrumb.a, for C and C++. `tests/archive` writes it.
 *
 * An answer is one number: the documents' number of the refusal, 0 where the call is accepted, plus 256
 * times the one value that is named for it (a column, a count, a length, a set). BRIDGECRUMB_NUMBER and
 * BRIDGECRUMB_VALUE take it apart. Further values go into arrays that the caller lends.
 *
 * A refused call changes no lent byte. Every byte string, number, set and length is a legal argument. The
 * caller guarantees three things: a pointer reaches as many elements as the length beside it says (it may
 * be null where that is 0) or as its declaration says (counts[2], columns[16], wears[32], vector[17], left[8],
 * fields[4] and place[2] may not be null), no buffer that is written overlaps another that is lent, and no other
 * thread writes a lent buffer meanwhile. The calls keep no state.
 *
 * A card has one of two editions, and the caller names it: `bool second` before a card is true for edition 2 and
 * false for edition 1. Edition 1 is the bytes k, m, then m columns of 2 bytes, low byte first. Edition 2 is the
 * byte 0x02, then the same, then a wear of 1 to 255 for each of the n = k + m disks; in edition 1 every wear counts
 * as 1. "The card's" refusals are 1, 2, 3, 4, 5 for edition 1, and 1, 22, 2, 3, 4, 5, 23 for edition 2, in this order.
 * Only the card reader, the card writer, the converters and the least-wear call look at the wears beyond that. Records
 * have edition 1.
 *
 * A set of disks is a 32-bit number, bit i for disk i, and a set of slots has bit s for slot s. C cuts a wider one
 * to its low 32 bits before the call, so that the call cannot refuse the rest. A stripe is the strips of all disks,
 * disk i's at byte i * strip_len. A turned stripe is the same strips in slots, slot s at byte s * strip_len: stripe r
 * has disk i's strip in slot (i + r) modulo n. r has 32 bits too: C cuts a wider number, and what is left is the number
 * of another stripe, turned another way. So stripes are numbered below 2^32. size_t has 64 bits.
 */
#ifndef BRIDGECRUMB_H
#define BRIDGECRUMB_H

#include <stdbool.h>
#include <stddef.h>
#include <stdint.h>

#ifdef __cplusplus
extern "C" {
#endif

#define BRIDGECRUMB_NUMBER(answer) ((unsigned)(255 & (answer)))
#define BRIDGECRUMB_VALUE(answer) ((answer) >> 8)

enum bridgecrumb_number {
    BRIDGECRUMB_ACCEPTED = 0,
    BRIDGECRUMB_CARD_SHORT = 1,    /* the card is shorter than 2 bytes, of edition 2 than 3 */
    BRIDGECRUMB_DATA_COUNT = 2,    /* k outside 1 to 16 */
    BRIDGECRUMB_PARITY_COUNT = 3,  /* m outside 1 to 16 */
    BRIDGECRUMB_CARD_LENGTH = 4,   /* the card's length is not 2 + 2m, of edition 2 not 3 + 2m + n; or a list for the card writer */
    BRIDGECRUMB_COLUMN = 5,        /* a column 0 or at least 2^k; the value is the first such */
    BRIDGECRUMB_STRIP_LENGTH = 6,  /* a strip length outside 1 to 65,536 */
    BRIDGECRUMB_BUFFER_LENGTH = 7, /* a stripe, second, tray or card buffer of another length */
    BRIDGECRUMB_OUTSIDE_SET = 8,   /* a lost set with a disk or a slot that the code lacks */
    BRIDGECRUMB_NO_DISK = 9,       /* a disk that the code lacks */
    BRIDGECRUMB_LIST_SHORT = 10,   /* a list longer than the lent slice; the value is the count needed */
    BRIDGECRUMB_FATAL = 11,        /* the loss of the set is fatal; or no equation of the disk survives */
    BRIDGECRUMB_INCONSISTENT = 12, /* survivors that no encoded stripe has */
    BRIDGECRUMB_MARK = 13,         /* a file under 10 bytes, or another mark */
    BRIDGECRUMB_CONTENTS = 14,     /* contents that are not those of a record */
    BRIDGECRUMB_FILE_LENGTH = 15,  /* a file of another length than its record */
    BRIDGECRUMB_NO_ROOM = 16,      /* an output shorter than the record, or the body of a lost disk */
    BRIDGECRUMB_STRIPE_COUNT = 17, /* a tray of no stripes or of more than 8 */
    BRIDGECRUMB_PARITY_DISK = 18,  /* a parity disk where a data disk is to be rewritten */
    BRIDGECRUMB_NEW_LENGTH = 19,   /* a new strip of another length than the strips */
    BRIDGECRUMB_DISTANCE = 20,     /* a distance that is neither 3 nor 4 */
    BRIDGECRUMB_BOUNDS = 21,       /* k outside the bounds for the distance and m */
    BRIDGECRUMB_FIRST_BYTE = 22,   /* a card of edition 2 with another first byte than 0x02 */
    BRIDGECRUMB_ZERO_WEAR = 23,    /* a wear of 0 */
    BRIDGECRUMB_LOSSY = 24         /* a wear that is not 1, where a card is to become one of edition 1 */
};

/* Takes a card. Answers k and m in `counts`, the m columns, then zeros, in `columns`, and the n wears, then zeros, in `wears`.
 * No value where it is accepted.
 * Refuses the card's. */
uint64_t bridgecrumb_card_read(bool second, const uint8_t *card, size_t card_len, size_t counts[2], uint16_t columns[16], uint8_t wears[32]);

/* Takes k, m, a list of m columns, a list of wears, n of them for edition 2 and none for edition 1, and a buffer of exactly
 * 3 + 2m + n bytes for edition 2 and 2 + 2m for edition 1.
 * Writes the card into the buffer; no value.
 * Refuses 2 to 5 (4: a list of another length), then 23, then 7 (a buffer of another length). */
uint64_t bridgecrumb_card_write(bool second, size_t k, size_t m, const uint16_t *columns, size_t columns_len, const uint8_t *wears, size_t wears_len,
                                uint8_t *out, size_t out_len);

/* Takes a card of edition 1 and a buffer of exactly 3 + 2m + n bytes.
 * Writes the card of edition 2 with the same k, m and columns, and every wear 1; no value.
 * Refuses the card's, then 7 (a buffer of another length). */
uint64_t bridgecrumb_card_up(const uint8_t *card, size_t card_len, uint8_t *out, size_t out_len);

/* Takes a card of edition 2 and a buffer of exactly 2 + 2m bytes.
 * Writes the card of edition 1 with the same k, m and columns; no value. After bridgecrumb_card_up it gives the same bytes back.
 * Refuses the card's, then 7 (a buffer of another length), then 24 unless every wear is 1. */
uint64_t bridgecrumb_card_down(const uint8_t *card, size_t card_len, uint8_t *out, size_t out_len);

/* Takes a distance d of 3 or 4, m, k and a buffer of exactly 2 + 2m bytes.
 * Writes the card of the Stepped Combination code, of edition 1, into the buffer; no value. Data disk i goes into the parity disks of the i-th
 * parity set, counted from 0: sizes go up from d - 1, by 1 for d = 3 and by 2 for d = 4, smaller size first, then smaller number, where bit j
 * stands for parity disk k + j. No minimal erasure of the code holds fewer than d disks.
 * Refuses 2, 3, then 20, then 21 unless 2^(m-1) - m < k <= 2^m - m - 1 for d = 3, or 2^(m-2) - m + 1 < k <= 2^(m-1) - m for d = 4 (no k
 * where m is 1), then 7 (a buffer of another length). */
uint64_t bridgecrumb_card_stepped(size_t d, size_t m, size_t k, uint8_t *out, size_t out_len);

/* Takes two cards, each of its own edition.
 * The value is 1 where their k and m are equal and their columns are a rearrangement of each other: the same columns, each as often,
 * in any order; else 0. Where it is 1, the parity disks of the one can be renumbered so that for the same data each disk holds what the
 * other card's disk of that number holds, and the lists of minimal erasures then match entry for entry. Data disks keep their numbers.
 * Equal vectors are not enough; wears have no effect.
 * Refuses the card's, the first card's before the other's. */
uint64_t bridgecrumb_alike(bool second, const uint8_t *card, size_t card_len, bool other_second, const uint8_t *other, size_t other_len);

/* Takes a card and a stripe.
 * Writes each parity strip: byte by byte the XOR of the strips of its data disks; no value. Once the card is checked, what is read and
 * written, and how often, follows from k, m and strip_len, and not from the columns.
 * Refuses the card's, then 6, then 7 (a stripe of another length than strip_len for each disk). */
uint64_t bridgecrumb_encode(bool second, const uint8_t *card, size_t card_len, size_t strip_len, uint8_t *stripe, size_t stripe_len);

/* Takes a card and a set of disks.
 * The value is the set of its disks that the other disks, the survivors, don't determine: those on which two data words differ that are
 * alike on the survivors. The loss of the set is fatal where the value is not 0.
 * Refuses the card's, then 8. */
uint64_t bridgecrumb_verdict(bool second, const uint8_t *card, size_t card_len, uint32_t set);

/* Takes a card. Writes all minimal erasures into `out`, smaller size first, then smaller data part, and
 * into vector[i - 1] how many hold i disks, for i from 1 to m + 1; its places past m + 1 become 0.
 * The value is the count, which is also the vector's total; `out` past it keeps what it had.
 * No entry lies inside another, none holds more than m + 1 disks, and whenever two differ, some entry lies within the disks that belong
 * to just one of them.
 * Refuses the card's, then 10. */
uint64_t bridgecrumb_list(bool second, const uint8_t *card, size_t card_len, uint32_t *out, size_t out_len, size_t vector[17]);

/* Takes a card and a disk. Writes into `out` its equations with no smaller one inside, each a set of
 * disks whose XOR is the disk, smaller size first, then fewer parity disks, then smaller set number; the
 * value is the count.
 * Refuses the card's, then 9, then 10. */
uint64_t bridgecrumb_equations(bool second, const uint8_t *card, size_t card_len, size_t disk, uint32_t *out, size_t out_len);

/* Takes a card, a disk and a set of lost disks; the disk counts as lost, whether the set has it or not.
 * The value is the equation among the survivors whose disks have the least total wear: of those that bridgecrumb_equations lists for the
 * disk and that hold no lost disk, the first of least wear in the list's order. No equation among the survivors totals less. The loss may be fatal,
 * so long as it leaves the disk determined.
 * Refuses the card's, then 8, then 9, then 11 exactly where no equation of the disk is among the survivors. */
uint64_t bridgecrumb_least_wear(bool second, const uint8_t *card, size_t card_len, size_t disk, uint32_t lost);

/* Takes a card, a set of lost disks and a stripe.
 * Writes the lost strips, those that the survivors tell; the value is how many disks are lost.
 * Refuses the card's, then 6, 8, 7, 11, 12. */
uint64_t bridgecrumb_rebuild(bool second, const uint8_t *card, size_t card_len, size_t strip_len, uint32_t lost, uint8_t *stripe, size_t stripe_len);

/* Takes a card, a set of lost disks, fatal or not, and a stripe.
 * Writes the lost strips that the survivors determine; the value is the set of the lost disks that they don't determine, as
 * bridgecrumb_verdict answers it, and the strips of these keep their bytes. Where the value is 0, the stripe becomes what bridgecrumb_rebuild
 * makes of it.
 * Refuses the card's, then 6, 8, 7, 12: never 11, and 12 for a fatal set too. */
uint64_t bridgecrumb_partial_rebuild(bool second, const uint8_t *card, size_t card_len, size_t strip_len, uint32_t lost, uint8_t *stripe,
                                     size_t stripe_len);

/* Takes a card, the number r of a stripe, any of 32 bits, the stripe, and a second buffer of as many bytes, which lies outside the stripe.
 * Writes the turned stripe into the buffer, disk i's strip into slot (i + r) modulo n; no value. The stripe keeps its bytes. What the buffer had
 * has no effect. bridgecrumb_turn_back undoes it.
 * Refuses the card's, then 6, then 7 (a stripe or a buffer of another length than strip_len for each disk). */
uint64_t bridgecrumb_turn(bool second, const uint8_t *card, size_t card_len, size_t strip_len, uint32_t r, const uint8_t *stripe, size_t stripe_len,
                          uint8_t *out, size_t out_len);

/* Takes what bridgecrumb_turn takes, the stripe being turned.
 * Writes the stripe into the buffer, what slot (i + r) modulo n has as disk i's strip; no value. The turned stripe keeps its bytes. What the buffer
 * had has no effect. bridgecrumb_turn undoes it.
 * Refuses as bridgecrumb_turn does. */
uint64_t bridgecrumb_turn_back(bool second, const uint8_t *card, size_t card_len, size_t strip_len, uint32_t r, const uint8_t *stripe,
                               size_t stripe_len, uint8_t *out, size_t out_len);

/* Takes a card, the number r of a stripe, any of 32 bits, a set of lost slots and the turned stripe. Disk i is lost where slot (i + r) modulo n is.
 * Writes the lost slots, in place: each gets the strip of its disk that the survivors tell; the value is how many slots are lost. Turned back,
 * the stripe becomes what bridgecrumb_rebuild makes of the stripe that was turned back first, with its answer, 11 and 12 too.
 * Refuses the card's, then 6, 8 (a slot of number n or above), 7, 11, 12. */
uint64_t bridgecrumb_rebuild_turned(bool second, const uint8_t *card, size_t card_len, size_t strip_len, uint32_t r, uint32_t slots, uint8_t *stripe,
                                    size_t stripe_len);

/* Takes a card, a list of 1 to 8 sets of lost disks, a budget of steps and a tray: for each set its stripe, one
 * after the other. A step takes the lowest lost disk that is the only lost member of some parity's check, that
 * parity with its data disks, and the lowest such parity, and writes the XOR of the others. Stripes go in turn,
 * each until it sticks. Strips that stay lost keep their bytes. The value is how many steps were made, at most
 * the budget; what is left of each set goes into `left`, another array than `lost`, and its places past the list
 * become 0. Survivors of no content are not noticed here: bridgecrumb_rebuild with what is left then refuses as
 * it would have before.
 * Refuses the card's, then 6, 17, 8, 7 (a tray of another length than count stripes). */
uint64_t bridgecrumb_quick_repair(bool second, const uint8_t *card, size_t card_len, size_t strip_len, const uint32_t *lost, size_t count,
                                  size_t budget, uint8_t *tray, size_t tray_len, uint32_t left[8]);

/* Takes a card, a stripe, a data disk and its new strip, which lies outside the stripe.
 * XORs each byte of the disk's strip, and of each parity strip whose column names the disk, with the old and the new data byte: the
 * disk's strip becomes the new one. The other strips keep their bytes. An encoded stripe stays encoded; another is updated alike. The
 * value is the number of these strips: 1 and the naming parities, at most m + 1.
 * Refuses the card's, then 6, 9, 18 (disk k to n - 1), 7, 19. */
uint64_t bridgecrumb_update(bool second, const uint8_t *card, size_t card_len, size_t strip_len, uint8_t *stripe, size_t stripe_len, size_t disk,
                            const uint8_t *new_strip, size_t new_len);

/* Takes a card of edition 1, a set of lost disks, a stripe and an output.
 * Writes the record at the output's front and leaves the rest; the value is the record's length.
 * Refuses 1 to 5, then 6, 8, 7, 16. */
uint64_t bridgecrumb_record_write(const uint8_t *card, size_t card_len, size_t strip_len, uint32_t lost, const uint8_t *stripe, size_t stripe_len,
                                  uint8_t *out, size_t out_len);

/* Takes a record file. Answers k, m, the strips' length and the lost set in `fields`, and the m columns,
 * then zeros, in `columns`. No value where it is accepted.
 * Refuses 13, 6, 14, the card's 1 to 5, 14 again (E and the strips' entries), 15. */
uint64_t bridgecrumb_record_read(const uint8_t *file, size_t file_len, size_t fields[4], uint16_t columns[16]);

/* Takes a record file and a disk.
 * Answers in `place` where the disk's strip starts in the file, and its length; no value.
 * Refuses as the reader does, then 9, then 16 (a lost disk). */
uint64_t bridgecrumb_record_body(const uint8_t *file, size_t file_len, size_t disk, size_t place[2]);

#ifdef __cplusplus
}
#endif

#endif
