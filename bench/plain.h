/* Two encoders, a peeler, an update, a partial rebuild, a stepped card and the comparison of two cards as one would write them in plain C. Update,
 * partial rebuild and stepped card check what they are given, the others nothing. */
#ifndef PLAIN_H
#define PLAIN_H

#include "job.h"

/* a byte loop for each data disk of each column */
void plain_encode(struct job *job);

/* a byte loop for every data disk and every column: the byte times the column's bit, and no branch on it */
void multiplying_encode(struct job *job);

/* while some lost disk is the only lost one of a check, mends the lowest such by its lowest such check: a copy of the check's
 * first other disk, then a byte loop for each further one; answers the steps, and what is left of the lost set */
size_t plain_peel(struct job *job, uint32_t *left);

/* a byte loop for each parity whose column names the data disk, by the old strip and the new one, then a copy of the new strip; answers 1 and
 * the naming parities */
size_t update_loops(struct job *job, int disk, const uint8_t *new_strip);

/* the same with the refusals of bridgecrumb_update, in its order and with its answers */
uint64_t plain_update(struct job *job, size_t disk, const uint8_t *new_strip, size_t new_len);

/* clears the checks by elimination, so that each lost disk is in as few as can be; sees that the XOR of each check among the survivors is 0; and
 * mends each lost disk that is the only lost one of a check. With the refusals of bridgecrumb_partial_rebuild, in its order and with its answers */
uint64_t plain_partial_rebuild(struct job *job);

/* goes through all numbers below 2^m for each size, and each number of that size is the next data disk's parity set. With the refusals of
 * bridgecrumb_card_stepped, in its order */
uint64_t plain_stepped(size_t d, size_t m, size_t k, uint8_t *out, size_t out_len);

/* Two good cards: both answer as bridgecrumb_alike does. One sorts the columns of each by qsort and compares them by memcmp; the other counts how
 * often each column of the first stands in both. */
uint64_t plain_sorted(const uint8_t *first, size_t first_len, const uint8_t *second, size_t second_len);
uint64_t plain_counted(const uint8_t *first, size_t first_len, const uint8_t *second, size_t second_len);

#endif
