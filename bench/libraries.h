/* Peers out of libraries: liberasurecode's flat XOR kernel (libXorcode), liberasurecode's API, ISA-L's xor_gen.
 *
 * What can be prepared once for a stripe is prepared by libraries_open, outside the time that is taken.
 */
#ifndef LIBRARIES_H
#define LIBRARIES_H

#include "job.h"

/* the card of liberasurecode's own 10 + 5 code of Hamming distance 3, by its own bitmaps */
void own_card(struct job *job);

/* the stripe is encoded; own: the card is own_card's, which the API needs */
void libraries_open(const struct job *job, int own);
void libraries_close(void);

void kernel_encode(struct job *job);
void kernel_decode(struct job *job);
void isal_encode(struct job *job);

/* the API allocates what it answers; the clean-up belongs to the call */
void api_encode(struct job *job);
void api_decode(struct job *job);

/* the same calls, and what they answer is copied into the stripe */
void api_encode_shown(struct job *job);
void api_decode_shown(struct job *job);

#endif
