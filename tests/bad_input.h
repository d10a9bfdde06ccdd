/* What the files of tests/bad_input share: what is lent, and one call tried. */
#ifndef BAD_INPUT_H
#define BAD_INPUT_H

#include "bridgecrumb.h"

/* everything that is lent to be written */
struct lent {
    uint8_t stripe[8], out[112];
    uint32_t slice[16], sets[8];
    size_t numbers[17];
    uint16_t columns[16];
    uint8_t wears[32];
};
extern struct lent lent;

/* gives what is lent its first bytes, C7's stripe among them */
void begin(void);

/* ends the program unless the answer has this number and value, and what is lent has its first bytes where the number is not 0 */
void compare(const char *call, uint64_t answer, unsigned number, uint64_t value);

/* what the call answers: a number, and a value */
#define TRY(number, value, call) (begin(), compare(#call, bridgecrumb_##call, number, value))

/* cards of edition 2, and the calls that have to do with wear */
void editions(void);

/* turned stripes */
void turns(void);

#endif
