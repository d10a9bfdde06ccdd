/* C7 of document 01: a stripe is encoded, loses three disks, is rebuilt, and goes into a record, out of which one strip is read. */
#include <stdio.h>
#include <stdlib.h>

#include "bridgecrumb.h"

/* the value of an accepted call; a refusal ends the program */
static size_t accepted(uint64_t answer)
{
    if (BRIDGECRUMB_NUMBER(answer) != BRIDGECRUMB_ACCEPTED)
        exit((int)BRIDGECRUMB_NUMBER(answer));
    return BRIDGECRUMB_VALUE(answer);
}

int main(void)
{
    static const uint8_t card[] = {4, 3, 7, 0, 11, 0, 13, 0};  /* edition 1: k, m, three columns */
    uint8_t stripe[7] = {0x11, 0x22, 0x44, 0x88}, record[200]; /* strips of one byte */
    size_t length, place[2];

    accepted(bridgecrumb_encode(false, card, sizeof card, 1, stripe, sizeof stripe));
    printf("parity: 0x%02X 0x%02X 0x%02X\n", stripe[4], stripe[5], stripe[6]);

    stripe[0] = stripe[1] = stripe[2] = 0; /* set 7 is lost */
    printf("set 7 is %s\n", accepted(bridgecrumb_verdict(false, card, sizeof card, 7)) ? "fatal" : "not fatal");
    printf("restored: %u disks\n", (unsigned)accepted(bridgecrumb_rebuild(false, card, sizeof card, 1, 7, stripe, sizeof stripe)));
    printf("data: 0x%02X 0x%02X 0x%02X 0x%02X\n", stripe[0], stripe[1], stripe[2], stripe[3]);

    length = accepted(bridgecrumb_record_write(card, sizeof card, 1, 0, stripe, sizeof stripe, record, sizeof record));
    accepted(bridgecrumb_record_body(record, length, 3, place));
    printf("record: %u bytes, disk 3's strip at %u: 0x%02X\n", (unsigned)length, (unsigned)place[0], record[place[0]]);
    return 0;
}
