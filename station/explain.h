/* explain.h: a sentence for each refusal, each finding and a wrong CRC, which says which bytes it is about and what to do. The sentences
 * are ASCII without quotes and backslashes, so they stand in JSON as they are. */
#ifndef EXPLAIN_H
#define EXPLAIN_H

#include "roostcord.h"

enum { SENTENCE_MAX = 400 };

/* A decoder's refusal, or that of an image, a burst or a stored report. `needs` is what the decoder needs of an image. */
const char *explain_refusal(int32_t answer, int needs, char text[SENTENCE_MAX]);

/* A base CRC that does not fit. */
const char *explain_wrong_crc(void);

/* One of two reads that is a DDR4 image. */
const char *explain_ddr4_read(void);

/* A finding under that edition of the ladder, or under one that is not known: 0. */
const char *explain_finding(const uint32_t finding[ROOSTCORD_FINDING_COUNT], uint32_t edition, char text[SENTENCE_MAX]);

/* A finding of a DDR4 image, in which the same things stand in other bytes. */
const char *explain_ddr4_finding(const uint32_t finding[ROOSTCORD_FINDING_COUNT], char text[SENTENCE_MAX]);

#endif
