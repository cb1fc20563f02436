/* records.h: all that the library says of an image, or of a stored report, in one place. */
#ifndef RECORDS_H
#define RECORDS_H

#include "roostcord.h"

#include <stdbool.h>

/* How the program ends. */
enum status {
  CLEAN = 0,      /* nothing that counts was found */
  FOUND = 1,      /* a finding of severity error, or any with --strict; or a base CRC that is wrong */
  UNREADABLE = 2, /* something was refused, or could not be read or written */
  MISUSED = 3     /* the words of the command line do not make sense */
};

/* The numbers of a report: how many, or the refusal. Findings of a DDR4 image stand in the same places, and the flags of it are 0. */
struct findings {
  int32_t answer;
  uint32_t numbers[ROOSTCORD_REPORT_NUMBERS];
  bool ddr4;
};

/* What was taken of an image: by the state, and the same bytes beside it, as feed_image keeps them. */
struct taken {
  uint8_t state[ROOSTCORD_STATE_SIZE];
  uint8_t image[ROOSTCORD_IMAGE_MAX];
};

/* Whether it is a DDR4 image: whether byte 2 of what was taken says so. */
bool is_ddr4(const struct taken *taken);

/* Each record with the library's answer: a list is there where its answer is no refusal. */
struct records {
  int32_t bytes;
  int32_t identity_answer, timings_answer, clocks_answer, cas_answer, crc_answer, manufacturing_answer, part_answer, report_answer;
  uint32_t identity[ROOSTCORD_IDENTITY_COUNT];
  uint32_t timings[ROOSTCORD_TIMINGS_COUNT];
  uint32_t clocks[ROOSTCORD_CLOCKS_COUNT];
  uint16_t cas[ROOSTCORD_CAS_LATENCIES_MAX];
  uint32_t manufacturing[ROOSTCORD_MANUFACTURING_COUNT];
  uint8_t part[ROOSTCORD_PART_NUMBER_MAX]; /* its first part_answer bytes */
  uint8_t report[ROOSTCORD_REPORT_MAX];
  struct findings findings;
};

/* Asks the library all of it about a state, and for the date as ROOSTCORD_DATE_.. says. */
void ask_records(const uint8_t state[ROOSTCORD_STATE_SIZE], uint32_t date, struct records *records);

/* What the library says of a DDR4 image: its numbers are there where the answer is no refusal. */
struct ddr4 {
  int32_t bytes, answer;
  uint32_t numbers[ROOSTCORD_DDR4_COUNT];
  struct findings findings;
};

/* Asks the library all of it about the bytes that were taken. */
void ask_ddr4(const struct taken *taken, struct ddr4 *ddr4);

/* Whether the findings have another one, from *finding on: NULL at first, then the one that was handed out last. */
bool next_finding(const struct findings *findings, const uint32_t **finding);

size_t count_findings(const struct findings *findings);

bool decoded(const struct findings *findings, uint32_t flag);

/* What became of one of two reads. */
enum outcome {
  CHECKED,   /* the state took all of it, and was asked for its base CRC */
  NOT_TAKEN, /* the library refused some of it: 6 */
  UNREAD,    /* it could not be read whole */
  OF_DDR4    /* the state took all of it, and it is a DDR4 image, whose CRC is not checked */
};

struct read_outcome {
  const char *name, *shown; /* as it was given, and as it is shown */
  enum outcome outcome;
  int32_t answer;               /* CHECKED: of the state, to the question for its CRC; NOT_TAKEN: the refusal */
  const char *why;              /* NOT_TAKEN, UNREAD: as on standard error */
  unsigned long refused_bursts; /* bursts of a log that were refused for their offset */
};

enum { READS = 2 };

/* Which of two reads is sound, the first if both are. Answers as roostcord_sound_read does, but by what the states said of what they took:
 * here are no bytes. */
int32_t sound_read(const struct read_outcome reads[READS]);

/* What a base CRC comes to. */
enum status status_of_crc(int32_t answer);

/* What a report comes to. A record that was not decoded counts like a refusal. */
enum status status_of(const struct findings *findings, bool strict);

/* What a DDR4 image comes to. */
enum status status_of_ddr4(const struct ddr4 *ddr4, bool strict);

#endif
