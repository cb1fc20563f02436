/* options.h: the words of the command line. */
#ifndef OPTIONS_H
#define OPTIONS_H

#include "records.h"

struct options {
  size_t burst; /* bytes that are asked for at a time */
  bool bursts;  /* the names are those of logs */
  bool strict, identity, timings, label, json, explain;
  bool strict_date; /* a date of the label that is none is refused */
  bool no_crc;      /* the base CRC is neither told nor counted */
  bool two_reads;   /* the two names are those of two reads of one module */
  uint32_t edition; /* of the ladder, ROOSTCORD_EDITION_..; 0 with read_report, since a report does not tell its own */
  const char *report;      /* the file that a report is written to, or NULL */
  const char *read_report; /* the stored report to list, or NULL */
  char **names;            /* of images, or of logs */
  int count;
};

/* Takes the words. Answers whether there is something to do with them; if not, *status is how to end: CLEAN after --help and --version,
 * MISUSED after what was told on standard error. */
bool take_options(int argc, char **argv, struct options *options, enum status *status);

#endif
