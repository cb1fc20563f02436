/* json.h: a JSON object on a line of its own, on standard output, for each image and each stored report. */
#ifndef JSON_H
#define JSON_H

#include "options.h"

/* What every object has. */
struct subject {
  const char *kind; /* image or report */
  const char *name; /* as it was given; bytes that are no UTF-8 are told as U+FFFD, and then all of them again in hex; or NULL */
  enum status status;
  unsigned long refused_bursts;        /* bursts of a log that were refused for their offset */
  const struct read_outcome *reads; /* both, where there are two; else NULL */
  int32_t sound;                       /* which of them is, as sound_read answers */
};

/* An image, with its edition and all of its records; the base CRC unless --no-crc is given, and the label where it is asked for. */
void json_image(const struct subject *subject, const struct records *records, const struct options *options);

/* A DDR4 image, with its one record. */
void json_ddr4(const struct subject *subject, const struct ddr4 *ddr4, const struct options *options);

/* An image that the library did not take, or two reads of which neither is sound. */
void json_refused(const struct subject *subject, int32_t answer, const struct options *options);

/* What could not be read, and why. */
void json_unread(const struct subject *subject, const char *why);

/* A stored report, of which there are so many bytes. */
void json_stored(const struct subject *subject, const struct findings *findings, size_t bytes, const struct options *options);

#endif
