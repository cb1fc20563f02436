/* print.h: the plain listing, on standard output. */
#ifndef PRINT_H
#define PRINT_H

#include "options.h"

/* An image: bytes, the edition unless it is the present one, decoders, base CRC unless --no-crc is given, and findings; identity, timings
 * and label where they are asked for. */
void print_image(const struct records *records, const struct options *options);

/* A DDR4 image: bytes, its one record and findings; the numbers of the record where identity or timings are asked for. */
void print_ddr4(const struct ddr4 *ddr4, const struct options *options);

/* An image that the library did not take. */
void print_refused(int32_t answer, const struct options *options);

/* What stands above the listing of two reads: which is sound (as sound_read answers), and what became of each. */
void print_reads(const struct read_outcome reads[READS], int32_t sound, const struct options *options);

/* A stored report, of which there are so many bytes. */
void print_stored(const struct findings *findings, size_t bytes, const struct options *options);

#endif
