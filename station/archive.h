/* archive.h: reports as files, in the library's form. */
#ifndef ARCHIVE_H
#define ARCHIVE_H

#include "roostcord.h"

#include <stdbool.h>

enum { STORED_MAX = 2 + 65535 }; /* the most that the two bytes in front of a report can count, and themselves */

/* Whether two names lead to one file, links by name followed; a path of NULL is standard input. */
bool same_file(const char *report, const char *path);

/* Writes a report to a file, over what was there. Answers 0, or an errno; what is then left of it is refused when it is read. */
int store_report(const char *path, const uint8_t *report, size_t len);

/* Reads a file (NULL: standard input) as far as a report can go. Answers 0 with *len, or an errno. */
int load_report(const char *path, uint8_t bytes[STORED_MAX], size_t *len);

#endif
