/* log.h: a log of bursts as a reader for feed_image.
 *
 * A line is a burst: its offset in hex (1 to 8 digits), and its bytes in hex, in one of two forms.
 *
 *   xxd           00000010: 0000 0000 a001 f203  ........
 *                 The offset, a colon, a blank, and groups of bytes with one blank between two groups. Two blanks, or the end of the
 *                 line, end the bytes. What stands behind the blanks is the text.
 *   hexdump -Cv   00000010  00 00 00 00 a0 01 f2 03  72 0d 00 00 00 00 00 41  |........r......A|
 *                 The offset, two blanks, and up to 16 bytes with one blank between two of them, but two behind the eighth; then blanks,
 *                 and text between two bars that ends the line. Without its bars the line was cut, and is refused.
 *   00000200      An offset alone, as hexdump -C has it on its last line, is the end of the image at that offset. Only lines that are
 *                 skipped may follow it.
 *
 * A byte is two hex digits, of either case. Blank lines and lines that begin with # are skipped. Blanks and a carriage return at the
 * end of a line do not count. A line with * alone stands for lines that were left out: they are not guessed at, the line is refused.
 * So is every line of another form: xxd -p, hexdump without -C, od.
 *
 * The text has a place for each byte: the byte itself where it is printable ASCII, else a dot. A line with another text is refused: so are
 * the bits of xxd -b, and the little-endian words of xxd -e unless their text reads the same from either end of each word, as it does
 * where no byte is printable. Blanks at the ends of xxd's text are not seen. A line of its form without text is taken as it is.
 *
 * Each line is handed on with its own offset, in the order of the log. The image ends where the furthest line does.
 */
#ifndef LOG_H
#define LOG_H

#include "feed.h"

#include <stdbool.h>
#include <stdio.h>

enum {
  LOG_LINE_MAX = 16 + 4 * ROOSTCORD_IMAGE_MAX, /* a line of either form with as many bytes as an image may have */
  LOG_TRIES = ROOSTCORD_IMAGE_MAX              /* a log may have a whole image again, a byte a line; then it is given up */
};

struct log {
  FILE *file;
  const char *name;      /* for what is told on standard error */
  const char *fault;     /* why the line that was read last is none; NULL while all were lines */
  unsigned long line;    /* the number of that line */
  unsigned long given;   /* the number of the line that was handed on last; 0 for the end of the file */
  size_t offset;         /* its offset */
  size_t end;            /* where the furthest line ends */
  bool over;             /* the end was told */
  unsigned long refused; /* how many lines the library refused 5 */
  size_t len;            /* of the text */
  char text[LOG_LINE_MAX + 1];
  uint8_t bytes[LOG_LINE_MAX / 2];
};

/* A line that the library refuses 5 is told on standard error, with its number, by log_tell_refused. */
struct reader log_reader(struct log *log, FILE *file, const char *name);
void log_tell_refused(void *context, const struct burst *burst, int32_t answer);

#endif
