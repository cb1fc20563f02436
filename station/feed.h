/* feed.h: the loop that feeds an image to the library, burst by burst, from any reader.
 *
 * Bytes keep the offset at which they were read, always. The loop asks for a burst at an offset, feeds what comes with the offset at
 * which it came, and after refusal 5 asks again at the count that the refusal names. It never gives bytes another offset, so a burst
 * that comes twice, late or early can shift nothing: the library refuses it.
 *
 * Beside the state it keeps the image itself, for the calls that take a whole one: each burst that the library took, at the offset at
 * which it was taken, and no other. So the image has what the state has, and nothing is read a second time.
 */
#ifndef FEED_H
#define FEED_H

#include "roostcord.h"

enum { FEED_TRIES = 8 }; /* answers in a row without progress, at which the loop gives a reader up that might answer for ever */

enum burst_kind {
  BURST_BYTES, /* len bytes that were read at offset; none (len 0) is not the end */
  BURST_END,   /* the image ends at offset */
  BURST_GONE,  /* the reader cannot go back to what was asked; it stands at offset */
  BURST_FAILED /* reading failed: error */
};

/* What a reader answers. The offset travels with the bytes. These are the reader's own, and stay until it is asked again. */
struct burst {
  enum burst_kind kind;
  size_t offset; /* where the bytes were read, which need not be where they were asked for */
  size_t len;
  const uint8_t *bytes;
  int error; /* an errno */
};

struct reader {
  /* Asked for up to len bytes at an offset. */
  struct burst (*ask)(void *context, size_t offset, size_t len);
  /* Told of each burst (or end) that the library refused 5, with its answer; NULL where nobody listens. */
  void (*refused)(void *context, const struct burst *burst, int32_t answer);
  void *context;
  size_t tries; /* FEED_TRIES, or more for a reader that comes to an end by itself */
};

enum feed_end {
  FEED_WHOLE,   /* the image ended at the count taken: the state has all of it */
  FEED_REFUSED, /* the library refused a burst, and not for its offset: 6 */
  FEED_GAVE_UP, /* as many answers as the reader has tries brought nothing */
  FEED_GONE,    /* the reader cannot go back to what is missing */
  FEED_FAILED   /* reading failed */
};

/* How feeding ended. Whatever the end, the state holds the first `taken` bytes of the image, each at its own offset, and so does the image
 * that is kept; behind them that is as it was. */
struct feed_result {
  enum feed_end end;
  size_t taken;    /* the count of bytes that the state has */
  size_t asked;    /* the offset that was asked for last: unless the image is whole, it is the one that is missing */
  size_t came;     /* the offset of the answer to that */
  int32_t refusal; /* the library's answer to the burst that was refused last, or 0 */
  int error;       /* FEED_FAILED: the errno */
};

/* Feeds a state, which roostcord_pieces_fresh made and which may have taken some bytes, to the end of the image. What it takes is kept in
 * `image` as well; of what it took before, that has the bytes if it was lent then too. */
struct feed_result feed_image(const struct reader *reader, size_t len, uint8_t state[ROOSTCORD_STATE_SIZE],
                              uint8_t image[ROOSTCORD_IMAGE_MAX]);

#endif
