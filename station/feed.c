/* The feeding loop; feed.h says what it keeps to. */
#include "feed.h"

#include <string.h>

static struct feed_result ended(struct feed_result result, enum feed_end end) {
  result.end = end;
  return result;
}

/* Keeps a burst that the library took. That it took it says that offset and length lie within the image. */
static void keep(uint8_t *image, const struct burst *burst) {
  if (burst->len > 0) memcpy(image + burst->offset, burst->bytes, burst->len);
}

struct feed_result feed_image(const struct reader *reader, size_t len, uint8_t state[ROOSTCORD_STATE_SIZE],
                              uint8_t image[ROOSTCORD_IMAGE_MAX]) {
  struct feed_result result = {FEED_REFUSED, (size_t)roostcord_pieces_taken(state, ROOSTCORD_STATE_SIZE), 0, 0, 0, 0};
  for (size_t idle = 0; idle < reader->tries;) {
    result.asked = result.taken;
    struct burst burst = reader->ask(reader->context, result.asked, len);
    result.came = burst.offset;
    if (burst.kind == BURST_GONE) return ended(result, FEED_GONE);
    if (burst.kind == BURST_FAILED) {
      result.error = burst.error;
      return ended(result, FEED_FAILED);
    }
    if (burst.kind == BURST_END) burst.len = 0; /* an end is an empty burst where the image ends */
    int32_t answer = roostcord_pieces_feed(state, ROOSTCORD_STATE_SIZE, burst.offset, burst.bytes, burst.len);
    if (ROOSTCORD_REFUSED(answer)) {
      result.refusal = answer;
      if (ROOSTCORD_NUMBER(answer) != ROOSTCORD_WRONG_OFFSET) return ended(result, FEED_REFUSED);
      if (reader->refused) reader->refused(reader->context, &burst, answer);
      result.taken = (size_t)ROOSTCORD_FIRST(answer); /* asked for next; what came is dropped */
    } else {
      if (burst.kind == BURST_END) return ended(result, FEED_WHOLE);
      keep(image, &burst);
      result.taken = (size_t)answer;
    }
    idle = result.taken > result.asked ? 0 : idle + 1;
  }
  return ended(result, FEED_GAVE_UP);
}
