/* readers.h: a file and a stream as readers for feed_image. Both read exactly the bytes that are asked for, and no further. */
#ifndef READERS_H
#define READERS_H

#include "feed.h"

#include <stdbool.h>

struct source {
  int fd;
  size_t count; /* of a stream: the bytes that were read of it, and so the offset of its next one */
  uint8_t bytes[ROOSTCORD_IMAGE_MAX];
};

/* A file, read at the offset that is asked for. */
struct reader file_reader(struct source *source, int fd);

/* A pipe or standard input, which cannot go back. Each burst has the offset at which it stood in the stream, whatever was asked for. */
struct reader stream_reader(struct source *source, int fd);

/* Whether a descriptor can be read at an offset. */
bool can_seek(int fd);

#endif
