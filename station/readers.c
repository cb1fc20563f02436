/* A file and a stream as readers; readers.h says what they keep to. */
#define _POSIX_C_SOURCE 200809L
#include "readers.h"

#include <errno.h>
#include <unistd.h>

enum reading { AT_OFFSET, IN_TURN };

/* Reads len bytes, and fewer only at the end. Answers the count, or -1 with errno. */
static ssize_t read_all(const struct source *source, enum reading how, size_t offset, uint8_t *bytes, size_t len) {
  size_t got = 0;
  while (got < len) {
    ssize_t n = how == AT_OFFSET ? pread(source->fd, bytes + got, len - got, (off_t)(offset + got)) : read(source->fd, bytes + got, len - got);
    if (n == 0) break;
    if (n > 0) got += (size_t)n;
    else if (errno != EINTR) return -1;
  }
  return (ssize_t)got;
}

static struct burst burst_at(struct source *source, enum reading how, size_t offset, size_t len) {
  struct burst burst = {BURST_BYTES, offset, 0, source->bytes, 0};
  ssize_t got = read_all(source, how, offset, source->bytes, len < sizeof source->bytes ? len : sizeof source->bytes);
  if (got < 0) {
    burst.kind = BURST_FAILED;
    burst.error = errno;
    return burst;
  }
  burst.len = (size_t)got;
  if (got == 0 && len > 0) burst.kind = BURST_END;
  return burst;
}

static struct burst ask_file(void *context, size_t offset, size_t len) { return burst_at(context, AT_OFFSET, offset, len); }

static struct burst ask_stream(void *context, size_t offset, size_t len) {
  struct source *stream = context;
  if (offset < stream->count) return (struct burst){BURST_GONE, stream->count, 0, NULL, 0};
  struct burst burst = burst_at(stream, IN_TURN, stream->count, len);
  stream->count += burst.len;
  return burst;
}

struct reader file_reader(struct source *source, int fd) {
  source->fd = fd;
  source->count = 0;
  return (struct reader){ask_file, NULL, source, FEED_TRIES};
}

struct reader stream_reader(struct source *source, int fd) {
  struct reader reader = file_reader(source, fd);
  reader.ask = ask_stream;
  return reader;
}

bool can_seek(int fd) { return lseek(fd, 0, SEEK_CUR) >= 0; }
