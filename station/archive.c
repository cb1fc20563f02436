/* Reports as files; archive.h says how. */
#define _XOPEN_SOURCE 700 /* realpath */
#include "archive.h"

#include <errno.h>
#include <fcntl.h>
#include <stdlib.h>
#include <string.h>
#include <unistd.h>

enum { MODE = 0666 }; /* of a new file, less what umask takes away */

bool same_file(const char *report, const char *path) {
  char *one = realpath(report, NULL), *other = realpath(path ? path : "/dev/stdin", NULL);
  bool same = one && other && strcmp(one, other) == 0; /* a file that is not there yet is none of the others */
  free(one);
  free(other);
  return same;
}

static int write_all(int fd, const uint8_t *bytes, size_t len) {
  for (size_t done = 0; done < len;) {
    ssize_t n = write(fd, bytes + done, len - done);
    if (n > 0) done += (size_t)n;
    else if (n == 0) return ENOSPC;
    else if (errno != EINTR) return errno;
  }
  return 0;
}

int store_report(const char *path, const uint8_t *report, size_t len) {
  int fd = open(path, O_WRONLY | O_CREAT | O_TRUNC, MODE);
  if (fd < 0) return errno;
  int error = write_all(fd, report, len);
  if (close(fd) != 0 && error == 0) error = errno; /* a disk over a network may tell of being full only now */
  return error;
}

static int read_all(int fd, uint8_t *bytes, size_t room, size_t *len) {
  for (*len = 0; *len < room;) {
    ssize_t n = read(fd, bytes + *len, room - *len);
    if (n > 0) *len += (size_t)n;
    else if (n == 0) return 0;
    else if (errno != EINTR) return errno;
  }
  return 0;
}

int load_report(const char *path, uint8_t bytes[STORED_MAX], size_t *len) {
  int fd = path ? open(path, O_RDONLY) : STDIN_FILENO;
  if (fd < 0) return errno;
  int error = read_all(fd, bytes, STORED_MAX, len);
  if (path) close(fd);
  return error;
}
