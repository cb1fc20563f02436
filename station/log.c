/* A log of bursts as a reader; log.h says which lines it takes. */
#include "log.h"

#include <errno.h>
#include <string.h>

enum {
  OFFSET_DIGITS = 8,
  HEXDUMP_BYTES = 16, /* of a line of hexdump -C; it has two blanks behind the offset and behind the eighth byte */
  HEXDUMP_COLUMN = 8
};

static const char other_text[] = "its text is not that of its bytes: log with xxd without -e and -b, or with hexdump -Cv";

static int digit(char c) {
  if (c >= '0' && c <= '9') return c - '0';
  if (c >= 'a' && c <= 'f') return c - 'a' + 10;
  if (c >= 'A' && c <= 'F') return c - 'A' + 10;
  return -1;
}

/* Reads the next line without what does not count at its end. Answers whether there is one; log->fault where it is too long. */
static bool next_line(struct log *log) {
  int c = getc(log->file);
  if (c == EOF) return false;
  log->line++;
  log->len = 0;
  for (; c != EOF && c != '\n'; c = getc(log->file)) {
    if (log->len < LOG_LINE_MAX) log->text[log->len++] = (char)c;
    else log->fault = "it is too long for a line of a log";
  }
  while (log->len > 0 && memchr(" \t\r", log->text[log->len - 1], 3)) log->len--;
  log->text[log->len] = '\0';
  return !ferror(log->file);
}

/* Reads on to the next line that is not skipped. */
static bool next_burst(struct log *log) {
  while (next_line(log))
    if (log->fault || (log->len > 0 && log->text[0] != '#')) return true;
  return false;
}

/* One byte, two digits; the place behind it, or NULL. */
static const char *take_byte(const char *at, struct log *log, size_t *len) {
  int high = digit(at[0]), low = high < 0 ? -1 : digit(at[1]);
  if (low < 0) {
    log->fault = "a byte is not two hex digits";
    return NULL;
  }
  log->bytes[(*len)++] = (uint8_t)(16 * high + low);
  return at + 2;
}

/* A byte as the text of either form shows it. */
static char shown(uint8_t byte) { return byte >= ' ' && byte <= '~' ? (char)byte : '.'; }

/* Whether the text of a line is that of its bytes: where it is not, the digits are in another order or of another kind. */
static bool shows(const char *text, size_t text_len, const struct log *log, size_t len) {
  bool same = text_len == len;
  for (size_t i = 0; same && i < len; i++) same = text[i] == shown(log->bytes[i]);
  return same;
}

/* The text behind xxd's bytes, if there is any. Blanks at its end went with those of the line; at its front they are as those before it. */
static void xxd_text(const char *at, struct log *log, size_t len) {
  size_t rest = strlen(at);
  while (len > 0 && shown(log->bytes[len - 1]) == ' ') len--;
  if (rest == 0) return;
  size_t text_len = rest < len ? rest : len;
  const char *text = at + rest - text_len;
  if (strspn(at, " ") + text_len < rest || !shows(text, text_len, log, len)) log->fault = other_text;
}

/* The bytes behind xxd's colon. */
static size_t xxd_bytes(const char *at, struct log *log) {
  size_t len = 0;
  while (at && *at == ' ' && at[1] != ' ') {
    at = take_byte(at + 1, log, &len);
    while (at && *at != ' ' && *at != '\0') at = take_byte(at, log, &len);
  }
  if (len == 0 && !log->fault) log->fault = "no blank and bytes behind the colon";
  if (!log->fault) xxd_text(at, log, len);
  return len;
}

/* The bytes behind the offset of hexdump -C, with the bars of its text. */
static size_t hexdump_bytes(const char *at, struct log *log) {
  size_t len = 0, blanks = strspn(at, " ");
  while (at && at[blanks] != '|' && at[blanks] != '\0') {
    if (blanks != (len % HEXDUMP_COLUMN == 0 ? 2 : 1) || len == HEXDUMP_BYTES) log->fault = "its bytes do not stand in the columns of hexdump -C";
    at = log->fault ? NULL : take_byte(at + blanks, log, &len);
    if (at) blanks = strspn(at, " ");
  }
  if (!at) return len;
  const char *bar = at + blanks, *last = log->text + log->len - 1;
  if (*bar != '|' || last == bar || *last != '|') log->fault = "no |text| ends it, so it was cut";
  else if (len == 0) log->fault = "it has no bytes";
  else if (!shows(bar + 1, (size_t)(last - bar) - 1, log, len)) log->fault = other_text;
  return len;
}

/* The line as a burst; its end where it has an offset alone. */
static struct burst parse(struct log *log) {
  struct burst burst = {BURST_BYTES, 0, 0, log->bytes, 0};
  const char *at = log->text;
  for (; digit(*at) >= 0 && at - log->text < OFFSET_DIGITS; at++) burst.offset = 16 * burst.offset + (size_t)digit(*at);
  if (strlen(log->text) != log->len) log->fault = "it has a byte 0, so it is no text";
  else if (strcmp(log->text, "*") == 0) log->fault = "* stands for lines that were left out: log with hexdump -Cv, or with xxd without -a";
  else if (at == log->text) log->fault = "no offset in hex begins it";
  else if (*at == '\0') burst.kind = BURST_END;
  else if (*at == ':') burst.len = xxd_bytes(at + 1, log);
  else if (at[0] == ' ' && at[1] == ' ') burst.len = hexdump_bytes(at, log);
  else log->fault = "neither a colon, as with xxd, nor two blanks, as with hexdump -C, follow its offset";
  return burst;
}

static struct burst failed(struct log *log, int error) { return (struct burst){BURST_FAILED, log->end, 0, NULL, error}; }

/* The end of the file: the image ends where the furthest line does. */
static struct burst file_end(struct log *log) {
  if (ferror(log->file)) return failed(log, errno ? errno : EIO);
  log->over = true;
  log->given = 0;
  log->offset = log->end;
  return (struct burst){BURST_END, log->end, 0, NULL, 0};
}

static struct burst ask_log(void *context, size_t offset, size_t len) {
  struct log *log = context;
  (void)len; /* a line is as long as it is */
  /* The line before began past what is asked for: a gap, and a gap ends the log. So does its end. */
  if (log->over || log->offset > offset) return (struct burst){BURST_GONE, log->offset, 0, NULL, 0};
  errno = 0;
  if (!next_burst(log)) return file_end(log);
  struct burst burst = {BURST_FAILED, 0, 0, NULL, 0};
  if (!log->fault) burst = parse(log);
  if (log->fault) return failed(log, EINVAL);
  log->given = log->line;
  log->offset = burst.offset;
  if (burst.kind == BURST_END) {
    log->over = true;
    if (next_burst(log)) log->fault = "it stands behind the end of the image";
    if (log->fault) return failed(log, EINVAL);
    if (ferror(log->file)) return failed(log, errno ? errno : EIO);
  } else if (burst.offset + burst.len > log->end) {
    log->end = burst.offset + burst.len;
  }
  return burst;
}

void log_tell_refused(void *context, const struct burst *burst, int32_t answer) {
  struct log *log = context;
  log->refused++;
  fprintf(stderr, "station: %s: ", log->name);
  if (log->given) fprintf(stderr, "line %lu: ", log->given);
  fprintf(stderr, "refused %d: %s offset 0x%lx (%lu), and 0x%lx (%lu) bytes are taken\n", (int)ROOSTCORD_NUMBER(answer),
          burst->kind == BURST_END ? "the end at" : "a burst at", (unsigned long)burst->offset, (unsigned long)burst->offset,
          (unsigned long)ROOSTCORD_FIRST(answer), (unsigned long)ROOSTCORD_FIRST(answer));
}

struct reader log_reader(struct log *log, FILE *file, const char *name) {
  *log = (struct log){.file = file, .name = name};
  return (struct reader){ask_log, log_tell_refused, log, LOG_TRIES};
}
