/* The station's host program: reads SPD images, or logs of the bursts of an image, feeds each burst with the offset at which it was read
 * to the proved library, and prints what the library says. All that is judged is judged in libroostcord.a, on the bytes that its states
 * took: the base CRC too, since one that was checked on a reader's own copy let forty false certificates pass. A DDR4 image is judged
 * whole, on the same bytes: the feeding loop keeps each burst that a state took beside it, at its own offset.
 *
 *   options.c  the words of the command line        feed.c, readers.c, log.c  where the bytes come from
 *   records.c  the questions to the library         print.c, json.c           how the answers are printed
 *   archive.c  reports as files                     names.c, explain.c        how they are spelt and explained */
#define _POSIX_C_SOURCE 200809L
#include "archive.h"
#include "explain.h"
#include "feed.h"
#include "json.h"
#include "log.h"
#include "print.h"
#include "readers.h"

#include <errno.h>
#include <fcntl.h>
#include <string.h>
#include <unistd.h>

enum { WHY_MAX = 300 };

/* What is read: its name as it was given, as it is shown, and as a path, which is NULL for standard input. */
struct input {
  const char *name, *shown, *path;
  unsigned long refused_bursts;
  char why[WHY_MAX]; /* why it is not whole */
};

static struct input input_named(const char *name) {
  bool standard = strcmp(name, "-") == 0;
  return (struct input){.name = name, .shown = standard ? "standard input" : name, .path = standard ? NULL : name};
}

static void tell(const struct input *input) { fprintf(stderr, "station: %s: %s\n", input->shown, input->why); }

/* Says why an image is not whole. */
static void say_why(struct input *input, const struct feed_result *fed) {
  unsigned long asked = (unsigned long)fed->asked, came = (unsigned long)fed->came;
  char *why = input->why;
  if (fed->end == FEED_FAILED) snprintf(why, WHY_MAX, "reading failed at offset 0x%lx (%lu): %s", asked, asked, strerror(fed->error));
  else if (fed->end == FEED_REFUSED)
    snprintf(why, WHY_MAX, "refused %d: more than %d bytes", (int)ROOSTCORD_NUMBER(fed->refusal), ROOSTCORD_IMAGE_MAX);
  else if (fed->end == FEED_GAVE_UP)
    snprintf(why, WHY_MAX, "offset 0x%lx (%lu) was asked for again and again, and did not come", asked, asked);
  else snprintf(why, WHY_MAX, "offset 0x%lx (%lu) is missing, and there is no going back from 0x%lx (%lu)", asked, asked, came, came);
}

static struct feed_result not_opened(struct input *input) {
  snprintf(input->why, WHY_MAX, "it cannot be opened: %s", strerror(errno));
  return (struct feed_result){.end = FEED_FAILED};
}

/* Feeds a file, which is read at the offsets that are asked for, or what cannot go back: standard input, or a pipe by name. */
static struct feed_result feed_file(struct input *input, const struct options *options, struct taken *taken) {
  struct source source;
  int fd = input->path ? open(input->path, O_RDONLY) : STDIN_FILENO;
  if (fd < 0) return not_opened(input);
  struct reader reader = input->path && can_seek(fd) ? file_reader(&source, fd) : stream_reader(&source, fd);
  struct feed_result fed = feed_image(&reader, options->burst, taken->state, taken->image);
  if (input->path) close(fd);
  if (fed.end != FEED_WHOLE) say_why(input, &fed);
  return fed;
}

/* With --explain: a burst that was refused, and what to do. */
static void tell_explained(void *context, const struct burst *burst, int32_t answer) {
  char text[SENTENCE_MAX];
  log_tell_refused(context, burst, answer);
  fprintf(stderr, "  %s\n", explain_refusal(answer, 0, text));
}

/* Feeds a log of bursts, a line each. */
static struct feed_result feed_log(struct input *input, const struct options *options, struct taken *taken) {
  struct log log;
  FILE *file = input->path ? fopen(input->path, "r") : stdin;
  if (!file) return not_opened(input);
  struct reader reader = log_reader(&log, file, input->shown);
  if (options->explain) reader.refused = tell_explained;
  struct feed_result fed = feed_image(&reader, ROOSTCORD_IMAGE_MAX, taken->state, taken->image);
  if (input->path) fclose(file);
  input->refused_bursts = log.refused;
  if (log.fault) snprintf(input->why, WHY_MAX, "line %lu: %s", log.line, log.fault);
  else if (fed.end != FEED_WHOLE) say_why(input, &fed);
  return fed;
}

/* Writes the report of an image where that is asked for. */
static enum status store(const struct records *records, const struct options *options) {
  if (!options->report || ROOSTCORD_REFUSED(records->report_answer)) return CLEAN;
  int error = store_report(options->report, records->report, (size_t)records->report_answer);
  if (error == 0) return CLEAN;
  fprintf(stderr, "station: %s: the report was not written: %s\n", options->report, strerror(error));
  return UNREADABLE;
}

static enum status worse(enum status one, enum status other) { return one > other ? one : other; }

/* What the library says of a whole image. The subject's status is what counts before it is asked. */
static enum status show_image(struct subject *subject, const uint8_t *state, const struct options *options) {
  struct records records;
  ask_records(state, options->strict_date ? ROOSTCORD_DATE_STRICT : ROOSTCORD_DATE_AS_IS, &records);
  subject->status = worse(subject->status, store(&records, options));
  subject->status = worse(subject->status, status_of(&records.findings, options->strict));
  if (!options->no_crc) subject->status = worse(subject->status, status_of_crc(records.crc_answer));
  if (options->label && ROOSTCORD_REFUSED(records.manufacturing_answer)) subject->status = worse(subject->status, UNREADABLE);
  if (options->json) json_image(subject, &records, options);
  else print_image(&records, options);
  return subject->status;
}

/* Tells of what was asked for and a DDR4 image does not have. Answers what that counts for. */
static enum status tell_lacking(const struct input *input, const struct options *options) {
  if (options->label) fprintf(stderr, "station: %s: no label: the manufacturing block of a DDR4 image is not decoded\n", input->shown);
  if (options->report)
    fprintf(stderr, "station: %s: no report was written: reports are of DDR5 images, and %s is a DDR4 image\n", options->report,
            input->shown);
  return options->label || options->report ? UNREADABLE : CLEAN;
}

/* What the library says of a whole DDR4 image. */
static enum status show_ddr4(struct subject *subject, const struct input *input, const struct taken *taken, const struct options *options) {
  struct ddr4 ddr4;
  ask_ddr4(taken, &ddr4);
  subject->status = worse(tell_lacking(input, options), status_of_ddr4(&ddr4, options->strict));
  if (options->json) json_ddr4(subject, &ddr4, options);
  else print_ddr4(&ddr4, options);
  return subject->status;
}

/* An image that is not whole. Nothing of it is listed; too long a one is, as refused. */
static enum status show_fault(const struct subject *subject, const struct input *input, const struct feed_result *fed,
                              const struct options *options) {
  tell(input);
  if (options->report) fprintf(stderr, "station: %s: no report was written\n", options->report);
  if (fed->end == FEED_REFUSED && options->json) json_refused(subject, fed->refusal, options);
  else if (fed->end == FEED_REFUSED) print_refused(fed->refusal, options);
  else if (options->json) json_unread(subject, input->why);
  return subject->status;
}

/* Whether the report would be written over what is read; that is told. */
static bool overwrites(const struct input *input, const struct options *options) {
  if (!options->report || !same_file(options->report, input->path)) return false;
  fprintf(stderr, "station: %s: --report would write over the image itself\n", input->shown);
  return true;
}

/* Feeds what a name stands for to a fresh state of the edition that is asked for. */
static struct feed_result feed_input(struct input *input, const struct options *options, struct taken *taken) {
  int32_t answer = roostcord_pieces_fresh(taken->state, ROOSTCORD_STATE_SIZE, options->edition);
  if (ROOSTCORD_REFUSED(answer)) return (struct feed_result){.end = FEED_FAILED}; /* never */
  return options->bursts ? feed_log(input, options, taken) : feed_file(input, options, taken);
}

static enum status lint_named(const char *name, const struct options *options) {
  struct input input = input_named(name);
  struct taken taken;
  if (overwrites(&input, options)) return MISUSED;
  struct feed_result fed = feed_input(&input, options, &taken);
  struct subject subject = {.kind = "image", .name = name, .refused_bursts = input.refused_bursts};
  subject.status = fed.end == FEED_WHOLE ? CLEAN : UNREADABLE;
  bool listed = fed.end == FEED_WHOLE || fed.end == FEED_REFUSED;
  if (options->count > 1 && listed && !options->json) printf("%s:\n", input.shown);
  if (fed.end != FEED_WHOLE) return show_fault(&subject, &input, &fed, options);
  return is_ddr4(&taken) ? show_ddr4(&subject, &input, &taken, options) : show_image(&subject, taken.state, options);
}

static enum outcome kind_of(const struct feed_result *fed, const struct taken *taken) {
  if (fed->end == FEED_WHOLE) return is_ddr4(taken) ? OF_DDR4 : CHECKED;
  return fed->end == FEED_REFUSED ? NOT_TAKEN : UNREAD;
}

/* What became of a read, by what its state answers; what is not whole is told, and what cannot be checked. */
static struct read_outcome outcome_of(struct input *input, const struct feed_result *fed, const struct taken *taken) {
  struct read_outcome read = {.name = input->name, .shown = input->shown, .why = input->why, .refused_bursts = input->refused_bursts};
  read.outcome = kind_of(fed, taken);
  read.answer = read.outcome == CHECKED ? roostcord_pieces_crc(taken->state, ROOSTCORD_STATE_SIZE) : fed->refusal;
  if (read.outcome == OF_DDR4) snprintf(input->why, WHY_MAX, "the CRC of a DDR4 image is not checked, so --two-reads cannot choose it");
  if (read.outcome != CHECKED) tell(input);
  return read;
}

/* Two reads of which neither is sound: nothing is linted. */
static enum status show_neither(struct subject *subject, const struct options *options) {
  subject->status = UNREADABLE;
  fprintf(stderr, "station: neither read is sound, so nothing was linted: %s, %s\n", subject->reads[0].shown, subject->reads[1].shown);
  if (options->report) fprintf(stderr, "station: %s: no report was written\n", options->report);
  if (options->json) json_refused(subject, subject->sound, options);
  return subject->status;
}

/* Feeds two reads of one module, each to a state of its own, and lints the one whose state says that it is sound. */
static enum status lint_two(const struct options *options) {
  struct input inputs[READS] = {input_named(options->names[0]), input_named(options->names[1])};
  struct taken taken[READS];
  struct read_outcome reads[READS];
  struct subject subject = {.kind = "image", .reads = reads, .status = CLEAN};
  if (overwrites(&inputs[0], options) || overwrites(&inputs[1], options)) return MISUSED;
  for (int k = 0; k < READS; k++) {
    struct feed_result fed = feed_input(&inputs[k], options, &taken[k]);
    reads[k] = outcome_of(&inputs[k], &fed, &taken[k]);
    if (reads[k].outcome != CHECKED) subject.status = UNREADABLE; /* one could not be read or checked, even if the other one is sound */
  }
  subject.sound = sound_read(reads);
  if (!options->json) print_reads(reads, subject.sound, options);
  if (ROOSTCORD_REFUSED(subject.sound)) return show_neither(&subject, options);
  int chosen = (int)subject.sound - ROOSTCORD_FIRST_READ;
  subject.name = reads[chosen].name;
  subject.refused_bursts = reads[chosen].refused_bursts;
  return show_image(&subject, taken[chosen].state, options);
}

/* Lists a stored report. */
static enum status list_stored(const struct options *options) {
  static uint8_t bytes[STORED_MAX];
  struct input input = input_named(options->read_report);
  struct subject subject = {.kind = "report", .name = input.name, .status = UNREADABLE};
  struct findings findings = {.ddr4 = false};
  size_t len = 0;
  int error = load_report(input.path, bytes, &len);
  if (error != 0) {
    snprintf(input.why, WHY_MAX, "the report cannot be read: %s", strerror(error));
    tell(&input);
    if (options->json) json_unread(&subject, input.why);
    return UNREADABLE;
  }
  findings.answer = roostcord_report(bytes, len, findings.numbers, ROOSTCORD_REPORT_NUMBERS);
  subject.status = status_of(&findings, options->strict);
  if (options->json) json_stored(&subject, &findings, len, options);
  else print_stored(&findings, len, options);
  return subject.status;
}

/* Lints each image that is named. */
static enum status lint_all(const struct options *options) {
  enum status worst = CLEAN;
  for (int i = 0; i < options->count; i++) worst = worse(worst, lint_named(options->names[i], options));
  return worst;
}

int main(int argc, char **argv) {
  struct options options;
  enum status worst;
  if (take_options(argc, argv, &options, &worst))
    worst = options.read_report ? list_stored(&options) : options.two_reads ? lint_two(&options) : lint_all(&options);
  if (fflush(stdout) != 0 || ferror(stdout)) {
    fprintf(stderr, "station: standard output: %s\n", strerror(errno));
    if (worst < UNREADABLE) worst = UNREADABLE;
  }
  return (int)worst;
}
