/* The words of the command line; options.h says what becomes of them. */
#define _GNU_SOURCE /* getopt_long */
#include "options.h"

#include <getopt.h>
#include <stdio.h>
#include <stdlib.h>
#include <string.h>

enum { BURST = 16 }; /* where --burst is not given */

static const char usage[] =
    "usage: station [OPTIONS] [--edition N] [--burst N] IMAGE...\n"
    "       station [OPTIONS] [--edition N] --bursts LOG...\n"
    "       station [OPTIONS] [--edition N] --two-reads FIRST SECOND\n"
    "       station [OPTIONS] --read-report FILE\n"
    "\n"
    "Lints SPD images of DDR5 modules, and of DDR4 modules. IMAGE is a file (a Linux eeprom file will do), or - for standard input.\n"
    "\n"
    "  -b, --burst N           read and feed N bytes at a time, 1 to 2048 (16 if not given)\n"
    "  -l, --bursts            read logs of the bursts of an image, instead of images; - is standard input here too\n"
    "  -E, --edition N         lint under edition N of the ladder of data rates: 1, 3200 to 6400, or 2, 3200 to 8800 (2 if not given)\n"
    "  -s, --strict            let every finding count, not errors alone\n"
    "  -i, --identity          print the identity as well\n"
    "  -t, --timings           print the timings and the clock table as well\n"
    "  -m, --label             print the manufacturing block as well: makers, place, date, serial number and part number\n"
    "  -d, --strict-date       with --label: refuse a date that is not decimal digits, or whose week is not 1 to 53\n"
    "  -n, --no-crc            leave the base CRC out, in the listing and for the status\n"
    "  -2, --two-reads         lint the sound one of two reads of a module, the first whose base CRC fits; with --bursts both are logs\n"
    "  -e, --explain           say after each refusal, finding and wrong CRC which bytes it is about, and what to do\n"
    "  -j, --json              print a JSON object on a line for each image, with identity and timings; the label only with --label\n"
    "  -o, --report FILE       write the report of the one image, or of the sound read, to FILE, in the library's form\n"
    "  -R, --read-report FILE  list a report that was written so; - is standard input\n"
    "  -V, --version           the version\n"
    "  -h, --help              this text\n"
    "\n"
    "Options may stand before and behind names; what follows -- is a name.\n"
    "\n";

static const char forms[] =
    "A log has a burst on each line, its offset and its bytes in hex, in the order in which they came, as xxd or hexdump -Cv print them:\n"
    "\n"
    "  00000010: 0000 0000 a001 f203 720d 0000 0000 0041  ........r......A\n"
    "  00000010  00 00 00 00 a0 01 f2 03  72 0d 00 00 00 00 00 41  |........r......A|\n"
    "  00000200\n"
    "\n"
    "  xxd          offset, colon, blank, groups of bytes with one blank between two; two blanks or the end of the line end the bytes\n"
    "  hexdump -Cv  offset, two blanks, up to 16 bytes in its columns, and |text| at the end of the line\n"
    "  either       offsets have 1 to 8 digits; digits are of either case; CR LF ends a line as well\n"
    "\n"
    "An offset alone is the end of the image, and no burst may follow it; without it the image ends where its furthest burst does.\n"
    "Blank lines and lines that begin with # are skipped. A line * , which stands for lines that were left out, is refused, and so\n"
    "is any other line. A text must be that of the bytes, with a dot for each that is not printable: so the words of xxd -e and the\n"
    "bits of xxd -b, which look like bytes and are not, are refused. Words of which no byte is printable are not told apart.\n"
    "\n"
    "Each burst is fed with its own offset. One that comes again is told on standard error as refused 5, and changes nothing; where\n"
    "bytes are missing, their offset is told there, and nothing is listed.\n"
    "\n"
    "The base CRC is checked on the bytes that the library took, and told in a line: crc ok, crc wrong, or crc refused where the image has\n"
    "fewer than 512 bytes. Of two reads the first line tells which is sound; where neither is, it is refused 21, and nothing is linted.\n"
    "\n"
    "The ladder is in steps of 400 MT/s. Its editions differ in the finding non-standard-data-rate alone, which edition 1 has for 6800 to\n"
    "8800 too. With --edition 1 the line edition 1 stands behind that of the bytes; under edition 2 there is no such line.\n"
    "\n"
    "An image whose byte 2 is 0x0c is taken for DDR4. It has one line in place of identity, timings and crc: ddr4 ok, or ddr4 refused.\n"
    "With --identity or --timings its sizes and times are printed. Its CRC is not checked: --no-crc changes nothing, nor does --edition,\n"
    "and --two-reads never takes it for sound. It has no label and no report here: where one is asked for that is told, with status 2.\n"
    "\n"
    "Status: 0 nothing of severity error (with --strict: no finding at all); 1 findings of that kind, or a base CRC that is wrong; 2 an\n"
    "image was refused, its base CRC or a label that was asked for, or something could not be read or written; 3 the words of the command\n"
    "line make no sense. With several images the largest counts.\n";

static const struct option longs[] = {
    {"burst", required_argument, NULL, 'b'}, {"bursts", no_argument, NULL, 'l'},       {"strict", no_argument, NULL, 's'},
    {"identity", no_argument, NULL, 'i'},    {"timings", no_argument, NULL, 't'},      {"explain", no_argument, NULL, 'e'},
    {"json", no_argument, NULL, 'j'},        {"report", required_argument, NULL, 'o'}, {"read-report", required_argument, NULL, 'R'},
    {"label", no_argument, NULL, 'm'},       {"strict-date", no_argument, NULL, 'd'},  {"version", no_argument, NULL, 'V'},
    {"no-crc", no_argument, NULL, 'n'},      {"two-reads", no_argument, NULL, '2'},    {"edition", required_argument, NULL, 'E'},
    {"help", no_argument, NULL, 'h'},        {NULL, 0, NULL, 0}};

static const char shorts[] = ":b:lE:sitmdn2ejo:R:Vh"; /* the colon in front: a missing value is told from an unknown option */

static bool misused(const char *what, const char *word) {
  fprintf(stderr, "station: %s%s (station --help says how)\n", what, word);
  return false;
}

/* An option that getopt_long does not take. A long one is the word before the next; a short one may stand among others. */
static bool unknown(const char *word) {
  const char letter[] = {'-', (char)optopt, '\0'};
  if (strncmp(word, "--", 2) != 0) return misused("unknown option ", letter);
  return misused(strchr(word, '=') && optopt ? "no value goes with this option: " : "unknown option, or one of several: ", word);
}

/* A number from 1 to the length of an image, in digits alone; or 0. */
static size_t burst_length(const char *word) {
  size_t digits = strspn(word, "0123456789");
  if (digits == 0 || digits > 4 || word[digits] != '\0') return 0;
  long n = strtol(word, NULL, 10);
  return n > ROOSTCORD_IMAGE_MAX ? 0 : (size_t)n;
}

/* An edition of the ladder, a digit alone; or 0. */
static uint32_t edition_numbered(const char *word) {
  if (strcmp(word, "1") == 0) return ROOSTCORD_EDITION_1;
  return strcmp(word, "2") == 0 ? ROOSTCORD_EDITION_2 : 0;
}

/* A file's name behind an option, which is given once. */
static bool take_name(const char **name, const char *option) {
  if (*name) return misused("given twice: ", option);
  *name = optarg;
  return true;
}

/* Takes one option; false where it is misused. */
static bool take_one(int letter, const char *word, struct options *options) {
  switch (letter) {
    case 'b':
      options->burst = burst_length(optarg);
      return options->burst > 0 || misused("--burst wants a number from 1 to 2048, not ", optarg);
    case 'l': options->bursts = true; return true;
    case 'E':
      options->edition = edition_numbered(optarg);
      return options->edition > 0 || misused("--edition wants 1 or 2, not ", optarg);
    case 's': options->strict = true; return true;
    case 'i': options->identity = true; return true;
    case 't': options->timings = true; return true;
    case 'm': options->label = true; return true;
    case 'd': options->strict_date = true; return true;
    case 'n': options->no_crc = true; return true;
    case '2': options->two_reads = true; return true;
    case 'e': options->explain = true; return true;
    case 'j': options->json = true; return true;
    case 'o': return take_name(&options->report, "--report");
    case 'R': return take_name(&options->read_report, "--read-report");
    case ':': return misused("a value is missing behind ", word);
    default: return unknown(word);
  }
}

/* Whether what is said of two reads makes sense. */
static bool two_agree(const struct options *o) {
  if (o->no_crc) return misused("of two reads the base CRC says which is sound, so --no-crc does not go with --two-reads", "");
  if (o->count != READS) return misused("--two-reads takes two names, the first read and the second", "");
  if (strcmp(o->names[0], "-") == 0 && strcmp(o->names[1], "-") == 0)
    return misused("--two-reads wants two reads, and standard input is but one: - goes once", "");
  return true;
}

/* Whether the options go together. */
static bool agree(const struct options *o) {
  if (o->bursts && o->burst) return misused("the bursts of a log have lengths of their own, so --burst does not go with --bursts", "");
  if (o->read_report && (o->burst || o->bursts || o->edition || o->identity || o->timings || o->label || o->strict_date || o->report ||
                         o->no_crc || o->two_reads))
    return misused("a stored report was linted already, and has no bursts, reads, identity, timings, CRC, label or edition: only --strict, "
                   "--explain and --json go with --read-report",
                   "");
  if (o->strict_date && !o->label) return misused("--strict-date is about the date of the label: give --label as well", "");
  if (o->read_report && o->count > 0) return misused("no image goes with --read-report, but there is ", o->names[0]);
  if (!o->read_report && o->count == 0) return misused("no image named", "");
  if (o->two_reads && !two_agree(o)) return false;
  if (o->report && o->count > 1 && !o->two_reads) return misused("--report takes the report of one image, and several are named", "");
  if (o->report && strcmp(o->report, "-") == 0) return misused("--report wants the name of a file, not -", "");
  return true;
}

/* The version of the header, which must be that of the library that is linked. */
static enum status tell_version(void) {
  puts("station " ROOSTCORD_VERSION_STRING);
  if (roostcord_version() == ROOSTCORD_VERSION) return CLEAN;
  fprintf(stderr, "station: the library is of another version than its header: %lu, not %lu\n", (unsigned long)roostcord_version(),
          (unsigned long)ROOSTCORD_VERSION);
  return UNREADABLE;
}

bool take_options(int argc, char **argv, struct options *options, enum status *status) {
  int letter;
  *status = MISUSED;
  *options = (struct options){.burst = 0};
  opterr = 0; /* what is wrong is told here */
  while ((letter = getopt_long(argc, argv, shorts, longs, NULL)) != -1) {
    if (letter == 'h' || letter == 'V') {
      *status = letter == 'V' ? tell_version() : CLEAN;
      if (letter == 'h') fputs(usage, stdout), fputs(forms, stdout);
      return false;
    }
    if (!take_one(letter, argv[optind - 1], options)) return false;
  }
  options->names = argv + optind;
  options->count = argc - optind;
  if (!agree(options)) return false;
  if (!options->burst) options->burst = BURST;
  if (!options->edition && !options->read_report) options->edition = ROOSTCORD_EDITION_2;
  return true;
}
