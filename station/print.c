/* The plain listing; print.h says of what. */
#include "print.h"

#include "explain.h"
#include "names.h"

#include <stdio.h>

/* The number of a refusal, and what it carries. */
static void print_refusal(int32_t answer, int needs, const struct options *options) {
  char text[SENTENCE_MAX];
  int number = ROOSTCORD_NUMBER(answer);
  printf("refused %d", number);
  if (number == ROOSTCORD_TRUNCATED || number == ROOSTCORD_NOT_DDR5 || number == ROOSTCORD_UNKNOWN_CODE ||
      number == ROOSTCORD_NEGATIVE_TIME)
    printf(" %d", ROOSTCORD_FIRST(answer));
  if (number == ROOSTCORD_UNKNOWN_CODE) printf(" %d", ROOSTCORD_SECOND(answer));
  printf("\n");
  if (options->explain) printf("  %s\n", explain_refusal(answer, needs, text));
}

void print_refused(int32_t answer, const struct options *options) { print_refusal(answer, 0, options); }

/* A decoder's line: ok, or its refusal. */
static void print_decoder(const char *name, int32_t answer, int needs, const struct options *options) {
  printf("%s ", name);
  if (ROOSTCORD_REFUSED(answer)) print_refusal(answer, needs, options);
  else printf("ok\n");
}

/* The line of the base CRC: ok, wrong, or its refusal. */
static void print_crc(int32_t answer, const struct options *options) {
  bool wrong = !ROOSTCORD_REFUSED(answer) && answer != ROOSTCORD_CRC_FITS;
  if (!wrong) print_decoder("crc", answer, ROOSTCORD_CRC_NEEDS, options);
  else printf("crc wrong\n");
  if (wrong && options->explain) printf("  %s\n", explain_wrong_crc());
}

/* What became of a read. */
static void print_read(const struct read_outcome *read, const struct options *options) {
  switch (read->outcome) {
    case CHECKED: print_crc(read->answer, options); break;
    case NOT_TAKEN: print_refusal(read->answer, 0, options); break;
    case UNREAD: printf("unread\n"); break;
    case OF_DDR4:
      printf("ddr4\n");
      if (options->explain) printf("  %s\n", explain_ddr4_read());
      break;
  }
}

void print_reads(const struct read_outcome reads[READS], int32_t sound, const struct options *options) {
  if (ROOSTCORD_REFUSED(sound)) print_refusal(sound, 0, options);
  else printf("sound read %d %s\n", (int)sound, reads[sound - ROOSTCORD_FIRST_READ].shown);
  for (int k = 0; k < READS; k++) {
    printf("read %d ", k + ROOSTCORD_FIRST_READ);
    print_read(&reads[k], options);
  }
}

static void print_findings(const struct findings *findings, const struct options *options) {
  char text[SENTENCE_MAX];
  for (const uint32_t *f = NULL; next_finding(findings, &f);) {
    const struct rule *rule = rule_of(f[ROOSTCORD_FINDING_CODE]);
    printf("%s %s", rule->name, severity_name(f[ROOSTCORD_FINDING_SEVERITY]));
    if (f[ROOSTCORD_FINDING_SUB] != ROOSTCORD_SUB_NONE) printf(" %lu", (unsigned long)f[ROOSTCORD_FINDING_SUB]);
    for (int k = 0; k < RULE_NUMBERS && rule->numbers[k]; k++) printf(" %lu", (unsigned long)f[ROOSTCORD_FINDING_FIRST + k]);
    printf("\n");
    if (!options->explain) continue;
    printf("  %s\n", findings->ddr4 ? explain_ddr4_finding(f, text) : explain_finding(f, options->edition, text));
  }
  printf("findings %lu\n", (unsigned long)count_findings(findings));
}

/* A line for each number of a record. */
static void print_fields(const struct record_field *fields, int count, const uint32_t *numbers) {
  for (int i = 0; i < count; i++) {
    unsigned long n = numbers[i];
    printf("%s ", fields[i].label);
    switch (fields[i].kind) {
      case COUNT: printf("%lu\n", n); break;
      case YES_OR_NO: printf("%s\n", n ? "yes" : "no"); break;
      case MODULE: printf("%lu %s\n", n, module_name(numbers[i])); break;
      case PACKAGE: printf("%lu %s\n", n, package_name(numbers[i])); break;
      case SERIAL: printf("%08lX\n", n); break;
      case MEGABITS: printf("%lu Mb\n", n); break;
      case PICOSECONDS: printf("%lu ps\n", n); break;
    }
  }
}

static void print_timings(const struct records *r, const struct options *options) {
  char text[SENTENCE_MAX];
  const uint32_t *t = r->timings, *pair = t + ROOSTCORD_TIMINGS_TRRD_L;
  bool table = !ROOSTCORD_REFUSED(r->clocks_answer);
  printf("tCKmin %lu ps\ntCKmax %lu ps\n", (unsigned long)t[ROOSTCORD_TIMINGS_TCK_MIN], (unsigned long)t[ROOSTCORD_TIMINGS_TCK_MAX]);
  printf("data rate %lu MT/s\nCAS latencies", (unsigned long)t[ROOSTCORD_TIMINGS_DATA_RATE]);
  for (int32_t i = 0; i < r->cas_answer; i++) printf(" %d", r->cas[i]);
  printf("\n");
  for (int i = 0; i < ROOSTCORD_CLOCKS_COUNT; i++) {
    printf("%s %lu ps", clock_names[i], (unsigned long)t[ROOSTCORD_TIMINGS_TAA + i]);
    if (table) printf(" %lu clocks", (unsigned long)r->clocks[i]);
    printf("\n");
  }
  for (int i = 0; i < PAIRS; i++, pair += 2)
    printf("%s %lu ps, at least %lu clocks\n", pair_names[i], (unsigned long)pair[0], (unsigned long)pair[1]);
  if (table) return;
  printf("no clock table: tCKmin is 0\n");
  if (options->explain) printf("  %s\n", explain_refusal(r->clocks_answer, ROOSTCORD_TIMINGS_NEED, text));
}

/* The part number. A backslash is doubled, so that no text can pass for a byte that is told as \xNN. */
static void print_part(const struct records *r) {
  printf("part number");
  if (r->part_answer > 0) printf(" ");
  for (int32_t i = 0; i < r->part_answer; i++) {
    if (!printable(r->part[i])) printf("\\x%02X", (unsigned)r->part[i]);
    else if (r->part[i] == '\\') printf("\\\\");
    else putchar(r->part[i]);
  }
  printf("\n");
}

static void print_label(const struct records *r, const struct options *options) {
  print_decoder("manufacturing", r->manufacturing_answer, ROOSTCORD_MANUFACTURING_NEEDS, options);
  if (ROOSTCORD_REFUSED(r->manufacturing_answer)) return;
  print_fields(label_fields, LABEL_NUMBERS, r->manufacturing);
  print_part(r);
}

void print_image(const struct records *r, const struct options *options) {
  printf("bytes %ld\n", (long)r->bytes);
  if (options->edition != ROOSTCORD_EDITION_2) printf("edition %lu\n", (unsigned long)options->edition); /* the present one goes unsaid */
  print_decoder("identity", r->identity_answer, ROOSTCORD_IDENTITY_NEEDS, options);
  print_decoder("timings", r->timings_answer, ROOSTCORD_TIMINGS_NEED, options);
  if (!options->no_crc) print_crc(r->crc_answer, options);
  print_findings(&r->findings, options);
  if (options->identity && !ROOSTCORD_REFUSED(r->identity_answer)) print_fields(identity_fields, ROOSTCORD_IDENTITY_COUNT, r->identity);
  if (options->timings && !ROOSTCORD_REFUSED(r->timings_answer)) print_timings(r, options);
  if (options->label) print_label(r, options);
}

void print_ddr4(const struct ddr4 *d, const struct options *options) {
  printf("bytes %ld\n", (long)d->bytes);
  print_decoder("ddr4", d->answer, ROOSTCORD_DDR4_NEEDS, options);
  print_findings(&d->findings, options);
  if ((options->identity || options->timings) && !ROOSTCORD_REFUSED(d->answer)) print_fields(ddr4_fields, ROOSTCORD_DDR4_COUNT, d->numbers);
}

void print_stored(const struct findings *findings, size_t bytes, const struct options *options) {
  printf("report bytes %lu\n", (unsigned long)bytes);
  if (ROOSTCORD_REFUSED(findings->answer)) {
    printf("report ");
    print_refusal(findings->answer, 0, options);
    return;
  }
  printf("flags %lu\n", (unsigned long)findings->numbers[ROOSTCORD_REPORT_FLAGS]);
  printf("identity %s\n", decoded(findings, ROOSTCORD_FLAG_IDENTITY) ? "ok" : "refused");
  printf("timings %s\n", decoded(findings, ROOSTCORD_FLAG_TIMINGS) ? "ok" : "refused");
  print_findings(findings, options);
}
