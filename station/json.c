/* JSON; json.h says of what. A member begins with its own comma, but for the first of an object. */
#include "json.h"

#include "explain.h"
#include "names.h"

#include <stdio.h>

/* How many bytes the character of UTF-8 has that begins here; 0 where none does. It reads no further than a byte 0. */
static size_t utf8(const unsigned char *at) {
  static const struct {
    unsigned char first, last; /* of the first byte */
    unsigned char least, most; /* of the second */
    size_t len;
  } forms[] = {{0x00, 0x7F, 0, 0, 1},       {0xC2, 0xDF, 0x80, 0xBF, 2}, {0xE0, 0xE0, 0xA0, 0xBF, 3},
               {0xE1, 0xEC, 0x80, 0xBF, 3}, {0xED, 0xED, 0x80, 0x9F, 3}, {0xEE, 0xEF, 0x80, 0xBF, 3},
               {0xF0, 0xF0, 0x90, 0xBF, 4}, {0xF1, 0xF3, 0x80, 0xBF, 4}, {0xF4, 0xF4, 0x80, 0x8F, 4}};
  for (size_t k = 0; k < sizeof forms / sizeof *forms; k++) {
    if (at[0] < forms[k].first || at[0] > forms[k].last) continue;
    if (forms[k].len > 1 && (at[1] < forms[k].least || at[1] > forms[k].most)) return 0;
    for (size_t i = 2; i < forms[k].len; i++)
      if ((at[i] & 0xC0) != 0x80) return 0;
    return forms[k].len;
  }
  return 0;
}

/* A string. Answers whether all of it is UTF-8. */
static bool put_string(const char *text) {
  bool whole = true;
  putchar('"');
  for (const unsigned char *at = (const unsigned char *)text; *at != '\0';) {
    size_t len = utf8(at);
    if (len == 0) printf("\\ufffd");
    else if (*at == '"' || *at == '\\') printf("\\%c", *at);
    else if (*at < ' ' || *at == 0x7F) printf("\\u%04x", *at);
    else fwrite(at, 1, len, stdout);
    whole = whole && len > 0;
    at += len > 0 ? len : 1;
  }
  putchar('"');
  return whole;
}

static void put_number(const char *key, unsigned long long n) { printf(",\"%s\":%llu", key, n); }

static void put_text(const char *key, const char *text) {
  printf(",\"%s\":", key);
  put_string(text);
}

static void put_flag(const char *key, bool flag) { printf(",\"%s\":%s", key, flag ? "true" : "false"); }

/* The name of an image or report, as the first member of an object. */
static void put_name(const char *kind, const char *name) {
  printf("\"%s\":", kind);
  if (!name) printf("null");
  else if (!put_string(name)) {
    printf(",\"%s_hex\":\"", kind);
    for (const char *at = name; *at != '\0'; at++) printf("%02x", (unsigned)(unsigned char)*at);
    putchar('"');
  }
}

/* What every object begins with. */
static void begin(const struct subject *subject) {
  putchar('{');
  put_name(subject->kind, subject->name);
  put_text("version", ROOSTCORD_VERSION_STRING);
  put_number("status", (unsigned long long)subject->status);
}

static void put_refusal(const char *key, int32_t answer, int needs, const struct options *options) {
  char text[SENTENCE_MAX];
  int number = ROOSTCORD_NUMBER(answer);
  printf("\"%s\":{\"number\":%d,\"name\":\"%s\"", key, number, refusal_name(number));
  if (number == ROOSTCORD_TRUNCATED) put_number("missing", (unsigned long long)ROOSTCORD_FIRST(answer));
  if (number == ROOSTCORD_NOT_DDR5) put_number("device_type", (unsigned long long)ROOSTCORD_FIRST(answer));
  if (number == ROOSTCORD_UNKNOWN_CODE) {
    put_number("field", (unsigned long long)ROOSTCORD_FIRST(answer));
    put_text("field_name", field_of(ROOSTCORD_FIRST(answer))->name);
    put_number("code", (unsigned long long)ROOSTCORD_SECOND(answer));
  }
  if (number == ROOSTCORD_NEGATIVE_TIME) {
    put_number("place", (unsigned long long)ROOSTCORD_FIRST(answer));
    put_text("time", ddr4_time_of(ROOSTCORD_FIRST(answer))->name);
  }
  if (options->explain) put_text("explanation", explain_refusal(answer, needs, text));
  putchar('}');
}

/* A record that was refused, in place of it. Answers whether it was. */
static bool put_if_refused(const char *key, int32_t answer, int needs, const struct options *options) {
  if (!ROOSTCORD_REFUSED(answer)) return false;
  printf(",\"%s\":{", key);
  put_refusal("refused", answer, needs, options);
  putchar('}');
  return true;
}

/* The numbers of a record, by their names. */
static void put_fields(const struct record_field *fields, int count, const uint32_t *numbers) {
  for (int i = 0; i < count; i++) {
    const struct record_field *field = &fields[i];
    if (i > 0) putchar(',');
    if (field->kind == YES_OR_NO) printf("\"%s\":%s", field->key, numbers[i] ? "true" : "false");
    else if (field->kind == SERIAL) printf("\"%s\":\"%08lX\"", field->key, (unsigned long)numbers[i]);
    else printf("\"%s\":%lu", field->key, (unsigned long)numbers[i]);
    if (field->kind == MODULE) put_text("module_type_name", module_name(numbers[i]));
    if (field->kind == PACKAGE) put_text("package_name", package_name(numbers[i]));
  }
}

static void put_identity(const struct records *r, const struct options *options) {
  if (put_if_refused("identity", r->identity_answer, ROOSTCORD_IDENTITY_NEEDS, options)) return;
  printf(",\"identity\":{");
  put_fields(identity_fields, ROOSTCORD_IDENTITY_COUNT, r->identity);
  putchar('}');
}

static void put_timings(const struct records *r, const struct options *options) {
  const uint32_t *t = r->timings, *pair = t + ROOSTCORD_TIMINGS_TRRD_L;
  if (put_if_refused("timings", r->timings_answer, ROOSTCORD_TIMINGS_NEED, options)) return;
  printf(",\"timings\":{\"tCKmin\":%lu", (unsigned long)t[ROOSTCORD_TIMINGS_TCK_MIN]);
  put_number("tCKmax", t[ROOSTCORD_TIMINGS_TCK_MAX]);
  put_number("cas_mask", (unsigned long long)t[ROOSTCORD_TIMINGS_CAS_HIGH] << 32 | t[ROOSTCORD_TIMINGS_CAS_LOW]);
  for (int i = 0; i < ROOSTCORD_CLOCKS_COUNT; i++) put_number(clock_names[i], t[ROOSTCORD_TIMINGS_TAA + i]);
  for (int i = 0; i < PAIRS; i++, pair += 2)
    printf(",\"%s\":{\"ps\":%lu,\"clocks\":%lu}", pair_names[i], (unsigned long)pair[0], (unsigned long)pair[1]);
  put_number("data_rate", t[ROOSTCORD_TIMINGS_DATA_RATE]);
  putchar('}');
}

static void put_clocks(const struct records *r, const struct options *options) {
  if (put_if_refused("clocks", r->clocks_answer, ROOSTCORD_TIMINGS_NEED, options)) return;
  printf(",\"clocks\":{");
  for (int i = 0; i < ROOSTCORD_CLOCKS_COUNT; i++) printf("%s\"%s\":%lu", i > 0 ? "," : "", clock_names[i], (unsigned long)r->clocks[i]);
  putchar('}');
}

static void put_cas(const struct records *r, const struct options *options) {
  if (put_if_refused("cas_latencies", r->cas_answer, ROOSTCORD_TIMINGS_NEED, options)) return;
  printf(",\"cas_latencies\":[");
  for (int32_t i = 0; i < r->cas_answer; i++) printf("%s%d", i > 0 ? "," : "", r->cas[i]);
  putchar(']');
}

static void put_crc(int32_t answer, const struct options *options) {
  if (put_if_refused("crc", answer, ROOSTCORD_CRC_NEEDS, options)) return;
  bool fits = answer == ROOSTCORD_CRC_FITS;
  printf(",\"crc\":{\"fits\":%s", fits ? "true" : "false");
  if (!fits && options->explain) put_text("explanation", explain_wrong_crc());
  putchar('}');
}

/* A read that is a DDR4 image. */
static void put_ddr4_read(const struct options *options) {
  put_flag("ddr4", true);
  if (options->explain) put_text("explanation", explain_ddr4_read());
}

/* Of two reads: which is sound, and what became of each. */
static void put_reads(const struct subject *subject, const struct options *options) {
  if (!subject->reads) return;
  if (ROOSTCORD_REFUSED(subject->sound)) printf(",\"sound_read\":null");
  else put_number("sound_read", (unsigned long long)subject->sound);
  printf(",\"reads\":[");
  for (const struct read_outcome *read = subject->reads; read < subject->reads + READS; read++) {
    fputs(read > subject->reads ? ",{" : "{", stdout);
    put_name("image", read->name);
    if (options->bursts) put_number("refused_bursts", read->refused_bursts);
    if (read->outcome == CHECKED) put_crc(read->answer, options);
    if (read->outcome == NOT_TAKEN) putchar(','), put_refusal("refused", read->answer, 0, options);
    if (read->outcome == UNREAD) put_text("unread", read->why);
    if (read->outcome == OF_DDR4) put_ddr4_read(options);
    putchar('}');
  }
  putchar(']');
}

/* The part number: as text where all of it is printable, and always in hex. */
static void put_part(const struct records *r) {
  char text[ROOSTCORD_PART_NUMBER_MAX + 1] = "";
  int32_t whole = 0;
  for (; whole < r->part_answer && printable(r->part[whole]); whole++) text[whole] = (char)r->part[whole];
  if (whole == r->part_answer) put_text("part_number", text);
  printf(",\"part_number_hex\":\"");
  for (int32_t i = 0; i < r->part_answer; i++) printf("%02x", (unsigned)r->part[i]);
  putchar('"');
}

static void put_label(const struct records *r, const struct options *options) {
  if (put_if_refused("manufacturing", r->manufacturing_answer, ROOSTCORD_MANUFACTURING_NEEDS, options)) return;
  printf(",\"manufacturing\":{");
  put_fields(label_fields, LABEL_NUMBERS, r->manufacturing);
  put_part(r);
  putchar('}');
}

static void put_finding(const uint32_t *f, bool ddr4, const struct options *options) {
  char text[SENTENCE_MAX];
  uint32_t code = f[ROOSTCORD_FINDING_CODE], sub = f[ROOSTCORD_FINDING_SUB];
  const struct rule *rule = rule_of(code);
  printf("{\"code\":%lu", (unsigned long)code);
  put_text("name", rule->name);
  put_text("severity", severity_name(f[ROOSTCORD_FINDING_SEVERITY]));
  put_number("sub", sub);
  if (sub_name(code, sub)) put_text("sub_name", sub_name(code, sub));
  printf(",\"numbers\":{");
  for (int k = 0; k < RULE_NUMBERS && rule->numbers[k]; k++)
    printf("%s\"%s\":%lu", k > 0 ? "," : "", rule->numbers[k], (unsigned long)f[ROOSTCORD_FINDING_FIRST + k]);
  putchar('}');
  if (options->explain) put_text("explanation", ddr4 ? explain_ddr4_finding(f, text) : explain_finding(f, options->edition, text));
  putchar('}');
}

static void put_flags(const struct findings *findings) {
  put_number("flags", findings->numbers[ROOSTCORD_REPORT_FLAGS]);
  put_flag("identity_decoded", decoded(findings, ROOSTCORD_FLAG_IDENTITY));
  put_flag("timings_decoded", decoded(findings, ROOSTCORD_FLAG_TIMINGS));
}

static void put_findings(const struct findings *findings, const struct options *options) {
  printf(",\"findings\":[");
  const char *comma = "";
  for (const uint32_t *f = NULL; next_finding(findings, &f); comma = ",") {
    fputs(comma, stdout);
    put_finding(f, findings->ddr4, options);
  }
  putchar(']');
}

void json_image(const struct subject *subject, const struct records *r, const struct options *options) {
  begin(subject);
  put_reads(subject, options);
  put_number("bytes", (unsigned long long)r->bytes);
  put_number("edition", options->edition);
  if (options->bursts) put_number("refused_bursts", subject->refused_bursts);
  put_identity(r, options);
  put_timings(r, options);
  put_clocks(r, options);
  put_cas(r, options);
  if (!options->no_crc) put_crc(r->crc_answer, options);
  put_flags(&r->findings);
  put_findings(&r->findings, options);
  if (options->label) put_label(r, options);
  printf("}\n");
}

static void put_ddr4(const struct ddr4 *d, const struct options *options) {
  if (put_if_refused("ddr4", d->answer, ROOSTCORD_DDR4_NEEDS, options)) return;
  printf(",\"ddr4\":{");
  put_fields(ddr4_fields, ROOSTCORD_DDR4_COUNT, d->numbers);
  putchar('}');
}

void json_ddr4(const struct subject *subject, const struct ddr4 *d, const struct options *options) {
  begin(subject);
  put_number("bytes", (unsigned long long)d->bytes);
  if (options->bursts) put_number("refused_bursts", subject->refused_bursts);
  put_ddr4(d, options);
  put_findings(&d->findings, options);
  printf("}\n");
}

void json_refused(const struct subject *subject, int32_t answer, const struct options *options) {
  begin(subject);
  put_reads(subject, options);
  putchar(',');
  put_refusal("refused", answer, 0, options);
  printf("}\n");
}

void json_unread(const struct subject *subject, const char *why) {
  begin(subject);
  put_text("unread", why);
  printf("}\n");
}

void json_stored(const struct subject *subject, const struct findings *findings, size_t bytes, const struct options *options) {
  begin(subject);
  put_number("bytes", bytes);
  if (ROOSTCORD_REFUSED(findings->answer)) {
    putchar(',');
    put_refusal("refused", findings->answer, 0, options);
  } else {
    put_flags(findings);
    put_findings(findings, options);
  }
  printf("}\n");
}
