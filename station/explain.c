/* The sentences; explain.h says what they are for. */
#include "explain.h"

#include "names.h"

#include <stdio.h>

#define AGAIN "Read the module again; if these bytes come the same, do not certify it."

/* Refusal 3 or 2: a byte of the image that stands for nothing here. */
static void explain_code(int32_t answer, char *text) {
  if (ROOSTCORD_NUMBER(answer) == ROOSTCORD_NOT_DDR5) {
    snprintf(text, SENTENCE_MAX,
             "Byte 2 is 0x%02x, and DDR5 has 0x%02x there, DDR4 0x%02x: this is neither, or it was not read from its first byte.",
             (unsigned)ROOSTCORD_FIRST(answer), (unsigned)ROOSTCORD_DEVICE_DDR5, (unsigned)ROOSTCORD_DEVICE_DDR4);
  } else {
    const struct code_field *field = field_of(ROOSTCORD_FIRST(answer));
    snprintf(text, SENTENCE_MAX, "Byte %d, bits %s (%s), has code %d, which stands for nothing. " AGAIN, field->byte, field->bits,
             field->name, (int)ROOSTCORD_SECOND(answer));
  }
}

/* Refusal 15: a fine part that takes away more than there is. */
static void explain_negative(int32_t answer, char *text) {
  const struct ddr4_time *time = ddr4_time_of(ROOSTCORD_FIRST(answer));
  snprintf(text, SENTENCE_MAX, "%s (%s) make a time below zero. " AGAIN, time->bytes, time->name);
}

const char *explain_refusal(int32_t answer, int needs, char text[SENTENCE_MAX]) {
  const char *plain = "The library was lent too little room, which is a fault of this program: report it.";
  switch (ROOSTCORD_NUMBER(answer)) {
    case ROOSTCORD_TRUNCATED:
      snprintf(text, SENTENCE_MAX,
               "Byte %d, which is needed, is missing; the last that is needed is byte %d. Reseat the module, and read it to its end.",
               (int)ROOSTCORD_FIRST(answer), needs - 1);
      return text;
    case ROOSTCORD_NOT_DDR5:
    case ROOSTCORD_UNKNOWN_CODE: explain_code(answer, text); return text;
    case ROOSTCORD_NEGATIVE_TIME: explain_negative(answer, text); return text;
    case ROOSTCORD_WRONG_OFFSET:
      snprintf(text, SENTENCE_MAX,
               "None of it was taken. A burst that came before may be dropped; where bytes are missing, read again at offset %d.",
               (int)ROOSTCORD_FIRST(answer));
      return text;
    case ROOSTCORD_TOO_LONG:
      plain = "No SPD image is longer than 2048 bytes: this is no image, or several that were joined. Read one module alone.";
      break;
    case ROOSTCORD_ZERO_CLOCK: plain = "Bytes 20 and 21 (tCKmin) are 0, so no time can be counted in clocks. " AGAIN; break;
    case ROOSTCORD_REPORT_CUT:
      plain = "Bytes 0 and 1 count more bytes than follow them: the file was cut. Copy it again, or lint the image again.";
      break;
    case ROOSTCORD_REPORT_VERSION: plain = "Byte 2 is not 1, the version that this program reads: use the program that wrote it."; break;
    case ROOSTCORD_REPORT_MALFORMED:
      plain = "Its length, flags (byte 3), count (byte 4) or a finding are not as version 1 has them: lint the image again.";
      break;
    case ROOSTCORD_WRONG_DATE:
      plain = "Bytes 515 (year) and 516 (week) are no date: each must be two decimal digits, and the week 1 to 53. Read the module again; "
              "if they come the same, print no label. Without --strict-date they are told as they are.";
      break;
    case ROOSTCORD_UNKNOWN_EDITION:
      plain = "The library was asked for an edition of the ladder that is neither 1 nor 2, which is a fault of this program: report it.";
      break;
    case ROOSTCORD_NEITHER_SOUND:
      plain = "A sound read is whole, has 512 bytes or more, and its bytes 0 to 509 give the CRC that stands at 510 and 511; neither is. "
              "Reseat the module, and read it twice again; if neither comes sound, do not certify it.";
      break;
    default: break;
  }
  snprintf(text, SENTENCE_MAX, "%s", plain);
  return text;
}

const char *explain_wrong_crc(void) {
  return "Bytes 0 to 509 do not give the CRC that stands at 510 and 511: bytes were lost, doubled or changed. " AGAIN;
}

const char *explain_ddr4_read(void) {
  return "Byte 2 is 0x0c: this is a DDR4 image, whose CRC is not checked, so it is never the sound one. Lint it without --two-reads.";
}

/* Codes 3 and 6: two times, named by the sub. */
static void explain_times(uint32_t code, uint32_t sub, unsigned long first, unsigned long second, char *text) {
  static const char tras[] = "Bytes 36 and 37 (tRAS)", trc[] = "Bytes 38 and 39 (tRC)";
  if (code == ROOSTCORD_CODE_TIMING_ORDERING_VIOLATION)
    snprintf(text, SENTENCE_MAX, "%s say %lu ps, which must not be less than %s, %lu ps. " AGAIN,
             sub == ROOSTCORD_SUB_TRAS_TRCD ? tras : trc, first,
             sub == ROOSTCORD_SUB_TRAS_TRCD ? "bytes 32 and 33 (tRCD)" : "bytes 36 and 37 (tRAS)", second);
  else
    snprintf(text, SENTENCE_MAX,
             "%s say %lu ps, which is no multiple of bytes 20 and 21 (tCKmin), %lu ps: ask the maker how it is to be rounded.",
             sub == ROOSTCORD_SUB_TRCD ? "Bytes 32 and 33 (tRCD)" : "Bytes 34 and 35 (tRP)", first, second);
}

/* Codes 4 and 5: tAA, and the latency that it makes. */
static void explain_latency(uint32_t code, unsigned long first, unsigned long second, char *text) {
  if (code == ROOSTCORD_CODE_NON_INTEGER_CAS_LATENCY)
    snprintf(text, SENTENCE_MAX,
             "Bytes 30 and 31 (tAA) say %lu ps, which is no multiple of bytes 20 and 21 (tCKmin), %lu ps: ask the maker which CAS latency "
             "is meant.",
             first, second);
  else
    snprintf(text, SENTENCE_MAX,
             "Bytes 30 and 31 (tAA) by bytes 20 and 21 (tCKmin) make CAS latency %lu, which bytes 24 to 28 do not list. " AGAIN, first);
}

/* Code 7: the data rate. Where the edition is not known the ends of both ladders are named. */
static void explain_rate(uint32_t edition, unsigned long rate, char *text) {
  const char *end = "the end of its ladder, which is 6400 under edition 1 and 8800 under edition 2";
  if (edition == ROOSTCORD_EDITION_1) end = "6400";
  if (edition == ROOSTCORD_EDITION_2) end = "8800";
  snprintf(text, SENTENCE_MAX,
           "Bytes 20 and 21 (tCKmin) make %lu MT/s, which is no multiple of 400 from 3200 to %s: certify it as what it says, or ask the "
           "maker.",
           rate, end);
}

/* Codes 1 and 9: the geometry. */
static void explain_geometry(uint32_t code, uint32_t sub, unsigned long first, unsigned long second, char *text) {
  if (code == ROOSTCORD_CODE_NON_INTEGER_DEVICE_COUNT)
    snprintf(text, SENTENCE_MAX,
             "Byte 235, bits 2-0, says a bus of %lu bits, and byte 6, bits 7-5, devices of %lu: no whole number of them fills it. " AGAIN,
             first, second);
  else
    snprintf(text, SENTENCE_MAX, "Byte 4, bits 7-5, says a %s package, which does not have a die count of %lu. " AGAIN, package_name(sub),
             first);
}

const char *explain_finding(const uint32_t finding[ROOSTCORD_FINDING_COUNT], uint32_t edition, char text[SENTENCE_MAX]) {
  uint32_t code = finding[ROOSTCORD_FINDING_CODE], sub = finding[ROOSTCORD_FINDING_SUB];
  unsigned long first = finding[ROOSTCORD_FINDING_FIRST], second = finding[ROOSTCORD_FINDING_SECOND],
                third = finding[ROOSTCORD_FINDING_THIRD];
  switch (code) {
    case ROOSTCORD_CODE_TRC_IDENTITY_MISMATCH:
      snprintf(
          text, SENTENCE_MAX,
          "Bytes 38 and 39 (tRC) say %lu ps, and must be the sum of bytes 36 and 37 (tRAS), %lu ps, and 34 and 35 (tRP), %lu ps. " AGAIN
          " A burst that was taken twice or lost shows like this.",
          first, second, third);
      break;
    case ROOSTCORD_CODE_NON_INTEGER_CAS_LATENCY:
    case ROOSTCORD_CODE_CAS_LATENCY_NOT_SUPPORTED: explain_latency(code, first, second, text); break;
    case ROOSTCORD_CODE_NON_STANDARD_DATA_RATE: explain_rate(edition, first, text); break;
    case ROOSTCORD_CODE_RESERVED_BYTES_NONZERO:
      snprintf(
          text, SENTENCE_MAX,
          "Byte %lu is 0x%02lx, the first byte of a reserved region that is not 0: read the module again, and ask the maker if it stays.",
          first, second);
      break;
    case ROOSTCORD_CODE_TIMING_ORDERING_VIOLATION:
    case ROOSTCORD_CODE_NON_INTEGER_CLOCK_TIMING: explain_times(code, sub, first, second, text); break;
    default: explain_geometry(code, sub, first, second, text);
  }
  return text;
}

const char *explain_ddr4_finding(const uint32_t finding[ROOSTCORD_FINDING_COUNT], char text[SENTENCE_MAX]) {
  unsigned long first = finding[ROOSTCORD_FINDING_FIRST], second = finding[ROOSTCORD_FINDING_SECOND];
  if (finding[ROOSTCORD_FINDING_CODE] == ROOSTCORD_CODE_NON_INTEGER_DEVICE_COUNT)
    snprintf(text, SENTENCE_MAX,
             "Byte 13, bits 2-0, says a bus of %lu bits, and byte 12, bits 2-0, devices of %lu: no whole number of them fills it. " AGAIN,
             first, second);
  else if (finding[ROOSTCORD_FINDING_SUB] == ROOSTCORD_SUB_TRAS_TRCD)
    snprintf(text, SENTENCE_MAX,
             "Byte 28 and byte 27, bits 3-0 (tRAS), say %lu ps, which must not be less than bytes 25 and 122 (tRCD), %lu ps. " AGAIN, first,
             second);
  else
    snprintf(text, SENTENCE_MAX,
             "Byte 29, byte 27, bits 7-4, and byte 120 (tRC) say %lu ps, which must not be less than byte 28 and byte 27, bits 3-0 (tRAS), "
             "%lu ps. " AGAIN,
             first, second);
  return text;
}
