/* The questions to the library; records.h says what comes of them. */
#include "records.h"

enum { DEVICE = 2 }; /* the byte that tells the kind of memory */

void ask_records(const uint8_t state[ROOSTCORD_STATE_SIZE], uint32_t date, struct records *r) {
  r->bytes = roostcord_pieces_taken(state, ROOSTCORD_STATE_SIZE);
  r->identity_answer = roostcord_pieces_identity(state, ROOSTCORD_STATE_SIZE, r->identity, ROOSTCORD_IDENTITY_COUNT);
  r->timings_answer = roostcord_pieces_timings(state, ROOSTCORD_STATE_SIZE, r->timings, ROOSTCORD_TIMINGS_COUNT);
  r->clocks_answer = roostcord_pieces_clocks(state, ROOSTCORD_STATE_SIZE, r->clocks, ROOSTCORD_CLOCKS_COUNT);
  r->cas_answer = roostcord_pieces_cas_latencies(state, ROOSTCORD_STATE_SIZE, r->cas, ROOSTCORD_CAS_LATENCIES_MAX);
  r->crc_answer = roostcord_pieces_crc(state, ROOSTCORD_STATE_SIZE);
  r->manufacturing_answer =
      roostcord_pieces_manufacturing(state, ROOSTCORD_STATE_SIZE, date, r->manufacturing, ROOSTCORD_MANUFACTURING_COUNT);
  r->part_answer = roostcord_pieces_part_number(state, ROOSTCORD_STATE_SIZE, r->part, ROOSTCORD_PART_NUMBER_MAX);
  r->report_answer = roostcord_pieces_lint(state, ROOSTCORD_STATE_SIZE, r->report, sizeof r->report);
  r->findings.ddr4 = false;
  r->findings.answer = r->report_answer; /* no report is longer than the buffer, and what is written is read back */
  if (ROOSTCORD_REFUSED(r->report_answer)) return;
  r->findings.answer = roostcord_report(r->report, (size_t)r->report_answer, r->findings.numbers, ROOSTCORD_REPORT_NUMBERS);
}

bool is_ddr4(const struct taken *taken) {
  return roostcord_pieces_taken(taken->state, ROOSTCORD_STATE_SIZE) > DEVICE && taken->image[DEVICE] == ROOSTCORD_DEVICE_DDR4;
}

void ask_ddr4(const struct taken *taken, struct ddr4 *d) {
  struct findings *findings = &d->findings;
  d->bytes = roostcord_pieces_taken(taken->state, ROOSTCORD_STATE_SIZE);
  d->answer = roostcord_ddr4(taken->image, (size_t)d->bytes, d->numbers, ROOSTCORD_DDR4_COUNT);
  findings->ddr4 = true;
  findings->numbers[ROOSTCORD_REPORT_FLAGS] = 0;
  findings->answer =
      roostcord_ddr4_lint(taken->image, (size_t)d->bytes, findings->numbers + ROOSTCORD_REPORT_FINDINGS, ROOSTCORD_DDR4_NUMBERS);
  if (!ROOSTCORD_REFUSED(findings->answer)) findings->answer += ROOSTCORD_REPORT_FINDINGS; /* the flags count as well */
}

size_t count_findings(const struct findings *findings) {
  return ROOSTCORD_REFUSED(findings->answer) ? 0 : (size_t)(findings->answer - ROOSTCORD_REPORT_FINDINGS) / ROOSTCORD_FINDING_COUNT;
}

bool next_finding(const struct findings *findings, const uint32_t **finding) {
  const uint32_t *first = findings->numbers + ROOSTCORD_REPORT_FINDINGS;
  *finding = *finding ? *finding + ROOSTCORD_FINDING_COUNT : first;
  return (size_t)(*finding - first) < count_findings(findings) * ROOSTCORD_FINDING_COUNT;
}

bool decoded(const struct findings *findings, uint32_t flag) {
  return !ROOSTCORD_REFUSED(findings->answer) && (findings->numbers[ROOSTCORD_REPORT_FLAGS] & flag) != 0;
}

/* A read that was not taken whole is none of a module, whatever its first bytes are. */
static bool is_sound(const struct read_outcome *read) { return read->outcome == CHECKED && read->answer == ROOSTCORD_CRC_FITS; }

int32_t sound_read(const struct read_outcome reads[READS]) {
  if (is_sound(&reads[0])) return ROOSTCORD_FIRST_READ;
  return is_sound(&reads[1]) ? ROOSTCORD_SECOND_READ : -ROOSTCORD_NEITHER_SOUND;
}

enum status status_of_crc(int32_t answer) {
  if (ROOSTCORD_REFUSED(answer)) return UNREADABLE;
  return answer == ROOSTCORD_CRC_FITS ? CLEAN : FOUND;
}

/* What the findings alone come to. */
static enum status status_of_findings(const struct findings *findings, bool strict) {
  for (const uint32_t *finding = NULL; next_finding(findings, &finding);)
    if (strict || finding[ROOSTCORD_FINDING_SEVERITY] == ROOSTCORD_SEVERITY_ERROR) return FOUND;
  return CLEAN;
}

enum status status_of(const struct findings *findings, bool strict) {
  if (!decoded(findings, ROOSTCORD_FLAG_IDENTITY) || !decoded(findings, ROOSTCORD_FLAG_TIMINGS)) return UNREADABLE;
  return status_of_findings(findings, strict);
}

enum status status_of_ddr4(const struct ddr4 *d, bool strict) {
  if (ROOSTCORD_REFUSED(d->answer) || ROOSTCORD_REFUSED(d->findings.answer)) return UNREADABLE;
  return status_of_findings(&d->findings, strict);
}
