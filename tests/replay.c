/* Replays the Rust linter's answers on libroostcord.a: rebuilds each image of a list, asks the library over C, whole and fed in pieces, and
 * compares every number with the list's. The list comes on standard input; crates/replay/src/main.rt says how it is built. The Rust has the
 * ladder of edition 2, so all is asked under that.
 *
 * What has no C call is not compared but read over and counted: the findings of a rated profile. What the list does not have is the CAS set
 * as a mask, which is held here to the list's latencies, and the clock table, which the Rust does not have.
 * Status: 0 no difference; 1 a difference; 2 the list is malformed. */
#include "roostcord.h"

#include <stdbool.h>
#include <stdio.h>
#include <string.h>

/* So many differences are told one by one; the others are only counted. A module is read in bursts of sixteen bytes. */
enum { TOLD = 20, RECORD_MAX = 4096, BURST = 16 };

/* the list */
static const char HEAD[] = "ROOSTLST";
enum { HEAD_LETTERS = sizeof HEAD - 1 };
enum kind { KIND_BASE = 0, KIND_IMAGE = 1, KIND_LISTED = 2 };
enum { AT_KIND = 0, BEHIND_KIND = 1 };
enum { NUMBER_OF_16_BITS = 254, NUMBER_OF_32_BITS = 255 };
enum { REFUSAL_VALUES = 2, FINDING_NUMBERS = 6, FINDINGS_MAX = 15 };
enum { SEVERITY_OF_THE_LIST = 1 }; /* the list counts severities from 1, the library from 0 */

/* places in the library's numbers, as roostcord.h has them */
enum { TCK_MIN = 0, TCK_MAX = 1, MASK_LOW = 2, MASK_HIGH = 3, FIRST_TIME = 4, DATA_RATE = 29 };
enum { LIST_TCK_MIN = 0, LIST_TCK_MAX = 1, LIST_FIRST_TIME = 2 };
enum { LIST_TIMES = ROOSTCORD_TIMINGS_COUNT - 3 }; /* without both halves of the mask and without the data rate */
enum { FLAGS = 0, FIRST_FINDING = 1 };
enum { CODE, SEVERITY, SUB, FIRST, SECOND, THIRD };
enum { FLAG_IDENTITY = 1, FLAG_TIMINGS = 2 };
enum { CAS_FIRST = 20, CAS_STEP = 2, MASK_BITS = 40 };

/* What lent buffers hold before a call. */
enum { STAY = 0xA5 };

struct cursor {
  const uint8_t *bytes;
  size_t at, end;
  bool cut; /* a number was asked for behind the end */
};

static uint32_t byte(struct cursor *c) {
  if (c->at >= c->end) {
    c->cut = true;
    return 0;
  }
  return c->bytes[c->at++];
}

/* So many bytes, low byte first. */
static uint32_t little(struct cursor *c, int count) {
  uint32_t value = 0;
  for (int i = 0; i < count; i++) value |= byte(c) << (8 * i);
  return value;
}

static uint32_t number(struct cursor *c) {
  uint32_t head = byte(c);
  if (head == NUMBER_OF_16_BITS) return little(c, 2);
  if (head == NUMBER_OF_32_BITS) return little(c, 4);
  return head;
}

static void numbers(struct cursor *c, uint32_t *out, size_t count) {
  for (size_t i = 0; i < count; i++) out[i] = number(c);
}

/* What the Rust answered of an image. */
struct answers {
  uint32_t identity_refusal, identity_values[REFUSAL_VALUES]; /* 0: none */
  uint32_t identity[ROOSTCORD_IDENTITY_COUNT];
  uint32_t timings_refusal, timings_values[REFUSAL_VALUES];
  uint32_t times[LIST_TIMES];
  uint32_t has_rate, rate;
  uint32_t has_cas, cas_count, cas[ROOSTCORD_CAS_LATENCIES_MAX];
  uint32_t findings, finding[FINDINGS_MAX][FINDING_NUMBERS];
  uint32_t rated; /* whether it has a rated profile */
};

/* Reads the answers of a record. Answers false where the record does not end with them. */
static bool read_answers(struct cursor *c, struct answers *a) {
  memset(a, 0, sizeof *a);
  a->identity_refusal = number(c);
  if (a->identity_refusal == 0) numbers(c, a->identity, ROOSTCORD_IDENTITY_COUNT);
  else numbers(c, a->identity_values, REFUSAL_VALUES);
  a->timings_refusal = number(c);
  if (a->timings_refusal == 0) numbers(c, a->times, LIST_TIMES);
  else numbers(c, a->timings_values, REFUSAL_VALUES);
  a->has_rate = number(c);
  if (a->has_rate == 1) a->rate = number(c);
  a->has_cas = number(c);
  if (a->has_cas == 1) a->cas_count = number(c);
  if (a->cas_count > ROOSTCORD_CAS_LATENCIES_MAX) return false;
  numbers(c, a->cas, a->cas_count);
  a->findings = number(c);
  if (a->findings > FINDINGS_MAX) return false;
  for (uint32_t i = 0; i < a->findings; i++) numbers(c, a->finding[i], FINDING_NUMBERS);
  a->rated = number(c);
  if (a->rated == 1)
    for (uint32_t n = FINDING_NUMBERS * number(c); n > 0 && !c->cut; n--) number(c);
  return !c->cut && c->at == c->end && a->has_rate <= 1 && a->has_cas <= 1 && a->rated <= 1;
}

/* What the library answers of an image: the answers themselves, and the lists. */
struct ours {
  int32_t identity_answer, timings_answer, cas_answer, lint_answer, report_answer;
  uint32_t identity[ROOSTCORD_IDENTITY_COUNT], timings[ROOSTCORD_TIMINGS_COUNT];
  uint16_t cas[ROOSTCORD_CAS_LATENCIES_MAX];
  uint8_t report[ROOSTCORD_REPORT_MAX];
  uint32_t read[ROOSTCORD_REPORT_NUMBERS];
};

static void read_report(struct ours *o) {
  size_t bytes = ROOSTCORD_REFUSED(o->lint_answer) ? 0 : (size_t)o->lint_answer;
  o->report_answer = bytes > sizeof o->report ? o->lint_answer : roostcord_report(o->report, bytes, o->read, ROOSTCORD_REPORT_NUMBERS);
}

static void ask_whole(const uint8_t *image, size_t n, struct ours *o) {
  memset(o, STAY, sizeof *o);
  o->identity_answer = roostcord_identity(image, n, o->identity, ROOSTCORD_IDENTITY_COUNT);
  o->timings_answer = roostcord_timings(image, n, o->timings, ROOSTCORD_TIMINGS_COUNT);
  o->cas_answer = roostcord_cas_latencies(image, n, o->cas, ROOSTCORD_CAS_LATENCIES_MAX);
  o->lint_answer = roostcord_lint(image, n, ROOSTCORD_EDITION_2, o->report, ROOSTCORD_REPORT_MAX);
  read_report(o);
}

/* The same of an image that is fed in bursts of a size, each sent twice. Answers whether every burst was taken once. */
static bool ask_pieces(const uint8_t *image, size_t n, size_t burst, struct ours *o) {
  uint8_t state[ROOSTCORD_STATE_SIZE];
  bool taken = roostcord_pieces_fresh(state, sizeof state, ROOSTCORD_EDITION_2) == 0;
  for (size_t at = 0; at < n; at += burst) {
    size_t size = n - at < burst ? n - at : burst;
    int32_t end = (int32_t)(at + size);
    taken &= roostcord_pieces_feed(state, sizeof state, at, image + at, size) == end;
    int32_t again = roostcord_pieces_feed(state, sizeof state, at, image + at, size);
    taken &= ROOSTCORD_REFUSED(again) && ROOSTCORD_NUMBER(again) == ROOSTCORD_WRONG_OFFSET && ROOSTCORD_FIRST(again) == end;
  }
  taken &= roostcord_pieces_taken(state, sizeof state) == (int32_t)n;
  memset(o, STAY, sizeof *o);
  o->identity_answer = roostcord_pieces_identity(state, sizeof state, o->identity, ROOSTCORD_IDENTITY_COUNT);
  o->timings_answer = roostcord_pieces_timings(state, sizeof state, o->timings, ROOSTCORD_TIMINGS_COUNT);
  o->cas_answer = roostcord_pieces_cas_latencies(state, sizeof state, o->cas, ROOSTCORD_CAS_LATENCIES_MAX);
  o->lint_answer = roostcord_pieces_lint(state, sizeof state, o->report, ROOSTCORD_REPORT_MAX);
  read_report(o);
  return taken;
}

static bool same(const uint32_t *a, const uint32_t *b, size_t n) { return n == 0 || memcmp(a, b, n * sizeof *a) == 0; }

static bool refused_so(int32_t answer, uint32_t refusal, const uint32_t *values) {
  return ROOSTCORD_REFUSED(answer) && (uint32_t)ROOSTCORD_NUMBER(answer) == refusal && (uint32_t)ROOSTCORD_FIRST(answer) == values[0] &&
         (uint32_t)ROOSTCORD_SECOND(answer) == values[1];
}

static bool same_identity(const struct ours *o, const struct answers *a) {
  if (a->identity_refusal != 0) return refused_so(o->identity_answer, a->identity_refusal, a->identity_values);
  return o->identity_answer == ROOSTCORD_IDENTITY_COUNT && same(o->identity, a->identity, ROOSTCORD_IDENTITY_COUNT);
}

static bool same_timings(const struct ours *o, const struct answers *a) {
  if (a->timings_refusal != 0) return refused_so(o->timings_answer, a->timings_refusal, a->timings_values);
  const uint32_t *t = o->timings;
  return o->timings_answer == ROOSTCORD_TIMINGS_COUNT && t[TCK_MIN] == a->times[LIST_TCK_MIN] && t[TCK_MAX] == a->times[LIST_TCK_MAX] &&
         same(t + FIRST_TIME, a->times + LIST_FIRST_TIME, LIST_TIMES - LIST_FIRST_TIME);
}

static bool same_rate(const struct ours *o, const struct answers *a) {
  if (a->has_rate == 0) return ROOSTCORD_REFUSED(o->timings_answer);
  return o->timings_answer == ROOSTCORD_TIMINGS_COUNT && o->timings[DATA_RATE] == a->rate;
}

/* The latencies in order, and the mask that they make. */
static bool same_cas(const struct ours *o, const struct answers *a) {
  if (a->has_cas == 0) return refused_so(o->cas_answer, a->timings_refusal, a->timings_values);
  if (o->cas_answer != (int32_t)a->cas_count || o->timings_answer != ROOSTCORD_TIMINGS_COUNT) return false;
  uint64_t mask = 0;
  for (uint32_t i = 0; i < a->cas_count; i++) {
    uint32_t place = (a->cas[i] - CAS_FIRST) / CAS_STEP;
    if (o->cas[i] != a->cas[i] || place >= MASK_BITS) return false;
    mask |= (uint64_t)1 << place;
  }
  return o->timings[MASK_LOW] == (uint32_t)mask && o->timings[MASK_HIGH] == (uint32_t)(mask >> 32);
}

/* Flags, count, and every finding in order with its severity, from the report as the library reads it. */
static bool same_findings(const struct ours *o, const struct answers *a) {
  if (o->report_answer != (int32_t)(FIRST_FINDING + FINDING_NUMBERS * a->findings)) return false;
  uint32_t flags = (a->identity_refusal == 0 ? FLAG_IDENTITY : 0) | (a->timings_refusal == 0 ? FLAG_TIMINGS : 0);
  if (o->read[FLAGS] != flags) return false;
  for (uint32_t i = 0; i < a->findings; i++) {
    const uint32_t *f = o->read + FIRST_FINDING + FINDING_NUMBERS * i, *g = a->finding[i];
    if (f[CODE] != g[CODE] || f[SEVERITY] + SEVERITY_OF_THE_LIST != g[SEVERITY] || f[SUB] != g[SUB]) return false;
    if (f[FIRST] != g[FIRST] || f[SECOND] != g[SECOND] || f[THIRD] != g[THIRD]) return false;
  }
  return true;
}

/* The first answer that differs, or NULL. */
static const char *difference(const struct ours *o, const struct answers *a) {
  if (!same_identity(o, a)) return "identity";
  if (!same_timings(o, a)) return "timings";
  if (!same_rate(o, a)) return "data rate";
  if (!same_cas(o, a)) return "CAS latencies";
  if (!same_findings(o, a)) return "findings";
  return NULL;
}

static struct {
  unsigned long images, differences, listed, findings, rated;
} count;

static void tell(const char *how, const char *what) {
  if (count.differences++ < TOLD) printf("replay-c: image %lu differs, %s: %s\n", count.images, how, what);
}

/* An image record, asked whole, in bursts of sixteen, and in bursts of a size that moves with the image. Answers whether it is well formed. */
static bool replay(const uint8_t *base, struct cursor *c) {
  static const char *const how[] = {"whole", "in bursts of sixteen", "in other bursts"};
  uint8_t image[ROOSTCORD_IMAGE_MAX];
  struct answers theirs;
  struct ours o;
  size_t n = little(c, 2), changes = byte(c);
  if (n > sizeof image) return false;
  memcpy(image, base, sizeof image);
  for (size_t i = 0; i < changes; i++) {
    size_t offset = little(c, 2);
    uint8_t value = (uint8_t)byte(c);
    if (offset >= sizeof image) return false;
    image[offset] = value;
  }
  if (!read_answers(c, &theirs)) return false;
  count.images++;
  count.findings += theirs.findings;
  count.rated += theirs.rated;
  for (int k = 0; k < 3; k++) {
    bool taken = true;
    if (k == 0) ask_whole(image, n, &o);
    else taken = ask_pieces(image, n, k == 1 ? BURST : 1 + count.images % (4 * BURST), &o);
    const char *what = taken ? difference(&o, &theirs) : "a burst taken";
    if (what) {
      tell(how[k], what);
      break;
    }
  }
  return true;
}

/* Reads the list. Answers false where it is malformed. */
static bool replay_list(FILE *list) {
  uint8_t base[ROOSTCORD_IMAGE_MAX] = {0}, record[RECORD_MAX], head[HEAD_LETTERS + 4], size[2];
  if (fread(head, 1, sizeof head, list) != sizeof head || memcmp(head, HEAD, HEAD_LETTERS) != 0) return false;
  struct cursor counted = {head, HEAD_LETTERS, sizeof head, false};
  for (uint32_t left = little(&counted, 4); left > 0; left--) {
    if (fread(size, 1, sizeof size, list) != sizeof size) return false;
    struct cursor sized = {size, 0, sizeof size, false};
    size_t n = little(&sized, 2);
    if (n == 0 || n > sizeof record || fread(record, 1, n, list) != n) return false;
    struct cursor c = {record, BEHIND_KIND, n, false};
    switch (record[AT_KIND]) {
      case KIND_BASE:
        if (n - BEHIND_KIND > sizeof base) return false;
        memset(base, 0, sizeof base);
        memcpy(base, record + BEHIND_KIND, n - BEHIND_KIND);
        break;
      case KIND_LISTED:
      case KIND_IMAGE:
        if (!replay(base, &c)) return false;
        count.listed += record[AT_KIND] == KIND_LISTED;
        break;
      default:
        return false;
    }
  }
  return fgetc(list) == EOF;
}

int main(void) {
  bool sound = replay_list(stdin);
  printf("replay-c: %s%lu images over C, whole and in pieces: %lu differences, %lu findings, %lu listed, %lu rated profiles not compared\n",
         sound ? "" : "MALFORMED LIST, only ", count.images, count.differences, count.findings, count.listed, count.rated);
  if (!sound) return 2;
  return count.differences != 0 || count.images == 0;
}
