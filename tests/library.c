/* Tests of libroostcord.a from C: buffers that end at a guard page or are exactly as long as told, every buffer length, NULL with
 * length 0, refusals that write nothing, a state in lent bytes against the whole image, the two editions of the ladder against each
 * other, and DDR4 images that are made up here. And of the feeding loop: readers that repeat, lose, cut and mix bursts, against the whole
 * image. Usage: library IMAGE..., DDR5 images of 600 bytes or more */
#define _DEFAULT_SOURCE
#include "feed.h"
#include "log.h"
#include "readers.h"

#include <errno.h>
#include <stdlib.h>
#include <string.h>
#include <sys/mman.h>
#include <sys/wait.h>
#include <unistd.h>

/* Fails to compile where what is said is not so. */
#define SURELY(name, what) typedef char surely_##name[(what) ? 1 : -1]

/* The last place of each list and its count; the codes, subs and fields in a row. */
SURELY(identity_places, ROOSTCORD_IDENTITY_BUS_WIDTH + 1 == ROOSTCORD_IDENTITY_COUNT);
SURELY(timings_places, ROOSTCORD_TIMINGS_DATA_RATE + 1 == ROOSTCORD_TIMINGS_COUNT);
SURELY(clocks_places, ROOSTCORD_CLOCKS_TRFCSB + 1 == ROOSTCORD_CLOCKS_COUNT);
SURELY(manufacturing_places, ROOSTCORD_MANUFACTURING_PART_LENGTH + 1 == ROOSTCORD_MANUFACTURING_COUNT);
SURELY(state_keeps_the_block, 2 + ROOSTCORD_MANUFACTURING_NEEDS == ROOSTCORD_STATE_SIZE);
SURELY(state_keeps_the_crc, 2 + ROOSTCORD_CRC_NEEDS <= ROOSTCORD_STATE_SIZE);
SURELY(crc_answers, ROOSTCORD_CRC_WRONG == 0 && ROOSTCORD_CRC_FITS == 1 && ROOSTCORD_FIRST_READ == 1 && ROOSTCORD_SECOND_READ == 2);
SURELY(clocks_as_timings, ROOSTCORD_TIMINGS_TRFCSB - ROOSTCORD_TIMINGS_TAA == ROOSTCORD_CLOCKS_TRFCSB - ROOSTCORD_CLOCKS_TAA);
SURELY(pairs_follow, ROOSTCORD_TIMINGS_TRRD_L == ROOSTCORD_TIMINGS_TRFCSB + 1 && ROOSTCORD_TIMINGS_TRTP_CLOCKS + 1 == ROOSTCORD_TIMINGS_DATA_RATE);
SURELY(finding_places, ROOSTCORD_FINDING_THIRD + 1 == ROOSTCORD_FINDING_COUNT);
SURELY(report_places, ROOSTCORD_REPORT_FLAGS + 1 == ROOSTCORD_REPORT_FINDINGS);
SURELY(report_numbers, ROOSTCORD_REPORT_FINDINGS + ROOSTCORD_FINDINGS_MAX * ROOSTCORD_FINDING_COUNT == ROOSTCORD_REPORT_NUMBERS);
SURELY(report_bytes, 5 + 14 * ROOSTCORD_FINDINGS_MAX == ROOSTCORD_REPORT_MAX);
SURELY(editions, ROOSTCORD_EDITION_1 == 1 && ROOSTCORD_EDITION_2 == 2 && ROOSTCORD_UNKNOWN_EDITION == 14);
SURELY(ddr4_places, ROOSTCORD_DDR4_MEGABITS == 0 && ROOSTCORD_DDR4_TRC + 1 == ROOSTCORD_DDR4_COUNT);
SURELY(ddr4_numbers, ROOSTCORD_DDR4_FINDINGS_MAX * ROOSTCORD_FINDING_COUNT == ROOSTCORD_DDR4_NUMBERS);
SURELY(ddr4_fields, ROOSTCORD_FIELD_DDR4_TIMEBASE == 21 && ROOSTCORD_FIELD_DDR4_BUS_WIDTH == 24 && ROOSTCORD_NEGATIVE_TIME == 15);
SURELY(ddr4_times, ROOSTCORD_DDR4_TIME_TCK == 1 && ROOSTCORD_DDR4_TIME_TRC == 5);
SURELY(version, ROOSTCORD_VERSION >> 16 == ROOSTCORD_VERSION_MAJOR && ROOSTCORD_VERSION_MINOR < 256 && ROOSTCORD_VERSION_PATCH < 256);

static long checks, faults;

#define CHECK(what)                                                            \
  do {                                                                         \
    checks++;                                                                  \
    if (!(what) && ++faults <= 10) printf("test: line %d: %s\n", __LINE__, #what); \
  } while (0)

/* n bytes that end where memory that must not be touched begins; NULL for none */
static uint8_t *guarded(size_t n) {
  size_t page = (size_t)sysconf(_SC_PAGESIZE);
  size_t room = (n + page - 1) / page * page;
  if (n == 0) return NULL;
  uint8_t *at = mmap(NULL, room + page, PROT_READ | PROT_WRITE, MAP_PRIVATE | MAP_ANONYMOUS, -1, 0);
  if (at == MAP_FAILED || mprotect(at + room, page, PROT_NONE) != 0) {
    perror("test");
    exit(2);
  }
  return at + room - n;
}

static void release(uint8_t *at, size_t n) {
  size_t page = (size_t)sysconf(_SC_PAGESIZE);
  size_t room = (n + page - 1) / page * page;
  if (n != 0) munmap(at + n - room, room + page);
}

static int all(const uint8_t *at, size_t n, uint8_t value) {
  for (size_t i = 0; i < n; i++)
    if (at[i] != value) return 0;
  return 1;
}

/* A state that has taken nothing, of that edition; of the present one. */
static void fresh_of(uint8_t *state, uint32_t edition) { CHECK(roostcord_pieces_fresh(state, ROOSTCORD_STATE_SIZE, edition) == 0); }
static void fresh(uint8_t *state) { fresh_of(state, ROOSTCORD_EDITION_2); }

static int same(const void *a, const void *b, size_t n) { return n == 0 || memcmp(a, b, n) == 0; }

/* A report that must be refused with that number, read from bytes that end at a guard page: nothing is written. */
static void refused_report(const uint8_t *report, size_t n, int32_t number) {
  uint32_t out[ROOSTCORD_REPORT_NUMBERS];
  uint8_t *edge = guarded(n);
  if (n) memcpy(edge, report, n);
  memset(out, 0xA5, sizeof out);
  CHECK(roostcord_report(edge, n, out, ROOSTCORD_REPORT_NUMBERS) == -number);
  CHECK(all((uint8_t *)out, sizeof out, 0xA5));
  release(edge, n);
}

/* A report of n bytes, as it was written, against the numbers read of it: into lists of every length, and with bytes behind it. */
static void report_reads_back(const uint8_t *report, size_t n) {
  enum { E = ROOSTCORD_SEVERITY_ERROR, W = ROOSTCORD_SEVERITY_WARNING, I = ROOSTCORD_SEVERITY_INFO, SIX = ROOSTCORD_FINDING_COUNT };
  static const uint32_t severity_of[] = {0, E, E, E, W, E, W, I, W, E}; /* by code, from 1 on */
  uint8_t *edge = guarded(n), more[256];
  memcpy(edge, report, n);
  memset(more, 0xFF, sizeof more);
  memcpy(more, report, n);
  int32_t count = ROOSTCORD_REPORT_FINDINGS + SIX * report[4];
  for (size_t len = 0; len <= ROOSTCORD_REPORT_NUMBERS + 2; len++) {
    uint32_t *out = (uint32_t *)guarded(4 * len), again[ROOSTCORD_REPORT_NUMBERS + 2];
    if (len) memset(out, 0xA5, 4 * len);
    memset(again, 0xA5, sizeof again);
    int32_t a = roostcord_report(edge, n, out, len);
    CHECK(a == (len < ROOSTCORD_REPORT_NUMBERS ? -ROOSTCORD_LIST_TOO_SHORT : count));
    CHECK(roostcord_report(more, sizeof more, again, len) == a && same(out, again, 4 * len));
    size_t put = a < 0 ? 0 : (size_t)a;
    CHECK(len == 0 || all((uint8_t *)(out + put), 4 * (len - put), 0xA5));
    CHECK(put == 0 || out[ROOSTCORD_REPORT_FLAGS] == report[3]);
    for (size_t i = ROOSTCORD_REPORT_FINDINGS; i < put; i += SIX) {
      const uint8_t *f = report + 5 + 14 * (i / SIX);
      CHECK(out[i + ROOSTCORD_FINDING_CODE] == f[0] && out[i + ROOSTCORD_FINDING_SEVERITY] == severity_of[f[0]] && out[i + ROOSTCORD_FINDING_SUB] == f[1]);
      for (size_t k = 0; k < 3; k++) {
        const uint8_t *b = f + 2 + 4 * k;
        CHECK(out[i + ROOSTCORD_FINDING_FIRST + k] == ((uint32_t)b[0] << 24 | (uint32_t)b[1] << 16 | (uint32_t)b[2] << 8 | b[3]));
      }
    }
    release((uint8_t *)out, 4 * len);
  }
  release(edge, n);
}

/* The refusals of reading: a report that is cut anywhere, of another version, or damaged. */
static void reports_refused(const uint8_t *report, size_t n) {
  uint8_t bad[256];
  for (size_t len = 0; len < n; len++) refused_report(report, len, ROOSTCORD_REPORT_CUT);
  memcpy(bad, report, n);
  bad[3] = 4;
  refused_report(bad, n, ROOSTCORD_REPORT_MALFORMED);
  bad[2] = 2; /* the version is told before the flags, and the length before both */
  refused_report(bad, n, ROOSTCORD_REPORT_VERSION);
  refused_report(bad, n - 1, ROOSTCORD_REPORT_CUT);
  memcpy(bad, report, n);
  bad[4]++;
  refused_report(bad, n, ROOSTCORD_REPORT_MALFORMED);
  if (report[4] != 0) { /* a code outside the table */
    memcpy(bad, report, n);
    bad[5] = 10;
    refused_report(bad, n, ROOSTCORD_REPORT_MALFORMED);
  }
  static const uint8_t none[] = {0, 0};
  refused_report(none, 2, ROOSTCORD_REPORT_MALFORMED);
  CHECK(roostcord_report(NULL, 0, NULL, 0) == -ROOSTCORD_LIST_TOO_SHORT);
}

/* Fifteen findings, the most: ninety-one numbers. */
static void largest_report(void) {
  uint8_t report[ROOSTCORD_REPORT_MAX] = {0, 213, 1, 3, 15};
  for (int i = 0; i < 15; i++) {
    uint8_t *f = report + 5 + 14 * i;
    f[0] = 8, f[4] = 1, f[5] = (uint8_t)i, f[9] = 0xFF; /* a reserved byte at 256 + i that is 255 */
  }
  report_reads_back(report, sizeof report);
  reports_refused(report, sizeof report);
}

/* The report of an image under an edition into buffers of every length up to 216, on the heap and at a guard page. */
static void every_report_length(const uint8_t *image, size_t n, uint32_t edition) {
  uint8_t whole[256];
  memset(whole, 0xA5, sizeof whole);
  int32_t size = roostcord_lint(image, n, edition, whole, sizeof whole);
  CHECK(size >= 5 && size <= ROOSTCORD_REPORT_MAX && (size - 5) % 14 == 0);
  CHECK(all(whole + size, sizeof whole - (size_t)size, 0xA5));
  CHECK(whole[0] * 256 + whole[1] == size - 2 && whole[2] == 1 && whole[3] <= 3 && whole[4] * 14 + 5 == size);
  report_reads_back(whole, (size_t)size);
  reports_refused(whole, (size_t)size);
  for (size_t len = 0; len <= 216; len++) {
    uint8_t *heap = malloc(len ? len : 1), *edge = guarded(len);
    memset(heap, 0xA5, len ? len : 1);
    if (len) memset(edge, 0xA5, len);
    int32_t a = roostcord_lint(image, n, edition, len ? heap : NULL, len), b = roostcord_lint(image, n, edition, edge, len);
    CHECK(a == b && a == ((size_t)size <= len ? size : -ROOSTCORD_BUFFER_TOO_SMALL));
    size_t put = a < 0 ? 0 : (size_t)a;
    CHECK(same(heap, whole, put) && same(edge, whole, put));
    CHECK(all(heap + put, len - put, 0xA5) && (len == 0 || all(edge + put, len - put, 0xA5)));
    free(heap);
    release(edge, len);
  }
}

enum { IDENTITY_NEEDS = ROOSTCORD_IDENTITY_NEEDS, TIMINGS_NEED = ROOSTCORD_TIMINGS_NEED, DDR5 = ROOSTCORD_DEVICE_DDR5 };

/* The codes of identity in their order, fields 1 to 9: the byte, its lowest bit, how many bits, and which codes are accepted. */
static const struct field {
  size_t byte;
  int low, bits;
  uint32_t accepted;
} fields[] = {{0, 4, 3, 0x1E}, {3, 0, 4, 0xDFE}, {4, 0, 5, 0x1FE}, {4, 5, 3, 0x3F},  {6, 5, 3, 0xF},
              {7, 5, 3, 0xF},  {7, 0, 3, 0x7},   {235, 0, 3, 0xF}, {235, 5, 3, 0xF}};
enum { FIELDS = sizeof fields / sizeof *fields };

/* What each decoder reads: the ranges by their first byte and the one behind their last. */
static const size_t identity_reads[][2] = {{0, 8}, {234, IDENTITY_NEEDS}}, timings_read[][2] = {{20, 29}, {30, 48}, {70, TIMINGS_NEED}};
#define TRUNCATED(reads, n) truncated(reads, sizeof reads / sizeof *reads, n)

/* Refusal 1, with the first byte of the ranges that n bytes lack. */
static int32_t truncated(const size_t (*reads)[2], size_t ranges, size_t n) {
  for (size_t k = 0; k < ranges; k++)
    for (size_t offset = reads[k][0]; offset < reads[k][1]; offset++)
      if (offset >= n) return -(ROOSTCORD_TRUNCATED + 256 * (int32_t)offset);
  return 0;
}

/* The answer about the identity of an image, with places enough. */
static int32_t identity_of(const uint8_t *image, size_t n) {
  if (n < IDENTITY_NEEDS) return TRUNCATED(identity_reads, n);
  for (int32_t k = 0; k < FIELDS; k++) {
    int32_t code = image[fields[k].byte] >> fields[k].low & ((1 << fields[k].bits) - 1);
    if (!(fields[k].accepted >> code & 1)) return -(ROOSTCORD_UNKNOWN_CODE + 256 * (k + 1) + (1 << 20) * code);
    if (k == 0 && image[2] != DDR5) return -(ROOSTCORD_NOT_DDR5 + 256 * image[2]); /* the second check */
  }
  return ROOSTCORD_IDENTITY_COUNT;
}

static int32_t timings_of(const uint8_t *image, size_t n) {
  (void)image;
  return n < TIMINGS_NEED ? TRUNCATED(timings_read, n) : ROOSTCORD_TIMINGS_COUNT;
}

static int32_t clocks_of(const uint8_t *image, size_t n) {
  if (n < TIMINGS_NEED) return TRUNCATED(timings_read, n);
  return image[20] == 0 && image[21] == 0 ? -ROOSTCORD_ZERO_CLOCK : ROOSTCORD_CLOCKS_COUNT;
}

/* The CAS latencies of an image, 20 + 2k for bit k of bytes 24 to 28, and their count. */
static int32_t cas_latencies_of(const uint8_t *image, size_t n, uint16_t *list) {
  int32_t count = 0;
  if (n < TIMINGS_NEED) return TRUNCATED(timings_read, n);
  for (int k = 0; k < ROOSTCORD_CAS_LATENCIES_MAX; k++)
    if (image[24 + k / 8] >> k % 8 & 1) list[count++] = (uint16_t)(20 + 2 * k);
  return count;
}

/* The CAS latencies into a list of that length, at a guard page. */
static void cas_list_length(const uint8_t *image, size_t n, size_t len) {
  uint16_t *list = (uint16_t *)guarded(2 * len), wanted[ROOSTCORD_CAS_LATENCIES_MAX];
  if (len) memset(list, 0xA5, 2 * len);
  int32_t a = roostcord_cas_latencies(image, n, list, len);
  CHECK(a == (len < ROOSTCORD_CAS_LATENCIES_MAX ? -ROOSTCORD_LIST_TOO_SHORT : cas_latencies_of(image, n, wanted)));
  size_t put = a < 0 ? 0 : (size_t)a;
  CHECK(same(list, wanted, 2 * put));
  CHECK(len == 0 || all((uint8_t *)(list + put), 2 * (len - put), 0xA5));
  release((uint8_t *)list, 2 * len);
}

enum { PART = 521, PART_MAX = ROOSTCORD_PART_NUMBER_MAX, NUMBERS = ROOSTCORD_MANUFACTURING_COUNT, BLOCK_NEEDS = ROOSTCORD_MANUFACTURING_NEEDS };

static const size_t block_reads[][2] = {{512, BLOCK_NEEDS}};
static const uint32_t modes[] = {ROOSTCORD_DATE_AS_IS, ROOSTCORD_DATE_STRICT, 7, UINT32_MAX}; /* only the first is not strict */
enum { MODES = sizeof modes / sizeof *modes };

/* The answer about the part number of an image, with places enough. */
static int32_t part_of(const uint8_t *image, size_t n) {
  int32_t len = PART_MAX;
  if (n < BLOCK_NEEDS) return TRUNCATED(block_reads, n);
  while (len > 0 && image[PART + len - 1] == ' ') len--;
  return len;
}

static uint32_t decimal(uint8_t byte) { return 10u * (byte >> 4) + (byte & 15u); }

static int is_date(uint8_t year, uint8_t week) {
  int digits = year >> 4 < 10 && (year & 15) < 10 && week >> 4 < 10 && (week & 15) < 10;
  return digits && decimal(week) >= 1 && decimal(week) <= 53;
}

/* The answer about the block of an image, with places enough, and its numbers. */
static int32_t block_of(const uint8_t *b, size_t n, uint32_t strict, uint32_t *numbers) {
  if (n < BLOCK_NEEDS) return TRUNCATED(block_reads, n);
  if (strict != 0 && !is_date(b[515], b[516])) return -ROOSTCORD_WRONG_DATE;
  numbers[ROOSTCORD_MANUFACTURING_MODULE_BANK] = (b[512] & 0x7Fu) + 1;
  numbers[ROOSTCORD_MANUFACTURING_MODULE_CODE] = b[513] & 0x7Fu;
  numbers[ROOSTCORD_MANUFACTURING_PLACE] = b[514];
  numbers[ROOSTCORD_MANUFACTURING_YEAR] = 2000 + decimal(b[515]);
  numbers[ROOSTCORD_MANUFACTURING_WEEK] = decimal(b[516]);
  numbers[ROOSTCORD_MANUFACTURING_SERIAL] = (uint32_t)b[517] << 24 | (uint32_t)b[518] << 16 | (uint32_t)b[519] << 8 | b[520];
  numbers[ROOSTCORD_MANUFACTURING_REVISION] = b[551];
  numbers[ROOSTCORD_MANUFACTURING_DRAM_BANK] = (b[552] & 0x7Fu) + 1;
  numbers[ROOSTCORD_MANUFACTURING_DRAM_CODE] = b[553] & 0x7Fu;
  numbers[ROOSTCORD_MANUFACTURING_STEPPING] = b[554];
  numbers[ROOSTCORD_MANUFACTURING_PART_LENGTH] = (uint32_t)part_of(b, n);
  return NUMBERS;
}

/* The block in every mode, and the part number, into lists of that length at a guard page. */
static void block_list_length(const uint8_t *image, size_t n, size_t len) {
  uint32_t *list = (uint32_t *)guarded(4 * len), wanted[NUMBERS];
  uint8_t *part = guarded(len);
  for (size_t k = 0; k < MODES; k++) {
    if (len) memset(list, 0xA5, 4 * len);
    int32_t a = roostcord_manufacturing(image, n, modes[k], list, len);
    CHECK(a == (len < NUMBERS ? -ROOSTCORD_LIST_TOO_SHORT : block_of(image, n, modes[k], wanted)));
    size_t put = a < 0 ? 0 : (size_t)a;
    CHECK(same(list, wanted, 4 * put));
    CHECK(len == 0 || all((uint8_t *)(list + put), 4 * (len - put), 0xA5));
  }
  if (len) memset(part, 0xA5, len);
  int32_t a = roostcord_part_number(image, n, part, len);
  CHECK(a == (len < PART_MAX ? -ROOSTCORD_LIST_TOO_SHORT : part_of(image, n)));
  size_t put = a < 0 ? 0 : (size_t)a;
  CHECK(put == 0 || same(part, image + PART, put));
  CHECK(len == 0 || all(part + put, len - put, 0xA5));
  release((uint8_t *)list, 4 * len);
  release(part, len);
}

/* The block of a changed image, whatever else stands in it, against the numbers of its bytes. */
static void block_holds(const uint8_t *image, size_t n) {
  uint32_t list[NUMBERS], wanted[NUMBERS];
  uint8_t part[PART_MAX];
  for (size_t k = 0; k < MODES; k++) {
    int32_t a = roostcord_manufacturing(image, n, modes[k], list, NUMBERS);
    CHECK(a == block_of(image, n, modes[k], wanted) && (a < 0 || same(list, wanted, sizeof list)));
  }
  int32_t len = roostcord_part_number(image, n, part, PART_MAX);
  CHECK(len == part_of(image, n) && (len <= 0 || same(part, image + PART, (size_t)len)));
}

/* Part numbers of every length and of any bytes: only the spaces that end them go. */
static void every_part(uint8_t *image, size_t n) {
  static const uint8_t fills[] = {'A', 0x00, 0x1F, 0x21, 0x80, 0xA0, 0xFF};
  uint8_t *part = image + PART;
  for (size_t k = 0; k < sizeof fills * (PART_MAX + 1); k++) {
    size_t len = k / sizeof fills;
    memset(part, ' ', PART_MAX);
    memset(part, fills[k % sizeof fills], len);
    CHECK(part_of(image, n) == (int32_t)len);
    block_list_length(image, n, PART_MAX);
    if (len == 0) continue;
    memset(part, ' ', len - 1); /* spaces in front stay */
    CHECK(part_of(image, n) == (int32_t)len);
    block_list_length(image, n, PART_MAX + 1);
    part[0] = 0xFF; /* and those within */
    block_holds(image, n);
  }
}

/* Every value of every byte of the block, some of every other byte, every date, and every length around that of the block. */
static void every_block(const uint8_t *sample, size_t n) {
  uint8_t image[ROOSTCORD_IMAGE_MAX];
  CHECK(n >= BLOCK_NEEDS); /* or the block is not tried */
  if (n < BLOCK_NEEDS) return;
  memcpy(image, sample, n);
  for (size_t at = 0; at < n; at++) {
    for (unsigned value = 0; value < 256; value += at >= 512 && at < BLOCK_NEEDS ? 1 : 51) {
      image[at] = (uint8_t)value;
      block_holds(image, n);
    }
    image[at] = sample[at];
  }
  for (unsigned date = 0; date < 65536; date++) {
    image[515] = (uint8_t)(date >> 8), image[516] = (uint8_t)date;
    block_holds(image, n);
  }
  for (size_t len = 511; len <= BLOCK_NEEDS + 1; len++) { /* the date is none now, and 1 comes before 13 */
    uint8_t *edge = guarded(len);
    memcpy(edge, image, len);
    for (size_t places = NUMBERS - 1; places <= PART_MAX + 1; places += places == NUMBERS ? PART_MAX - 1 - NUMBERS : 1)
      block_list_length(edge, len, places);
    release(edge, len);
  }
  every_part(image, n);
}

enum { STORED = 510, CRC_NEEDS = ROOSTCORD_CRC_NEEDS, FITS = ROOSTCORD_CRC_FITS, UNFIT = ROOSTCORD_CRC_WRONG, NEITHER = -ROOSTCORD_NEITHER_SOUND };

static const size_t crc_reads[][2] = {{0, CRC_NEEDS}};

/* The CRC of n bytes as the rest of a division, a bit at a time: the bytes with sixteen zero bits behind them, by 0x11021. */
static unsigned crc16(const uint8_t *bytes, size_t n) {
  unsigned rest = 0;
  for (size_t bit = 0; bit < 8 * n + 16; bit++) {
    rest = rest << 1 | (bit < 8 * n ? bytes[bit / 8] >> (7 - bit % 8) & 1u : 0);
    if (rest & 0x10000) rest ^= 0x11021;
  }
  return rest;
}

/* The answer about the base CRC of an image. */
static int32_t crc_of(const uint8_t *image, size_t n) {
  if (n < CRC_NEEDS) return TRUNCATED(crc_reads, n);
  return crc16(image, STORED) == image[STORED] + 256u * image[STORED + 1] ? FITS : UNFIT;
}

/* Gives an image the CRC that fits. */
static void seal(uint8_t *image) {
  unsigned crc = crc16(image, STORED);
  image[STORED] = (uint8_t)crc, image[STORED + 1] = (uint8_t)(crc >> 8);
}

/* n bytes of their own that end at a guard page. */
static uint8_t *guarded_copy(const uint8_t *bytes, size_t n) {
  uint8_t *edge = guarded(n);
  if (n) memcpy(edge, bytes, n);
  return edge;
}

/* The CRC of an image at a guard page, of one that is exactly as long on the heap, and of a state that was fed it in bursts of that length. */
static void crc_holds(const uint8_t *image, size_t n, size_t burst, int32_t wanted) {
  uint8_t *edge = guarded_copy(image, n), *heap = malloc(n ? n : 1), *state = guarded(ROOSTCORD_STATE_SIZE), before[ROOSTCORD_STATE_SIZE];
  if (n) memcpy(heap, image, n);
  CHECK(roostcord_crc(edge, n) == wanted && roostcord_crc(n ? heap : NULL, n) == wanted);
  CHECK(same(edge, image, n) && same(heap, image, n));
  fresh(state);
  for (size_t at = 0; at < n; at += burst) {
    size_t len = n - at < burst ? n - at : burst;
    CHECK(roostcord_pieces_feed(state, ROOSTCORD_STATE_SIZE, at, edge + at, len) == (int32_t)(at + len));
  }
  memcpy(before, state, sizeof before);
  CHECK(roostcord_pieces_crc(state, ROOSTCORD_STATE_SIZE) == wanted && same(before, state, sizeof before));
  release(edge, n), free(heap), release(state, ROOSTCORD_STATE_SIZE);
}

/* Every length up to 600, as the image is, with the CRC that fits and with its bytes exchanged; and every cut of it into two. */
static void crc_lengths(const uint8_t *sample, size_t n) {
  uint8_t image[ROOSTCORD_IMAGE_MAX], state[ROOSTCORD_STATE_SIZE];
  for (size_t len = 0; len <= 600; len++) {
    memcpy(image, sample, n);
    crc_holds(image, len, 1 + len % 61, crc_of(image, len));
    seal(image);
    crc_holds(image, len, 16, len < CRC_NEEDS ? TRUNCATED(crc_reads, len) : FITS);
    CHECK(len >= CRC_NEEDS || TRUNCATED(crc_reads, len) == -(1 + 256 * (int32_t)len));
    uint8_t low = image[STORED], high = image[STORED + 1];
    image[STORED] = high, image[STORED + 1] = low;
    CHECK(low != high); /* or nothing is exchanged */
    crc_holds(image, len, len + 1, len < CRC_NEEDS ? TRUNCATED(crc_reads, len) : UNFIT);
  }
  seal(image);
  for (size_t cut = 0; cut <= n; cut++) {
    fresh(state);
    CHECK(roostcord_pieces_feed(state, sizeof state, 0, image, cut) == (int32_t)cut);
    CHECK(roostcord_pieces_crc(state, sizeof state) == crc_of(image, cut));
    CHECK(roostcord_pieces_feed(state, sizeof state, cut, image + cut, n - cut) == (int32_t)n);
    CHECK(roostcord_pieces_crc(state, sizeof state) == FITS);
  }
}

/* A sound block with each of its bits changed, and all eight of each byte: always seen. The bytes behind it are not looked at. */
static void crc_changes(const uint8_t *sample, size_t n) {
  uint8_t image[ROOSTCORD_IMAGE_MAX];
  memcpy(image, sample, n);
  seal(image);
  for (size_t at = 0; at < n; at++) {
    for (unsigned change = 1; change < 256; change = change == 128 ? 255 : 2 * change) {
      image[at] ^= (uint8_t)change;
      CHECK(roostcord_crc(image, n) == (at < CRC_NEEDS ? UNFIT : FITS) && (at >= CRC_NEEDS || roostcord_crc(image, CRC_NEEDS) == UNFIT));
      image[at] ^= (uint8_t)change;
    }
  }
  CHECK(roostcord_crc(image, n) == FITS);
}

/* CRCs that are known: of zeros it is 0, and of the digits 1 to 9, with zeros in front, 0x31C3. */
static void known_crcs(void) {
  uint8_t image[CRC_NEEDS] = {0};
  crc_holds(image, CRC_NEEDS, 16, FITS);
  memcpy(image + STORED - 9, "123456789", 9);
  CHECK(crc16((const uint8_t *)"123456789", 9) == 0x31C3 && crc16(image, STORED) == 0x31C3);
  crc_holds(image, CRC_NEEDS, 16, UNFIT);
  image[STORED] = 0xC3, image[STORED + 1] = 0x31;
  crc_holds(image, CRC_NEEDS, 16, FITS);
  image[STORED] = 0x31, image[STORED + 1] = 0xC3;
  crc_holds(image, CRC_NEEDS, 16, UNFIT);
  CHECK(roostcord_crc(NULL, 0) == -ROOSTCORD_TRUNCATED && roostcord_pieces_crc(NULL, 0) == -ROOSTCORD_LIST_TOO_SHORT);
}

/* A state of every shortness is refused 4, whatever it holds; and any bytes are a state, which counts so many of its bytes as it says. */
static void crc_states(const uint8_t *sample, size_t n) {
  uint8_t image[ROOSTCORD_IMAGE_MAX], state[ROOSTCORD_STATE_SIZE];
  memcpy(image, sample, n);
  seal(image);
  fresh(state);
  CHECK(roostcord_pieces_feed(state, sizeof state, 0, image, n) == (int32_t)n && roostcord_pieces_crc(state, sizeof state) == FITS);
  for (size_t len = 0; len <= sizeof state; len++) {
    uint8_t *edge = guarded_copy(state, len);
    CHECK(roostcord_pieces_crc(edge, len) == (len < sizeof state ? -ROOSTCORD_LIST_TOO_SHORT : FITS) && same(edge, state, len));
    release(edge, len);
  }
  for (unsigned count = 0; count < 65536; count += count % 4096 < 600 ? 1 : 97) {
    state[0] = (uint8_t)count, state[1] = (uint8_t)(count >> 8);
    int32_t taken = roostcord_pieces_taken(state, sizeof state);
    CHECK(taken >= 0 && roostcord_pieces_crc(state, sizeof state) == (taken < CRC_NEEDS ? -(ROOSTCORD_TRUNCATED + 256 * taken) : FITS));
  }
  for (unsigned value = 0; value < 256; value++) {
    memset(state, (int)value, sizeof state);
    int32_t taken = roostcord_pieces_taken(state, sizeof state);
    CHECK(roostcord_pieces_crc(state, sizeof state) == crc_of(state + 2, (size_t)taken));
  }
}

/* Two reads, each at a guard page and neither written. */
static void reads_hold(const uint8_t *first, size_t n, const uint8_t *second, size_t m, int32_t wanted) {
  uint8_t *one = guarded_copy(first, n), *two = guarded_copy(second, m);
  CHECK(roostcord_sound_read(one, n, two, m) == wanted);
  CHECK(same(one, first, n) && same(two, second, m));
  release(one, n), release(two, m);
}

/* Two reads of every kind, and of every length up to 600. */
static void two_reads(const uint8_t *sample, size_t n) {
  uint8_t sound[ROOSTCORD_IMAGE_MAX], other[ROOSTCORD_IMAGE_MAX], wrong[ROOSTCORD_IMAGE_MAX];
  memcpy(sound, sample, n), memcpy(other, sample, n);
  other[7] ^= 0x10, other[n - 1] ^= 1;
  seal(sound), seal(other);
  memcpy(wrong, sound, n);
  wrong[300] ^= 4;
  const struct {
    const uint8_t *bytes;
    size_t len;
    int sound;
  } reads[] = {{sound, n, 1},     {sound, CRC_NEEDS, 1},     {other, n, 1},      {wrong, n, 0}, {wrong, CRC_NEEDS, 0}, {sound, CRC_NEEDS - 1, 0},
               {sound, STORED, 0}, {wrong, CRC_NEEDS - 1, 0}, {sound, 1, 0}, {NULL, 0, 0}};
  enum { READS = sizeof reads / sizeof *reads };
  for (size_t k = 0; k < READS * READS; k++) {
    size_t a = k / READS, b = k % READS;
    int32_t wanted = reads[a].sound ? ROOSTCORD_FIRST_READ : reads[b].sound ? ROOSTCORD_SECOND_READ : NEITHER;
    CHECK(reads[a].sound == (crc_of(reads[a].bytes, reads[a].len) == FITS));
    reads_hold(reads[a].bytes, reads[a].len, reads[b].bytes, reads[b].len, wanted);
  }
  for (size_t len = 0; len <= 600; len++) {
    reads_hold(sound, len, other, n, len < CRC_NEEDS ? ROOSTCORD_SECOND_READ : ROOSTCORD_FIRST_READ);
    reads_hold(wrong, n, sound, len, len < CRC_NEEDS ? NEITHER : ROOSTCORD_SECOND_READ);
    reads_hold(sound, len, wrong, len, len < CRC_NEEDS ? NEITHER : ROOSTCORD_FIRST_READ);
  }
}

static void every_crc(const uint8_t *sample, size_t n) {
  CHECK(n >= 600); /* or the CRC is not tried */
  if (n < 600) return;
  crc_lengths(sample, n);
  crc_changes(sample, n);
  crc_states(sample, n);
  two_reads(sample, n);
}

/* Lists of numbers of every length around what is asked: short ones are refused 4 and stay; else the refusal is the one that the
 * image's length and codes ask for. */
static void every_list_length(const uint8_t *image, size_t n) {
  static const struct {
    int32_t (*call)(const uint8_t *, size_t, uint32_t *, size_t);
    int32_t (*wanted)(const uint8_t *, size_t);
    size_t count;
  } calls[] = {{roostcord_identity, identity_of, ROOSTCORD_IDENTITY_COUNT},
               {roostcord_timings, timings_of, ROOSTCORD_TIMINGS_COUNT},
               {roostcord_clocks, clocks_of, ROOSTCORD_CLOCKS_COUNT}};
  for (size_t len = 0; len <= ROOSTCORD_CAS_LATENCIES_MAX + 5; len++) {
    uint32_t *list = (uint32_t *)guarded(4 * len);
    for (int k = 0; k < 3; k++) {
      if (len) memset(list, 0xA5, 4 * len);
      int32_t a = calls[k].call(image, n, list, len);
      CHECK(a == (len < calls[k].count ? -ROOSTCORD_LIST_TOO_SHORT : calls[k].wanted(image, n)));
      size_t put = a < 0 ? 0 : (size_t)a;
      CHECK(len == 0 || all((uint8_t *)(list + put), 4 * (len - put), 0xA5));
    }
    cas_list_length(image, n, len);
    block_list_length(image, n, len);
    release((uint8_t *)list, 4 * len);
  }
}

/* Every value of every byte that identity looks codes up in, alone and beside another one whose codes are all refused: the exact refusal of
 * each, and which comes first. And tCK 0. */
static void every_refusal(const uint8_t *sample, size_t n) {
  static const size_t bytes[] = {0, 2, 3, 4, 6, 7, 235};
  enum { BYTES = sizeof bytes / sizeof *bytes };
  uint8_t image[ROOSTCORD_IMAGE_MAX];
  uint32_t list[ROOSTCORD_IDENTITY_COUNT];
  if (n < IDENTITY_NEEDS) return;
  for (size_t k = 0; k < BYTES * BYTES * 256; k++) {
    size_t one = bytes[k % BYTES], other = bytes[k / BYTES % BYTES];
    memcpy(image, sample, IDENTITY_NEEDS);
    if (other != one) image[other] = 0xFF;
    image[one] = (uint8_t)(k / BYTES / BYTES);
    CHECK(roostcord_identity(image, IDENTITY_NEEDS, list, ROOSTCORD_IDENTITY_COUNT) == identity_of(image, IDENTITY_NEEDS));
  }
  memcpy(image, sample, n);
  image[20] = image[21] = 0;
  CHECK(clocks_of(image, n) == -ROOSTCORD_ZERO_CLOCK);
  every_list_length(image, n);
}

enum { LIST = 64, STATE = ROOSTCORD_STATE_SIZE, IMAGE_MAX = ROOSTCORD_IMAGE_MAX }; /* LIST: places enough for every list */

/* Whether a state has the block of the image. */
static void block_as_whole(const uint8_t *state, const uint8_t *image, size_t n) {
  uint32_t x[LIST], y[LIST];
  uint8_t a[LIST], b[LIST];
  memset(a, 1, sizeof a), memset(b, 1, sizeof b), memset(x, 1, sizeof x), memset(y, 1, sizeof y);
  for (size_t k = 0; k < MODES; k++) {
    int32_t whole = roostcord_manufacturing(image, n, modes[k], y, LIST);
    CHECK(roostcord_pieces_manufacturing(state, STATE, modes[k], x, LIST) == whole && same(x, y, sizeof x));
  }
  CHECK(roostcord_pieces_part_number(state, STATE, a, LIST) == roostcord_part_number(image, n, b, LIST) && same(a, b, sizeof a));
  CHECK(roostcord_pieces_manufacturing(state, STATE, 0, x, NUMBERS - 1) == -ROOSTCORD_LIST_TOO_SHORT && same(x, y, sizeof x));
  CHECK(roostcord_pieces_part_number(state, STATE, a, PART_MAX - 1) == -ROOSTCORD_LIST_TOO_SHORT && same(a, b, sizeof a));
}

/* Whether a state answers as the image does under that edition, and stays as it is. */
static void as_whole(const uint8_t *state, uint32_t edition, const uint8_t *image, size_t n) {
  uint8_t a[ROOSTCORD_REPORT_MAX + 1], b[ROOSTCORD_REPORT_MAX + 1];
  uint32_t x[LIST], y[LIST];
  uint16_t p[LIST], q[LIST];
  uint8_t before[STATE];
  memcpy(before, state, STATE);
  memset(a, 1, sizeof a), memset(b, 1, sizeof b), memset(x, 1, sizeof x), memset(y, 1, sizeof y), memset(p, 1, sizeof p), memset(q, 1, sizeof q);
  CHECK(roostcord_pieces_taken(state, STATE) == (int32_t)n);
  CHECK(roostcord_pieces_lint(state, STATE, a, sizeof a) == roostcord_lint(image, n, edition, b, sizeof b) && same(a, b, sizeof a));
  CHECK(roostcord_pieces_identity(state, STATE, x, LIST) == roostcord_identity(image, n, y, LIST) && same(x, y, sizeof x));
  CHECK(roostcord_pieces_timings(state, STATE, x, LIST) == roostcord_timings(image, n, y, LIST) && same(x, y, sizeof x));
  CHECK(roostcord_pieces_clocks(state, STATE, x, LIST) == roostcord_clocks(image, n, y, LIST) && same(x, y, sizeof x));
  CHECK(roostcord_pieces_cas_latencies(state, STATE, p, LIST) == roostcord_cas_latencies(image, n, q, LIST) && same(p, q, sizeof p));
  block_as_whole(state, image, n);
  CHECK(roostcord_pieces_crc(state, STATE) == roostcord_crc(image, n));
  CHECK(same(before, state, STATE));
}

/* A state that is too short is refused and stays; 512 bytes, which were enough before 1.2.0, are too few. */
static void short_states(const uint8_t *image, size_t n) {
  enum { SHORT = -ROOSTCORD_LIST_TOO_SHORT };
  static const size_t lengths[] = {0, 1, 2, 73, 400, 511, 512, 555, STATE - 1};
  uint8_t none[LIST];
  uint16_t narrow[LIST];
  uint32_t list[LIST];
  memset(none, 0xA5, sizeof none), memset(list, 0xA5, sizeof list);
  for (size_t k = 0; k < sizeof lengths / sizeof *lengths; k++) {
    size_t len = lengths[k];
    uint8_t *state = guarded(len);
    if (len) memset(state, 0xA5, len);
    CHECK(roostcord_pieces_fresh(state, len, ROOSTCORD_EDITION_1) == SHORT && roostcord_pieces_fresh(state, len, ROOSTCORD_EDITION_2) == SHORT);
    CHECK(roostcord_pieces_taken(state, len) == SHORT);
    CHECK(roostcord_pieces_feed(state, len, 0, image, n) == SHORT && roostcord_pieces_lint(state, len, none, LIST) == SHORT);
    CHECK(roostcord_pieces_identity(state, len, list, LIST) == SHORT && roostcord_pieces_timings(state, len, list, LIST) == SHORT);
    CHECK(roostcord_pieces_clocks(state, len, list, LIST) == SHORT && roostcord_pieces_cas_latencies(state, len, narrow, LIST) == SHORT);
    CHECK(roostcord_pieces_manufacturing(state, len, 0, list, LIST) == SHORT && roostcord_pieces_manufacturing(state, len, 1, list, LIST) == SHORT);
    CHECK(roostcord_pieces_crc(state, len) == SHORT);
    CHECK(roostcord_pieces_part_number(state, len, none, LIST) == SHORT && all(none, sizeof none, 0xA5) && all((uint8_t *)list, sizeof list, 0xA5));
    CHECK(len == 0 || all(state, len, 0xA5));
    release(state, len);
  }
}

/* Bursts of one length, each sent twice: the second is refused and changes nothing. */
static void each_twice(uint8_t *state, uint32_t edition, const uint8_t *image, size_t n, size_t burst) {
  uint8_t before[STATE];
  fresh_of(state, edition);
  CHECK(roostcord_pieces_taken(state, STATE) == 0);
  for (size_t at = 0; at < n; at += burst) {
    size_t len = n - at < burst ? n - at : burst;
    CHECK(roostcord_pieces_feed(state, STATE, at, image + at, len) == (int32_t)(at + len));
    memcpy(before, state, STATE);
    int32_t again = roostcord_pieces_feed(state, STATE, at, image + at, len);
    CHECK(ROOSTCORD_NUMBER(again) == ROOSTCORD_WRONG_OFFSET && ROOSTCORD_FIRST(again) == (int32_t)(at + len) && same(before, state, STATE));
  }
  CHECK(roostcord_pieces_taken(state, STATE) == (int32_t)n);
  CHECK(roostcord_pieces_feed(state, STATE, n, NULL, 0) == (int32_t)n);
  as_whole(state, edition, image, n);
}

static void pieces(const uint8_t *image, size_t n) {
  static uint8_t zeros[IMAGE_MAX + 1];
  enum { WRONG = -ROOSTCORD_WRONG_OFFSET, LONG = -ROOSTCORD_TOO_LONG };
  uint8_t *state = guarded(STATE);
  uint32_t list[NUMBERS];
  short_states(image, n);
  for (size_t burst = 1; burst <= 600; burst += burst < 20 ? 1 : 97) each_twice(state, ROOSTCORD_EDITION_2, image, n, burst);
  for (size_t cut = 0; cut <= n; cut++) { /* every cut into two */
    fresh(state);
    CHECK(roostcord_pieces_feed(state, STATE, 0, image, cut) == (int32_t)cut);
    CHECK(roostcord_pieces_feed(state, STATE, cut, image + cut, n - cut) == (int32_t)n);
    as_whole(state, ROOSTCORD_EDITION_2, image, n);
  }
  fresh(state);
  CHECK(roostcord_pieces_feed(state, STATE, 0, zeros, IMAGE_MAX + 1) == LONG);
  CHECK(roostcord_pieces_feed(state, STATE, 0, zeros, IMAGE_MAX) == IMAGE_MAX);
  CHECK(roostcord_pieces_feed(state, STATE, IMAGE_MAX, zeros, 0) == IMAGE_MAX && roostcord_pieces_feed(state, STATE, IMAGE_MAX, zeros, 1) == LONG);
  CHECK(roostcord_pieces_feed(state, STATE, SIZE_MAX, zeros, 1) == WRONG - 256 * IMAGE_MAX);
  memset(state, 0xFF, STATE); /* a state that no feeding leads to has an answer as well */
  CHECK(roostcord_pieces_taken(state, STATE) == 4095 && roostcord_pieces_feed(state, STATE, 4095, zeros, 0) == LONG);
  CHECK(roostcord_pieces_manufacturing(state, STATE, 0, list, NUMBERS) == NUMBERS && list[ROOSTCORD_MANUFACTURING_YEAR] == 2165);
  CHECK(roostcord_pieces_manufacturing(state, STATE, 1, list, NUMBERS) == -ROOSTCORD_WRONG_DATE);
  CHECK(roostcord_pieces_crc(state, STATE) == crc_of(state + 2, CRC_NEEDS));
  release(state, STATE);
}

/* Whether a state is that of the first n bytes under that edition, in its bytes and in all of its answers; under the present one. */
static void holds_under(const uint8_t *state, uint32_t edition, const uint8_t *image, size_t n) {
  uint8_t straight[STATE];
  fresh_of(straight, edition);
  CHECK(roostcord_pieces_feed(straight, STATE, 0, image, n) == (int32_t)n && same(straight, state, STATE));
  as_whole(state, edition, image, n);
}

static void holds(const uint8_t *state, const uint8_t *image, size_t n) { holds_under(state, ROOSTCORD_EDITION_2, image, n); }

enum { UNTOUCHED = 0xA5 };

/* A place for an image that nothing was kept in; and whether it has the bytes from one offset up to another, and nothing besides. */
static void nothing_kept(uint8_t *kept) { memset(kept, UNTOUCHED, IMAGE_MAX); }
static int keeps(const uint8_t *kept, const uint8_t *image, size_t from, size_t to) {
  return all(kept, from, UNTOUCHED) && same(kept + from, image + from, to - from) && all(kept + to, IMAGE_MAX - to, UNTOUCHED);
}

/*---- the feeding loop ----*/

enum { RUNS = 12000, BURST = 16, PAST = IMAGE_MAX + 100, ANSWERS_OF = 16, SELDOM = 700, LIMIT = 100000 };

/* A loop that goes on for ever is ended by this answer, which no check accepts. */
#define ENDLESS ((struct burst){BURST_FAILED, 0, 0, NULL, ELOOP})

/* A reader of an image that misbehaves at random. What it never does is to tell another offset than the one at which its bytes stand. */
struct unruly {
  const uint8_t *image;
  size_t n;
  uint64_t random;
  unsigned faulty;             /* of ANSWERS_OF answers, so many are faulty */
  int in_turn;                 /* it goes back where it is asked to, but it does not skip what it has not handed on yet */
  size_t at;                   /* up to where it has handed bytes on */
  size_t asked[4], asks, same; /* the last questions, how many there were, and how many at one offset in a row */
  struct burst last;           /* its last answer */
};

/* A number below that many, and not 0 of them. */
static size_t pick(struct unruly *u, size_t below) {
  u->random ^= u->random << 13, u->random ^= u->random >> 7, u->random ^= u->random << 17;
  return (size_t)(u->random >> 20) % below;
}

static struct burst right(const struct unruly *u, size_t offset, size_t len) {
  if (offset >= u->n) return (struct burst){BURST_END, u->n, 0, NULL, 0};
  return (struct burst){BURST_BYTES, offset, len < u->n - offset ? len : u->n - offset, u->image + offset, 0};
}

static struct burst wrong(struct unruly *u, size_t offset, size_t len, size_t earlier) {
  struct burst burst = right(u, offset, len);
  if (pick(u, SELDOM) == 0) return (struct burst){BURST_FAILED, offset, 0, NULL, EIO};
  switch (pick(u, 7)) {
    case 0: return u->last;                                         /* the last answer again */
    case 1: return right(u, pick(u, offset + 1), len);              /* an earlier burst */
    case 2: return right(u, offset + 1 + pick(u, 2 * len), len);    /* a later one, or the end */
    case 3: return right(u, earlier, len);                          /* late: the answer to an earlier question */
    case 4: return right(u, u->n, len);                             /* the end, too early */
    case 5: return (struct burst){BURST_BYTES, offset, 0, NULL, 0}; /* empty */
    default: burst.len = burst.len ? 1 + pick(u, burst.len) : 0;    /* short */
  }
  return burst;
}

static struct burst ask_unruly(void *context, size_t offset, size_t len) {
  struct unruly *u = context;
  if (u->asks == LIMIT) return ENDLESS;
  size_t earlier = u->asked[pick(u, 4)], from = u->in_turn && u->at < offset ? u->at : offset;
  u->same = u->asks > 0 && u->asked[(u->asks - 1) % 4] == offset ? u->same + 1 : 1;
  u->asked[u->asks++ % 4] = offset;
  u->last = pick(u, ANSWERS_OF) < u->faulty ? wrong(u, from, len, earlier) : right(u, from, len);
  if (u->last.offset == from) u->at = from + u->last.len;
  return u->last;
}

static struct unruly unruly(const uint8_t *image, size_t n, uint64_t seed, unsigned faulty) {
  struct unruly u = {.image = image, .n = n, .random = (seed + 1) * 0x9E3779B97F4A7C15u, .faulty = faulty};
  u.last = right(&u, 0, BURST);
  return u;
}

/* The loop as it was on the day of the forty certificates: bytes whose offset is refused are given the one that fits. It is kept to show
 * that the runs below see that fault. Answers whether it came to the end of an image. */
static int fed_by_arrival(const struct reader *reader, size_t len, uint8_t *state) {
  size_t taken = 0;
  for (size_t asks = 0; asks < 4 * PAST; asks++) {
    struct burst burst = reader->ask(reader->context, taken, len);
    if (burst.kind != BURST_BYTES) return burst.kind == BURST_END;
    int32_t answer = roostcord_pieces_feed(state, STATE, burst.offset, burst.bytes, burst.len);
    if (ROOSTCORD_REFUSED(answer) && ROOSTCORD_NUMBER(answer) == ROOSTCORD_WRONG_OFFSET)
      answer = roostcord_pieces_feed(state, STATE, (size_t)ROOSTCORD_FIRST(answer), burst.bytes, burst.len);
    if (ROOSTCORD_REFUSED(answer)) return 0;
    taken = (size_t)answer;
  }
  return 0;
}

/* Whether a state has timings, and others than the image: what the forty certificates were signed on. */
static int false_timings(const uint8_t *state, const uint8_t *image, size_t n) {
  uint32_t x[ROOSTCORD_TIMINGS_COUNT], y[ROOSTCORD_TIMINGS_COUNT];
  if (ROOSTCORD_REFUSED(roostcord_pieces_timings(state, STATE, x, ROOSTCORD_TIMINGS_COUNT))) return 0;
  return roostcord_timings(image, n, y, ROOSTCORD_TIMINGS_COUNT) == ROOSTCORD_TIMINGS_COUNT && !same(x, y, sizeof x);
}


/* One run of the loop with an unruly reader: how it ended, after the end was held to what the reader did. */
static enum feed_end unruly_run(struct unruly u, size_t len, uint32_t edition) {
  uint8_t state[STATE], kept[IMAGE_MAX];
  struct reader reader = {ask_unruly, NULL, &u, FEED_TRIES};
  fresh_of(state, edition);
  nothing_kept(kept);
  struct feed_result fed = feed_image(&reader, len, state, kept);
  holds_under(state, edition, u.image, fed.taken);
  CHECK(keeps(kept, u.image, 0, fed.taken));
  CHECK(u.same <= FEED_TRIES && fed.asked == fed.taken && fed.came == u.last.offset);
  if (fed.end == FEED_WHOLE) CHECK(fed.taken == u.n && u.last.kind == BURST_END);
  else if (fed.end == FEED_REFUSED) CHECK(fed.refusal == -ROOSTCORD_TOO_LONG && u.n > IMAGE_MAX && u.last.offset + u.last.len > IMAGE_MAX);
  else if (fed.end == FEED_GAVE_UP) CHECK(u.same == FEED_TRIES && (u.last.offset != fed.taken || u.last.len == 0));
  else CHECK(fed.end == FEED_FAILED && fed.error == EIO && u.last.kind == BURST_FAILED);
  return fed.end;
}

/* Many runs, each with its own share of faults, length and bursts, and under the two editions in turn; the old loop on the same ones. */
static void unruly_runs(const uint8_t *sample, size_t n) {
  static uint8_t image[PAST];
  long ends[FEED_FAILED + 1] = {0}, old_ended = 0, old_false = 0;
  struct unruly lot = unruly(sample, n, 2026, 0);
  memcpy(image, sample, n);
  for (size_t i = n; i < PAST; i++) image[i] = (uint8_t)pick(&lot, 256);
  image[20] = 250, image[21] = 0; /* 8000 MT/s, which the editions tell apart */
  for (uint64_t run = 0; run < RUNS; run++) {
    size_t length = pick(&lot, 2) ? n : pick(&lot, PAST + 1), len = pick(&lot, 2) ? BURST : 1 + pick(&lot, 4 * BURST);
    struct unruly u = unruly(image, length, run, (unsigned)pick(&lot, ANSWERS_OF + 1));
    u.in_turn = (int)pick(&lot, 2);
    ends[unruly_run(u, len, run % 2 ? ROOSTCORD_EDITION_1 : ROOSTCORD_EDITION_2)]++;
    uint8_t state[STATE];
    struct reader reader = {ask_unruly, NULL, &u, FEED_TRIES};
    fresh(state);
    int ended = fed_by_arrival(&reader, len, state);
    old_ended += ended;
    old_false += ended && false_timings(state, image, length);
  }
  printf("test: of %d unruly runs %ld ended whole, %ld were given up, %ld failed, %ld were too long", RUNS, ends[FEED_WHOLE],
         ends[FEED_GAVE_UP], ends[FEED_FAILED], ends[FEED_REFUSED]);
  printf("; by arrival order %ld ended, %ld with false timings\n", old_ended, old_false);
  CHECK(ends[FEED_WHOLE] >= RUNS / 10 && ends[FEED_GAVE_UP] >= RUNS / 10 && ends[FEED_FAILED] >= RUNS / 100 && ends[FEED_REFUSED] >= 10);
  CHECK(ends[FEED_GONE] == 0 && old_false >= RUNS / 10);
}

/* A reader with a script: its answers in their order, whatever is asked for, and the last one again and again. */
struct scripted {
  const struct burst *script;
  size_t steps, asks, refusals;
  size_t offset;  /* of the burst that was refused last */
  int32_t answer; /* to it */
};

static struct burst ask_scripted(void *context, size_t offset, size_t len) {
  struct scripted *s = context;
  (void)offset, (void)len;
  size_t step = s->asks++;
  if (step == LIMIT) return ENDLESS;
  return s->script[step < s->steps ? step : s->steps - 1];
}

static void refused_scripted(void *context, const struct burst *burst, int32_t answer) {
  struct scripted *s = context;
  s->refusals++, s->offset = burst->offset, s->answer = answer;
}

/* Feeds what a script has to a state that may have taken some, beside which that was kept. */
static struct feed_result scripted_run(struct scripted *s, const struct burst *script, size_t steps, uint8_t *state, uint8_t *kept) {
  struct reader reader = {ask_scripted, refused_scripted, s, FEED_TRIES};
  *s = (struct scripted){.script = script, .steps = steps};
  return feed_image(&reader, BURST, state, kept);
}

/* The day of the forty certificates: the burst of bytes 16 to 31 comes twice. The old loop signs the shifted image; the loop has the
 * sound one. */
static void burst_twice(const uint8_t *image, size_t n) {
  struct burst script[IMAGE_MAX / BURST + 3];
  uint8_t state[STATE], kept[IMAGE_MAX], shifted[IMAGE_MAX + BURST];
  struct scripted s;
  size_t steps = 0;
  for (size_t at = 0; at < n; at += BURST) {
    size_t len = n - at < BURST ? n - at : BURST;
    script[steps++] = (struct burst){BURST_BYTES, at, len, image + at, 0};
    if (at == BURST) script[steps] = script[steps - 1], steps++;
  }
  script[steps++] = (struct burst){BURST_END, n, 0, NULL, 0};
  fresh(state);
  nothing_kept(kept);
  struct feed_result fed = scripted_run(&s, script, steps, state, kept);
  CHECK(fed.end == FEED_WHOLE && s.asks == steps && s.refusals == 1);
  CHECK(s.offset == BURST && s.answer == -(ROOSTCORD_WRONG_OFFSET + 256 * 2 * BURST) && fed.refusal == s.answer);
  holds(state, image, n);
  CHECK(keeps(kept, image, 0, n));
  struct reader reader = {ask_scripted, NULL, &s, FEED_TRIES};
  s.asks = 0;
  fresh(state);
  CHECK(fed_by_arrival(&reader, BURST, state) && false_timings(state, image, n));
  memcpy(shifted, image, 2 * BURST);
  memcpy(shifted + 2 * BURST, image + BURST, n - BURST);
  holds(state, shifted, n + BURST);
}

/* Bursts that are refused and have other bytes than the image: one that came before, one that is early, one that is too long at the end.
 * None of them is kept. */
static void refused_not_kept(const uint8_t *image, size_t n) {
  static uint8_t other[IMAGE_MAX + 1];
  uint8_t state[STATE], kept[IMAGE_MAX];
  struct scripted s;
  const struct burst script[] = {{BURST_BYTES, 0, BURST, image, 0},     {BURST_BYTES, 0, BURST, other, 0},
                                 {BURST_BYTES, BURST, 1, image + BURST, 0}, {BURST_BYTES, BURST, 1, other, 0},
                                 {BURST_BYTES, 3 * BURST, BURST, other, 0}, {BURST_BYTES, BURST + 1, n - BURST - 1, image + BURST + 1, 0},
                                 {BURST_END, n, BURST, other, 0}};
  const struct burst past = {BURST_BYTES, n, IMAGE_MAX + 1, other, 0};
  for (size_t i = 0; i < sizeof other; i++) other[i] = (uint8_t)~image[i % n];
  fresh(state);
  nothing_kept(kept);
  struct feed_result fed = scripted_run(&s, script, sizeof script / sizeof *script, state, kept);
  CHECK(fed.end == FEED_WHOLE && s.refusals == 3 && keeps(kept, image, 0, n));
  holds(state, image, n);
  fed = scripted_run(&s, &past, 1, state, kept);
  CHECK(fed.end == FEED_REFUSED && fed.refusal == -ROOSTCORD_TOO_LONG && keeps(kept, image, 0, n));
  holds(state, image, n);
}

/* Where the loop gives up, what starts its count anew, and that it goes on from what a state has. */
static void giving_up(const uint8_t *image) {
  const struct burst empty = {BURST_BYTES, 0, 0, NULL, 0}, first = {BURST_BYTES, 0, BURST, image, 0}, end = {BURST_END, BURST, 0, NULL, 0};
  const struct burst failed = {BURST_FAILED, 0, 0, NULL, ENODEV};
  struct burst script[2 * FEED_TRIES];
  uint8_t state[STATE], kept[IMAGE_MAX];
  struct scripted s;
  fresh(state);
  nothing_kept(kept);
  struct feed_result fed = scripted_run(&s, &empty, 1, state, kept); /* an empty burst is no end */
  CHECK(fed.end == FEED_GAVE_UP && s.asks == FEED_TRIES && s.refusals == 0 && fed.refusal == 0 && fed.taken == 0 && fed.asked == 0);
  fed = scripted_run(&s, &end, 1, state, kept); /* nor is an end at another offset than the count taken */
  CHECK(fed.end == FEED_GAVE_UP && s.asks == FEED_TRIES && s.refusals == FEED_TRIES && fed.refusal == -ROOSTCORD_WRONG_OFFSET && fed.came == BURST);
  for (size_t i = 0; i < 2 * FEED_TRIES; i++) script[i] = i == FEED_TRIES - 1 ? first : empty; /* progress starts the count anew */
  script[2 * FEED_TRIES - 1] = end;
  fed = scripted_run(&s, script, 2 * FEED_TRIES, state, kept);
  CHECK(fed.end == FEED_WHOLE && s.asks == 2 * FEED_TRIES && s.refusals == FEED_TRIES - 1);
  holds(state, image, BURST);
  fed = scripted_run(&s, &first, 1, state, kept); /* a state that has that burst goes on behind it */
  CHECK(fed.end == FEED_GAVE_UP && fed.asked == BURST && fed.taken == BURST && s.refusals == FEED_TRIES);
  fed = scripted_run(&s, &failed, 1, state, kept);
  CHECK(fed.end == FEED_FAILED && fed.error == ENODEV && s.asks == 1);
  holds(state, image, BURST);
  CHECK(keeps(kept, image, 0, BURST));
}

/* A reader that loses its second burst, over another. */
struct lossy {
  struct reader reader;
  size_t asks;
};

static struct burst ask_lossy(void *context, size_t offset, size_t len) {
  struct lossy *lossy = context;
  struct burst burst = lossy->reader.ask(lossy->reader.context, offset, len);
  if (++lossy->asks == 2) burst.len = 0;
  return burst;
}

/* A stream labels its bursts itself, waits for all that was asked for, and does not go back: a burst that was lost stays lost. */
static void streams(const uint8_t *image, size_t n) {
  struct source source;
  struct lossy lossy;
  const struct reader loses = {ask_lossy, NULL, &lossy, FEED_TRIES};
  uint8_t state[STATE], kept[IMAGE_MAX];
  int ends[2];
  if (pipe(ends) != 0) exit((perror("test"), 2));
  CHECK(!can_seek(ends[0]));
  fflush(stdout); /* or the child may have it to print as well */
  pid_t child = fork();
  if (child == 0) { /* a burst in two parts, and then the whole image */
    int sent = write(ends[1], image, BURST / 3) == BURST / 3 && usleep(50000) == 0;
    _exit(!(sent && write(ends[1], image, BURST - BURST / 3) == BURST - BURST / 3 && write(ends[1], image, n) == (ssize_t)n));
  }
  close(ends[1]);
  struct reader reader = stream_reader(&source, ends[0]);
  struct burst burst = reader.ask(&source, 0, BURST);
  CHECK(child > 0 && burst.kind == BURST_BYTES && burst.offset == 0 && burst.len == BURST);
  reader = stream_reader(&source, ends[0]);
  burst = reader.ask(&source, n, BURST); /* asked for what comes later: what stands next, with its own offset */
  CHECK(burst.kind == BURST_BYTES && burst.offset == 0 && burst.len == BURST && same(burst.bytes, image, BURST));
  fresh(state);
  CHECK(roostcord_pieces_feed(state, STATE, burst.offset, burst.bytes, burst.len) == BURST);
  lossy = (struct lossy){reader, 0};
  nothing_kept(kept);
  struct feed_result fed = feed_image(&loses, BURST, state, kept);
  CHECK(fed.end == FEED_GONE && fed.taken == 2 * BURST && fed.asked == 2 * BURST && fed.came == 3 * BURST && fed.refusal == 0);
  holds(state, image, 2 * BURST);
  CHECK(keeps(kept, image, BURST, 2 * BURST)); /* the first burst was fed without the loop */
  int status = -1;
  close(ends[0]);
  CHECK(waitpid(child, &status, 0) == child && status == 0);
}

/* Bursts of one length from a file, at offsets and as a stream: no byte is read that was not asked for, and all of it comes. */
static void file_bursts(int fd, int stream, const uint8_t *image, size_t n, size_t len) {
  struct source source;
  uint8_t state[STATE], kept[IMAGE_MAX];
  size_t least = len < n ? len : n;
  struct reader reader = stream ? stream_reader(&source, fd) : file_reader(&source, fd);
  lseek(fd, 0, SEEK_SET);
  CHECK(reader.ask(&source, 0, len).len == least && lseek(fd, 0, SEEK_CUR) == (off_t)(stream ? least : 0));
  reader = stream ? stream_reader(&source, fd) : file_reader(&source, fd);
  lseek(fd, 0, SEEK_SET);
  fresh(state);
  nothing_kept(kept);
  struct feed_result fed = feed_image(&reader, len, state, kept);
  CHECK(fed.end == FEED_WHOLE && fed.refusal == 0 && keeps(kept, image, 0, n));
  holds(state, image, n);
}

static void files(const uint8_t *image, size_t n) {
  struct source source;
  struct lossy lossy;
  const struct reader loses = {ask_lossy, NULL, &lossy, FEED_TRIES};
  uint8_t state[STATE], kept[IMAGE_MAX];
  FILE *file = tmpfile();
  int fd = file ? fileno(file) : -1;
  if (fd < 0 || write(fd, image, n) != (ssize_t)n) exit((perror("test"), 2));
  CHECK(can_seek(fd));
  for (size_t len = 1; len <= 2 * IMAGE_MAX; len += len < 40 ? 1 : 299)
    for (int stream = 0; stream < 2; stream++) file_bursts(fd, stream, image, n, len);
  fresh(state);
  lossy = (struct lossy){file_reader(&source, fd), 0}; /* a file is read again where a burst was lost */
  nothing_kept(kept);
  CHECK(feed_image(&loses, BURST, state, kept).end == FEED_WHOLE && lossy.asks == (n + BURST - 1) / BURST + 2);
  holds(state, image, n);
  fclose(file);
  struct reader closed = file_reader(&source, -1);
  struct feed_result fed = feed_image(&closed, BURST, state, kept);
  CHECK(fed.end == FEED_FAILED && fed.error == EBADF && keeps(kept, image, 0, n));
}

/*---- the editions of the ladder ----*/

enum { FIRST = ROOSTCORD_EDITION_1, SECOND = ROOSTCORD_EDITION_2, UNKNOWN = -ROOSTCORD_UNKNOWN_EDITION, FIRST_BIT = 16, FINDING = 14 };

/* Numbers that are no edition. Many of them are 1 or 2 where they are cut to 8, 16 or 31 bits. */
static const uint32_t no_editions[] = {0,     3,     4,     15,    16,         17,         18,         255,        256,            257,       258,
                                       65535, 65536, 65537, 65538, 0x7FFFFFFF, 0x80000000, 0x80000001, 0x80000002, UINT32_MAX - 1, UINT32_MAX};
enum { NO_EDITIONS = sizeof no_editions / sizeof *no_editions };

/* The ladder, written out: its first nine rates are edition 1, and all fifteen edition 2. */
static const uint32_t ladder[] = {3200, 3600, 4000, 4400, 4800, 5200, 5600, 6000, 6400, 6800, 7200, 7600, 8000, 8400, 8800};
enum { RATES_1 = 9, RATES_2 = 15 };

/* Whether a rate has a finding where so many of the ladder are standard; 0 has none. */
static int unlisted(uint32_t rate, size_t rates) {
  for (size_t k = 0; k < rates; k++)
    if (rate == ladder[k]) return 0;
  return rate != 0;
}

/* The data rate of an image, to the nearest 100; 0 where its timings are refused or its tCKmin is 0. */
static uint32_t rate_of(const uint8_t *image, size_t n) {
  uint32_t tck = n < TIMINGS_NEED ? 0 : image[20] + 256u * image[21];
  return tck ? (2000000 / tck + 50) / 100 * 100 : 0;
}

static void set_tck(uint8_t *image, unsigned tck) { image[20] = (uint8_t)tck, image[21] = (uint8_t)(tck >> 8); }

/* Whether a report's findings of code 7 are this one of that rate alone, behind all others; or none. */
static int ends_in_rate(const uint8_t *report, uint32_t rate, int wanted) {
  const uint8_t last[FINDING] = {7, 0, (uint8_t)(rate >> 24), (uint8_t)(rate >> 16), (uint8_t)(rate >> 8), (uint8_t)rate};
  int sevens = 0, count = report[4];
  for (int k = 0; k < count; k++) sevens += report[5 + FINDING * k] == 7;
  if (!wanted) return sevens == 0;
  return sevens == 1 && same(report + 5 + FINDING * (count - 1), last, FINDING);
}

/* An image under both editions: the reports are the same, or that of edition 1 has one finding of code 7 more. Answers whether it has. */
static int apart(const uint8_t *image, size_t n) {
  uint8_t one[ROOSTCORD_REPORT_MAX + 1], two[ROOSTCORD_REPORT_MAX + 1];
  uint32_t rate = rate_of(image, n);
  int more = unlisted(rate, RATES_1) - unlisted(rate, RATES_2);
  memset(one, 0xA5, sizeof one), memset(two, 0xA5, sizeof two);
  int32_t a = roostcord_lint(image, n, FIRST, one, sizeof one), b = roostcord_lint(image, n, SECOND, two, sizeof two);
  CHECK(b >= 5 && a == b + more * FINDING && (more == 0 || more == 1));
  if (b < 5 || a < b) return 0;
  CHECK(one[0] * 256 + one[1] == a - 2 && one[2] == two[2] && one[3] == two[3] && one[4] == two[4] + more && same(one + 5, two + 5, (size_t)b - 5));
  CHECK(more || same(one, two, sizeof one));
  CHECK(ends_in_rate(one, rate, unlisted(rate, RATES_1)) && ends_in_rate(two, rate, unlisted(rate, RATES_2)));
  CHECK(all(one + a, sizeof one - (size_t)a, 0xA5));
  return a > b;
}

/* Every tCKmin, and those around the ends of both ladders for images that are cut. Each of the six rates comes. */
static void every_rate(const uint8_t *sample, size_t n) {
  static const size_t lengths[] = {0, 21, 22, 93, 94, 100, 235, 236, 512, 555};
  uint8_t image[IMAGE_MAX];
  long seen[RATES_2] = {0}, cut = 0;
  memcpy(image, sample, n);
  for (unsigned tck = 0; tck < 65536; tck++) {
    set_tck(image, tck);
    int more = apart(image, n);
    for (size_t k = RATES_1; k < RATES_2; k++) seen[k] += more && rate_of(image, n) == ladder[k];
  }
  for (size_t k = RATES_1; k < RATES_2; k++) CHECK(seen[k] > 0);
  for (unsigned tck = 220; tck < 320; tck++) {
    set_tck(image, tck);
    for (size_t k = 0; k < sizeof lengths / sizeof *lengths; k++) cut += apart(image, lengths[k]);
  }
  CHECK(cut > 0);
}

/* Fourteen findings, and under edition 1 fifteen, the most that an image has. */
static void fullest(const uint8_t *sample, size_t n) {
  static const uint8_t times[] = {0x91, 1, 0x93, 1, 0x91, 1, 0x92, 1, 0x91, 1}; /* tAA, tRCD, tRP, tRAS and tRC, none of which fits another */
  uint8_t image[IMAGE_MAX], report[ROOSTCORD_REPORT_MAX];
  memset(image, 0xFF, n);
  memcpy(image, sample, 8);
  memcpy(image + 30, times, sizeof times);
  image[6] = 0x40, image[234] = 0, image[235] = 0x20; /* devices of 16 bits, and a bus of 8 */
  set_tck(image, 250);
  CHECK(apart(image, n) == 1 && roostcord_lint(image, n, FIRST, report, sizeof report) == ROOSTCORD_REPORT_MAX);
  every_report_length(image, n, FIRST);
  every_report_length(image, n, SECOND);
}

/* Linting under no edition is refused 14, before 8, into buffers of every length; nothing is written. */
static void unknown_lints(const uint8_t *image, size_t n) {
  for (size_t len = 0; len <= ROOSTCORD_REPORT_MAX + 1; len++) {
    uint8_t *edge = guarded(len);
    if (len) memset(edge, 0xA5, len);
    for (size_t k = 0; k < NO_EDITIONS; k++) {
      CHECK(roostcord_lint(image, n, no_editions[k], edge, len) == UNKNOWN && roostcord_lint(image, 93, no_editions[k], edge, len) == UNKNOWN);
      CHECK(roostcord_lint(NULL, 0, no_editions[k], edge, len) == UNKNOWN);
    }
    CHECK(len == 0 || all(edge, len, 0xA5));
    release(edge, len);
  }
}

/* So is a state of no edition, before 4, whatever its length; the lent bytes stay. */
static void unknown_states(void) {
  for (size_t len = 0; len <= STATE + 3; len++) {
    uint8_t *edge = guarded(len);
    if (len) memset(edge, 0xA5, len);
    for (size_t k = 0; k < NO_EDITIONS; k++) CHECK(roostcord_pieces_fresh(edge, len, no_editions[k]) == UNKNOWN);
    CHECK(len == 0 || all(edge, len, 0xA5));
    release(edge, len);
  }
}

/* A state of either edition that has taken half of an image is as it was after a refused fresh, and goes on. One that is not refused, of the
 * other edition, begins anew. */
static void refused_fresh(const uint8_t *image, size_t n) {
  uint8_t state[STATE], before[STATE];
  for (uint32_t edition = FIRST; edition <= SECOND; edition++) {
    fresh_of(state, edition);
    CHECK(roostcord_pieces_feed(state, STATE, 0, image, n / 2) == (int32_t)(n / 2));
    memcpy(before, state, STATE);
    for (size_t k = 0; k < NO_EDITIONS; k++) CHECK(roostcord_pieces_fresh(state, STATE, no_editions[k]) == UNKNOWN && same(before, state, STATE));
    CHECK(roostcord_pieces_fresh(state, STATE - 1, FIRST + SECOND - edition) == -ROOSTCORD_LIST_TOO_SHORT && same(before, state, STATE));
    holds_under(state, edition, image, n / 2);
    CHECK(roostcord_pieces_feed(state, STATE, n / 2, image + n / 2, n - n / 2) == (int32_t)n);
    holds_under(state, edition, image, n);
    fresh_of(state, FIRST + SECOND - edition);
    holds_under(state, FIRST + SECOND - edition, image, 0);
  }
}

/* The fresh states byte by byte: 557 of 0 for edition 2, and bit 4 of byte 1 for edition 1. What is lent behind them stays. */
static void fresh_states(void) {
  uint8_t state[STATE + 3];
  for (uint32_t edition = FIRST; edition <= SECOND; edition++) {
    memset(state, 0xA5, sizeof state);
    CHECK(roostcord_pieces_fresh(state, sizeof state, edition) == 0 && state[0] == 0 && state[1] == (edition == FIRST ? FIRST_BIT : 0));
    CHECK(all(state + 2, STATE - 2, 0) && all(state + STATE, 3, 0xA5));
  }
  memset(state, 0, STATE);
  holds(state, NULL, 0);
}

/* The first two bytes of a state of so many bytes. */
static int headed(const uint8_t *state, uint32_t edition, size_t taken) {
  return state[0] == taken % 256 && state[1] == taken / 256 + (edition == FIRST ? FIRST_BIT : 0);
}

/* Every count up to the most, a byte at a time: the bit of the edition is in none of them, and stays. */
static void edition_counts(const uint8_t *image, size_t n, uint32_t edition) {
  uint8_t state[STATE];
  fresh_of(state, edition);
  for (size_t at = 0; at < IMAGE_MAX; at++) {
    CHECK(roostcord_pieces_feed(state, STATE, at, image + at % n, 1) == (int32_t)at + 1);
    CHECK(roostcord_pieces_taken(state, STATE) == (int32_t)at + 1 && headed(state, edition, at + 1));
  }
  CHECK(roostcord_pieces_feed(state, STATE, IMAGE_MAX, image, 1) == -ROOSTCORD_TOO_LONG && headed(state, edition, IMAGE_MAX));
  CHECK(roostcord_pieces_feed(state, STATE, 0, image, n) == -(ROOSTCORD_WRONG_OFFSET + 256 * IMAGE_MAX) && headed(state, edition, IMAGE_MAX));
}

/* An image of a rate that only edition 2 has, under both, in bursts that come twice and in every cut into two: each state has the bytes of
 * one that took the image at once. */
static void edition_cuts(const uint8_t *image, size_t n) {
  uint8_t state[STATE];
  for (uint32_t edition = FIRST; edition <= SECOND; edition++) {
    for (size_t burst = 1; burst <= n + 97; burst += burst < 20 ? 5 : 97) {
      each_twice(state, edition, image, n, burst);
      holds_under(state, edition, image, n);
    }
    for (size_t cut = 0; cut <= n; cut++) {
      fresh_of(state, edition);
      CHECK(roostcord_pieces_feed(state, STATE, 0, image, cut) == (int32_t)cut);
      CHECK(roostcord_pieces_feed(state, STATE, cut, image + cut, n - cut) == (int32_t)n);
      holds_under(state, edition, image, n);
    }
    edition_counts(image, n, edition);
  }
}

/* The report of a state into buffers of every length: one that has room for the findings of edition 2 may have too little under edition 1. */
static void edition_reports(const uint8_t *image, size_t n) {
  uint8_t state[STATE], wanted[ROOSTCORD_REPORT_MAX + 1];
  for (uint32_t edition = FIRST; edition <= SECOND; edition++) {
    fresh_of(state, edition);
    CHECK(roostcord_pieces_feed(state, STATE, 0, image, n) == (int32_t)n);
    for (size_t len = 0; len <= sizeof wanted; len++) {
      uint8_t *edge = guarded(len);
      if (len) memset(edge, 0xA5, len);
      memset(wanted, 0xA5, sizeof wanted);
      CHECK(roostcord_pieces_lint(state, STATE, edge, len) == roostcord_lint(image, n, edition, wanted, len) && same(edge, wanted, len));
      release(edge, len);
    }
  }
}

/* A state of any bytes and a piece: refused, it stays to the last bit; taken, the edition stays, and bits 7-5 of byte 1 go. */
static void random_feed(uint8_t *state, uint32_t edition, size_t taken, size_t len) {
  static const uint8_t piece[IMAGE_MAX + 1];
  uint8_t before[STATE];
  memcpy(before, state, STATE);
  CHECK(roostcord_pieces_feed(state, STATE, taken + 1, piece, len) == -(ROOSTCORD_WRONG_OFFSET + 256 * (int32_t)taken) && same(before, state, STATE));
  CHECK(roostcord_pieces_feed(state, STATE, taken, piece, IMAGE_MAX + 1) == -ROOSTCORD_TOO_LONG && same(before, state, STATE));
  int32_t answer = roostcord_pieces_feed(state, STATE, taken, piece, len);
  if (taken + len > IMAGE_MAX) CHECK(answer == -ROOSTCORD_TOO_LONG && same(before, state, STATE));
  else CHECK(answer == (int32_t)(taken + len) && headed(state, edition, taken + len));
}

/* Any bytes are a state: bit 4 of byte 1 says its edition, and the four below it are the high ones of its count. */
static void random_states(void) {
  struct unruly lot = unruly(NULL, 0, 2027, 0);
  uint8_t state[STATE], a[ROOSTCORD_REPORT_MAX + 1], b[ROOSTCORD_REPORT_MAX + 1];
  long differ[SECOND + 1] = {0};
  for (int k = 0; k < 6000; k++) {
    for (size_t i = 0; i < STATE; i++) state[i] = (uint8_t)pick(&lot, 256);
    if (k % 4) set_tck(state + 2, 220 + (unsigned)pick(&lot, 80));
    size_t taken = state[0] + 256u * (state[1] & 15u), n = taken < STATE - 2 ? taken : STATE - 2;
    uint32_t edition = state[1] & FIRST_BIT ? FIRST : SECOND;
    memset(a, 1, sizeof a), memset(b, 1, sizeof b);
    CHECK(roostcord_pieces_taken(state, STATE) == (int32_t)taken);
    CHECK(roostcord_pieces_lint(state, STATE, a, sizeof a) == roostcord_lint(state + 2, n, edition, b, sizeof b) && same(a, b, sizeof a));
    differ[edition] += apart(state + 2, n);
    random_feed(state, edition, taken, pick(&lot, 40));
  }
  CHECK(differ[FIRST] > 500 && differ[SECOND] > 500); /* or the editions were not told apart */
}

static void editions(const uint8_t *sample, size_t n) {
  uint8_t image[IMAGE_MAX];
  CHECK(n >= 600); /* or the editions are not tried */
  if (n < 600) return;
  memcpy(image, sample, n);
  set_tck(image, 250);
  CHECK(rate_of(image, n) == 8000 && apart(image, n) == 1);
  every_rate(sample, n);
  fullest(sample, n);
  unknown_lints(image, n);
  refused_fresh(image, n);
  edition_cuts(image, n);
  edition_reports(image, n);
}

/* The nine times of an image in clocks, by document 02. A count is also the smallest n with n * tCK above 997 thousandths of the time; and it
 * is not above the smallest n with n * tCK at or above the time, which was the count before 2.1.0, nor further below that n than it may be. */
static void clocks_by(unsigned tck, const unsigned *words) {
  uint8_t image[TIMINGS_NEED] = {0};
  uint32_t list[ROOSTCORD_CLOCKS_COUNT];
  set_tck(image, tck);
  for (size_t k = 0; k < ROOSTCORD_CLOCKS_COUNT; k++) image[30 + 2 * k] = (uint8_t)words[k], image[31 + 2 * k] = (uint8_t)(words[k] >> 8);
  CHECK(roostcord_clocks(image, sizeof image, list, ROOSTCORD_CLOCKS_COUNT) == ROOSTCORD_CLOCKS_COUNT);
  for (size_t k = 0; k < ROOSTCORD_CLOCKS_COUNT; k++) {
    uint64_t time = (uint64_t)(words[k] & 0xFFFF) * (k < ROOSTCORD_CLOCKS_TRFC1 ? 1 : 1000), n = list[k], before = (time + tck - 1) / tck;
    CHECK(n == (time * 997 / tck + 1000) / 1000);
    CHECK(n * tck * 1000 > time * 997 && (n - 1) * tck * 1000 <= time * 997);
    CHECK((time == 0 ? n == 1 : n <= before) && before <= n + (3 * before + 996) / 1000);
  }
}

/* Times at and beside whole numbers of clocks for every tCK, and some counts that are known. */
static void every_clock(void) {
  static const uint32_t known[][3] = {{312, 17500, 56}, {416, 16000, 39}, {416, 16640, 40}, {416, 295, 1}, {416, 0, 1}, {65535, 65535, 1}, {1, 65535, 65339}};
  enum { LONG = 65338396 }; /* 65535000 ps with tCK 1: the product has 36 bits */
  unsigned words[ROOSTCORD_CLOCKS_COUNT];
  for (unsigned tck = 1; tck < 65536; tck++)
    for (unsigned more = 0; more < 3; more++) {
      for (unsigned k = 0; k < ROOSTCORD_CLOCKS_COUNT; k++) words[k] = tck * (k + 1) + more - 1;
      clocks_by(tck, words);
    }
  for (size_t i = 0; i < sizeof known / sizeof *known; i++) {
    uint8_t image[TIMINGS_NEED] = {0};
    uint32_t list[ROOSTCORD_CLOCKS_COUNT];
    set_tck(image, known[i][0]);
    for (size_t at = 30; at < 48; at += 2) image[at] = (uint8_t)known[i][1], image[at + 1] = (uint8_t)(known[i][1] >> 8);
    CHECK(roostcord_clocks(image, sizeof image, list, ROOSTCORD_CLOCKS_COUNT) == ROOSTCORD_CLOCKS_COUNT);
    for (size_t k = 0; k < ROOSTCORD_CLOCKS_TRFC1; k++) CHECK(list[k] == known[i][2]);
    if (known[i][0] == 1) CHECK(list[ROOSTCORD_CLOCKS_TRFC1] == LONG && list[ROOSTCORD_CLOCKS_TRFC2] == LONG && list[ROOSTCORD_CLOCKS_TRFCSB] == LONG);
  }
}

/*---- DDR4 ----*/

enum { DDR4 = ROOSTCORD_DEVICE_DDR4, DDR4_NEEDS = ROOSTCORD_DDR4_NEEDS, DDR4_COUNT = ROOSTCORD_DDR4_COUNT, DDR4_NUMBERS = ROOSTCORD_DDR4_NUMBERS };

static const size_t ddr4_reads[][2] = {{2, 3}, {4, 5}, {12, 14}, {17, 19}, {24, 30}, {120, 124}, {125, DDR4_NEEDS}};

/* The fields from 21 on: the byte, its bits, and the last code; and what the codes of the sizes stand for. */
static const struct {
  size_t byte;
  int32_t bits, last;
} ddr4_fields[] = {{17, 0x0F, 0}, {4, 0x0F, 7}, {12, 0x07, 3}, {13, 0x07, 3}};
enum { DDR4_FIELDS = sizeof ddr4_fields / sizeof *ddr4_fields };
static const uint32_t megabits[] = {256, 512, 1024, 2048, 4096, 8192, 16384, 32768}, io_widths[] = {4, 8, 16, 32}, bus_widths[] = {8, 16, 32, 64};

/* The times that have a fine part, as refusal 15 counts them: the bytes of their units and of their fine part. */
static const struct {
  size_t units, fine;
} ddr4_times[] = {{18, 125}, {24, 123}, {25, 122}, {26, 121}, {29, 120}};
enum { DDR4_TIMES = sizeof ddr4_times / sizeof *ddr4_times };

/* Such a time in picoseconds. Only the last has units above its byte: the high half of byte 27. */
static int32_t ddr4_time(const uint8_t *b, size_t k) {
  int32_t units = b[ddr4_times[k].units], fine = b[ddr4_times[k].fine];
  if (k == DDR4_TIMES - 1) units += b[27] / 16 * 256;
  return 125 * units + (fine < 128 ? fine : fine - 256);
}

/* The answer about a DDR4 image, with places enough, and its numbers. */
static int32_t ddr4_of(const uint8_t *b, size_t n, uint32_t *numbers) {
  if (n < DDR4_NEEDS) return TRUNCATED(ddr4_reads, n);
  if (b[2] != DDR4) return -(ROOSTCORD_NOT_DDR5 + 256 * b[2]);
  for (int32_t k = 0; k < DDR4_FIELDS; k++) {
    int32_t code = b[ddr4_fields[k].byte] & ddr4_fields[k].bits;
    if (code > ddr4_fields[k].last) return -(ROOSTCORD_UNKNOWN_CODE + 256 * (21 + k) + (1 << 20) * code);
  }
  for (int32_t k = 0; k < DDR4_TIMES; k++)
    if (ddr4_time(b, (size_t)k) < 0) return -(ROOSTCORD_NEGATIVE_TIME + 256 * (1 + k));
  numbers[ROOSTCORD_DDR4_MEGABITS] = megabits[b[4] & 15];
  numbers[ROOSTCORD_DDR4_IO_WIDTH] = io_widths[b[12] & 7];
  numbers[ROOSTCORD_DDR4_BUS_WIDTH] = bus_widths[b[13] & 7];
  for (size_t k = 0; k < 4; k++) numbers[ROOSTCORD_DDR4_TCK + k] = (uint32_t)ddr4_time(b, k); /* tCK, tAA, tRCD and tRP */
  numbers[ROOSTCORD_DDR4_TRAS] = 125u * (b[28] + b[27] % 16 * 256u);
  numbers[ROOSTCORD_DDR4_TRC] = (uint32_t)ddr4_time(b, 4);
  return DDR4_COUNT;
}

/* Its findings: how many numbers, or the refusal. */
static int32_t ddr4_findings_of(const uint8_t *b, size_t n, uint32_t *found) {
  uint32_t is[DDR4_COUNT];
  int32_t answer = ddr4_of(b, n, is);
  if (answer < 0) return answer;
  const uint32_t bus = is[ROOSTCORD_DDR4_BUS_WIDTH], io = is[ROOSTCORD_DDR4_IO_WIDTH], trcd = is[ROOSTCORD_DDR4_TRCD], tras = is[ROOSTCORD_DDR4_TRAS],
                 trc = is[ROOSTCORD_DDR4_TRC];
  enum { E = ROOSTCORD_SEVERITY_ERROR };
  const uint32_t rules[][ROOSTCORD_FINDING_COUNT] = {{1, E, 0, bus, io, 0}, {3, E, 1, tras, trcd, 0}, {3, E, 2, trc, tras, 0}};
  const int broken[] = {bus / io * io != bus, tras < trcd, trc < tras};
  int32_t put = 0;
  for (size_t k = 0; k < ROOSTCORD_DDR4_FINDINGS_MAX; k++)
    if (broken[k]) memcpy(found + put, rules[k], sizeof rules[k]), put += ROOSTCORD_FINDING_COUNT;
  return put;
}

static long ddr4_sets[1 << ROOSTCORD_DDR4_FINDINGS_MAX], ddr4_refused[1 + ROOSTCORD_NEGATIVE_TIME];

/* Counts the set of findings that came: bit 0 for code 1, and the bit of its sub for code 3. */
static void count_set(const uint32_t *found, int32_t numbers) {
  unsigned set = 0;
  for (int32_t k = 0; k < numbers; k += ROOSTCORD_FINDING_COUNT) set |= 1u << found[k + ROOSTCORD_FINDING_SUB];
  ddr4_sets[set]++;
}

/* Both calls on an image, against its bytes; the places behind the numbers, and all of them where it is refused, stay. */
static void ddr4_holds(const uint8_t *image, size_t n) {
  uint32_t list[LIST], wanted[LIST];
  memset(list, UNTOUCHED, sizeof list), memset(wanted, UNTOUCHED, sizeof wanted);
  int32_t answer = ddr4_of(image, n, wanted);
  CHECK(roostcord_ddr4(image, n, list, LIST) == answer && same(list, wanted, sizeof list));
  if (answer < 0) ddr4_refused[ROOSTCORD_NUMBER(answer)]++;
  memset(list, UNTOUCHED, sizeof list), memset(wanted, UNTOUCHED, sizeof wanted);
  answer = ddr4_findings_of(image, n, wanted);
  CHECK(roostcord_ddr4_lint(image, n, list, LIST) == answer && same(list, wanted, sizeof list));
  if (answer >= 0) count_set(wanted, answer);
}

/* Both calls into lists of every length at a guard page, of an image at another: short ones are refused 4 before all else, and stay. */
static void ddr4_lists(const uint8_t *image, size_t n) {
  uint8_t *edge = guarded_copy(image, n);
  for (size_t len = 0; len <= DDR4_NUMBERS + 3; len++) {
    uint32_t *list = (uint32_t *)guarded(4 * len), wanted[LIST];
    if (len) memset(list, UNTOUCHED, 4 * len);
    memset(wanted, UNTOUCHED, sizeof wanted);
    CHECK(roostcord_ddr4(edge, n, list, len) == (len < DDR4_COUNT ? -ROOSTCORD_LIST_TOO_SHORT : ddr4_of(image, n, wanted)) && same(list, wanted, 4 * len));
    if (len) memset(list, UNTOUCHED, 4 * len);
    memset(wanted, UNTOUCHED, sizeof wanted);
    CHECK(roostcord_ddr4_lint(edge, n, list, len) == (len < DDR4_NUMBERS ? -ROOSTCORD_LIST_TOO_SHORT : ddr4_findings_of(image, n, wanted)));
    CHECK(same(list, wanted, 4 * len));
    release((uint8_t *)list, 4 * len);
  }
  CHECK(same(edge, image, n));
  release(edge, n);
}

/* A DDR4-2400 module of 8 Gb dies, eight bits wide, on 64 bits: tCK 833, tAA, tRCD and tRP 13750, tRAS 32000, tRC 45750. */
static void make_ddr4(uint8_t image[IMAGE_MAX]) {
  memset(image, 0, IMAGE_MAX);
  image[2] = DDR4, image[4] = 0x85, image[12] = 1, image[13] = 3;
  image[18] = 7, image[125] = 0xD6, image[24] = image[25] = image[26] = 110;
  image[27] = 0x11, image[28] = 0, image[29] = 0x6E;
}

static void known_ddr4(void) {
  static const uint32_t known[DDR4_COUNT] = {8192, 8, 64, 833, 13750, 13750, 13750, 32000, 45750};
  uint8_t image[IMAGE_MAX];
  uint32_t list[LIST];
  make_ddr4(image);
  CHECK(roostcord_ddr4(image, DDR4_NEEDS, list, DDR4_COUNT) == DDR4_COUNT && same(list, known, sizeof known));
  CHECK(roostcord_ddr4_lint(image, DDR4_NEEDS, list, DDR4_NUMBERS) == 0);
  image[125] = 0x7F, image[121] = 0x80;
  CHECK(roostcord_ddr4(image, DDR4_NEEDS, list, DDR4_COUNT) == DDR4_COUNT && list[ROOSTCORD_DDR4_TCK] == 1002 && list[ROOSTCORD_DDR4_TRP] == 13622);
  memset(list, UNTOUCHED, sizeof list);
  CHECK(roostcord_ddr4(NULL, 0, list, DDR4_COUNT) == -(1 + 256 * 2) && roostcord_ddr4_lint(NULL, 0, list, DDR4_NUMBERS) == -(1 + 256 * 2));
  CHECK(roostcord_ddr4(NULL, 0, NULL, 0) == -4 && roostcord_ddr4_lint(NULL, 0, NULL, 0) == -4 && all((uint8_t *)list, sizeof list, UNTOUCHED));
}

/* Every units with every fine part, of each time; tRC has none above its byte here. */
static void ddr4_fine_parts(void) {
  uint8_t image[IMAGE_MAX];
  for (unsigned k = 0; k < DDR4_TIMES * 65536; k++) {
    size_t time = k / 65536;
    make_ddr4(image);
    if (time == DDR4_TIMES - 1) image[27] = 0x01;
    image[ddr4_times[time].units] = (uint8_t)(k >> 8), image[ddr4_times[time].fine] = (uint8_t)k;
    ddr4_holds(image, DDR4_NEEDS);
  }
}

/* Every value of byte 27 with every one of bytes 28 and 29, beside fine parts at their ends. */
static void ddr4_halves(void) {
  static const uint8_t fines[] = {0, 1, 0x7F, 0x80, 0xFF};
  uint8_t image[IMAGE_MAX];
  make_ddr4(image);
  for (unsigned k = 0; k < 2 * 65536; k++) {
    image[28] = 0x40, image[29] = 0x80, image[28 + k / 65536] = (uint8_t)k;
    image[27] = (uint8_t)(k >> 8), image[120] = fines[k % sizeof fines];
    image[25] = (uint8_t)(k % 3 ? 110 : k % 256), image[122] = fines[k / 3 % sizeof fines]; /* tRCD, below tRAS, above it, or beside it */
    ddr4_holds(image, DDR4_NEEDS);
  }
}

/* What spoils an image, for each refusal that comes behind 1, in their order. */
enum { SPOILERS = 2 + DDR4_FIELDS };
static void spoil(uint8_t *image, unsigned which) {
  if (which & 1) image[2] = DDR5;
  for (size_t k = 0; k < DDR4_FIELDS; k++)
    if (which >> (1 + k) & 1) image[ddr4_fields[k].byte] = 0xFF;
  if (which >> (1 + DDR4_FIELDS) & 1) image[26] = 0, image[121] = 0xFF; /* tRP is -1 */
}

/* Every value of every byte that has a code, and of byte 2, beside each set of the others that are spoilt: which refusal comes first. */
static void ddr4_codes(void) {
  static const size_t bytes[] = {2, 17, 4, 12, 13};
  enum { BYTES = sizeof bytes / sizeof *bytes };
  uint8_t image[IMAGE_MAX];
  for (unsigned k = 0; k < BYTES * 256 << SPOILERS; k++) {
    make_ddr4(image);
    spoil(image, k >> 8 & ((1u << SPOILERS) - 1));
    image[bytes[k >> (8 + SPOILERS)]] = (uint8_t)k;
    ddr4_holds(image, DDR4_NEEDS);
  }
}

/* Every length up to that of a whole image, at a guard page, beside each set that is spoilt: refusal 1 comes before it. */
static void ddr4_lengths(void) {
  uint8_t image[IMAGE_MAX];
  for (unsigned k = 0; k < (DDR4_NEEDS + 2) << SPOILERS; k++) {
    size_t n = k >> SPOILERS;
    make_ddr4(image);
    spoil(image, k & ((1u << SPOILERS) - 1));
    uint8_t *edge = guarded_copy(image, n);
    ddr4_holds(edge, n);
    release(edge, n);
    if (k % 64 == 0 || k % 64 == 63) ddr4_lists(image, n);
  }
  static const int32_t lacks[][2] = {{0, 2},   {2, 2},   {3, 4},    {5, 12},    {13, 13},   {14, 17},   {18, 18},
                                     {19, 24}, {29, 29}, {30, 120}, {119, 120}, {123, 123}, {124, 125}, {125, 125}};
  for (size_t k = 0; k < sizeof lacks / sizeof *lacks; k++) CHECK(TRUNCATED(ddr4_reads, (size_t)lacks[k][0]) == -(1 + 256 * lacks[k][1]));
}

/* Every set of times that are below zero: the first is told. */
static void ddr4_negative(void) {
  uint8_t image[IMAGE_MAX];
  for (unsigned which = 0; which < 1u << DDR4_TIMES; which++) {
    make_ddr4(image);
    for (size_t k = 0; k < DDR4_TIMES; k++)
      if (which >> k & 1) image[ddr4_times[k].units] = 1, image[ddr4_times[k].fine] = 0x82; /* 125 - 126 */
    if (which >> (DDR4_TIMES - 1) & 1) image[27] &= 0x0F;
    ddr4_holds(image, DDR4_NEEDS);
    ddr4_lists(image, DDR4_NEEDS);
  }
}

/* Every bus with every device, beside times in every order: each set of findings comes. */
static void ddr4_findings(void) {
  static const uint8_t units[] = {79, 80, 81}, fines[] = {0xFF, 0, 1};
  uint8_t image[IMAGE_MAX];
  for (unsigned k = 0; k < 16 * 81 * 3; k++) {
    make_ddr4(image);
    image[12] = (uint8_t)(k % 4 + 0xF8), image[13] = (uint8_t)(k / 4 % 4 + 0xF8), image[27] = 0;
    image[25] = units[k / 16 % 3], image[122] = fines[k / 48 % 3], image[28] = units[k / 144 % 3];
    image[29] = units[k / 432 % 3], image[120] = fines[k / 1296];
    ddr4_holds(image, DDR4_NEEDS);
    if (k % 7 == 0) ddr4_lists(image, DDR4_NEEDS);
  }
}

/* No other byte counts, and no bytes behind; and images of random bytes, of which some decode. */
static void ddr4_random(void) {
  struct unruly lot = unruly(NULL, 0, 2028, 0);
  uint8_t image[IMAGE_MAX];
  for (unsigned k = 0; k < 40000; k++) {
    for (size_t i = 0; i < 160; i++) image[i] = (uint8_t)pick(&lot, 256);
    if (k % 8) image[2] = DDR4, image[17] &= 0xF0;
    if (k % 4) image[4] &= 0xF7, image[12] &= 0xFB, image[13] &= 0xFB;
    ddr4_holds(image, k % 16 ? 160 : pick(&lot, 160));
  }
  for (size_t at = 0; at < IMAGE_MAX; at++) {
    make_ddr4(image);
    image[at] = 0xFF;
    ddr4_holds(image, IMAGE_MAX);
  }
}

static void every_ddr4(void) {
  known_ddr4();
  ddr4_fine_parts();
  ddr4_halves();
  ddr4_codes();
  ddr4_lengths();
  ddr4_negative();
  ddr4_findings();
  ddr4_random();
  for (size_t k = 0; k < sizeof ddr4_sets / sizeof *ddr4_sets; k++) CHECK(ddr4_sets[k] > 50); /* or a set of findings was not tried */
  CHECK(ddr4_refused[1] > 100 && ddr4_refused[2] > 100 && ddr4_refused[3] > 100 && ddr4_refused[15] > 100);
}

int main(int argc, char **argv) {
  static uint8_t image[2 * IMAGE_MAX];
  if (argc < 2) {
    fputs("usage: library IMAGE...\n", stderr);
    return 2;
  }
  CHECK(roostcord_version() == ROOSTCORD_VERSION);
  for (int i = 1; i < argc; i++) {
    FILE *file = fopen(argv[i], "rb");
    if (!file) {
      perror(argv[i]);
      return 2;
    }
    size_t n = fread(image, 1, sizeof image, file);
    fclose(file);
    static const size_t lengths[] = {0,  1,   5,   7,   8,   15,  16,  19,  20,  28,  29,  30,  47,  48,  69,  70,
                                     93, 94,  100, 127, 128, 191, 192, 229, 230, 234, 235, 236, 239, 240, 509, 510,
                                     511, 512, 513, 530, 554, 555, 556, 1024};
    for (size_t k = 0; k < sizeof lengths / sizeof *lengths; k++) {
      size_t len = lengths[k] < n ? lengths[k] : n;
      uint8_t *edge = guarded(len);
      if (len) memcpy(edge, image, len);
      every_report_length(edge, len, ROOSTCORD_EDITION_2);
      every_list_length(edge, len);
      release(edge, len);
    }
    if (n > IMAGE_MAX) n = IMAGE_MAX;
    every_refusal(image, n);
    every_block(image, n);
    every_crc(image, n);
    pieces(image, n);
    editions(image, n);
    CHECK(n > 2 * BURST); /* or the feeding loop is not tried */
    if (n <= 2 * BURST) continue;
    unruly_runs(image, n);
    burst_twice(image, n);
    refused_not_kept(image, n);
    giving_up(image);
    streams(image, n);
    files(image, n);
  }
  largest_report();
  known_crcs();
  every_clock();
  every_ddr4();
  fresh_states();
  unknown_states();
  random_states();
  printf("test: %ld checks, %ld faults\n", checks, faults);
  return faults != 0;
}
