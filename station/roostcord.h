/* roostcord.h: the Roostcord library, libroostcord.a. C99 and C++.
 *
 * Every call comes back with one number, whatever it is lent.
 *
 *   0 or more     It was done. The number counts what was written: bytes of a report or part number, numbers of a list, bytes taken. Of
 *                 the calls that write nothing it is the answer itself: whether a CRC fits, which read is sound.
 *   below 0       It was refused. Nothing was written: every lent buffer is as it was before the call.
 *
 * A refusal has a number, and some carry one or two values. Three macros take them out of the answer. For example, 16 bytes of an image
 * are taken, and offset 0 comes again:
 *
 *   int32_t answer = roostcord_pieces_feed(state, sizeof state, 0, bytes, 16);
 *
 * The answer is -4101. ROOSTCORD_REFUSED(answer) is true, so nothing was taken. ROOSTCORD_NUMBER(answer) is 5, ROOSTCORD_WRONG_OFFSET.
 * ROOSTCORD_FIRST(answer) is 16, the offset to read at. (4101 is 5 + 256 * 16.)
 *
 * What the caller owes, since no library can see it: each pointer leads to that many initialised elements (NULL is fine with a
 * count of 0), a uint32_t or uint16_t pointer is aligned as its type asks, no two lent buffers of one call overlap, and nothing
 * else writes a lent buffer, or reads one that the call writes, while the call runs.
 *
 * From 2.1.0 to 2.2.0: two calls and refusal 15 are new, for DDR4. All other calls answer as they did.
 * From 2.0.0 to 2.1.0: roostcord_clocks and roostcord_pieces_clocks round as JEDEC does, so a count may be lower than it was, and a time
 * of 0 counts 1. No call is new, and all other calls answer as they did.
 * From 1.3.0 to 2.0.0: roostcord_lint and roostcord_pieces_fresh take the edition of the ladder, one argument more, so a caller must be
 * changed and compiled anew; refusal 14 is new. With ROOSTCORD_EDITION_2 both answer as they did, and so do all other calls. A state that
 * was made by 1.2.0 or 1.3.0 is one of edition 2.
 * From 1.2.0 to 1.3.0: three calls and refusal 21 are new, all for the base CRC. All other calls answer as they did.
 * From 1.1.0 to 1.2.0: ROOSTCORD_STATE_SIZE is 557, where it was 512. A caller that was compiled against 512 gets refusal 4 from every
 * pieces call until it is compiled anew. Four calls and refusal 13 are new. All other calls answer as they did.
 */
#ifndef ROOSTCORD_H
#define ROOSTCORD_H

#include <stddef.h>
#include <stdint.h>

/*---- the version of this header ----*/

#define ROOSTCORD_VERSION_MAJOR 2
#define ROOSTCORD_VERSION_MINOR 2
#define ROOSTCORD_VERSION_PATCH 0
/* as one number, which grows with every version, and as text: "2.2.0" */
#define ROOSTCORD_VERSION (ROOSTCORD_VERSION_MAJOR * 65536 + ROOSTCORD_VERSION_MINOR * 256 + ROOSTCORD_VERSION_PATCH)
#define ROOSTCORD_VERSION_STRING \
  ROOSTCORD_TEXT(ROOSTCORD_VERSION_MAJOR) "." ROOSTCORD_TEXT(ROOSTCORD_VERSION_MINOR) "." ROOSTCORD_TEXT(ROOSTCORD_VERSION_PATCH)
#define ROOSTCORD_TEXT(word) ROOSTCORD_QUOTED(word)
#define ROOSTCORD_QUOTED(word) #word

/* An answer that is dropped is a refusal that nobody sees. Compilers that can warn of it are asked to. */
#if defined(__cplusplus) && __cplusplus >= 201703L
#define ROOSTCORD_MUST_USE [[nodiscard]]
#elif !defined(__cplusplus) && defined(__STDC_VERSION__) && __STDC_VERSION__ >= 202311L
#define ROOSTCORD_MUST_USE [[nodiscard]]
#elif defined(__GNUC__)
#define ROOSTCORD_MUST_USE __attribute__((warn_unused_result))
#else
#define ROOSTCORD_MUST_USE
#endif

#ifdef __cplusplus
extern "C" {
#endif

/*---- refusals ----*/

/* An answer below zero is minus (number + 256 * first value + 2^20 * second value). These take it apart. */
#define ROOSTCORD_REFUSED(answer) ((answer) < 0)
#define ROOSTCORD_NUMBER(answer) (-(answer) & 0xFF)
#define ROOSTCORD_FIRST(answer) ((-(answer) >> 8) & 0xFFF)
#define ROOSTCORD_SECOND(answer) ((-(answer) >> 20) & 0x3FF)

/* Refusal numbers. What is not said to carry a value carries none. */
enum {
  ROOSTCORD_TRUNCATED = 1,         /* the image lacks a byte that is read; first: the smallest such offset */
  ROOSTCORD_NOT_DDR5 = 2,          /* byte 2 is not that of the call, 0x12 for DDR5 and 0x0C for DDR4; first: the byte */
  ROOSTCORD_UNKNOWN_CODE = 3,      /* a code outside its table; first: the field, ROOSTCORD_FIELD_..; second: the code */
  ROOSTCORD_LIST_TOO_SHORT = 4,    /* the lent list or state has too few places */
  ROOSTCORD_WRONG_OFFSET = 5,      /* the piece's offset is not the count taken; first: that count */
  ROOSTCORD_TOO_LONG = 6,          /* the total would pass 2,048 bytes */
  ROOSTCORD_ZERO_CLOCK = 7,        /* a clock table with tCKmin 0 */
  ROOSTCORD_BUFFER_TOO_SMALL = 8,  /* the buffer is too small for the report */
  ROOSTCORD_REPORT_CUT = 9,        /* fewer bytes than the report says it has, or fewer than two */
  ROOSTCORD_REPORT_VERSION = 10,   /* a report of another version than 1 */
  ROOSTCORD_REPORT_MALFORMED = 11, /* no report of version 1 */
  ROOSTCORD_WRONG_DATE = 13,       /* strict: a date byte is not two decimal digits, or the week is not 1 to 53 */
  ROOSTCORD_UNKNOWN_EDITION = 14,  /* the ladder has no such edition */
  ROOSTCORD_NEGATIVE_TIME = 15,    /* a time of a DDR4 image is below zero; first: which one, ROOSTCORD_DDR4_TIME_.. */
  ROOSTCORD_NEITHER_SOUND = 21     /* of two reads neither is long enough and has a base CRC that fits */
};

/* The fields of refusal 3, in the order in which they are checked; from 21 on they are those of DDR4. */
enum {
  ROOSTCORD_FIELD_SPD_BYTES = 1,       /* byte 0, bits 6-4 */
  ROOSTCORD_FIELD_MODULE_TYPE = 2,     /* byte 3, bits 3-0 */
  ROOSTCORD_FIELD_DIE_GIGABITS = 3,    /* byte 4, bits 4-0 */
  ROOSTCORD_FIELD_PACKAGE = 4,         /* byte 4, bits 7-5 */
  ROOSTCORD_FIELD_IO_WIDTH = 5,        /* byte 6, bits 7-5 */
  ROOSTCORD_FIELD_BANK_GROUPS = 6,     /* byte 7, bits 7-5 */
  ROOSTCORD_FIELD_BANKS_PER_GROUP = 7, /* byte 7, bits 2-0 */
  ROOSTCORD_FIELD_BUS_WIDTH = 8,       /* byte 235, bits 2-0 */
  ROOSTCORD_FIELD_CHANNELS = 9,        /* byte 235, bits 7-5 */
  ROOSTCORD_FIELD_DDR4_TIMEBASE = 21,  /* byte 17, bits 3-0 */
  ROOSTCORD_FIELD_DDR4_DENSITY = 22,   /* byte 4, bits 3-0 */
  ROOSTCORD_FIELD_DDR4_IO_WIDTH = 23,  /* byte 12, bits 2-0 */
  ROOSTCORD_FIELD_DDR4_BUS_WIDTH = 24  /* byte 13, bits 2-0 */
};

/* The times of refusal 15, in the order in which they are looked at. tRAS has no fine part, and so is never below zero. */
enum {
  ROOSTCORD_DDR4_TIME_TCK = 1,
  ROOSTCORD_DDR4_TIME_TAA = 2,
  ROOSTCORD_DDR4_TIME_TRCD = 3,
  ROOSTCORD_DDR4_TIME_TRP = 4,
  ROOSTCORD_DDR4_TIME_TRC = 5
};

/*---- sizes ----*/

enum {
  ROOSTCORD_IMAGE_MAX = 2048,     /* of an image that is fed in pieces; the whole-image calls take any length */
  ROOSTCORD_STATE_SIZE = 557,     /* the count and the edition in two bytes, and the first 555 of the image; 512 before 1.2.0 */
  ROOSTCORD_IDENTITY_NEEDS = 236, /* bytes of an image, up to the last that is read; a shorter one is refused 1 */
  ROOSTCORD_TIMINGS_NEED = 94,
  ROOSTCORD_MANUFACTURING_NEEDS = 555,
  ROOSTCORD_CRC_NEEDS = 512,
  ROOSTCORD_DDR4_NEEDS = 126,
  ROOSTCORD_IDENTITY_COUNT = 18, /* numbers of a list */
  ROOSTCORD_TIMINGS_COUNT = 30,
  ROOSTCORD_CLOCKS_COUNT = 9,
  ROOSTCORD_MANUFACTURING_COUNT = 11,
  ROOSTCORD_DDR4_COUNT = 9,
  ROOSTCORD_CAS_LATENCIES_MAX = 40,
  ROOSTCORD_PART_NUMBER_MAX = 30, /* bytes of a part number */
  ROOSTCORD_FINDINGS_MAX = 15,
  ROOSTCORD_FINDING_COUNT = 6,   /* numbers of a finding */
  ROOSTCORD_REPORT_NUMBERS = 91, /* the flags and six numbers for each of fifteen findings: no report has more */
  ROOSTCORD_REPORT_MAX = 215,    /* no report has more bytes */
  ROOSTCORD_DDR4_FINDINGS_MAX = 3,
  ROOSTCORD_DDR4_NUMBERS = 18 /* six numbers for each of them */
};

/*---- the editions of the ladder ----*/

/* The ladder has the data rates that are standard, in steps of 400 MT/s. Code 7 alone goes by it: the findings under edition 1 are those
 * under edition 2 and, where the rate is 6800, 7200 and so on up to 8800, one of code 7 behind them. */
enum {
  ROOSTCORD_EDITION_1 = 1, /* 3200 to 6400 */
  ROOSTCORD_EDITION_2 = 2  /* 3200 to 8800: the present one */
};

/*---- the numbers of a report ----*/

/* Their places: the flags, and from ROOSTCORD_REPORT_FINDINGS on six numbers for each finding. */
enum { ROOSTCORD_REPORT_FLAGS = 0, ROOSTCORD_REPORT_FINDINGS = 1 };

/* The bits of the flags: that record was decoded. */
enum { ROOSTCORD_FLAG_IDENTITY = 1, ROOSTCORD_FLAG_TIMINGS = 2 };

/* The places within a finding. Numbers that a code does not list are 0. */
enum {
  ROOSTCORD_FINDING_CODE,
  ROOSTCORD_FINDING_SEVERITY,
  ROOSTCORD_FINDING_SUB,
  ROOSTCORD_FINDING_FIRST,
  ROOSTCORD_FINDING_SECOND,
  ROOSTCORD_FINDING_THIRD
};

/* Codes, with the numbers that they list. Times are in picoseconds. */
enum {
  ROOSTCORD_CODE_NON_INTEGER_DEVICE_COUNT = 1,  /* error: bus width, I/O width */
  ROOSTCORD_CODE_TRC_IDENTITY_MISMATCH = 2,     /* error: tRC, tRAS, tRP */
  ROOSTCORD_CODE_TIMING_ORDERING_VIOLATION = 3, /* error: the time that must be the larger, the other */
  ROOSTCORD_CODE_NON_INTEGER_CAS_LATENCY = 4,   /* warning: tAA, tCK */
  ROOSTCORD_CODE_CAS_LATENCY_NOT_SUPPORTED = 5, /* error: the latency */
  ROOSTCORD_CODE_NON_INTEGER_CLOCK_TIMING = 6,  /* warning: the time, tCK */
  ROOSTCORD_CODE_NON_STANDARD_DATA_RATE = 7,    /* info: MT/s, which are not on the ladder */
  ROOSTCORD_CODE_RESERVED_BYTES_NONZERO = 8,    /* warning: offset and value of the first such byte of a region */
  ROOSTCORD_CODE_PACKAGE_DIE_COUNT_MISMATCH = 9 /* error: dies */
};

enum { ROOSTCORD_SEVERITY_ERROR = 0, ROOSTCORD_SEVERITY_WARNING = 1, ROOSTCORD_SEVERITY_INFO = 2 };

/* Subs: which times, or which package. The other codes have none. */
enum {
  ROOSTCORD_SUB_NONE = 0,
  ROOSTCORD_SUB_TRAS_TRCD = 1, /* code 3 */
  ROOSTCORD_SUB_TRC_TRAS = 2,
  ROOSTCORD_SUB_TRCD = 1, /* code 6 */
  ROOSTCORD_SUB_TRP = 2,
  ROOSTCORD_SUB_MONOLITHIC = 1, /* code 9 */
  ROOSTCORD_SUB_DUAL_DIE = 2,
  ROOSTCORD_SUB_3DS = 3
};

/*---- the numbers of the records ----*/

/* Their places in the list of roostcord_identity. */
enum {
  ROOSTCORD_IDENTITY_SPD_BYTES,
  ROOSTCORD_IDENTITY_REVISION_MAJOR,
  ROOSTCORD_IDENTITY_REVISION_MINOR,
  ROOSTCORD_IDENTITY_DEVICE_TYPE, /* byte 2: ROOSTCORD_DEVICE_DDR5, since this call decodes nothing else */
  ROOSTCORD_IDENTITY_MODULE_TYPE, /* ROOSTCORD_MODULE_.. */
  ROOSTCORD_IDENTITY_HYBRID,      /* 0 or 1 */
  ROOSTCORD_IDENTITY_DIE_GIGABITS,
  ROOSTCORD_IDENTITY_PACKAGE, /* ROOSTCORD_PACKAGE_.. */
  ROOSTCORD_IDENTITY_DIES,
  ROOSTCORD_IDENTITY_ROW_BITS,
  ROOSTCORD_IDENTITY_COLUMN_BITS,
  ROOSTCORD_IDENTITY_IO_WIDTH,
  ROOSTCORD_IDENTITY_BANK_GROUPS,
  ROOSTCORD_IDENTITY_BANKS_PER_GROUP,
  ROOSTCORD_IDENTITY_RANKS,
  ROOSTCORD_IDENTITY_ASYMMETRIC, /* 0 or 1 */
  ROOSTCORD_IDENTITY_CHANNELS,
  ROOSTCORD_IDENTITY_BUS_WIDTH
};

/* Byte 2 of an image. */
enum { ROOSTCORD_DEVICE_DDR4 = 0x0C, ROOSTCORD_DEVICE_DDR5 = 0x12 };

enum {
  ROOSTCORD_MODULE_RDIMM = 1,
  ROOSTCORD_MODULE_UDIMM = 2,
  ROOSTCORD_MODULE_SODIMM = 3,
  ROOSTCORD_MODULE_LRDIMM = 4,
  ROOSTCORD_MODULE_CUDIMM = 5,
  ROOSTCORD_MODULE_CSOUDIMM = 6,
  ROOSTCORD_MODULE_MRDIMM = 7,
  ROOSTCORD_MODULE_CAMM2 = 8,
  ROOSTCORD_MODULE_DDIMM = 10,
  ROOSTCORD_MODULE_SOLDER_DOWN = 11
};

enum { ROOSTCORD_PACKAGE_MONOLITHIC = 1, ROOSTCORD_PACKAGE_DUAL_DIE = 2, ROOSTCORD_PACKAGE_3DS = 3 };

/* Places in the list of roostcord_timings. Times are in picoseconds; the last eight are followed by their least count of clocks. */
enum {
  ROOSTCORD_TIMINGS_TCK_MIN,
  ROOSTCORD_TIMINGS_TCK_MAX,
  ROOSTCORD_TIMINGS_CAS_LOW,  /* the low 32 bits of the CAS mask: bit k stands for CL 20 + 2k */
  ROOSTCORD_TIMINGS_CAS_HIGH, /* its high 8 */
  ROOSTCORD_TIMINGS_TAA,
  ROOSTCORD_TIMINGS_TRCD,
  ROOSTCORD_TIMINGS_TRP,
  ROOSTCORD_TIMINGS_TRAS,
  ROOSTCORD_TIMINGS_TRC,
  ROOSTCORD_TIMINGS_TWR,
  ROOSTCORD_TIMINGS_TRFC1,
  ROOSTCORD_TIMINGS_TRFC2,
  ROOSTCORD_TIMINGS_TRFCSB,
  ROOSTCORD_TIMINGS_TRRD_L,
  ROOSTCORD_TIMINGS_TRRD_L_CLOCKS,
  ROOSTCORD_TIMINGS_TCCD_L,
  ROOSTCORD_TIMINGS_TCCD_L_CLOCKS,
  ROOSTCORD_TIMINGS_TCCD_L_WR,
  ROOSTCORD_TIMINGS_TCCD_L_WR_CLOCKS,
  ROOSTCORD_TIMINGS_TCCD_L_WR2,
  ROOSTCORD_TIMINGS_TCCD_L_WR2_CLOCKS,
  ROOSTCORD_TIMINGS_TFAW,
  ROOSTCORD_TIMINGS_TFAW_CLOCKS,
  ROOSTCORD_TIMINGS_TWTR_L,
  ROOSTCORD_TIMINGS_TWTR_L_CLOCKS,
  ROOSTCORD_TIMINGS_TWTR_S,
  ROOSTCORD_TIMINGS_TWTR_S_CLOCKS,
  ROOSTCORD_TIMINGS_TRTP,
  ROOSTCORD_TIMINGS_TRTP_CLOCKS,
  ROOSTCORD_TIMINGS_DATA_RATE /* MT/s */
};

/* Places in the list of roostcord_clocks: the same times, in the same order, as from ROOSTCORD_TIMINGS_TAA on. */
enum {
  ROOSTCORD_CLOCKS_TAA,
  ROOSTCORD_CLOCKS_TRCD,
  ROOSTCORD_CLOCKS_TRP,
  ROOSTCORD_CLOCKS_TRAS,
  ROOSTCORD_CLOCKS_TRC,
  ROOSTCORD_CLOCKS_TWR,
  ROOSTCORD_CLOCKS_TRFC1,
  ROOSTCORD_CLOCKS_TRFC2,
  ROOSTCORD_CLOCKS_TRFCSB
};

/* Places in the list of roostcord_manufacturing, with the bytes that they are read from. A bank is the low seven bits of its byte plus 1,
 * a code the low seven. A decimal byte is ten times its high four bits plus its low four: 0x26 is 26, and 0xFF is 165. */
enum {
  ROOSTCORD_MANUFACTURING_MODULE_BANK, /* 512 */
  ROOSTCORD_MANUFACTURING_MODULE_CODE, /* 513 */
  ROOSTCORD_MANUFACTURING_PLACE,       /* 514 */
  ROOSTCORD_MANUFACTURING_YEAR,        /* 515, decimal, plus 2000 */
  ROOSTCORD_MANUFACTURING_WEEK,        /* 516, decimal */
  ROOSTCORD_MANUFACTURING_SERIAL,      /* 517 to 520, the first the highest */
  ROOSTCORD_MANUFACTURING_REVISION,    /* 551 */
  ROOSTCORD_MANUFACTURING_DRAM_BANK,   /* 552 */
  ROOSTCORD_MANUFACTURING_DRAM_CODE,   /* 553 */
  ROOSTCORD_MANUFACTURING_STEPPING,    /* 554, of the DRAM */
  ROOSTCORD_MANUFACTURING_PART_LENGTH  /* 521 to 550: bytes of the part number, without the spaces that end it */
};

/* Places in the list of roostcord_ddr4, with the bytes that they are read from. A time is 125 picoseconds for each unit, plus its fine
 * part, which is a byte from -128 to 127. */
enum {
  ROOSTCORD_DDR4_MEGABITS,  /* of a die: 256 << bits 3-0 of byte 4 */
  ROOSTCORD_DDR4_IO_WIDTH,  /* of a device: 4 << bits 2-0 of byte 12 */
  ROOSTCORD_DDR4_BUS_WIDTH, /* 8 << bits 2-0 of byte 13 */
  ROOSTCORD_DDR4_TCK,       /* units in byte 18, fine part in 125 */
  ROOSTCORD_DDR4_TAA,       /* units in 24, fine part in 123 */
  ROOSTCORD_DDR4_TRCD,      /* units in 25, fine part in 122 */
  ROOSTCORD_DDR4_TRP,       /* units in 26, fine part in 121 */
  ROOSTCORD_DDR4_TRAS,      /* units in 28, and above these in bits 3-0 of 27; no fine part */
  ROOSTCORD_DDR4_TRC        /* units in 29, and above these in bits 7-4 of 27; fine part in 120 */
};

/* How a date is taken: as it is, or refused where it is none. */
enum { ROOSTCORD_DATE_AS_IS = 0, ROOSTCORD_DATE_STRICT = 1 };

/*---- the base CRC ----*/

/* What roostcord_crc and roostcord_pieces_crc answer where they do not refuse. */
enum { ROOSTCORD_CRC_WRONG = 0, ROOSTCORD_CRC_FITS = 1 };

/* What roostcord_sound_read answers where it does not refuse. */
enum { ROOSTCORD_FIRST_READ = 1, ROOSTCORD_SECOND_READ = 2 };

/*---- the calls: what each does, what it answers, and when it refuses, in that order ----*/

/* Tells the version of the library that is linked.
 * Answers a number like ROOSTCORD_VERSION; where the two differ, header and library are not of one build.
 * Never refuses. */
ROOSTCORD_MUST_USE uint32_t roostcord_version(void);

/* Lints an image under `edition`, ROOSTCORD_EDITION_.., and writes the report, version 1: two bytes, high first, that count the bytes
 * behind them; 1; the flags; the number of findings; and for each finding fourteen bytes: code, sub, and three 32-bit numbers, high byte
 * first. The edition is not in it.
 * Answers the count of bytes written, at most ROOSTCORD_REPORT_MAX.
 * Refuses 14 for any other edition; 8 where report_len is less than that count. An image that cannot be decoded is not refused: the flags
 * of its report say so, and roostcord_identity and roostcord_timings tell why. */
ROOSTCORD_MUST_USE int32_t roostcord_lint(const uint8_t *image, size_t image_len, uint32_t edition, uint8_t *report, size_t report_len);

/* Reads a report, version 1, into a list of numbers: the flags, and ROOSTCORD_FINDING_COUNT for each finding. Bytes behind the report
 * are not looked at.
 * Answers the count of numbers: 1 + 6 * findings.
 * Refuses 4 where out_len is less than ROOSTCORD_REPORT_NUMBERS; 9; 11 for a report of length 0; 10; 11 for all else. */
ROOSTCORD_MUST_USE int32_t roostcord_report(const uint8_t *report, size_t report_len, uint32_t *out, size_t out_len);

/* Decodes the identity of an image into a list of numbers; ROOSTCORD_IDENTITY_.. are their places.
 * Answers ROOSTCORD_IDENTITY_COUNT.
 * Refuses 4 where out_len is less than that; 1 where one of bytes 0 to 7, 234 and 235 is missing, which is below ROOSTCORD_IDENTITY_NEEDS
 * bytes; 3 for the first field; 2; 3 for the other fields in their order. */
ROOSTCORD_MUST_USE int32_t roostcord_identity(const uint8_t *image, size_t image_len, uint32_t *out, size_t out_len);

/* Decodes the timings of an image into a list of numbers; ROOSTCORD_TIMINGS_.. are their places.
 * Answers ROOSTCORD_TIMINGS_COUNT.
 * Refuses 4 where out_len is less than that; 1 where one of bytes 20 to 28, 30 to 47 and 70 to 93 is missing, which is below
 * ROOSTCORD_TIMINGS_NEED bytes. */
ROOSTCORD_MUST_USE int32_t roostcord_timings(const uint8_t *image, size_t image_len, uint32_t *out, size_t out_len);

/* Lists the CAS latencies that an image supports, ascending.
 * Answers how many there are, 0 to ROOSTCORD_CAS_LATENCIES_MAX.
 * Refuses 4 where out_len is less than ROOSTCORD_CAS_LATENCIES_MAX, however few there are; 1 as roostcord_timings does. */
ROOSTCORD_MUST_USE int32_t roostcord_cas_latencies(const uint8_t *image, size_t image_len, uint16_t *out, size_t out_len);

/* Counts nine times of an image in clocks of tCKmin; ROOSTCORD_CLOCKS_.. are their places. A count is (time * 997 / tCKmin + 1000) / 1000,
 * each division rounded down, as JEDEC rounds it; so a time of 0 counts 1.
 * Answers ROOSTCORD_CLOCKS_COUNT.
 * Refuses 4 where out_len is less than that; 1 as roostcord_timings does; 7. */
ROOSTCORD_MUST_USE int32_t roostcord_clocks(const uint8_t *image, size_t image_len, uint32_t *out, size_t out_len);

/* Decodes the manufacturing block of an image into a list of numbers; ROOSTCORD_MANUFACTURING_.. are their places. No other byte is read,
 * so an image whose identity is refused may have a block. `strict` is ROOSTCORD_DATE_AS_IS or ROOSTCORD_DATE_STRICT; any other number
 * counts as the latter.
 * Answers ROOSTCORD_MANUFACTURING_COUNT.
 * Refuses 4 where out_len is less than that; 1 where one of bytes 512 to 554 is missing, which is below ROOSTCORD_MANUFACTURING_NEEDS
 * bytes; 13, and that only if it is strict. */
ROOSTCORD_MUST_USE int32_t roostcord_manufacturing(const uint8_t *image, size_t image_len, uint32_t strict, uint32_t *out, size_t out_len);

/* Writes the part number of an image: bytes 521 to 550 without the spaces (0x20) that end them. Nothing else is taken away, so any byte
 * may be in it, 0 too; and no 0 is put behind it.
 * Answers how many bytes it has, 0 to ROOSTCORD_PART_NUMBER_MAX.
 * Refuses 4 where out_len is less than ROOSTCORD_PART_NUMBER_MAX, however few there are; 1 as roostcord_manufacturing does. */
ROOSTCORD_MUST_USE int32_t roostcord_part_number(const uint8_t *image, size_t image_len, uint8_t *out, size_t out_len);

/* Checks the base CRC of an image: the CRC of bytes 0 to 509 (polynomial 0x1021, start 0, high bit first) against the one that is stored
 * at 510, low byte first. Where the image is fed in pieces, ask roostcord_pieces_crc: what is checked must be what was taken, not a copy
 * that the reader holds.
 * Answers ROOSTCORD_CRC_FITS or ROOSTCORD_CRC_WRONG.
 * Refuses 1 where one of bytes 0 to 511 is missing, which is below ROOSTCORD_CRC_NEEDS bytes. */
ROOSTCORD_MUST_USE int32_t roostcord_crc(const uint8_t *image, size_t image_len);

/* Tells which of two reads of one module is sound: long enough, and with a base CRC that fits. The first, if both are. For reads that are
 * fed in pieces ask each state by roostcord_pieces_crc, and take the first that answers ROOSTCORD_CRC_FITS.
 * Answers ROOSTCORD_FIRST_READ or ROOSTCORD_SECOND_READ; bytes 0 to 511 of that read are its base block.
 * Refuses 21 where neither is. */
ROOSTCORD_MUST_USE int32_t roostcord_sound_read(const uint8_t *first, size_t first_len, const uint8_t *second, size_t second_len);

/* Decodes the sizes and times of a DDR4 image into a list of numbers; ROOSTCORD_DDR4_.. are their places. It takes a whole image. Where one
 * arrives in pieces, keep beside the state each piece that the state took, at the offset at which it took it, and no other piece.
 * Answers ROOSTCORD_DDR4_COUNT.
 * Refuses 4 where out_len is less than that; 1 where one of bytes 2, 4, 12, 13, 17, 18, 24 to 29, 120 to 123 and 125 is missing, which is
 * below ROOSTCORD_DDR4_NEEDS bytes; 2 where byte 2 is not ROOSTCORD_DEVICE_DDR4; 3 for the fields from 21 on in their order; 15. */
ROOSTCORD_MUST_USE int32_t roostcord_ddr4(const uint8_t *image, size_t image_len, uint32_t *out, size_t out_len);

/* Lints a DDR4 image: ROOSTCORD_FINDING_COUNT numbers for each finding, in the order of the codes. They are code 1, and code 3 with either
 * sub, as of DDR5.
 * Answers the count of numbers: 6 * findings, 0 to ROOSTCORD_DDR4_NUMBERS.
 * Refuses 4 where out_len is less than ROOSTCORD_DDR4_NUMBERS, however few there are; then as roostcord_ddr4 does. */
ROOSTCORD_MUST_USE int32_t roostcord_ddr4_lint(const uint8_t *image, size_t image_len, uint32_t *out, size_t out_len);

/*---- an image that arrives in pieces ----
 *
 * The state is the first 557 bytes of `state`; the caller keeps it between calls and writes it by these calls alone. A piece goes with
 * the offset at which its bytes were read. It is taken exactly when that is the count of bytes taken and the total stays within 2,048.
 * After refusal 5, read again at the count that it carries: to send the same bytes with that offset would put them where they do not
 * belong, and no library can see it.
 *
 * The state keeps the edition that it was made with: bit 4 of byte 1 is set for ROOSTCORD_EDITION_1. Byte 0 and bits 3-0 of byte 1, which
 * are the high ones, count the bytes taken. Bits 7-5 mean nothing, and are 0 once a piece was taken. So any bytes are a state, and 557 of 0
 * are one of ROOSTCORD_EDITION_2 that has taken nothing. */

/* Makes a state of `edition`, ROOSTCORD_EDITION_.., that has taken nothing.
 * Answers 0.
 * Refuses 14 for any other edition; 4 where state_len is less than ROOSTCORD_STATE_SIZE. */
ROOSTCORD_MUST_USE int32_t roostcord_pieces_fresh(uint8_t *state, size_t state_len, uint32_t edition);

/* Takes a piece; an empty one at the right offset changes nothing. The edition stays.
 * Answers the count of bytes taken, with the piece.
 * Refuses 4 for a short state; 5; 6. */
ROOSTCORD_MUST_USE int32_t roostcord_pieces_feed(uint8_t *state, size_t state_len, size_t offset, const uint8_t *piece, size_t piece_len);

/* Says how much was taken.
 * Answers the count of bytes.
 * Refuses 4 for a short state. */
ROOSTCORD_MUST_USE int32_t roostcord_pieces_taken(const uint8_t *state, size_t state_len);

/* These do for the bytes that were taken what the calls without `pieces` do for an image, and answer the same. roostcord_pieces_lint lints
 * under the edition of the state, so it never refuses 14.
 * Refuse 4 for a short state; then as those calls do. */
ROOSTCORD_MUST_USE int32_t roostcord_pieces_lint(const uint8_t *state, size_t state_len, uint8_t *report, size_t report_len);
ROOSTCORD_MUST_USE int32_t roostcord_pieces_identity(const uint8_t *state, size_t state_len, uint32_t *out, size_t out_len);
ROOSTCORD_MUST_USE int32_t roostcord_pieces_timings(const uint8_t *state, size_t state_len, uint32_t *out, size_t out_len);
ROOSTCORD_MUST_USE int32_t roostcord_pieces_cas_latencies(const uint8_t *state, size_t state_len, uint16_t *out, size_t out_len);
ROOSTCORD_MUST_USE int32_t roostcord_pieces_clocks(const uint8_t *state, size_t state_len, uint32_t *out, size_t out_len);
ROOSTCORD_MUST_USE int32_t roostcord_pieces_manufacturing(const uint8_t *state, size_t state_len, uint32_t strict, uint32_t *out,
                                                          size_t out_len);
ROOSTCORD_MUST_USE int32_t roostcord_pieces_part_number(const uint8_t *state, size_t state_len, uint8_t *out, size_t out_len);
ROOSTCORD_MUST_USE int32_t roostcord_pieces_crc(const uint8_t *state, size_t state_len);

#ifdef __cplusplus
}
#endif

#endif
