/* The tables of names; names.h says what they are. */
#include "names.h"

#define LENGTH(table) (sizeof(table) / sizeof *(table))

const struct record_field identity_fields[ROOSTCORD_IDENTITY_COUNT] = {
    [ROOSTCORD_IDENTITY_SPD_BYTES] = {"spd_bytes", "SPD bytes", COUNT},
    [ROOSTCORD_IDENTITY_REVISION_MAJOR] = {"revision_major", "revision, major", COUNT},
    [ROOSTCORD_IDENTITY_REVISION_MINOR] = {"revision_minor", "revision, minor", COUNT},
    [ROOSTCORD_IDENTITY_DEVICE_TYPE] = {"device_type", "device type", COUNT},
    [ROOSTCORD_IDENTITY_MODULE_TYPE] = {"module_type", "module type", MODULE},
    [ROOSTCORD_IDENTITY_HYBRID] = {"hybrid", "hybrid", YES_OR_NO},
    [ROOSTCORD_IDENTITY_DIE_GIGABITS] = {"die_gigabits", "gigabits per die", COUNT},
    [ROOSTCORD_IDENTITY_PACKAGE] = {"package", "package", PACKAGE},
    [ROOSTCORD_IDENTITY_DIES] = {"dies", "dies", COUNT},
    [ROOSTCORD_IDENTITY_ROW_BITS] = {"row_bits", "row bits", COUNT},
    [ROOSTCORD_IDENTITY_COLUMN_BITS] = {"column_bits", "column bits", COUNT},
    [ROOSTCORD_IDENTITY_IO_WIDTH] = {"io_width", "I/O width", COUNT},
    [ROOSTCORD_IDENTITY_BANK_GROUPS] = {"bank_groups", "bank groups", COUNT},
    [ROOSTCORD_IDENTITY_BANKS_PER_GROUP] = {"banks_per_group", "banks per group", COUNT},
    [ROOSTCORD_IDENTITY_RANKS] = {"ranks", "ranks", COUNT},
    [ROOSTCORD_IDENTITY_ASYMMETRIC] = {"asymmetric", "asymmetric", YES_OR_NO},
    [ROOSTCORD_IDENTITY_CHANNELS] = {"channels", "channels", COUNT},
    [ROOSTCORD_IDENTITY_BUS_WIDTH] = {"bus_width", "bus width", COUNT},
};

const struct record_field label_fields[LABEL_NUMBERS] = {
    [ROOSTCORD_MANUFACTURING_MODULE_BANK] = {"module_maker_bank", "module maker, bank", COUNT},
    [ROOSTCORD_MANUFACTURING_MODULE_CODE] = {"module_maker_code", "module maker, code", COUNT},
    [ROOSTCORD_MANUFACTURING_PLACE] = {"place", "place", COUNT},
    [ROOSTCORD_MANUFACTURING_YEAR] = {"year", "year", COUNT},
    [ROOSTCORD_MANUFACTURING_WEEK] = {"week", "week", COUNT},
    [ROOSTCORD_MANUFACTURING_SERIAL] = {"serial_number", "serial number", SERIAL},
    [ROOSTCORD_MANUFACTURING_REVISION] = {"module_revision", "module revision", COUNT},
    [ROOSTCORD_MANUFACTURING_DRAM_BANK] = {"dram_maker_bank", "DRAM maker, bank", COUNT},
    [ROOSTCORD_MANUFACTURING_DRAM_CODE] = {"dram_maker_code", "DRAM maker, code", COUNT},
    [ROOSTCORD_MANUFACTURING_STEPPING] = {"dram_stepping", "DRAM stepping", COUNT},
};

const struct record_field ddr4_fields[ROOSTCORD_DDR4_COUNT] = {
    [ROOSTCORD_DDR4_MEGABITS] = {"megabits", "density", MEGABITS},
    [ROOSTCORD_DDR4_IO_WIDTH] = {"io_width", "I/O width", COUNT},
    [ROOSTCORD_DDR4_BUS_WIDTH] = {"bus_width", "bus width", COUNT},
    [ROOSTCORD_DDR4_TCK] = {"tCK", "tCK", PICOSECONDS},
    [ROOSTCORD_DDR4_TAA] = {"tAA", "tAA", PICOSECONDS},
    [ROOSTCORD_DDR4_TRCD] = {"tRCD", "tRCD", PICOSECONDS},
    [ROOSTCORD_DDR4_TRP] = {"tRP", "tRP", PICOSECONDS},
    [ROOSTCORD_DDR4_TRAS] = {"tRAS", "tRAS", PICOSECONDS},
    [ROOSTCORD_DDR4_TRC] = {"tRC", "tRC", PICOSECONDS},
};

const char *const clock_names[ROOSTCORD_CLOCKS_COUNT] = {
    [ROOSTCORD_CLOCKS_TAA] = "tAA",     [ROOSTCORD_CLOCKS_TRCD] = "tRCD",   [ROOSTCORD_CLOCKS_TRP] = "tRP",
    [ROOSTCORD_CLOCKS_TRAS] = "tRAS",   [ROOSTCORD_CLOCKS_TRC] = "tRC",     [ROOSTCORD_CLOCKS_TWR] = "tWR",
    [ROOSTCORD_CLOCKS_TRFC1] = "tRFC1", [ROOSTCORD_CLOCKS_TRFC2] = "tRFC2", [ROOSTCORD_CLOCKS_TRFCSB] = "tRFCsb",
};

const char *const pair_names[PAIRS] = {"tRRD_L", "tCCD_L", "tCCD_L_WR", "tCCD_L_WR2", "tFAW", "tWTR_L", "tWTR_S", "tRTP"};

static const struct rule rules[] = {
    [ROOSTCORD_CODE_NON_INTEGER_DEVICE_COUNT] = {"non-integer-device-count", {"bus_width", "io_width", NULL}},
    [ROOSTCORD_CODE_TRC_IDENTITY_MISMATCH] = {"trc-identity-mismatch", {"tRC", "tRAS", "tRP"}},
    [ROOSTCORD_CODE_TIMING_ORDERING_VIOLATION] = {"timing-ordering-violation", {"larger", "smaller", NULL}},
    [ROOSTCORD_CODE_NON_INTEGER_CAS_LATENCY] = {"non-integer-cas-latency", {"tAA", "tCK", NULL}},
    [ROOSTCORD_CODE_CAS_LATENCY_NOT_SUPPORTED] = {"cas-latency-not-supported", {"cas_latency", NULL, NULL}},
    [ROOSTCORD_CODE_NON_INTEGER_CLOCK_TIMING] = {"non-integer-clock-timing", {"value", "tCK", NULL}},
    [ROOSTCORD_CODE_NON_STANDARD_DATA_RATE] = {"non-standard-data-rate", {"data_rate", NULL, NULL}},
    [ROOSTCORD_CODE_RESERVED_BYTES_NONZERO] = {"reserved-bytes-nonzero", {"offset", "value", NULL}},
    [ROOSTCORD_CODE_PACKAGE_DIE_COUNT_MISMATCH] = {"package-die-count-mismatch", {"dies", NULL, NULL}},
};

static const struct code_field fields[] = {
    [ROOSTCORD_FIELD_SPD_BYTES] = {"SPD bytes", 0, "6-4"},
    [ROOSTCORD_FIELD_MODULE_TYPE] = {"module type", 3, "3-0"},
    [ROOSTCORD_FIELD_DIE_GIGABITS] = {"gigabits per die", 4, "4-0"},
    [ROOSTCORD_FIELD_PACKAGE] = {"package", 4, "7-5"},
    [ROOSTCORD_FIELD_IO_WIDTH] = {"I/O width", 6, "7-5"},
    [ROOSTCORD_FIELD_BANK_GROUPS] = {"bank groups", 7, "7-5"},
    [ROOSTCORD_FIELD_BANKS_PER_GROUP] = {"banks per group", 7, "2-0"},
    [ROOSTCORD_FIELD_BUS_WIDTH] = {"bus width", 235, "2-0"},
    [ROOSTCORD_FIELD_CHANNELS] = {"channels", 235, "7-5"},
    [ROOSTCORD_FIELD_DDR4_TIMEBASE] = {"timebase", 17, "3-0"},
    [ROOSTCORD_FIELD_DDR4_DENSITY] = {"density", 4, "3-0"},
    [ROOSTCORD_FIELD_DDR4_IO_WIDTH] = {"I/O width", 12, "2-0"},
    [ROOSTCORD_FIELD_DDR4_BUS_WIDTH] = {"bus width", 13, "2-0"},
};

static const struct ddr4_time ddr4_times[] = {
    [ROOSTCORD_DDR4_TIME_TCK] = {"tCK", "Bytes 18 and 125"},
    [ROOSTCORD_DDR4_TIME_TAA] = {"tAA", "Bytes 24 and 123"},
    [ROOSTCORD_DDR4_TIME_TRCD] = {"tRCD", "Bytes 25 and 122"},
    [ROOSTCORD_DDR4_TIME_TRP] = {"tRP", "Bytes 26 and 121"},
    [ROOSTCORD_DDR4_TIME_TRC] = {"tRC", "Byte 29, byte 27, bits 7-4, and byte 120"},
};

static const char *const refusals[] = {
    [ROOSTCORD_TRUNCATED] = "truncated",
    [ROOSTCORD_NOT_DDR5] = "not-ddr5",
    [ROOSTCORD_UNKNOWN_CODE] = "unknown-code",
    [ROOSTCORD_LIST_TOO_SHORT] = "list-too-short",
    [ROOSTCORD_WRONG_OFFSET] = "wrong-offset",
    [ROOSTCORD_TOO_LONG] = "too-long",
    [ROOSTCORD_ZERO_CLOCK] = "zero-clock",
    [ROOSTCORD_BUFFER_TOO_SMALL] = "buffer-too-small",
    [ROOSTCORD_REPORT_CUT] = "report-cut",
    [ROOSTCORD_REPORT_VERSION] = "report-version",
    [ROOSTCORD_REPORT_MALFORMED] = "report-malformed",
    [ROOSTCORD_WRONG_DATE] = "wrong-date",
    [ROOSTCORD_UNKNOWN_EDITION] = "unknown-edition",
    [ROOSTCORD_NEGATIVE_TIME] = "negative-time",
    [ROOSTCORD_NEITHER_SOUND] = "neither-sound",
};

static const char *const severities[] = {
    [ROOSTCORD_SEVERITY_ERROR] = "error", [ROOSTCORD_SEVERITY_WARNING] = "warning", [ROOSTCORD_SEVERITY_INFO] = "info"};

static const char *const orderings[] = {[ROOSTCORD_SUB_TRAS_TRCD] = "tRAS/tRCD", [ROOSTCORD_SUB_TRC_TRAS] = "tRC/tRAS"};
static const char *const clocked[] = {[ROOSTCORD_SUB_TRCD] = "tRCD", [ROOSTCORD_SUB_TRP] = "tRP"};
static const char *const packages[] = {
    [ROOSTCORD_PACKAGE_MONOLITHIC] = "monolithic", [ROOSTCORD_PACKAGE_DUAL_DIE] = "dual-die", [ROOSTCORD_PACKAGE_3DS] = "3DS"};

static const char *const modules[] = {
    [ROOSTCORD_MODULE_RDIMM] = "RDIMM",   [ROOSTCORD_MODULE_UDIMM] = "UDIMM",
    [ROOSTCORD_MODULE_SODIMM] = "SODIMM", [ROOSTCORD_MODULE_LRDIMM] = "LRDIMM",
    [ROOSTCORD_MODULE_CUDIMM] = "CUDIMM", [ROOSTCORD_MODULE_CSOUDIMM] = "CSOUDIMM",
    [ROOSTCORD_MODULE_MRDIMM] = "MRDIMM", [ROOSTCORD_MODULE_CAMM2] = "CAMM2",
    [ROOSTCORD_MODULE_DDIMM] = "DDIMM",   [ROOSTCORD_MODULE_SOLDER_DOWN] = "solder down",
};

static const char unknown[] = "unknown";

/* An entry of a table of words; "unknown" outside it, and at its gaps. */
static const char *word(const char *const *table, size_t length, size_t place) {
  return place < length && table[place] ? table[place] : unknown;
}

const struct rule *rule_of(uint32_t code) {
  static const struct rule none = {unknown, {NULL, NULL, NULL}};
  return code < LENGTH(rules) && rules[code].name ? &rules[code] : &none;
}

const struct code_field *field_of(int field) {
  static const struct code_field none = {unknown, 0, "7-0"};
  return field > 0 && (size_t)field < LENGTH(fields) && fields[field].name ? &fields[field] : &none;
}

const struct ddr4_time *ddr4_time_of(int place) {
  static const struct ddr4_time none = {unknown, "Bytes"};
  return place > 0 && (size_t)place < LENGTH(ddr4_times) ? &ddr4_times[place] : &none;
}

const char *refusal_name(int number) { return word(refusals, LENGTH(refusals), (size_t)number); }

const char *severity_name(uint32_t severity) { return word(severities, LENGTH(severities), severity); }

const char *module_name(uint32_t code) { return word(modules, LENGTH(modules), code); }

const char *package_name(uint32_t package) { return word(packages, LENGTH(packages), package); }

const char *sub_name(uint32_t code, uint32_t sub) {
  switch (code) {
    case ROOSTCORD_CODE_TIMING_ORDERING_VIOLATION: return word(orderings, LENGTH(orderings), sub);
    case ROOSTCORD_CODE_NON_INTEGER_CLOCK_TIMING: return word(clocked, LENGTH(clocked), sub);
    case ROOSTCORD_CODE_PACKAGE_DIE_COUNT_MISMATCH: return package_name(sub); /* its subs are the packages */
    default: return NULL;
  }
}

bool printable(uint8_t byte) { return byte >= ' ' && byte <= '~'; }
