/* names.h: how the host program spells what the library numbers. Every table here is in the order of the enums of roostcord.h. */
#ifndef NAMES_H
#define NAMES_H

#include "roostcord.h"

#include <stdbool.h>

enum { RULE_NUMBERS = ROOSTCORD_FINDING_COUNT - ROOSTCORD_FINDING_FIRST };

/* A code of a finding: its name, and the names of the numbers that it lists; NULL for those that it does not. */
struct rule {
  const char *name;
  const char *numbers[RULE_NUMBERS];
};

/* What the numbers of a record are. */
enum kind { COUNT, YES_OR_NO, MODULE, PACKAGE, SERIAL, MEGABITS, PICOSECONDS };

/* A number of the identity, of the label or of a DDR4 image: its name in JSON, and in the listing. */
struct record_field {
  const char *key;
  const char *label;
  enum kind kind;
};

/* A code field of refusal 3: its name, and where it stands. */
struct code_field {
  const char *name;
  int byte;
  const char *bits;
};

/* A time of a DDR4 image that may be below zero: its name, and where it stands. */
struct ddr4_time {
  const char *name;
  const char *bytes;
};

/* A time that has its own least count of clocks. */
enum { PAIRS = (ROOSTCORD_TIMINGS_DATA_RATE - ROOSTCORD_TIMINGS_TRRD_L) / 2 };

/* The last number of the label is the length of the part number, which is told by its bytes. */
enum { LABEL_NUMBERS = ROOSTCORD_MANUFACTURING_PART_LENGTH };

extern const struct record_field identity_fields[ROOSTCORD_IDENTITY_COUNT];
extern const struct record_field label_fields[LABEL_NUMBERS];
extern const struct record_field ddr4_fields[ROOSTCORD_DDR4_COUNT];
extern const char *const clock_names[ROOSTCORD_CLOCKS_COUNT]; /* the times from ROOSTCORD_TIMINGS_TAA on */
extern const char *const pair_names[PAIRS];                   /* and those from ROOSTCORD_TIMINGS_TRRD_L on */

/* The library hands out no number that is outside these tables; for another one they have the name "unknown". */
const struct rule *rule_of(uint32_t code);
const struct code_field *field_of(int field);
const struct ddr4_time *ddr4_time_of(int place); /* ROOSTCORD_DDR4_TIME_.., as refusal 15 carries it */
const char *refusal_name(int number);
const char *severity_name(uint32_t severity);
const char *sub_name(uint32_t code, uint32_t sub); /* NULL for a code without subs */
const char *module_name(uint32_t code);
const char *package_name(uint32_t package);

/* Whether a byte is printable ASCII, and so can stand in a line as it is. */
bool printable(uint8_t byte);

#endif
