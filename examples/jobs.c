/* The five jobs of docs/JOBS.md, in the header's macros, written as a script of calls. scripts/examples builds and runs this, and the
 * program jobs lists them in the notation. */
#include "../include/chantgarden.h"
#include <stdio.h>

/* One lock, which guards words 0 to 3. */
static const uint8_t setup[] = {30, 0, 2, 0, 1, 4, 0, 0, 0, 0, 5, 0, 0, 0, 9, 0, 0, 0, 7, 0, 0, 0, 21, 0, 0, 0, 0, 0, 0, 0};

static const uint8_t add_one[] = {
    CHANT_JOB(5),
    CHANT_LOAD(0, 0),
    CHANT_SET(1, 1),
    CHANT_ADD(0, 1),
    CHANT_STORE(0, 0),
    CHANT_HALT_YES,
};
static const uint8_t verify[] = {
    CHANT_JOB(9),
    CHANT_LOAD(0, 0),
    CHANT_LOAD(1, 1),
    CHANT_ADD(0, 1),
    CHANT_LOAD(1, 2),
    CHANT_ADD(0, 1),
    CHANT_LOAD(1, 3), /* the checksum */
    CHANT_SKIP(1, 0, 1),
    CHANT_HALT_NO,
    CHANT_HALT_YES,
};
static const uint8_t compare[] = {
    CHANT_JOB(5),
    CHANT_LOAD(0, 0),
    CHANT_LOAD(1, 1),
    CHANT_SKIP(1, 0, 1),
    CHANT_HALT_NO,
    CHANT_HALT_YES,
};
static const uint8_t move[] = {
    CHANT_JOB(4),
    CHANT_LOAD(0, 0),
    CHANT_STORE(0, 1),
    CHANT_STORE(1, 0), /* r1 was never set: it is 0 */
    CHANT_HALT_YES,
};
static const uint8_t update[] = {
    CHANT_JOB(7),
    CHANT_SET(0, 5), /* what it was */
    CHANT_SET(1, 6), /* what it should become */
    CHANT_CAM(0, 0, 1),
    CHANT_LOAD(0, 0),
    CHANT_SKIP(1, 0, 1),
    CHANT_HALT_NO, /* somebody else has changed it: look again */
    CHANT_HALT_YES,
};

static void write_call(const char *call, const uint8_t *record, size_t length) {
  printf("%s ", call);
  for (size_t i = 0; i < length; i++) printf("%02x", (unsigned)record[i]);
  printf("\n");
}

int main(void) {
  write_call("setup", setup, sizeof setup);
  write_call("begin 0 0", add_one, sizeof add_one);
  write_call("begin 1 0", verify, sizeof verify);
  write_call("begin 2 0", compare, sizeof compare);
  write_call("begin 3 0", move, sizeof move);
  write_call("begin 4 0", update, sizeof update);
  return 0;
}
