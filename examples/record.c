/* The run of cut_off.c, recorded: each call's record goes to standard output before the call is made, and what the call told to
 * standard error, as the program replay tells it when it makes the calls again. scripts/examples builds and runs this. */
#include "../include/chantgarden.h"
#include <stdio.h>
#include <stdlib.h>

/* Two locks; words 0, 1, 2 hold 5, 9, 7; lock 0 guards words 0 and 1. */
static const uint8_t setup[] = {29, 0, 2, 0, 2, 3, 0, 0, 1, 5, 0, 0, 0, 9, 0, 0, 0, 7, 0, 0, 0, 0, 0, 0, 0, 0, 0, 0, 0};
/* Adds 1 to word 0. */
static const uint8_t add[] = {
    CHANT_JOB(5),
    CHANT_LOAD(0, 0),
    CHANT_SET(1, 1),
    CHANT_ADD(0, 1),
    CHANT_STORE(0, 0),
    CHANT_HALT_YES,
};
/* Are words 0 and 1 equal? */
static const uint8_t equal[] = {
    CHANT_JOB(5),
    CHANT_LOAD(0, 0),
    CHANT_LOAD(1, 1),
    CHANT_SKIP(1, 0, 1),
    CHANT_HALT_NO,
    CHANT_HALT_YES,
};
static uint32_t state[CHANT_STATE_NUMBERS];

/* Adds a record to the file. */
static void keep(const uint8_t *record, size_t length) {
  if (length == 0 || fwrite(record, 1, length, stdout) != length) exit(1);
}

/* Makes a call; its job is begun under lock 0. */
static chant_collected make(uint32_t call, uint32_t worker, const uint8_t *job, size_t length) {
  chant_collected told = {0, 0, 0, 0, 0};
  if (call == CHANT_BEGIN) told.number = chant_begin(state, CHANT_STATE_NUMBERS, worker, 0, job, length).number;
  if (call == CHANT_STEP) told.number = chant_step(state, CHANT_STATE_NUMBERS, worker).number;
  if (call == CHANT_COLLECT) told = chant_collect(state, CHANT_STATE_NUMBERS, worker);
  if (call == CHANT_DROP) told.number = chant_drop(state, CHANT_STATE_NUMBERS, worker).number;
  return told;
}

/* Records a call, makes it and tells its index, its refusal's number (0: accepted), answer and steps, and of an accepted collect the
 * filled entries; gives the number. The record of a step, collect or drop is the same whichever job is lent. */
static uint32_t recorded(uint32_t call, uint32_t worker, const uint8_t *job, size_t length) {
  static unsigned index = 0;
  uint8_t record[CHANT_CALL_BYTES];
  keep(record, chant_record(call, worker, 0, job, length, record, sizeof record).length);
  chant_collected told = make(call, worker, job, length);
  fprintf(stderr, "%u %u %u %u", index++, (unsigned)told.number, (unsigned)told.answer, (unsigned)told.steps);
  if (call == CHANT_COLLECT && told.number == 0) fprintf(stderr, " %u", (unsigned)told.filled);
  fprintf(stderr, "\n");
  return told.number;
}

/* Begins a job, steps it to its end and collects the answer. */
static void try_job(uint32_t worker, const uint8_t *job, size_t length) {
  recorded(CHANT_BEGIN, worker, job, length);
  while (recorded(CHANT_STEP, worker, job, length) == 0) {}
  recorded(CHANT_COLLECT, worker, job, length);
}

int main(void) {
  if (chant_setup(state, CHANT_STATE_NUMBERS, setup, sizeof setup).number != 0) return 1;
  keep(setup, sizeof setup);
  recorded(CHANT_BEGIN, 0, add, sizeof add);
  for (int step = 0; step < 10; step++) recorded(CHANT_STEP, 0, add, sizeof add);
  recorded(CHANT_DROP, 0, add, sizeof add);
  try_job(1, equal, sizeof equal);
  try_job(1, equal, sizeof equal);
  return fflush(stdout) != 0;
}
