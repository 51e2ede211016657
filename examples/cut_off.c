/* One worker is cut off in the middle of its job, and another finishes it. scripts/examples builds and runs this. */
#include "../include/chantgarden.h"
#include <stdio.h>
#include <stdlib.h>

/* Two locks; words 0, 1, 2 hold 5, 9, 7; lock 0 guards words 0 and 1. */
static const uint8_t setup[] = {29, 0, 2, 0, 2, 3, 0, 0, 1, 5, 0, 0, 0, 9, 0, 0, 0, 7, 0, 0, 0, 0, 0, 0, 0, 0, 0, 0, 0};
/* Adds 1 to word 0. */
static const uint8_t add[] = {
    CHANT_JOB(5),
    CHANT_LOAD(0, 0),
    CHANT_SET(1, 1),
    CHANT_ADD(0, 1),
    CHANT_STORE(0, 0),
    CHANT_HALT_YES,
};
/* Are words 0 and 1 equal? */
static const uint8_t equal[] = {
    CHANT_JOB(5),
    CHANT_LOAD(0, 0),
    CHANT_LOAD(1, 1),
    CHANT_SKIP(1, 0, 1),
    CHANT_HALT_NO,
    CHANT_HALT_YES,
};
static const char *const answers[] = {"", "ran, yes", "ran, no", "not taken", "worn"};
static uint32_t state[CHANT_STATE_NUMBERS];

/* Ends the program where a call was refused. */
static void accept(uint32_t number, uint32_t place) {
  if (number != 0) {
    printf("refused %u at place %u\n", (unsigned)number, (unsigned)place);
    exit(1);
  }
}

/* Begins a job under lock 0, steps it to its end and collects the answer. */
static void try_job(uint32_t worker, const uint8_t *job, size_t length) {
  chant_reply reply = chant_begin(state, CHANT_STATE_NUMBERS, worker, 0, job, length);
  accept(reply.number, reply.place);
  while (chant_step(state, CHANT_STATE_NUMBERS, worker).number == 0) {}
  chant_collected told = chant_collect(state, CHANT_STATE_NUMBERS, worker);
  accept(told.number, told.place);
  printf("worker %u: %s, after %u steps; log entries filled: %u\n", (unsigned)worker, answers[told.answer], (unsigned)told.steps,
         (unsigned)told.filled);
}

static void tell(void) {
  chant_word word = chant_read_word(state, CHANT_STATE_NUMBERS, 0);
  chant_lock lock = chant_read_lock(state, CHANT_STATE_NUMBERS, 0);
  accept(word.number, word.place);
  accept(lock.number, lock.place);
  printf("word 0 is %u, count %u; lock 0 is %s, turn %u\n", (unsigned)word.value, (unsigned)word.count,
         lock.held ? "held" : "free", (unsigned)lock.turn);
}

int main(void) {
  chant_reply reply = chant_setup(state, CHANT_STATE_NUMBERS, setup, sizeof setup);
  accept(reply.number, reply.place);
  reply = chant_begin(state, CHANT_STATE_NUMBERS, 0, 0, add, sizeof add);
  /* Its 6th step and its 10th fill the two entries of its log, so that its helper fills none. */
  for (int step = 0; step < 10 && reply.number == 0; step++) reply = chant_step(state, CHANT_STATE_NUMBERS, 0);
  accept(reply.number, reply.place);
  reply = chant_drop(state, CHANT_STATE_NUMBERS, 0);
  accept(reply.number, reply.place);
  printf("worker 0: cut off after 10 steps\n");
  tell();
  try_job(1, equal, sizeof equal);
  tell();
  try_job(1, equal, sizeof equal);
  tell();
  return 0;
}
