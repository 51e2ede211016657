/* The bench PC: a table of words, a list of jobs, and what each answered. scripts/examples builds and runs this. */
#include "../include/chantgarden.h"
#include <stdio.h>

enum { WORDS = 3 };

/* Words 0 and 1 are lock 0's, word 2 is lock 7's. */
static uint32_t values[WORDS] = {5, 9, 7};
static const uint8_t guards[WORDS] = {0, 0, 7};

struct job {
  const char *name;
  uint32_t lock;
  const uint8_t *record;
  size_t length;
};

/* Adds 1 to word 0. */
static const uint8_t add[] = {
    CHANT_JOB(5),
    CHANT_LOAD(0, 0),
    CHANT_SET(1, 1),
    CHANT_ADD(0, 1),
    CHANT_STORE(0, 0),
    CHANT_HALT_YES,
};
/* Are words 0 and 1 equal? */
static const uint8_t equal[] = {
    CHANT_JOB(5),
    CHANT_LOAD(0, 0),
    CHANT_LOAD(1, 1),
    CHANT_SKIP(1, 0, 1),
    CHANT_HALT_NO,
    CHANT_HALT_YES,
};
/* Word 2 becomes 500 if it is 7. */
static const uint8_t exchange[] = {
    CHANT_JOB(4),
    CHANT_SET(0, 7),
    CHANT_SET(1, 500),
    CHANT_CAM(2, 0, 1),
    CHANT_HALT_YES,
};

static const struct job jobs[] = {
    {"add", 0, add, sizeof add},
    {"equal", 0, equal, sizeof equal},
    {"exchange", 7, exchange, sizeof exchange},
    {"exchange again", 7, exchange, sizeof exchange},
    {"add under lock 7", 7, add, sizeof add},
    {"half of a job", 0, add, 12},
};

int main(void) {
  for (size_t i = 0; i < sizeof jobs / sizeof *jobs; i++) {
    const struct job *job = &jobs[i];
    chant_ran told = chant_plain(values, WORDS, guards, WORDS, job->lock, job->record, job->length);
    if (told.number != 0)
      printf("%s: refused %u at place %u;", job->name, (unsigned)told.number, (unsigned)told.place);
    else
      printf("%s: %s, %u executed;", job->name, told.answer == CHANT_RAN_YES ? "yes" : "no", (unsigned)told.executed);
    printf(" words %u %u %u\n", (unsigned)values[0], (unsigned)values[1], (unsigned)values[2]);
  }
  return 0;
}
