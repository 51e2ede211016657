/* Numbered jobs from two books: the factory's, and a line's own, which comes first. scripts/examples builds and runs this. */
#include "../include/chantgarden.h"
#include <stdio.h>
#include <stdlib.h>

/* Two locks; words 0, 1, 2 hold 5, 9, 7; lock 0 guards words 0 and 1. */
static const uint8_t setup[] = {29, 0, 2, 0, 2, 3, 0, 0, 1, 5, 0, 0, 0, 9, 0, 0, 0, 7, 0, 0, 0, 0, 0, 0, 0, 0, 0, 0, 0};
/* Each entry: its length, kind 5, the job's number; then the job record. */
static const uint8_t factory[] = {
    /* 3: adds 1 to word 0 */
    30, 0, 5, 0, 3, 0,
    CHANT_JOB(5),
    CHANT_LOAD(0, 0),
    CHANT_SET(1, 1),
    CHANT_ADD(0, 1),
    CHANT_STORE(0, 0),
    CHANT_HALT_YES,
    /* 300: are words 0 and 1 equal? */
    30, 0, 5, 0, 44, 1,
    CHANT_JOB(5),
    CHANT_LOAD(0, 0),
    CHANT_LOAD(1, 1),
    CHANT_SKIP(1, 0, 1),
    CHANT_HALT_NO,
    CHANT_HALT_YES,
};
static const uint8_t line[] = {
    /* 3: this line adds 2 instead of 1 */
    30, 0, 5, 0, 3, 0,
    CHANT_JOB(5),
    CHANT_LOAD(0, 0),
    CHANT_SET(1, 2),
    CHANT_ADD(0, 1),
    CHANT_STORE(0, 0),
    CHANT_HALT_YES,
};
/* Word 0 becomes word 1. */
static const uint8_t copy[] = {
    CHANT_JOB(3),
    CHANT_LOAD(0, 1),
    CHANT_STORE(0, 0),
    CHANT_HALT_YES,
};
static const char *const answers[] = {"", "ran, yes", "ran, no", "not taken", "worn"};
static const char *const books[] = {"books", "line book", "factory book"};
static uint32_t state[CHANT_STATE_NUMBERS];

/* Ends the program where a call was refused that should not be. */
static void accept(uint32_t number, uint32_t place) {
  if (number != 0) {
    printf("refused %u at place %u\n", (unsigned)number, (unsigned)place);
    exit(1);
  }
}

/* Worker 0 tries a job under lock 0, whose record stays where it is: begin takes it straight from the book. */
static void try_job(const uint8_t *record, size_t length) {
  chant_reply reply = chant_begin(state, CHANT_STATE_NUMBERS, 0, 0, record, length);
  accept(reply.number, reply.place);
  while (chant_step(state, CHANT_STATE_NUMBERS, 0).number == 0) {}
  chant_collected told = chant_collect(state, CHANT_STATE_NUMBERS, 0);
  accept(told.number, told.place);
  chant_word word = chant_read_word(state, CHANT_STATE_NUMBERS, 0);
  accept(word.number, word.place);
  printf(" %s; word 0 is %u\n", answers[told.answer], (unsigned)word.value);
}

/* Looks a number up in this line book and the factory's, and tries the job that is there. */
static void look_up(const uint8_t *own, size_t length, uint32_t number) {
  chant_found found = chant_book_find(own, length, factory, sizeof factory, number);
  printf("job %u:", (unsigned)number);
  if (found.number == 19) printf(" not there\n");
  else if (found.number != 0)
    printf(" refused %u: the %s is malformed at byte %u\n", (unsigned)found.number, books[found.book], (unsigned)found.place);
  else {
    printf(" %s, bytes %u to %u;", books[found.book], (unsigned)found.offset, (unsigned)(found.offset + found.length - 1));
    try_job((found.book == CHANT_LINE_BOOK ? own : factory) + found.offset, found.length);
  }
}

int main(void) {
  chant_reply reply = chant_setup(state, CHANT_STATE_NUMBERS, setup, sizeof setup);
  accept(reply.number, reply.place);
  look_up(line, sizeof line, 3);
  look_up(line, sizeof line, 300);
  look_up(line, sizeof line, 8);
  uint8_t longer[sizeof line + CHANT_ENTRY_BYTES];
  chant_wrote wrote = chant_book_add(line, sizeof line, 8, copy, sizeof copy, longer, sizeof longer);
  accept(wrote.number, wrote.place);
  printf("job 8 added: the line book has %u bytes, and had %u\n", (unsigned)wrote.length, (unsigned)sizeof line);
  look_up(longer, wrote.length, 8);
  look_up(longer, wrote.length, 300);
  wrote = chant_book_add(line, sizeof line, 3, copy, sizeof copy, longer, sizeof longer);
  printf("job 3 added once more: refused %u\n", (unsigned)wrote.number);
  look_up(line, sizeof line - 1, 300);
  return 0;
}
