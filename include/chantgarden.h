/* The job engine, called from C: nine calls on a state that the caller lends as plain numbers, the writer of a call's record, a plain
 * engine, which is lent words instead of a state, and the lookup and the writer of books of standard jobs. Link libchantgarden.a.
 *
 * Lending: a pointer is followed by how many numbers or bytes it points to; it is not NULL, and what two pointers of one call
 * point to does not overlap. No call keeps a pointer, allocates or blocks. Calls on one state are made one after the other, never
 * two at a time. Between calls the numbers may be moved or copied; only these calls should change them. Numbers that no call gave are
 * still read as some state, and never past the lent ones.
 *
 * Answers: number 0 says that the call was accepted. Any other number is a refusal of document 01, and place is its place there,
 * 0 where it tells none; but 17, which is request 01's, 18, 19 and 20, which are request 08's, 16 of chant_plain and 22, the header's
 * own, all with place 0 but 18. Which of several is told is the documents' order, not that of the lists below.
 * A refusal changes not one number of the state, not one word and not one byte of the buffer (setup: the state becomes the blank one, except
 * under 22). A field that has nothing to tell is 0, so all of them after number and place where a call is refused (but the book of 18).
 *
 *    1 worker above 7                         11 worker idle
 *    2 lock not below L                       12 L, W, a guard or a turn outside its range; park: blank state
 *    3 worker under way                       13 lent buffer shorter than the record, or than the book
 *    4 answer not collected                   14 sheet above 31 or free
 *    5 record length wrong                    15 a lock is held
 *    6 kind is none that this call takes      16 word not below W; chant_plain: see there
 *    7 instruction badly formed, or the       17 a record that makes no call: call above 3
 *      last is no halt                        18 book malformed; its place is the first byte of the first bad entry
 *    8 a load, store or cam names a word      19 no job of this number there; so of every number above 65,535
 *      this lock doesn't guard, or no word    20 a job of this number is in the book already
 *    9 the lock is free with turn 67,108,864  22 fewer numbers lent than CHANT_STATE_NUMBERS; told before any other
 *   10 is no longer told
 */
#ifndef CHANTGARDEN_H
#define CHANTGARDEN_H

#include <stddef.h>
#include <stdint.h>

/* The compiler warns where a result is dropped unread. */
#if defined(__GNUC__) || defined(__clang__)
#define CHANT_READ __attribute__((warn_unused_result))
#else
#define CHANT_READ
#endif

/* The numbers of a state. All 0 is the blank state: no locks, no words, idle workers, free sheets. */
#define CHANT_STATE_NUMBERS 12868

/* A buffer of so many bytes is long enough for every job record, for every setup record, for every call record; and with so many more
 * bytes than a book has, for that book and any new job. */
#define CHANT_JOB_BYTES 260
#define CHANT_SETUP_BYTES 390
#define CHANT_CALL_BYTES 264
#define CHANT_ENTRY_BYTES 266

/* The call that a call record makes. */
#define CHANT_BEGIN 0
#define CHANT_STEP 1
#define CHANT_COLLECT 2
#define CHANT_DROP 3

/* What a collected answer says. */
#define CHANT_RAN_YES 1
#define CHANT_RAN_NO 2
#define CHANT_NOT_TAKEN 3
#define CHANT_WORN 4

/* Which of two lent books. */
#define CHANT_LINE_BOOK 1
#define CHANT_FACTORY_BOOK 2

/* Jobs as docs/JOBS.md writes them: the head with the number of instructions, then the instructions, their operands in the notation's
 * order. The bytes are worked out while compiling, and a register, word or number that is out of its range does not compile. That the
 * head's number is right, a skip ends within the job and the last is a halt is left to begin, which refuses 5 and 7.
 *
 *   static const uint8_t add[] = {
 *       CHANT_JOB(5),
 *       CHANT_LOAD(0, 0),    load r0 w0
 *       CHANT_SET(1, 1),     set r1 1
 *       CHANT_ADD(0, 1),     add r0 r1
 *       CHANT_STORE(0, 0),   store r0 w0
 *       CHANT_HALT_YES,      halt yes
 *   };
 */
#define CHANT_JOB(n) CHANT_LOW(CHANT_OF(n, 1, 64) * 4 + 4), CHANT_HIGH((n) * 4 + 4), CHANT_BYTE((n) <= 32 ? 1 : 4), 0
/* load r0 w2: register 0 becomes word 2; store r0 w2: word 2 becomes register 0 */
#define CHANT_LOAD(reg, word) 2, CHANT_REG(reg), CHANT_WORD(word), 0
#define CHANT_STORE(reg, word) 3, CHANT_REG(reg), CHANT_WORD(word), 0
/* cam w2 r0 r1: if word 2 equals register 0 it becomes register 1 */
#define CHANT_CAM(word, old, new) 4, CHANT_REG(old), CHANT_REG(new), CHANT_WORD(word)
/* set r1 500: register 1 becomes 500 */
#define CHANT_SET(reg, number) 1, CHANT_REG(reg), CHANT_LOW(CHANT_OF(number, 0, 65535)), CHANT_HIGH(number)
/* add r0 r1, sub r0 r1: register 0 becomes register 0 plus, or less, register 1 */
#define CHANT_ADD(reg, other) 5, CHANT_REG(reg), CHANT_REG(other), 0
#define CHANT_SUB(reg, other) 6, CHANT_REG(reg), CHANT_REG(other), 0
/* skip 2 if r0 = r1, which is CHANT_SKIP(2, 0, 1): if registers 0 and 1 are equal, the next 2 instructions are passed over */
#define CHANT_SKIP(over, one, other) 7, CHANT_REG(one), CHANT_REG(other), CHANT_BYTE(CHANT_OF(over, 1, 62))
/* halt yes, halt no: the job's answer */
#define CHANT_HALT_YES 0, 1, 0, 0
#define CHANT_HALT_NO 0, 0, 0, 0

/* What these are made of: a number as it is where it is one of a range, else nothing that compiles; a register, a word; bytes. */
#define CHANT_OF(x, first, last) \
  ((uint64_t)(x) * sizeof(char[(uint64_t)(x) >= (first) && (uint64_t)(x) <= (last) ? 1 : -1]))
#define CHANT_REG(x) CHANT_BYTE(CHANT_OF(x, 0, 3))
#define CHANT_WORD(x) CHANT_BYTE(CHANT_OF(x, 0, 63))
#define CHANT_BYTE(x) (uint8_t)(x)
#define CHANT_LOW(x) CHANT_BYTE((x) & 255)
#define CHANT_HIGH(x) CHANT_BYTE((x) >> 8)

#ifdef __cplusplus
extern "C" {
#endif

typedef struct { uint32_t number, place; } chant_reply; /* number: 0 accepted */
typedef struct { uint32_t number, place, answer, steps, filled; } chant_collected;
typedef struct { uint32_t number, place, value, count, guard; } chant_word;
typedef struct { uint32_t number, place, turn, held, sheet; } chant_lock; /* held: 0 free, 1 held by sheet */
typedef struct { uint32_t number, place, length; } chant_wrote;
typedef struct { uint32_t number, place, answer, executed; } chant_ran;
typedef struct { uint32_t number, place, book, offset, length; } chant_found;

/* Makes a fresh state from a setup record (kind 2), whatever the numbers were; a refused one makes the blank state.
 * Refused 5, 6, 12. The place of 12 is the first byte of what is outside its range. */
CHANT_READ chant_reply chant_setup(uint32_t *state, size_t numbers, const uint8_t *record, size_t length);

/* Gives an idle worker a job record to try under a lock: takes the free sheet with the lowest number, copies the job, empties the
 * log, clears the mark. A record of kind 1 has 1 to 32 instructions, one of kind 4 33 to 64; 5 where it has another number.
 * Refused 1, 3, 4, 2, 5, 6, 7, 8, 9. The place of 7 and 8 is the instruction's, from 0; the lowest faulty instruction is told. */
CHANT_READ chant_reply chant_begin(uint32_t *state, size_t numbers, uint32_t worker, uint32_t lock, const uint8_t *record,
                                   size_t length);

/* Does one step of the worker's try. A try ends within 196 steps; 4 then says that its answer waits to be collected.
 * Refused 1, 11, 4. */
CHANT_READ chant_reply chant_step(uint32_t *state, size_t numbers, uint32_t worker);

/* Hands out a finished worker's answer, the number of accepted steps since begin and that of filled entries, and makes the worker
 * idle. CHANT_RAN_YES, CHANT_RAN_NO: the job ran, and its halt says yes or no. CHANT_NOT_TAKEN: the job was not run; no more is
 * said. A helper that releases a lock at its last turn is told this, and its next begin there is refused 9. CHANT_WORN: the job was not
 * run, and its lock is free at turn 67,108,864: until the next setup no begin there is accepted. Filled are the entries of the log that
 * this worker's commits were the first to fill in this try, on its own job's sheet or on the one that it helped: how much of the load
 * it carried. Refused 1, 11, 3. */
CHANT_READ chant_collected chant_collect(uint32_t *state, size_t numbers, uint32_t worker);

/* Makes a worker that isn't idle idle, at any point. A held lock stays held: any idle worker that begins there and is stepped
 * alone runs the job to its end within 193 steps. What collect would have told is lost. Refused 1, 11. */
CHANT_READ chant_reply chant_drop(uint32_t *state, size_t numbers, uint32_t worker);

/* Tells a word's value, its count of changes since setup, and the lock that guards it.
 * Refused 16. */
CHANT_READ chant_word chant_read_word(const uint32_t *state, size_t numbers, uint32_t word);

/* Tells a lock's turn, and whether it is held and by which sheet.
 * Refused 2. */
CHANT_READ chant_lock chant_read_lock(const uint32_t *state, size_t numbers, uint32_t lock);

/* Writes the job record of a sheet in use, of the kind that its number of instructions asks for, into the first bytes of the buffer;
 * length tells how many. The bytes after them don't change. Refused 14, 13. */
CHANT_READ chant_wrote chant_show(const uint32_t *state, size_t numbers, uint32_t sheet, uint8_t *buffer, size_t length);

/* Writes the setup record of the present values and turns into the first bytes of the buffer; length tells how many. The bytes
 * after them don't change. Refused 12 at place 4 (blank state), 15 at the lowest held lock, 13. */
CHANT_READ chant_wrote chant_park(const uint32_t *state, size_t numbers, uint8_t *buffer, size_t length);

/* Writes the record (kind 3) of a call of chant_begin, chant_step, chant_collect or chant_drop into the first bytes of the buffer;
 * length tells how many. The bytes after them don't change. Lock and job record are begin's: for the others they are not looked at.
 * A worker or lock above 255 is written as 255; there is none of that number either. The record of an accepted setup and then those
 * of the calls made since are a file that the program replay takes, up to 65,536 bytes: it makes them again and tells their answers.
 * Refused 17, 5 and 6 (a begin whose record is no job record, which chant_begin refuses too), 13. */
CHANT_READ chant_wrote chant_record(uint32_t call, uint32_t worker, uint32_t lock, const uint8_t *record, size_t length,
                                    uint8_t *buffer, size_t room);

/* Runs a job record at once, alone, for a bench with one worker: no state, no log, no steps. The words are the caller's, in two
 * tables: their values, which the job changes, and the lock that guards each. lock is any number, and the job may touch the words
 * whose guard it is. answer: CHANT_RAN_YES or CHANT_RAN_NO; executed: the instructions executed, the halt counted, those passed over
 * not. It answers and leaves what a worker stepped alone on a lock that is free below its last turn does. Refused 16 (the tables differ in length, or have more
 * than 64 words), 5, 6, 7, 8 as in chant_begin; then no value is changed. Each instruction is a call of its own: stack 12,400 bytes
 * for 64 of them (x86-64). */
CHANT_READ chant_ran chant_plain(uint32_t *values, size_t values_length, const uint8_t *guards, size_t guards_length, uint32_t lock,
                                 const uint8_t *record, size_t length);

/* Books of standard jobs. An entry: two bytes its length, which is 6 and the job record's, two bytes kind 5, two bytes the job number
 * (all of them the low byte first), then one whole job record. A book is entries end to end, whose numbers strictly rise; no bytes at
 * all is a book without jobs. A book with any bad entry is malformed: of a wrong length or kind, of a number not above the one before
 * it, or whose job record is refused 5, 6 or 7. What words a job names is looked at only when it begins. A book has less than 4 GB:
 * places, offsets and lengths are told in 32 bits. */

/* Looks a number up in two books, each checked whole first, the line book before the factory book. book tells which one has the job,
 * CHANT_LINE_BOOK where both do, offset and length where its record stands there: straight in the lent book, for chant_begin to take.
 * Refused 18 (book tells which book is malformed, the line book where both are), 19; then length is 0. */
CHANT_READ chant_found chant_book_find(const uint8_t *line, size_t line_length, const uint8_t *factory, size_t factory_length,
                                       uint32_t number);

/* Writes a book with one new job, under this number and in its place, into the first bytes of the buffer; length tells how many. The
 * bytes after them don't change, nor does the book. Refused 18, 19 (number above 65,535), 5, 6, 7 of the new job, 20, 13. The place of 7
 * is the instruction's, from 0. */
CHANT_READ chant_wrote chant_book_add(const uint8_t *book, size_t book_length, uint32_t number, const uint8_t *record,
                                      size_t record_length, uint8_t *buffer, size_t length);

#ifdef __cplusplus
}
#endif

#endif
