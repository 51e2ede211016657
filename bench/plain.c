/* The peer that bench/run counts beside the archive: the job engine of document 01 in plain C, written for speed. All state
 * is one struct that the caller lends. Nothing of it is proved; once plain_setup was called, its calls answer as those of
 * include/chantgarden.h do (but for 22), and the benchmark holds it against the archive, call by call, before it counts anything.
 *
 * What it does for speed: a step is one jump, since a table has a function for each point, and where an instruction comes next its
 * op is itself the point; a word, a log entry and a lock word are two numbers that are compared as one; sheets in use are bits; the
 * programs of all sheets stand in one array, and their logs in another, so that one number says where a run is; and nothing is
 * cleared that no call can show.
 */
#include "chantgarden.h"
#include <string.h>

enum { WORKERS = 8, LOCKS = 16, WORDS = 64, SHEETS = 32, INSTRUCTIONS = 64, REGISTERS = 4 };
enum { SHORT = 32 }; /* the most instructions of a job record of kind 1; those of kind 4 have more */

#define LAST_TURN 67108864u
#define FREE 32u         /* the holder of a free lock: no sheet has this number */
#define EMPTY UINT32_MAX /* the count of an empty log entry: a word's stays below 63 × 2 to the 26th */

/* The points of a worker: what its next step does. The first eight are the ops of instructions, of which the first step comes. */
enum { HALT, SET, LOAD, STORE, CAM, ADD, SUB, SKIP };
enum { COMMIT_LOAD = 8, COMMIT_STORE, COMMIT_CAM, SWAP_STORE, SWAP_CAM, MARK, RELEASE };
enum { LOOK = 15, GRAB, LOOK_AGAIN, READ_MARK, IDLE, FINISHED };

struct word { uint32_t value, count; }; /* and a log entry, and a reading */
struct lock { uint32_t turn, holder; };
struct instruction { uint8_t op, a, b, c; };

/* 64 bytes, so that a shift finds a worker. */
struct worker {
  struct instruction now; /* the point, with the fields of the instruction that is run; of a finished worker, a is its answer */
  uint32_t steps;         /* accepted since begin */
  uint32_t uses;          /* bits: the own sheet and the helped one; none where no try is under way */
  uint32_t next, entry;   /* where the run is, among all instructions and all log entries */
  uint8_t lock, own;
  uint8_t filled;         /* log entries since begin: no more than a job has instructions */
  struct lock seen;       /* what Look or Look again remembers */
  struct lock won;        /* the sheet that is run, and the turn under which it won */
  struct word read;       /* what was read, and from the commit on what the entry holds */
  uint32_t registers[REGISTERS];
};

struct plain {
  uint32_t lock_count, word_count;
  struct worker workers[WORKERS];
  struct lock locks[LOCKS];
  struct word words[WORDS];
  uint8_t guards[WORDS];
  uint8_t lengths[SHEETS], done[SHEETS];
  struct instruction program[SHEETS * INSTRUCTIONS];
  struct word entries[SHEETS * INSTRUCTIONS];
};

static const chant_reply accepted = {0, 0};

static chant_reply refused(uint32_t number, uint32_t place) { return (chant_reply){number, place}; }

static uint32_t two_bytes(const uint8_t *at) { return at[0] | (uint32_t)at[1] << 8; }

static uint32_t four_bytes(const uint8_t *at) { return two_bytes(at) | two_bytes(at + 2) << 16; }

static void put_four(uint8_t *at, uint32_t number) {
  at[0] = (uint8_t)number;
  at[1] = (uint8_t)(number >> 8);
  at[2] = (uint8_t)(number >> 16);
  at[3] = (uint8_t)(number >> 24);
}

/* The sheets in use, as bits. The bit of a free lock is past them. */
static uint32_t in_use(const struct plain *e) {
  uint64_t bits = 0;
  for (uint32_t i = 0; i < WORKERS; i++) bits |= e->workers[i].uses;
  for (uint32_t i = 0; i < e->lock_count; i++) bits |= (uint64_t)1 << e->locks[i].holder;
  return (uint32_t)bits;
}

/* Refusal 5 of a record's first bytes, or 0. */
static uint32_t head_fault(const uint8_t *record, size_t length) {
  return length < 4 || two_bytes(record) != length ? 5 : 0;
}

/* Refusals 5 and 6 of a job record's form, or 0. */
static uint32_t form_fault(const uint8_t *record, size_t length) {
  if (head_fault(record, length)) return 5;
  uint32_t kind = two_bytes(record + 2);
  if (kind != 1 && kind != 4) return 6;
  size_t fewest = kind == 1 ? 1 : SHORT + 1, most = kind == 1 ? SHORT : INSTRUCTIONS;
  return length % 4 != 0 || length < 4 + 4 * fewest || length > 4 + 4 * most ? 5 : 0;
}

/* Without locks and words the state is the blank one, and so it stays where the record is refused. */
chant_reply plain_setup(struct plain *e, const uint8_t *record, size_t length) {
  e->lock_count = e->word_count = 0;
  for (uint32_t i = 0; i < WORKERS; i++) {
    e->workers[i].now.op = IDLE;
    e->workers[i].uses = 0;
  }
  uint32_t number = head_fault(record, length);
  if (number == 0 && two_bytes(record + 2) != 2) number = 6;
  if (number) return refused(number, 0);
  if (length < 6) return refused(5, 0);
  uint32_t locks = record[4], words = record[5];
  if (locks < 1 || locks > LOCKS) return refused(12, 4);
  if (words < 1 || words > WORDS) return refused(12, 5);
  if (length != 6 + 5 * words + 4 * locks) return refused(5, 0);
  const uint8_t *guards = record + 6, *values = guards + words, *turns = values + 4 * words;
  for (uint32_t i = 0; i < words; i++) {
    if (guards[i] >= locks) return refused(12, 6 + i);
    e->guards[i] = guards[i];
    e->words[i] = (struct word){four_bytes(values + 4 * i), 0};
  }
  for (uint32_t i = 0; i < locks; i++) {
    e->locks[i] = (struct lock){four_bytes(turns + 4 * i), FREE};
    if (e->locks[i].turn > LAST_TURN) return refused(12, 6 + 5 * words + 4 * i);
  }
  e->lock_count = locks;
  e->word_count = words;
  return accepted;
}

/* The bits that are 0 in a well formed instruction, by its op. */
static const uint32_t zeros[] = {0xFFFFFE00, 0x0000FC00, 0xFF00FC00, 0xFF00FC00, 0x00FCFC00, 0xFFFCFC00, 0xFFFCFC00, 0x00FCFC00};

/* Refusal 7 or 8 of the lowest faulty one of n instructions. */
static chant_reply job_fault(const struct plain *e, uint32_t lock, const uint8_t *job, uint32_t n) {
  uint32_t last = n - 1;
  for (uint32_t i = 0; i < last; i++) {
    uint32_t all = four_bytes(job + 4 * i), op = all & 255, b = all >> 16 & 255, c = all >> 24;
    if (op > SKIP || (all & zeros[op])) return refused(7, i);
    if (op == SKIP && (c == 0 || i + 1 + c > last)) return refused(7, i);
    if (op >= LOAD && op <= CAM) {
      uint32_t word = op == CAM ? c : b;
      if (word >= e->word_count || e->guards[word] != lock) return refused(8, i);
    }
  }
  return four_bytes(job + 4 * last) & (zeros[HALT] | 255) ? refused(7, last) : accepted;
}

/* A run commits at most once for each instruction, so no more entries have to be empty. */
static void take_sheet(struct plain *e, uint32_t own, const uint8_t *job, uint32_t n) {
  memcpy(e->program + own * INSTRUCTIONS, job, 4 * n);
  memset(e->entries + own * INSTRUCTIONS, 255, sizeof(struct word) * n);
  e->lengths[own] = (uint8_t)n;
  e->done[own] = 0;
}

chant_reply plain_begin(struct plain *e, uint32_t worker, uint32_t lock, const uint8_t *record, size_t length) {
  if (worker >= WORKERS) return refused(1, 0);
  struct worker *w = &e->workers[worker];
  if (w->now.op != IDLE) return refused(w->now.op == FINISHED ? 4 : 3, 0);
  if (lock >= e->lock_count) return refused(2, 0);
  uint32_t number = form_fault(record, length);
  if (number) return refused(number, 0);
  uint32_t n = (uint32_t)length / 4 - 1;
  chant_reply fault = job_fault(e, lock, record + 4, n);
  if (fault.number) return fault;
  if (e->locks[lock].holder == FREE && e->locks[lock].turn == LAST_TURN) return refused(9, 0);
  uint32_t own = (uint32_t)__builtin_ctz(~in_use(e)); /* at most 30 of the 32 are in use here */
  take_sheet(e, own, record + 4, n);
  w->now.op = LOOK;
  w->steps = 0;
  w->filled = 0;
  w->uses = 1u << own;
  w->lock = (uint8_t)lock;
  w->own = (uint8_t)own;
  return accepted;
}

/* From here to plain_step: a step at each point. The first five functions end one. */
static chant_reply counted(struct worker *w) {
  w->steps++;
  return accepted;
}

static chant_reply go_to(struct worker *w, uint8_t point) {
  w->now.op = point;
  return counted(w);
}

/* The instruction is over; the next one comes. */
static chant_reply go_on(const struct plain *e, struct worker *w) {
  w->now = e->program[++w->next];
  return counted(w);
}

static chant_reply run(const struct plain *e, struct worker *w, uint32_t sheet) {
  memset(w->registers, 0, sizeof w->registers);
  w->next = w->entry = sheet * INSTRUCTIONS;
  w->now = e->program[sheet * INSTRUCTIONS];
  return counted(w);
}

static chant_reply finish(struct worker *w, uint8_t answer) {
  w->now.a = answer;
  w->uses = 0;
  return go_to(w, FINISHED);
}

static chant_reply look(struct plain *e, struct worker *w) {
  const struct lock *lock = &e->locks[w->lock];
  w->seen = *lock;
  if (lock->holder == FREE) return lock->turn == LAST_TURN ? finish(w, CHANT_WORN) : go_to(w, GRAB);
  w->uses |= 1u << lock->holder;
  w->won = *lock;
  return run(e, w, lock->holder);
}

static chant_reply grab(struct plain *e, struct worker *w) {
  size_t number = w->lock;
  struct lock *lock = &e->locks[number], won = {w->seen.turn + 1, w->own};
  w->won = won;
  if (memcmp(lock, &w->seen, sizeof *lock) == 0) *lock = won;
  return go_to(w, LOOK_AGAIN);
}

/* The bit of the own sheet is there already, and that of a free lock is cut off. */
static chant_reply look_again(struct plain *e, struct worker *w) {
  const struct lock *lock = &e->locks[w->lock];
  w->seen = *lock;
  w->uses |= (uint32_t)((uint64_t)1 << lock->holder);
  return go_to(w, READ_MARK);
}

static chant_reply read_mark(struct plain *e, struct worker *w) {
  uint32_t own = w->own, holder = w->seen.holder;
  if (e->done[own] || holder == own) {
    w->uses = 1u << own;
    return run(e, w, own);
  }
  if (holder == FREE) return finish(w, CHANT_NOT_TAKEN);
  w->won = w->seen;
  return run(e, w, holder);
}

static chant_reply halt(struct plain *e, struct worker *w) {
  (void)e;
  return go_to(w, MARK);
}

static chant_reply set(struct plain *e, struct worker *w) {
  w->registers[w->now.a] = w->now.b + 256u * w->now.c;
  return go_on(e, w);
}

static chant_reply add(struct plain *e, struct worker *w) {
  w->registers[w->now.a] += w->registers[w->now.b];
  return go_on(e, w);
}

static chant_reply sub(struct plain *e, struct worker *w) {
  w->registers[w->now.a] -= w->registers[w->now.b];
  return go_on(e, w);
}

static chant_reply skip(struct plain *e, struct worker *w) {
  if (w->registers[w->now.a] == w->registers[w->now.b]) w->next += w->now.c;
  return go_on(e, w);
}

static chant_reply read(const struct plain *e, struct worker *w, size_t word, uint8_t point) {
  w->read = e->words[word];
  return go_to(w, point);
}

static chant_reply load(struct plain *e, struct worker *w) { return read(e, w, w->now.b, COMMIT_LOAD); }

static chant_reply store(struct plain *e, struct worker *w) { return read(e, w, w->now.b, COMMIT_STORE); }

static chant_reply cam(struct plain *e, struct worker *w) { return read(e, w, w->now.c, COMMIT_CAM); }

static void commit(struct plain *e, struct worker *w) {
  struct word *entry = &e->entries[w->entry++];
  if (entry->count == EMPTY) {
    *entry = w->read;
    w->filled++;
  } else {
    w->read = *entry;
  }
}

static chant_reply commit_load(struct plain *e, struct worker *w) {
  commit(e, w);
  w->registers[w->now.a] = w->read.value;
  return go_on(e, w);
}

static chant_reply commit_store(struct plain *e, struct worker *w) {
  commit(e, w);
  return go_to(w, SWAP_STORE);
}

static chant_reply commit_cam(struct plain *e, struct worker *w) {
  commit(e, w);
  return w->read.value == w->registers[w->now.a] ? go_to(w, SWAP_CAM) : go_on(e, w);
}

static chant_reply swap(struct plain *e, struct worker *w, size_t number, uint32_t value) {
  struct word *word = &e->words[number];
  if (memcmp(word, &w->read, sizeof *word) == 0) {
    word->value = value;
    word->count++;
  }
  return go_on(e, w);
}

static chant_reply swap_store(struct plain *e, struct worker *w) { return swap(e, w, w->now.b, w->registers[w->now.a]); }

static chant_reply swap_cam(struct plain *e, struct worker *w) { return swap(e, w, w->now.c, w->registers[w->now.b]); }

static chant_reply mark(struct plain *e, struct worker *w) {
  e->done[w->won.holder] = 1;
  return go_to(w, RELEASE);
}

/* The halt is still at hand: its a says no or yes. */
static chant_reply release(struct plain *e, struct worker *w) {
  size_t number = w->lock;
  struct lock *lock = &e->locks[number];
  if (memcmp(lock, &w->won, sizeof *lock) == 0) lock->holder = FREE;
  return finish(w, w->won.holder != w->own ? CHANT_NOT_TAKEN : CHANT_RAN_NO - w->now.a);
}

static chant_reply no_try(struct plain *e, struct worker *w) {
  (void)e;
  return refused(w->now.op == IDLE ? 11 : 4, 0);
}

static chant_reply (*const steps[])(struct plain *, struct worker *) = {
    [LOOK] = look, [GRAB] = grab, [LOOK_AGAIN] = look_again, [READ_MARK] = read_mark,
    [HALT] = halt, [SET] = set, [LOAD] = load, [STORE] = store, [CAM] = cam, [ADD] = add, [SUB] = sub, [SKIP] = skip,
    [COMMIT_LOAD] = commit_load, [COMMIT_STORE] = commit_store, [COMMIT_CAM] = commit_cam,
    [SWAP_STORE] = swap_store, [SWAP_CAM] = swap_cam,
    [MARK] = mark, [RELEASE] = release, [IDLE] = no_try, [FINISHED] = no_try,
};

chant_reply plain_step(struct plain *e, uint32_t worker) {
  if (worker >= WORKERS) return refused(1, 0);
  struct worker *w = &e->workers[worker];
  return steps[w->now.op](e, w);
}

chant_collected plain_collect(struct plain *e, uint32_t worker) {
  if (worker >= WORKERS) return (chant_collected){1, 0, 0, 0, 0};
  struct worker *w = &e->workers[worker];
  if (w->now.op != FINISHED) return (chant_collected){w->now.op == IDLE ? 11 : 3, 0, 0, 0, 0};
  w->now.op = IDLE;
  return (chant_collected){0, 0, w->now.a, w->steps, w->filled};
}

chant_reply plain_drop(struct plain *e, uint32_t worker) {
  if (worker >= WORKERS) return refused(1, 0);
  struct worker *w = &e->workers[worker];
  if (w->now.op == IDLE) return refused(11, 0);
  w->now.op = IDLE;
  w->uses = 0;
  return accepted;
}

chant_word plain_read_word(const struct plain *e, uint32_t word) {
  if (word >= e->word_count) return (chant_word){16, 0, 0, 0, 0};
  return (chant_word){0, 0, e->words[word].value, e->words[word].count, e->guards[word]};
}

chant_lock plain_read_lock(const struct plain *e, uint32_t lock) {
  if (lock >= e->lock_count) return (chant_lock){2, 0, 0, 0, 0};
  uint32_t turn = e->locks[lock].turn, holder = e->locks[lock].holder;
  return holder == FREE ? (chant_lock){0, 0, turn, 0, 0} : (chant_lock){0, 0, turn, 1, holder};
}

chant_wrote plain_show(const struct plain *e, uint32_t sheet, uint8_t *buffer, size_t length) {
  if (sheet >= SHEETS || !(in_use(e) >> sheet & 1)) return (chant_wrote){14, 0, 0};
  uint32_t bytes = 4 + 4u * e->lengths[sheet];
  if (length < bytes) return (chant_wrote){13, 0, 0};
  put_four(buffer, bytes | (e->lengths[sheet] > SHORT ? 4u : 1u) << 16);
  memcpy(buffer + 4, e->program + sheet * INSTRUCTIONS, bytes - 4);
  return (chant_wrote){0, 0, bytes};
}

chant_wrote plain_park(const struct plain *e, uint8_t *buffer, size_t length) {
  uint32_t locks = e->lock_count, words = e->word_count, bytes = 6 + 5 * words + 4 * locks;
  if (locks == 0) return (chant_wrote){12, 4, 0};
  for (uint32_t i = 0; i < locks; i++)
    if (e->locks[i].holder != FREE) return (chant_wrote){15, i, 0};
  if (length < bytes) return (chant_wrote){13, 0, 0};
  put_four(buffer, bytes | 2u << 16);
  buffer[4] = (uint8_t)locks;
  buffer[5] = (uint8_t)words;
  memcpy(buffer + 6, e->guards, words);
  for (uint32_t i = 0; i < words; i++) put_four(buffer + 6 + words + 4 * i, e->words[i].value);
  for (uint32_t i = 0; i < locks; i++) put_four(buffer + 6 + 5 * words + 4 * i, e->locks[i].turn);
  return (chant_wrote){0, 0, bytes};
}

/* For the benchmark alone: the room that a state takes, */
size_t plain_size(void) { return sizeof(struct plain); }

/* and what a worker is doing: at which of document 01's points its try is, from 0 to 8, or 9 where it is idle, 10 finished. */
uint32_t plain_point(const struct plain *e, uint32_t worker) {
  static const uint8_t points[] = {
      [LOOK] = 0, [GRAB] = 1, [LOOK_AGAIN] = 2, [READ_MARK] = 3,
      [HALT] = 4, [SET] = 4, [LOAD] = 4, [STORE] = 4, [CAM] = 4, [ADD] = 4, [SUB] = 4, [SKIP] = 4,
      [COMMIT_LOAD] = 5, [COMMIT_STORE] = 5, [COMMIT_CAM] = 5,
      [SWAP_STORE] = 6, [SWAP_CAM] = 6,
      [MARK] = 7, [RELEASE] = 8, [IDLE] = 9, [FINISHED] = 10,
  };
  return points[e->workers[worker].now.op];
}
