/*
 * Documents 01 and 02 (the tickets that have landed) once more, in plain C: the calls of the engine on what is lent, written from them with
 * docs/DECISIONS.md and docs/FORMAT.md and from nothing of the crates' code. The tests compare the two, the benchmark runs them side by
 * side. Its readers of texts and its check of a book are those of tests/gateway.
 */
#ifndef PLAIN_ENGINE_H
#define PLAIN_ENGINE_H

#include <stddef.h>
#include <stdint.h>

enum { PLAIN_BANKS = 64, PLAIN_STREAMS = 8, PLAIN_BATCHES = 32, PLAIN_BATCH_WORDS = 349, PLAIN_REFERENCES = 2048, PLAIN_BINS = 512 };
enum { PLAIN_ROOM = 33705, PLAIN_ROWS = 528 };

#define PLAIN_MOST_MONEY UINT64_C(6400000000000000)
#define PLAIN_MOST_CENTS UINT64_C(999999999999)

/* Waiting is the total of the bank's debits in pending and queued batches (ticket 2 of document 02). */
typedef struct {
    uint64_t code, flags, balance, sublimit, waiting;
} plain_bank;

typedef struct {
    uint64_t desk[22];
    plain_bank banks[PLAIN_BANKS];
    uint64_t batches[PLAIN_BATCHES][PLAIN_BATCH_WORDS];
    uint64_t references[PLAIN_REFERENCES][3];
    uint64_t bins[PLAIN_BINS][3];
} plain_engine;

typedef struct {
    uint8_t *out;
    size_t room;
    uint64_t *tries;
    size_t rows;
} plain_lent;

typedef struct {
    uint64_t answer;
    size_t written;
    size_t tried;
} plain_told;

/* ---- the calls; a flag `quick` chooses the queue test */

plain_told plain_clear(plain_engine *e);
plain_told plain_open(plain_engine *e, int quick, uint64_t clock, plain_lent lent, const uint8_t *book, size_t length);
plain_told plain_message(plain_engine *e, int quick, uint64_t clock, plain_lent lent, uint64_t sender, const uint8_t *text, size_t length);
plain_told plain_sublimit(plain_engine *e, int quick, uint64_t clock, plain_lent lent, uint64_t bank, uint64_t cents);
plain_told plain_status(plain_engine *e, int quick, uint64_t clock, plain_lent lent, uint64_t bank, uint64_t bin_high, uint64_t bin_low, uint64_t letter);
plain_told plain_tick(plain_engine *e, int quick, uint64_t clock, plain_lent lent);
plain_told plain_close(plain_engine *e, int quick, uint64_t clock, plain_lent lent);
plain_told plain_closing_book(plain_engine *e, int quick, uint64_t clock, plain_lent lent, uint64_t date);

/* Characters as numbers, big-endian: four, or eight of a longer code, filled up with zeros. */
uint64_t plain_code4(const char *four);
uint64_t plain_code8(const char *eight);

/* ---- the words of desk and batches by their names */

enum { PLAIN_FRESH, PLAIN_OPEN, PLAIN_CLOSED };
enum { PLAIN_FREE, PLAIN_ASSEMBLING, PLAIN_PENDING, PLAIN_QUEUED };

typedef struct {
    uint64_t phase, date, clock, texts, banks, streams;
    struct {
        uint64_t code, administrator;
    } stream[PLAIN_STREAMS];
} plain_desk;

typedef struct {
    uint64_t reference[2], number, size;
} plain_part;

/* Letters are 0 for a credit. */
typedef struct {
    uint64_t bank, cents, letters;
} plain_payment;

/* Activation is 0 for none, else the minute and 1; memory 0 for none, else the bank's place and 1. */
typedef struct {
    uint64_t phase, rank, bin[2], count, activation, memory, messages, payments;
    plain_part message[10];
    plain_payment payment[100];
} plain_batch;

static inline const plain_desk *plain_desk_of(const plain_engine *e) { return (const plain_desk *)e->desk; }
static inline const plain_batch *plain_batch_at(const plain_engine *e, int place) { return (const plain_batch *)e->batches[place]; }

/* ---- what the calls stand on */

/* The remembered ones of some entries, by hash: a slot has an entry's place and 1. The lowest free place, or -1. */
typedef struct {
    const uint64_t (*entries)[3];
    uint16_t slots[4096];
    int free;
} plain_index;

/* Whether desk and tables keep the table rules; where they do on a day, both indexes are made on the way. */
int plain_right(const plain_engine *e, plain_index *references, plain_index *bins);

/* The place of a remembered code, or -1. */
int plain_find(const plain_index *x, const uint64_t code[2]);

/* "today or on one of the 14 days before" */
static inline int plain_remembered(uint64_t day, uint64_t today) { return day <= today && today - day <= 14; }

/* The place of the live batch of a BIN, or -1; that of a phase and a rank likewise. */
int plain_batch_of(const plain_engine *e, const uint64_t bin[2]);
int plain_ranked(const plain_engine *e, uint64_t phase, uint64_t rank);

/* The first debit of a batch that its own bank does not cover, or a null pointer. */
const plain_payment *plain_first_uncovered(const plain_engine *e, const plain_batch *b);
int plain_covered(const plain_bank *bank, const plain_payment *debit);

/* The number YYMMDD of a day; the day of such a number, or -1. */
uint64_t plain_date_of(uint64_t day);
int64_t plain_day_of(uint64_t date);

#endif
