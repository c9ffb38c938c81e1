/*
 * Purmagheli for programs in C99 or C++ on x86-64, Linux.
 *
 * The readers of a gateway: the text of a request (131, 133), the text of a response (132, 134), why one is refused, and
 * the check of a book and where it breaks; and the writers of both texts.
 *
 * The engine: a house's day from opening to closing book.
 *
 * Link target/staticlib/libpurmagheli.a, which `./purmagheli library` builds. Header and archive belong together
 * where purmagheli_version() returns PURMAGHELI_VERSION.
 *
 * Each function answers 0, or the number by which it refuses; docs/RULES.md has them all. It keeps nothing
 * between calls, allocates nothing, and may be called from several threads at once, each with what it
 * writes to.
 *
 * A caller lends a text or a book as a pointer and a number of bytes, and a row as a pointer and a
 * number of words. It sees to it that no pointer is null, which no function can refuse (what is empty
 * too has an address), that so many bytes or words can be read, and those of a row or a buffer
 * written, and that nothing else writes them during the call. No two things lent to a call overlap.
 */
#ifndef PURMAGHELI_H
#define PURMAGHELI_H

#include <stddef.h>
#include <stdint.h>

#ifdef __cplusplus
extern "C" {
#endif

/* The version of this header, and of the archive that is linked. It rises with every change that a program can see. */
#define PURMAGHELI_VERSION 2

uint64_t purmagheli_version(void);

/*
 * A field is four words of a row: where its value starts in the text, how many bytes it has, and
 * the value as a number, or as two. A field that the text does not have is four zeros.
 *
 * A code of four characters is the number of its bytes, the first one the most significant. A
 * reference or a BIN has its first eight characters so in the value and the next eight in the
 * second, each padded by zero bytes on the right.
 */
#define PURMAGHELI_FIELD_WORDS 4
#define PURMAGHELI_FIELD_START 0
#define PURMAGHELI_FIELD_LENGTH 1
#define PURMAGHELI_FIELD_VALUE 2
#define PURMAGHELI_FIELD_SECOND 3

/*
 * The row of a request: its words, and where each field begins. 77E, which is always empty, has no
 * field. A recall (133) has zeros from PURMAGHELI_REQUEST_NUMBERS on.
 *
 *   REFERENCE   20    value and second: the code
 *   SUB_TYPE    12    value: 131 or 133
 *   STREAM      22A   value: the code
 *   BIN         119   value and second: the code
 *   NUMBERS     16A   value: the message's number; second: how many messages the batch has
 *   DATE        171   value: the day, 0 for 1 January 2000
 *   ACTIVATION  175   value: the minute of the day; second: 1 if the line is there, else 0
 *   COUNT       203   value: how many payments there are
 *   PAYMENTS          ten places; those past the payments are zero
 */
#define PURMAGHELI_REQUEST_WORDS 192
#define PURMAGHELI_REQUEST_REFERENCE 0
#define PURMAGHELI_REQUEST_SUB_TYPE 4
#define PURMAGHELI_REQUEST_STREAM 8
#define PURMAGHELI_REQUEST_BIN 12
#define PURMAGHELI_REQUEST_NUMBERS 16
#define PURMAGHELI_REQUEST_DATE 20
#define PURMAGHELI_REQUEST_ACTIVATION 24
#define PURMAGHELI_REQUEST_COUNT 28
#define PURMAGHELI_REQUEST_PAYMENTS 32

/*
 * The place of a payment: payment k begins at REQUEST_PAYMENTS + k * PAYMENT_WORDS.
 *
 *   SIDE     127   value: 0 for CR, 1 for DR
 *   AMOUNT   32B   value: cents
 *   LETTERS  113   value: the four letters as a code, spaces as they stand; zeros for a credit
 *   BANK     102   value: the code
 */
#define PURMAGHELI_PAYMENTS 10
#define PURMAGHELI_PAYMENT_WORDS 16
#define PURMAGHELI_PAYMENT_SIDE 0
#define PURMAGHELI_PAYMENT_AMOUNT 4
#define PURMAGHELI_PAYMENT_LETTERS 8
#define PURMAGHELI_PAYMENT_BANK 12

/*
 * The row of a response. A 134 has no STREAM and no BIN; one that recalled has no DETAIL.
 *
 *   NUMBER     20         value: the seven digits; the part holds the B too
 *   SUB_TYPE   12         value: 132 or 134
 *   REFERENCE  21         value and second: the code
 *   STREAM     22A        value: the code
 *   BIN        119        value and second: the code
 *   STATUS     451        value: 0 or 1
 *   DETAIL     13E, 432   after status 0 of a 132 value: the day, second: the second of the day;
 *                         after status 1 value: the number of the refusal
 */
#define PURMAGHELI_RESPONSE_WORDS 28
#define PURMAGHELI_RESPONSE_NUMBER 0
#define PURMAGHELI_RESPONSE_SUB_TYPE 4
#define PURMAGHELI_RESPONSE_REFERENCE 8
#define PURMAGHELI_RESPONSE_STREAM 12
#define PURMAGHELI_RESPONSE_BIN 16
#define PURMAGHELI_RESPONSE_STATUS 20
#define PURMAGHELI_RESPONSE_DETAIL 24

/*
 * The first four words of either row after a text that is refused (not after 07):
 *
 *   AT        where the line begins that breaks the text
 *   MISSING   1 if a field is missing there: the text ends, or another tag or none stands there
 *   REACHED   of a request, how far its address was read: REACHED_NOTHING, _STREAM or _BIN
 *   ZERO      0
 *
 * Of a request that is refused the fields SUB_TYPE, STREAM and BIN stand in their places where they
 * were read, else they are zero: so is a SUB_TYPE other than 131 and 133. No other word is touched.
 */
#define PURMAGHELI_BREAK_AT 0
#define PURMAGHELI_BREAK_MISSING 1
#define PURMAGHELI_BREAK_REACHED 2
#define PURMAGHELI_BREAK_ZERO 3
#define PURMAGHELI_REACHED_NOTHING 0
#define PURMAGHELI_REACHED_STREAM 1
#define PURMAGHELI_REACHED_BIN 2

/*
 * Reads a request into the first PURMAGHELI_REQUEST_WORDS words of a row; words past them are not
 * touched. 7 for a row of fewer words, which is not touched. Else a text that is refused, by the first
 * thing that is wrong with it:
 *
 *   80   the first of a debit's four letters is none of A, D, P, space
 *   81   the second or third is none of them
 *   87   a line is missing, stands elsewhere, or has a wrong value
 *   88   a sub type that is neither 131 nor 133
 *
 * A gateway replies to the sender with that number, and the text goes no further.
 */
uint64_t purmagheli_read_request(const uint8_t *text, size_t text_length, uint64_t *row, size_t row_length);

/*
 * Reads a response into the first PURMAGHELI_RESPONSE_WORDS words of a row, likewise: 7, 87, or 88 for a
 * sub type that is neither 132 nor 134. Such a text is asked for again.
 */
uint64_t purmagheli_read_response(const uint8_t *text, size_t text_length, uint64_t *row, size_t row_length);

/*
 * Why a text is refused, in the first PURMAGHELI_EXPLAIN_WORDS words of a row; words past them are not touched. 7
 * for a row of fewer words, which is not touched; else the number that the reader gives, and
 *
 *   AT        where the line begins that breaks the text
 *   LINE      its number, counted from 1
 *   MISSING   1 if a field is missing there
 *   FIRST     the tag that may stand there, PURMAGHELI_TAG_.., or PURMAGHELI_TAG_NONE where the text should end;
 *             if nothing is missing, the tag that stands there, with a wrong value (113 also after a credit)
 *   SECOND    another tag that may stand there, or PURMAGHELI_TAG_NONE
 *   VALUE     where the value begins, 0 if a field is missing
 *
 * For a text that is accepted 0, and zeros.
 */
#define PURMAGHELI_EXPLAIN_WORDS 6
#define PURMAGHELI_EXPLAIN_AT 0
#define PURMAGHELI_EXPLAIN_LINE 1
#define PURMAGHELI_EXPLAIN_MISSING 2
#define PURMAGHELI_EXPLAIN_FIRST 3
#define PURMAGHELI_EXPLAIN_SECOND 4
#define PURMAGHELI_EXPLAIN_VALUE 5
#define PURMAGHELI_TAG_NONE 0
#define PURMAGHELI_TAG_20 1
#define PURMAGHELI_TAG_12 2
#define PURMAGHELI_TAG_77E 3
#define PURMAGHELI_TAG_22A 4
#define PURMAGHELI_TAG_119 5
#define PURMAGHELI_TAG_16A 6
#define PURMAGHELI_TAG_171 7
#define PURMAGHELI_TAG_175 8
#define PURMAGHELI_TAG_127 9
#define PURMAGHELI_TAG_32B 10
#define PURMAGHELI_TAG_113 11
#define PURMAGHELI_TAG_102 12
#define PURMAGHELI_TAG_203 13
#define PURMAGHELI_TAG_21 14
#define PURMAGHELI_TAG_451 15
#define PURMAGHELI_TAG_13E 16
#define PURMAGHELI_TAG_432 17
uint64_t purmagheli_explain_request(const uint8_t *text, size_t text_length, uint64_t *row, size_t row_length);
uint64_t purmagheli_explain_response(const uint8_t *text, size_t text_length, uint64_t *row, size_t row_length);

/*
 * Writes the text of a request to the beginning of a buffer, from a row as purmagheli_read_request fills it: of each field the
 * value counts, and the second where there are two; where it stood in a text does not. COUNT says how many of the ten payments there are.
 * 0, and the text's length in the first word of `told`; bytes past the text are not touched. Else nothing is written anywhere:
 *
 *   7             a row of fewer than PURMAGHELI_REQUEST_WORDS words, or no word to tell the length; or, after the numbers below, a buffer that
 *                 does not hold the text; PURMAGHELI_REQUEST_LONGEST bytes always do
 *   80, 81, 87, 88   the number that purmagheli_read_request gives of such a text; a value that its line cannot hold is left out of it
 */
#define PURMAGHELI_REQUEST_LONGEST 649
#define PURMAGHELI_TOLD_WORDS 1
uint64_t purmagheli_write_request(const uint64_t *row, size_t row_length, uint8_t *out, size_t out_length, uint64_t *told, size_t told_length);

/*
 * Writes the text of a response likewise, from a row as purmagheli_read_response fills it: 7 for too few words, 88 for a sub type that
 * is neither 132 nor 134, 87 for a status or another value that no response holds, then 7 for a buffer that does not hold the text.
 */
#define PURMAGHELI_RESPONSE_LONGEST 105
uint64_t purmagheli_write_response(const uint64_t *row, size_t row_length, uint8_t *out, size_t out_length, uint64_t *told, size_t told_length);

/*
 * Checks a book. It goes back to whoever made it with
 *
 *   11   not two to five blocks of 512 bytes
 *   12   a block's check does not fit
 *   13   a block's header, its counts, the date, or an unused byte that is not zero
 *   14   an entry: a code, the order of the codes, an administrator, a flag, a stream bit, money out of range
 *   15   the total of the balances is out of range
 */
uint64_t purmagheli_check_book(const uint8_t *book, size_t book_length);

/*
 * Where a book breaks, in the first PURMAGHELI_FAULT_WORDS words of a row; words past them are not touched:
 *
 *   BLOCK   the block, from 0; 0 for TEST_LENGTH and TEST_TOTAL, which are tests of the whole book
 *   ENTRY   the entry in that block, from 0, where the test is one of an entry (TEST_CODE to TEST_SUB_LIMIT); else 0
 *   TEST    the first test that fails; 0 for a sound book
 *
 * The tests, in the order in which they are made, each with the number that it gives:
 *
 *   LENGTH          11   the length is not two to five blocks of 512 bytes
 *   CHECK           12   the block's check does not fit
 *   HEAD            13   bytes 0 to 3 or 5 to 7 are not BF, the letter, the number, the count of blocks and zeros
 *   COUNT           13   the block has too few entries or too many
 *   DATE            13   the date is not a true one
 *   AFTER_DATE      13   the two bytes behind the date are not zero
 *   UNUSED          13   a byte behind the entries is not zero
 *   CODE            14   the code is not four of A-Z 0-9
 *   ORDER           14   the code is not above the one before
 *   ADMINISTRATOR   14   the administrator is 0
 *   FLAG            14   the flag is neither 0 nor 1
 *   STREAM_BIT      14   a stream bit has no stream
 *   ZEROS           14   an entry's zero bytes are not zero
 *   BALANCE         14   the balance is out of range
 *   SUB_LIMIT       14   the sub-limit is out of range
 *   TOTAL           15   the total of the balances is out of range
 */
#define PURMAGHELI_FAULT_WORDS 3
#define PURMAGHELI_FAULT_BLOCK 0
#define PURMAGHELI_FAULT_ENTRY 1
#define PURMAGHELI_FAULT_TEST 2
#define PURMAGHELI_TEST_LENGTH 1
#define PURMAGHELI_TEST_CHECK 2
#define PURMAGHELI_TEST_HEAD 3
#define PURMAGHELI_TEST_COUNT 4
#define PURMAGHELI_TEST_DATE 5
#define PURMAGHELI_TEST_AFTER_DATE 6
#define PURMAGHELI_TEST_UNUSED 7
#define PURMAGHELI_TEST_CODE 8
#define PURMAGHELI_TEST_ORDER 9
#define PURMAGHELI_TEST_ADMINISTRATOR 10
#define PURMAGHELI_TEST_FLAG 11
#define PURMAGHELI_TEST_STREAM_BIT 12
#define PURMAGHELI_TEST_ZEROS 13
#define PURMAGHELI_TEST_BALANCE 14
#define PURMAGHELI_TEST_SUB_LIMIT 15
#define PURMAGHELI_TEST_TOTAL 16

/*
 * Finds where a book breaks. 7 for a row of fewer words, which is not touched; else the number that
 * purmagheli_check_book gives of the same book, 0 for a sound one.
 */
uint64_t purmagheli_find_book_fault(const uint8_t *book, size_t book_length, uint64_t *row, size_t row_length);

/* ---- the engine */

/*
 * All that a house keeps, as plain data: it may be copied, stored and compared, and nothing of it
 * stands elsewhere. There is one writer: two calls on the same engine do not run at once. Before its
 * first day an engine is cleared, whatever it holds. docs/FORMAT.md says each word,
 * docs/OPERATING.md how a house is run.
 */
#define PURMAGHELI_DESK_WORDS 22
#define PURMAGHELI_DESK_PHASE 0
#define PURMAGHELI_DESK_DATE 1
#define PURMAGHELI_DESK_CLOCK 2
#define PURMAGHELI_DESK_TEXTS 3
#define PURMAGHELI_DESK_BANKS 4
#define PURMAGHELI_DESK_STREAMS 5
#define PURMAGHELI_DESK_STREAM 6
#define PURMAGHELI_STREAMS 8
#define PURMAGHELI_STREAM_WORDS 2
#define PURMAGHELI_PHASE_FRESH 0
#define PURMAGHELI_PHASE_OPEN 1
#define PURMAGHELI_PHASE_CLOSED 2
#define PURMAGHELI_BANKS 64
#define PURMAGHELI_BANK_WORDS 5
#define PURMAGHELI_BANK_CODE 0
#define PURMAGHELI_BANK_FLAGS 1
#define PURMAGHELI_BANK_BALANCE 2
#define PURMAGHELI_BANK_SUBLIMIT 3
#define PURMAGHELI_BANK_WAITING 4
#define PURMAGHELI_BATCHES 32
#define PURMAGHELI_BATCH_WORDS 349
#define PURMAGHELI_REFERENCES 2048
#define PURMAGHELI_REFERENCE_WORDS 3
#define PURMAGHELI_BINS 512
#define PURMAGHELI_BIN_WORDS 3

/*
 * The words of a batch's row, for programs that look at the queue. A row that is not in use is zero.
 *
 *   PHASE        BATCH_FREE, _ASSEMBLING, _PENDING or _QUEUED
 *   RANK         its place among the pending or in the queue, from 0
 *   BIN          two words: the code
 *   COUNT        how many messages the batch has
 *   ACTIVATION   0, or the minute of the day plus 1
 *   MEMORY       of the quick test: 0, or the place of a bank plus 1
 *   MESSAGES     how many messages are there
 *   PAYMENTS     how many payments are there
 *   MESSAGE      message i begins at MESSAGE + i * MESSAGE_WORDS: REFERENCE (two words: the code), NUMBER, SIZE (its payments)
 *   PAYMENT      payment j begins at PAYMENT + j * PAYMENT_WORDS: BANK (its place), CENTS, LETTERS (as a code; 0 for a credit)
 */
#define PURMAGHELI_BATCH_FREE 0
#define PURMAGHELI_BATCH_ASSEMBLING 1
#define PURMAGHELI_BATCH_PENDING 2
#define PURMAGHELI_BATCH_QUEUED 3
#define PURMAGHELI_BATCH_PHASE 0
#define PURMAGHELI_BATCH_RANK 1
#define PURMAGHELI_BATCH_BIN 2
#define PURMAGHELI_BATCH_COUNT 4
#define PURMAGHELI_BATCH_ACTIVATION 5
#define PURMAGHELI_BATCH_MEMORY 6
#define PURMAGHELI_BATCH_MESSAGES 7
#define PURMAGHELI_BATCH_PAYMENTS 8
#define PURMAGHELI_BATCH_MESSAGE 9
#define PURMAGHELI_BATCH_MESSAGE_WORDS 4
#define PURMAGHELI_BATCH_MESSAGE_REFERENCE 0
#define PURMAGHELI_BATCH_MESSAGE_NUMBER 2
#define PURMAGHELI_BATCH_MESSAGE_SIZE 3
#define PURMAGHELI_BATCH_PAYMENT 49
#define PURMAGHELI_BATCH_PAYMENT_WORDS 3
#define PURMAGHELI_BATCH_PAYMENT_BANK 0
#define PURMAGHELI_BATCH_PAYMENT_CENTS 1
#define PURMAGHELI_BATCH_PAYMENT_LETTERS 2

/* The words of a reference's or a BIN's row: the code in two words, and the day on which it was noted, 0 for 1 January 2000. */
#define PURMAGHELI_REFERENCE_CODE 0
#define PURMAGHELI_REFERENCE_DAY 2
#define PURMAGHELI_BIN_CODE 0
#define PURMAGHELI_BIN_DAY 2

typedef struct {
    uint64_t code, flags, balance, sublimit;
    uint64_t waiting; /* the total of the bank's debits in pending and queued batches, in cents */
} purmagheli_bank;

typedef struct {
    /* phase, date, clock, texts, banks, streams in use, 8 times code and administrator */
    uint64_t desk[PURMAGHELI_DESK_WORDS];
    purmagheli_bank banks[PURMAGHELI_BANKS];
    uint64_t batches[PURMAGHELI_BATCHES][PURMAGHELI_BATCH_WORDS];
    uint64_t references[PURMAGHELI_REFERENCES][PURMAGHELI_REFERENCE_WORDS];
    uint64_t bins[PURMAGHELI_BINS][PURMAGHELI_BIN_WORDS];
} purmagheli_engine;

/*
 * What is lent to a call for its texts, or for a closing book, and for its tries: a buffer of `room`
 * bytes and a row of `rows` words. ROOM bytes and TRIES words are enough for every call and wanted by
 * every call, but that a closing book wants no more room than it has bytes.
 */
#define PURMAGHELI_ROOM 33705
#define PURMAGHELI_TRIES 528

typedef struct {
    uint8_t *out;
    size_t room;
    uint64_t *tries;
    size_t rows;
} purmagheli_lent;

/*
 * What a call tells: its answer, how many bytes it has written from the buffer's beginning, and how
 * many tries of the queue test from the row's: twice the batch's place, plus 1 for one that settled.
 * Past them buffer and row are as before.
 */
typedef struct {
    uint64_t answer;
    size_t written;
    size_t tried;
} purmagheli_told;

/*
 * The exported functions, on rows: each table is a pointer and a length in words, of any length. The
 * functions further down call them with the rows of a purmagheli_engine.
 *
 * quick: 0 is the plain queue test, any other number the quick one. What an action takes:
 *
 *   OPENING        input: the book
 *   MESSAGE        first: the sender; input: the text
 *   SUBLIMIT       first: the bank; second: cents
 *   STATUS         first: the bank; second, third: the BIN; fourth: the letter
 *   TICK, CLOSE    nothing
 *   CLOSING_BOOK   first: the date as the number YYMMDD
 *
 * What it does not take is not looked at. The report gets the bytes written and the tries made, in
 * every call but these, which leave every word and byte as it is: 7 for a report of fewer than two
 * words; then 6 for a desk of another length or with a phase that is none, or for banks of another
 * length. The other tables are 6 too where their length is another; then an action that is none of
 * these is 5. No length ends otherwise than with a listed answer.
 */
#define PURMAGHELI_ACTION_OPENING 0
#define PURMAGHELI_ACTION_MESSAGE 1
#define PURMAGHELI_ACTION_SUBLIMIT 2
#define PURMAGHELI_ACTION_STATUS 3
#define PURMAGHELI_ACTION_TICK 4
#define PURMAGHELI_ACTION_CLOSE 5
#define PURMAGHELI_ACTION_CLOSING_BOOK 6
#define PURMAGHELI_REPORT_WORDS 2
#define PURMAGHELI_REPORT_WRITTEN 0
#define PURMAGHELI_REPORT_TRIED 1

uint64_t purmagheli_call_rows(
    uint64_t quick, uint64_t clock, uint64_t action, uint64_t first, uint64_t second, uint64_t third, uint64_t fourth,
    const uint8_t *input, size_t input_length,
    uint64_t *desk, size_t desk_length,
    uint64_t *banks, size_t banks_length,
    uint64_t *batches, size_t batches_length,
    uint64_t *references, size_t references_length,
    uint64_t *bins, size_t bins_length,
    uint8_t *out, size_t out_length,
    uint64_t *tries, size_t tries_length,
    uint64_t *report, size_t report_length);

/* A fresh start: 0 and all words zero; 6 for a row of another length, and then nothing has changed. */
uint64_t purmagheli_clear_rows(
    uint64_t *desk, size_t desk_length,
    uint64_t *banks, size_t banks_length,
    uint64_t *batches, size_t batches_length,
    uint64_t *references, size_t references_length,
    uint64_t *bins, size_t bins_length);

/* ---- codes from characters; a string that is too short is filled up with zeros */

/* So many characters of a string as a number, the first one the most significant. */
static inline uint64_t purmagheli_packed(const char *s, int characters) {
    uint64_t code = 0;
    int i;
    for (i = 0; i < characters; i++) {
        code = code << 8 | (unsigned char)*s;
        if (*s) s++;
    }
    return code;
}

/* A bank's or a stream's code. */
static inline uint64_t purmagheli_code4(const char *s) { return purmagheli_packed(s, 4); }

/* A reference or a BIN: its first eight characters, and those behind them. */
static inline uint64_t purmagheli_code_high(const char *s) { return purmagheli_packed(s, 8); }

static inline uint64_t purmagheli_code_low(const char *s) {
    int i;
    for (i = 0; i < 8 && *s; i++) s++;
    return purmagheli_packed(s, 8);
}

/* ---- the calls on an engine */

/* Any of the actions. */
static inline purmagheli_told purmagheli_call(
    purmagheli_engine *e, int quick, uint64_t clock, purmagheli_lent lent, uint64_t action,
    uint64_t first, uint64_t second, uint64_t third, uint64_t fourth, const uint8_t *input, size_t length) {
    uint64_t report[PURMAGHELI_REPORT_WORDS] = {0, 0};
    purmagheli_told told;
    told.answer = purmagheli_call_rows(
        quick != 0, clock, action, first, second, third, fourth, input, length, e->desk, PURMAGHELI_DESK_WORDS,
        (uint64_t *)e->banks, PURMAGHELI_BANKS * PURMAGHELI_BANK_WORDS, e->batches[0], PURMAGHELI_BATCHES * PURMAGHELI_BATCH_WORDS,
        e->references[0], PURMAGHELI_REFERENCES * PURMAGHELI_REFERENCE_WORDS, e->bins[0], PURMAGHELI_BINS * PURMAGHELI_BIN_WORDS,
        lent.out, lent.room, lent.tries, lent.rows, report, PURMAGHELI_REPORT_WORDS);
    told.written = (size_t)report[PURMAGHELI_REPORT_WRITTEN];
    told.tried = (size_t)report[PURMAGHELI_REPORT_TRIED];
    return told;
}

/* An action without a text or a book. */
static inline purmagheli_told purmagheli_act(
    purmagheli_engine *e, int quick, uint64_t clock, purmagheli_lent lent, uint64_t action,
    uint64_t first, uint64_t second, uint64_t third, uint64_t fourth) {
    const uint8_t none = 0;
    return purmagheli_call(e, quick, clock, lent, action, first, second, third, fourth, &none, 0);
}

/* A fresh start: all zero, no day, nothing remembered. Any contents are accepted, so the answer is 0. */
static inline purmagheli_told purmagheli_clear(purmagheli_engine *e) {
    purmagheli_told told;
    told.answer = purmagheli_clear_rows(
        e->desk, PURMAGHELI_DESK_WORDS, (uint64_t *)e->banks, PURMAGHELI_BANKS * PURMAGHELI_BANK_WORDS,
        e->batches[0], PURMAGHELI_BATCHES * PURMAGHELI_BATCH_WORDS, e->references[0], PURMAGHELI_REFERENCES * PURMAGHELI_REFERENCE_WORDS,
        e->bins[0], PURMAGHELI_BINS * PURMAGHELI_BIN_WORDS);
    told.written = 0;
    told.tried = 0;
    return told;
}

/*
 * Of each call below: 6 (the engine breaks the table rules), 5 (wrong moment) and 7 (buffer or row too
 * short), in this order, come before all other answers and leave every word and byte as it is.
 */

/* Opens the day of a book. 0: the day is open and the clock set. 11 to 15 for the book, 5 for its date: nothing has changed. */
static inline purmagheli_told purmagheli_open(purmagheli_engine *e, int quick, uint64_t clock, purmagheli_lent lent, const uint8_t *book, size_t length) {
    return purmagheli_call(e, quick, clock, lent, PURMAGHELI_ACTION_OPENING, 0, 0, 0, 0, book, length);
}

/*
 * The calls of an open day: the clock moves, batches join whose minute has begun, the call acts, and the
 * queue test runs; whatever a call answers but 5, 6 and 7, its texts may be about any batch.
 */

/*
 * A request from a sender. 0: the message is noted, or the batch recalled. 1, 2, 74, 76, 77, 78, 80, 81, 84, 87
 * and 88 refuse it, 73 its sender, by the message rules; 4: there was no place for it, and it is not noted.
 */
static inline purmagheli_told purmagheli_message(
    purmagheli_engine *e, int quick, uint64_t clock, purmagheli_lent lent, uint64_t sender, const uint8_t *text, size_t length) {
    return purmagheli_call(e, quick, clock, lent, PURMAGHELI_ACTION_MESSAGE, sender, 0, 0, 0, text, length);
}

/* Another sub-limit for a bank. 76: no such bank; 14: no such sub-limit; it is then the one it was. */
static inline purmagheli_told purmagheli_sublimit(purmagheli_engine *e, int quick, uint64_t clock, purmagheli_lent lent, uint64_t bank, uint64_t cents) {
    return purmagheli_act(e, quick, clock, lent, PURMAGHELI_ACTION_SUBLIMIT, bank, cents, 0, 0);
}

/*
 * Another ESA letter for a bank's debit in a pending or queued batch. 80: not 'A', 'D' or 'P'; 76: no such bank; 2: no such debit;
 * no letter has changed then.
 */
static inline purmagheli_told purmagheli_status(
    purmagheli_engine *e, int quick, uint64_t clock, purmagheli_lent lent, uint64_t bank, uint64_t bin_high, uint64_t bin_low, uint64_t letter) {
    return purmagheli_act(e, quick, clock, lent, PURMAGHELI_ACTION_STATUS, bank, bin_high, bin_low, letter);
}

/* Time goes on. 0. */
static inline purmagheli_told purmagheli_tick(purmagheli_engine *e, int quick, uint64_t clock, purmagheli_lent lent) {
    return purmagheli_act(e, quick, clock, lent, PURMAGHELI_ACTION_TICK, 0, 0, 0, 0);
}

/* The close. 0: what the queue test leaves is ended with 86, and the day is closed. */
static inline purmagheli_told purmagheli_close(purmagheli_engine *e, int quick, uint64_t clock, purmagheli_lent lent) {
    return purmagheli_act(e, quick, clock, lent, PURMAGHELI_ACTION_CLOSE, 0, 0, 0, 0);
}

/* The book of a closed day, with the date of a later one as the number YYMMDD. 0: it stands in the buffer, and the clock has moved. */
static inline purmagheli_told purmagheli_closing_book(purmagheli_engine *e, int quick, uint64_t clock, purmagheli_lent lent, uint64_t date) {
    return purmagheli_act(e, quick, clock, lent, PURMAGHELI_ACTION_CLOSING_BOOK, date, 0, 0, 0);
}

#ifdef __cplusplus
}
#endif

#endif
