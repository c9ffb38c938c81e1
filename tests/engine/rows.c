/*
 * The engine's functions of include/purmagheli.h, worked out by hand: a day from clearing to closing book by the functions on an engine; and the
 * exported ones on rows of any length, which end with a listed answer and then leave every word and byte as it is. Run where examples/ is.
 */
#include <inttypes.h>
#include <stdio.h>
#include <stdlib.h>
#include <string.h>

#include "purmagheli.h"

enum { ROWS = 5, ENGINE_WORDS = sizeof(purmagheli_engine) / 8, BANK_WORDS = PURMAGHELI_BANKS * PURMAGHELI_BANK_WORDS, TEN = 36000 };

static uint8_t out[PURMAGHELI_ROOM + 1], text[4096];
static uint64_t tries[PURMAGHELI_TRIES + 1];
static const purmagheli_lent lent = {out, PURMAGHELI_ROOM, tries, PURMAGHELI_TRIES};
static const char *at;

static void must(int holds, const char *what) {
    if (holds) return;
    printf("tests/engine: %s: %s\n", at, what);
    exit(1);
}

static size_t load(const char *name) {
    char path[80] = "examples/day/";
    FILE *file = fopen(strcat(path, name), "rb");
    must(file != 0, "a file of examples/day is missing");
    size_t n = fread(text, 1, sizeof text, file);
    fclose(file);
    return n;
}

static int is(purmagheli_told told, uint64_t answer, size_t written, size_t tried) {
    return told.answer == answer && told.written == written && told.tried == tried;
}

/* ---- codes */

static void codes(void) {
    at = "codes";
    must(purmagheli_code4("AAAA") == 0x41414141 && purmagheli_code4("PROP") == 0x50524f50 && purmagheli_code4("AB") == 0x41420000, "four characters");
    must(purmagheli_code_high("PROP0001") == UINT64_C(0x50524f5030303031) && purmagheli_code_low("PROP0001") == 0, "a BIN");
    must(purmagheli_code_high("PROPNET000000001") == UINT64_C(0x50524f504e455430), "the first eight characters");
    must(purmagheli_code_low("PROPNET000000001") == UINT64_C(0x3030303030303031) && purmagheli_code_low("PROPNET0A") == UINT64_C(0x41) << 56, "the next eight");
    must(purmagheli_code_high("") == 0 && purmagheli_code_low("") == 0, "no character");
}

/* ---- a day */

static purmagheli_engine e;

static purmagheli_told message(uint64_t clock, uint64_t sender, const char *name) {
    size_t n = load(name);
    return purmagheli_message(&e, 1, clock, lent, sender, text, n);
}

static void put_little(uint8_t *p, uint64_t v, int n) {
    for (int i = 0; i < n; i++) p[i] = (uint8_t)(v >> (8 * i));
}

static void seal(uint8_t *block) {
    uint32_t sum = 0;
    for (int i = 0; i < 508; i++) sum += (uint32_t)block[i] << (8 * (i % 4));
    put_little(block + 508, sum, 4);
}

static uint8_t *account(uint8_t *book, size_t bank) { return book + 520 + 24 * bank; }

/* PROP0001 is held at HOBA, which may pay 50,000.00 and owes 60,000.00; RURL0001 settles: ADEL and DARW pay PERT 30,000.00 and 12,500.00. */
static void open_day(void) {
    must(is(purmagheli_open(&e, 1, 32400, lent, text, load("270203.book")), 0, 0, 0), "open");
    must(is(message(33000, 5, "texts/PROP0001-03"), 0, 0, 0) && is(message(33005, 5, "texts/PROP0001-01"), 0, 0, 0), "two parts");
    must(is(message(33009, 5, "texts/PROP0001-02"), 0, 0, 1) && tries[0] == 0, "the last part");
}

/* The words that the header names, of PROP0001 in the queue and of its first reference and its BIN. */
static void named_words(void) {
    const uint64_t *row = e.batches[0], *first = row + PURMAGHELI_BATCH_MESSAGE, *last = row + PURMAGHELI_BATCH_PAYMENT + 3 * PURMAGHELI_BATCH_PAYMENT_WORDS;
    uint64_t bin = purmagheli_code_high("PROP0001"), high = purmagheli_code_high("PROPNET000000003"), low = purmagheli_code_low("PROPNET000000003");
    must(row[PURMAGHELI_BATCH_PHASE] == PURMAGHELI_BATCH_QUEUED && row[PURMAGHELI_BATCH_RANK] == 0 && row[PURMAGHELI_BATCH_BIN] == bin, "a batch's words");
    must(row[PURMAGHELI_BATCH_COUNT] == 3 && row[PURMAGHELI_BATCH_ACTIVATION] == 0 && row[PURMAGHELI_BATCH_MEMORY] == 6, "its terms and memory");
    must(row[PURMAGHELI_BATCH_MESSAGES] == 3 && row[PURMAGHELI_BATCH_PAYMENTS] == 4, "what is there of a batch");
    must(first[PURMAGHELI_BATCH_MESSAGE_REFERENCE] == high && first[PURMAGHELI_BATCH_MESSAGE_REFERENCE + 1] == low, "a message's reference");
    must(first[PURMAGHELI_BATCH_MESSAGE_NUMBER] == 3 && first[PURMAGHELI_BATCH_MESSAGE_SIZE] == 2, "a message's words");
    must(last[PURMAGHELI_BATCH_PAYMENT_BANK] == 5 && last[PURMAGHELI_BATCH_PAYMENT_CENTS] == 6000000, "a payment's words");
    must(last[PURMAGHELI_BATCH_PAYMENT_LETTERS] == purmagheli_code4("A A "), "a payment's letters");
    must(e.references[0][PURMAGHELI_REFERENCE_CODE] == high && e.references[0][PURMAGHELI_REFERENCE_DAY] == 9895, "a reference's words");
    must(e.bins[0][PURMAGHELI_BIN_CODE] == bin && e.bins[0][PURMAGHELI_BIN_DAY] == 9895, "a BIN's words");
}

static void changes(void) {
    uint64_t hoba = purmagheli_code4("HOBA"), high = purmagheli_code_high("PROP0001"), low = purmagheli_code_low("PROP0001");
    must(is(purmagheli_status(&e, 1, 33700, lent, hoba, high, low, 'X'), 80, 0, 0), "a letter that is none");
    must(is(purmagheli_status(&e, 1, 33700, lent, hoba, high, 1, 'P'), 2, 0, 0), "the letter of no batch");
    must(is(purmagheli_status(&e, 1, 33700, lent, hoba, high, low, 'D'), 0, 0, 1) && tries[0] == 0, "a letter");
    must(is(purmagheli_sublimit(&e, 1, 33800, lent, purmagheli_code4("NONE"), 0), 76, 0, 0), "the sub-limit of no bank");
    must(is(purmagheli_sublimit(&e, 1, 33800, lent, hoba, UINT64_C(6400000000000001)), 14, 0, 0), "a sub-limit that is none");
    must(is(purmagheli_sublimit(&e, 1, 33800, lent, hoba, 7), 0, 0, 1) && e.banks[5].sublimit == 7, "a sub-limit");
}

static void close_day(void) {
    static const char *const references[] = {"PROPNET000000003", "PROPNET000000001", "PROPNET000000002"};
    char texts[400] = "", one[200];
    for (int i = 0; i < 3; i++) {
        snprintf(one, sizeof one, ":20:B000000%d\r\n:12:132\r\n:77E:\r\n:21:%s\r\n:22A:PROP\r\n:119:PROP0001\r\n:451:1\r\n:432:86\r\n", i + 2, references[i]);
        strcat(texts, one);
    }
    must(is(purmagheli_close(&e, 1, 59400, lent), 0, strlen(texts), 0) && memcmp(out, texts, strlen(texts)) == 0, "close");
    must(e.banks[5].waiting == 0, "nothing waits after the close");
}

static void closing_book(void) {
    static uint8_t book[1024];
    purmagheli_lent short_by_one = {out, sizeof book - 1, tries, PURMAGHELI_TRIES}, enough = {out, sizeof book, tries, PURMAGHELI_TRIES};
    must(load("270203.book") == sizeof book, "the book");
    memcpy(book, text, sizeof book);
    book[13] = '4';
    put_little(account(book, 0) + 8, 12000000 - 3000000, 8);
    put_little(account(book, 3) + 8, 9000000 - 1250000, 8);
    put_little(account(book, 5) + 16, 7, 8);
    put_little(account(book, 9) + 8, 6000000 + 4250000, 8);
    seal(book);
    seal(book + 512);
    must(is(purmagheli_closing_book(&e, 1, 59460, lent, 270203), 5, 0, 0), "a closing book of the day itself");
    must(is(purmagheli_closing_book(&e, 1, 59460, short_by_one, 270204), 7, 0, 0), "a closing book that is too long");
    must(is(purmagheli_closing_book(&e, 1, 59460, enough, 270204), 0, sizeof book, 0) && memcmp(out, book, sizeof book) == 0, "closing book");
    must(is(purmagheli_open(&e, 1, 32400, lent, book, sizeof book), 0, 0, 0) && e.desk[PURMAGHELI_DESK_TEXTS] == 0, "the next day");
    must(is(message(33000, 9, "texts/RURL0001"), 74, 0, 0), "a reference of the day before");
}

static const char settled[] = ":20:B0000001\r\n:12:132\r\n:77E:\r\n:21:RURLNET000000001\r\n:22A:RURL\r\n:119:RURL0001\r\n:451:0\r\n:13E:270203092000\r\n";

static void day(void) {
    at = "a day";
    memset(&e, 0xa5, sizeof e);
    must(is(purmagheli_tick(&e, 1, 0, lent), 6, 0, 0), "an engine that was not cleared");
    must(is(purmagheli_clear(&e), 0, 0, 0), "clear");
    must(is(purmagheli_tick(&e, 1, 0, lent), 5, 0, 0), "a tick before the opening");
    must(is(purmagheli_open(&e, 1, 32400, lent, text, load("270203.book") - 1), 11, 0, 0), "a book that is too short");
    open_day();
    named_words();
    must(e.desk[PURMAGHELI_DESK_PHASE] == PURMAGHELI_PHASE_OPEN && e.desk[PURMAGHELI_DESK_DATE] == 9895 && e.desk[PURMAGHELI_DESK_CLOCK] == 33009, "the desk");
    must(e.desk[PURMAGHELI_DESK_BANKS] == 12 && e.desk[PURMAGHELI_DESK_STREAMS] == 3, "the house");
    must(e.desk[PURMAGHELI_DESK_STREAM] == purmagheli_code4("CARD") && e.desk[PURMAGHELI_DESK_STREAM + 1] == 7, "the first stream");
    must(e.banks[5].code == purmagheli_code4("HOBA") && e.banks[5].balance == 8000000 && e.banks[5].sublimit == 3000000, "a bank");
    must(e.banks[5].waiting == 6000000, "what waits against it: 60,000.00 of PROP0001");
    must(is(message(33600, 9, "texts/RURL0001"), 0, 105, 1) && tries[0] == 3 && memcmp(out, settled, 105) == 0, "a message that settles");
    must(e.desk[PURMAGHELI_DESK_TEXTS] == 1 && e.banks[9].balance == 10250000 && e.banks[0].waiting == 0, "what it leaves");
    must(is(message(33601, 9, "texts/stranger"), 73, 0, 0), "a stranger");
    changes();
    must(is(purmagheli_tick(&e, 1, 33799, lent), 5, 0, 0), "a clock that goes back");
    must(is(purmagheli_tick(&e, 1, 33860, lent), 0, 0, 0) && is(purmagheli_tick(&e, 0, 33860, lent), 0, 0, 1), "ticks by either test");
    close_day();
    closing_book();
}

/* ---- rows of any length, each with a word behind it */

static uint64_t desk[23], banks[BANK_WORDS + 1], batches[32 * 349 + 1], references[6145], bins[1537], report[3];
static uint64_t *const rows[ROWS] = {desk, banks, batches, references, bins};
static const size_t right[ROWS] = {22, BANK_WORDS, 32 * 349, 6144, 1536};
static size_t lengths[ROWS], input_length, out_length, tries_length, report_length;

/* A day with a batch that is held, and all that is lent as long as it should be. */
static void lay_rows(void) {
    must(is(purmagheli_clear(&e), 0, 0, 0), "clear");
    open_day();
    const uint64_t *words = e.desk;
    for (int i = 0; i < ROWS; words += right[i++]) {
        memcpy(rows[i], words, 8 * right[i]);
        rows[i][right[i]] = 0xa5;
        lengths[i] = right[i];
    }
    memset(out, 0xa5, sizeof out);
    memset(tries, 0xa5, sizeof tries);
    memset(report, 0xa5, sizeof report);
    input_length = load("texts/RURL0001");
    out_length = PURMAGHELI_ROOM;
    tries_length = PURMAGHELI_TRIES;
    report_length = PURMAGHELI_REPORT_WORDS;
}

static uint64_t call(uint64_t quick, uint64_t action, uint64_t first) {
    return purmagheli_call_rows(
        quick, TEN, action, first, 0, 0, 0, text, input_length, desk, lengths[0], banks, lengths[1], batches, lengths[2], references, lengths[3], bins,
        lengths[4], out, out_length, tries, tries_length, report, report_length);
}

static uint64_t clear(void) {
    return purmagheli_clear_rows(desk, lengths[0], banks, lengths[1], batches, lengths[2], references, lengths[3], bins, lengths[4]);
}

struct lent_words {
    uint64_t desk[23], banks[BANK_WORDS + 1], batches[32 * 349 + 1], references[6145], bins[1537], tries[PURMAGHELI_TRIES + 1], report[3];
    uint8_t out[PURMAGHELI_ROOM + 1];
};

static void keep(struct lent_words *w) {
    memcpy(w->desk, desk, sizeof desk);
    memcpy(w->banks, banks, sizeof banks);
    memcpy(w->batches, batches, sizeof batches);
    memcpy(w->references, references, sizeof references);
    memcpy(w->bins, bins, sizeof bins);
    memcpy(w->tries, tries, sizeof tries);
    memcpy(w->report, report, sizeof report);
    memcpy(w->out, out, sizeof out);
}

static int kept(const struct lent_words *w) {
    static struct lent_words now;
    keep(&now);
    return memcmp(&now, w, sizeof now) == 0;
}

/* By every action the answer, with nothing changed; `reported`: but that the report says no bytes and no tries. */
static void refused(const char *what, uint64_t answer, int reported) {
    static struct lent_words before;
    at = what;
    for (uint64_t action = 0; action < 9; action++) {
        keep(&before);
        if (reported) before.report[0] = before.report[1] = 0;
        must(call(action % 2, action == 8 ? UINT64_MAX : action, 9) == answer, "another answer");
        must(kept(&before), "something has changed");
    }
}

static void wrong_lengths(void) {
    static const char *const names[ROWS] = {"the desk", "the banks", "the batches", "the references", "the BINs"};
    static struct lent_words before;
    for (int i = 0; i < ROWS; i++) {
        const size_t wrong[] = {right[i] - 1, right[i] + 1, 0};
        for (int k = 0; k < 3; k++) {
            lay_rows();
            lengths[i] = wrong[k];
            refused(names[i], 6, i > 1);
            keep(&before);
            must(clear() == 6 && kept(&before), "a clearing of another length");
            report_length = 1;
            refused(names[i], 7, 0);
        }
    }
}

static void wrong_words(void) {
    static const uint64_t phases[] = {3, 7, UINT64_C(1) << 32, UINT64_MAX};
    for (int i = 0; i < 4; i++) {
        lay_rows();
        desk[0] = phases[i];
        refused("a phase that is none", 6, 0);
    }
    must(clear() == 0, "a clearing of any contents");
    for (int i = 0; i < ROWS; i++)
        for (size_t k = 0; k <= right[i]; k++) must(rows[i][k] == (k < right[i] ? 0 : 0xa5), "what it leaves");
    lay_rows();
    bins[2]++;
    refused("a BIN of tomorrow", 6, 1);
    lay_rows();
    banks[5 * PURMAGHELI_BANK_WORDS + PURMAGHELI_BANK_WAITING]++;
    refused("a cent more waits than the batches say", 6, 1);
}

static void short_report(void) {
    for (size_t n = 0; n < 2; n++) {
        lay_rows();
        report_length = n;
        refused("a report that is too short", 7, 0);
        desk[0] = 3;
        refused("a report that is too short, and a phase that is none", 7, 0);
    }
}

/* Buffer or row one too short: 07, but the calls that are 05 before it. */
static void short_buffers(void) {
    static struct lent_words before;
    for (int i = 0; i < 2; i++) {
        lay_rows();
        *(i ? &tries_length : &out_length) -= 1;
        for (uint64_t action = 0; action < 8; action++) {
            keep(&before);
            before.report[0] = before.report[1] = 0;
            at = i ? "a row that is too short" : "a buffer that is too short";
            must(call(1, action, 9) == (action == 0 || action >= 6 ? 5 : 7) && kept(&before), "another answer, or something has changed");
        }
    }
}

/* Numbers that end like an action are none; on an open day, and on a closed one, which gives a closing book. */
static void unknown_actions(void) {
    static struct lent_words before;
    static const uint64_t none[] = {7, 8, 256 + PURMAGHELI_ACTION_TICK, (UINT64_C(1) << 32) + PURMAGHELI_ACTION_CLOSING_BOOK, UINT64_MAX};
    at = "an action that is none";
    for (int i = 0; i < 10; i++) {
        lay_rows();
        if (i > 4) must(call(1, PURMAGHELI_ACTION_CLOSE, 0) == 0, "close");
        keep(&before);
        before.report[0] = before.report[1] = 0;
        must(call(1, none[i % 5], 270204) == 5 && kept(&before), "another answer, or something has changed");
    }
    must(call(1, PURMAGHELI_ACTION_CLOSING_BOOK, 270204) == 0 && report[0] == 1024, "a closing book");
}

static void calls(void) {
    at = "a call on rows";
    lay_rows();
    report_length = 3;
    must(call(2, PURMAGHELI_ACTION_MESSAGE, 9) == 0, "a message");
    must(report[0] == 105 && report[1] == 1 && tries[0] == 3, "a message by the quick test, which is any number but 0");
    must(report[2] == UINT64_C(0xa5a5a5a5a5a5a5a5) && out[105] == 0xa5 && tries[1] == UINT64_C(0xa5a5a5a5a5a5a5a5), "more was written than is reported");
    must(call(0, PURMAGHELI_ACTION_TICK, 0) == 0 && report[0] == 0 && report[1] == 1 && tries[0] == 0, "a tick by the plain test");
    must(call(UINT64_C(1) << 32, PURMAGHELI_ACTION_TICK, 0) == 0 && report[1] == 0, "a tick by the quick test");
}

int main(void) {
    codes();
    day();
    wrong_lengths();
    wrong_words();
    short_report();
    short_buffers();
    unknown_actions();
    calls();
    return 0;
}
