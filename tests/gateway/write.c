/*
 * The library's writers against plain ones, on many thousand rows by chance from a fixed seed: rows of right values, rows with some word changed,
 * and buffers that are too short by any number of bytes. What is written reads back as the values that were given; past a text, and where
 * nothing is written, the buffer and the word that tells the length are as they were.
 */
#include <stdio.h>
#include <stdlib.h>
#include <string.h>

#include "plain.h"
#include "purmagheli.h"

enum { ROOM = 1200 };

static unsigned long failures, compared, written;
static uint64_t seed = UINT64_C(0x2545f4914f6cdd1d);

static uint64_t chance(uint64_t n) {
    seed ^= seed << 13;
    seed ^= seed >> 7;
    seed ^= seed << 17;
    return (seed >> 11) % n;
}

/* ---- plain writers: each value as its line holds it; a value that no line can hold is left out */

struct text {
    uint8_t bytes[2048];
    size_t length;
};

static void add(struct text *t, const void *bytes, size_t n) {
    memcpy(t->bytes + t->length, bytes, n);
    t->length += n;
}

static void add_string(struct text *t, const char *s) { add(t, s, strlen(s)); }

static void add_digits(struct text *t, uint64_t v, int width, uint64_t limit) {
    char b[32];
    snprintf(b, sizeof b, "%0*llu", width, (unsigned long long)v);
    if (v < limit) add_string(t, b);
}

static int is_code(uint8_t c) { return (c >= '0' && c <= '9') || (c >= 'A' && c <= 'Z'); }

/* A reference or a BIN: characters, then zeros. */
static void add_name(struct text *t, uint64_t high, uint64_t low) {
    uint8_t b[16];
    size_t n = 0, zeros;
    for (int i = 0; i < 8; i++) b[i] = (uint8_t)(high >> (56 - 8 * i)), b[8 + i] = (uint8_t)(low >> (56 - 8 * i));
    while (n < 16 && is_code(b[n])) n++;
    for (zeros = n; zeros < 16 && b[zeros] == 0; zeros++) {}
    if (zeros == 16) add(t, b, n);
}

static void add_four(struct text *t, uint64_t v) {
    uint8_t b[4] = {(uint8_t)(v >> 24), (uint8_t)(v >> 16), (uint8_t)(v >> 8), (uint8_t)v};
    if (v >> 32 == 0) add(t, b, 4);
}

static void date_of(uint64_t day, uint64_t *date) {
    static const unsigned lengths[] = {31, 28, 31, 30, 31, 30, 31, 31, 30, 31, 30, 31};
    uint64_t y = 0, m = 0;
    *date = 0;
    if (day >= 36525) return;
    while (day >= (y % 4 ? 365u : 366u)) day -= y % 4 ? 365 : 366, y++;
    while (day >= lengths[m] + (m == 1 && y % 4 == 0)) day -= lengths[m] + (m == 1 && y % 4 == 0), m++;
    *date = y * 10000 + (m + 1) * 100 + day + 1;
}

static uint64_t value(const uint64_t *row, size_t at) { return row[at + PURMAGHELI_FIELD_VALUE]; }
static uint64_t second(const uint64_t *row, size_t at) { return row[at + PURMAGHELI_FIELD_SECOND]; }

static void add_payment(struct text *t, const uint64_t *p) {
    int debit = value(p, PURMAGHELI_PAYMENT_SIDE) != 0;
    uint64_t cents = value(p, PURMAGHELI_PAYMENT_AMOUNT);
    add_string(t, debit ? ":127:DR\r\n:32B:" : ":127:CR\r\n:32B:");
    if (cents < UINT64_C(1000000000000)) {
        add_string(t, "AUD");
        add_digits(t, cents / 100, 1, UINT64_MAX);
        add_string(t, ",");
        add_digits(t, cents % 100, 2, 100);
    }
    if (debit) {
        add_string(t, "\r\n:113:");
        add_four(t, value(p, PURMAGHELI_PAYMENT_LETTERS));
    }
    add_string(t, "\r\n:102:");
    add_four(t, value(p, PURMAGHELI_PAYMENT_BANK));
    add_string(t, "\r\n");
}

static void add_settlement(struct text *t, const uint64_t *row) {
    uint64_t date, minute = value(row, PURMAGHELI_REQUEST_ACTIVATION), n = value(row, PURMAGHELI_REQUEST_COUNT);
    add_string(t, ":16A:");
    add_digits(t, value(row, PURMAGHELI_REQUEST_NUMBERS), 2, 100);
    add_string(t, "/");
    add_digits(t, second(row, PURMAGHELI_REQUEST_NUMBERS), 2, 100);
    add_string(t, "\r\n:171:");
    date_of(value(row, PURMAGHELI_REQUEST_DATE), &date);
    add_digits(t, date, 6, 1000000);
    add_string(t, "\r\n");
    if (second(row, PURMAGHELI_REQUEST_ACTIVATION)) {
        add_string(t, ":175:");
        if (minute < 1440) add_digits(t, minute / 60 * 100 + minute % 60, 4, 10000);
        add_string(t, "\r\n");
    }
    for (uint64_t k = 0; k < n && k < PURMAGHELI_PAYMENTS; k++) add_payment(t, row + PURMAGHELI_REQUEST_PAYMENTS + k * PURMAGHELI_PAYMENT_WORDS);
    add_string(t, ":203:");
    add_digits(t, n, 1, 100);
    add_string(t, "\r\n");
}

static uint64_t plain_request(const uint64_t *row, struct text *t) {
    uint64_t read[PURMAGHELI_REQUEST_WORDS];
    t->length = 0;
    add_string(t, ":20:");
    add_name(t, value(row, PURMAGHELI_REQUEST_REFERENCE), second(row, PURMAGHELI_REQUEST_REFERENCE));
    add_string(t, "\r\n:12:");
    add_digits(t, value(row, PURMAGHELI_REQUEST_SUB_TYPE), 3, 1000);
    add_string(t, "\r\n:77E:\r\n:22A:");
    add_four(t, value(row, PURMAGHELI_REQUEST_STREAM));
    add_string(t, "\r\n:119:");
    add_name(t, value(row, PURMAGHELI_REQUEST_BIN), second(row, PURMAGHELI_REQUEST_BIN));
    add_string(t, "\r\n");
    if (value(row, PURMAGHELI_REQUEST_SUB_TYPE) == 131) add_settlement(t, row);
    return plain_read_request(t->bytes, t->length, read);
}

/* 87 for a status that is none, then 88, then what the plain reader says of the text. */
static uint64_t plain_response(const uint64_t *row, struct text *t) {
    uint64_t read[PURMAGHELI_RESPONSE_WORDS], kind = value(row, PURMAGHELI_RESPONSE_SUB_TYPE), status = value(row, PURMAGHELI_RESPONSE_STATUS), date;
    t->length = 0;
    if (kind != 132 && kind != 134) return 88;
    if (status > 1) return 87;
    add_string(t, ":20:B");
    add_digits(t, value(row, PURMAGHELI_RESPONSE_NUMBER), 7, 10000000);
    add_string(t, kind == 132 ? "\r\n:12:132\r\n:77E:\r\n:21:" : "\r\n:12:134\r\n:77E:\r\n:21:");
    add_name(t, value(row, PURMAGHELI_RESPONSE_REFERENCE), second(row, PURMAGHELI_RESPONSE_REFERENCE));
    add_string(t, "\r\n");
    if (kind == 132) {
        add_string(t, ":22A:");
        add_four(t, value(row, PURMAGHELI_RESPONSE_STREAM));
        add_string(t, "\r\n:119:");
        add_name(t, value(row, PURMAGHELI_RESPONSE_BIN), second(row, PURMAGHELI_RESPONSE_BIN));
        add_string(t, "\r\n");
    }
    add_string(t, status ? ":451:1\r\n:432:" : ":451:0\r\n");
    if (status) add_digits(t, value(row, PURMAGHELI_RESPONSE_DETAIL), 2, 100);
    if (!status && kind == 132) {
        uint64_t s = second(row, PURMAGHELI_RESPONSE_DETAIL);
        add_string(t, ":13E:");
        date_of(value(row, PURMAGHELI_RESPONSE_DETAIL), &date);
        add_digits(t, date, 6, 1000000);
        if (s < 86400) add_digits(t, s / 3600 * 10000 + s / 60 % 60 * 100 + s % 60, 6, 1000000);
    }
    if (status || kind == 132) add_string(t, "\r\n");
    return plain_read_response(t->bytes, t->length, read);
}

/* ---- one row */

typedef uint64_t writes(const uint64_t *, size_t, uint8_t *, size_t, uint64_t *, size_t);

static void fail(const char *what, const struct text *t, uint64_t got, uint64_t want) {
    if (failures++ < 10) printf("gateway test of writers: %s: %llu, wanted %llu, of\n%.*s\n", what, (unsigned long long)got, (unsigned long long)want, (int)t->length, t->bytes);
}

static void compare(const char *what, writes *f, const uint64_t *row, size_t words, size_t room, const struct text *t, uint64_t number) {
    static uint8_t out[ROOM + 8];
    uint64_t told[2] = {UINT64_C(0xa5c3), UINT64_C(0xa5c3)}, want = number ? number : t->length <= room ? 0 : 7;
    size_t length = want ? 0 : t->length;
    memset(out, 0xa5, sizeof out);
    uint64_t got = f(row, words, out, room, told, 1);
    compared++;
    written += got == 0;
    if (got != want) fail(what, t, got, want);
    if (length && memcmp(out, t->bytes, length) != 0) fail("another text", t, 1, 0);
    for (size_t i = length; i < sizeof out; i++)
        if (out[i] != 0xa5) {
            fail("bytes past the text", t, i, length);
            break;
        }
    if (told[0] != (want ? UINT64_C(0xa5c3) : length) || told[1] != UINT64_C(0xa5c3)) fail("the length that is told", t, told[0], length);
    if (f(row, words, out, room, told, 0) != 7 || f(row, words - 1, out, room, told, 1) != 7) fail("a row that is too short", t, 1, 7);
}

static uint64_t code_by_chance(size_t n, size_t width) {
    static const char characters[] = "ABCDEFGHIJKLMNOPQRSTUVWXYZ0123456789";
    uint64_t v = 0;
    for (size_t i = 0; i < width; i++) v = v << 8 | (i < n ? (uint64_t)(uint8_t)characters[chance(36)] : 0);
    return v;
}

static uint64_t status_letters(void) {
    static const char letters[] = "ADP ";
    uint64_t v = 0;
    for (int i = 0; i < 4; i++) v = v << 8 | (uint64_t)(uint8_t)letters[chance(4)];
    return v;
}

/* A reference of 1 to 16 characters at a place, and a stream with a BIN that begins with it. */
static void put_reference(uint64_t *field) {
    size_t n = 1 + chance(16);
    field[PURMAGHELI_FIELD_VALUE] = code_by_chance(n < 8 ? n : 8, 8);
    field[PURMAGHELI_FIELD_SECOND] = n > 8 ? code_by_chance(n - 8, 8) : 0;
}

static void put_stream(uint64_t *stream, uint64_t *bin) {
    uint64_t digits = 0;
    for (int i = 0; i < 4; i++) digits = digits << 8 | ('0' + chance(10));
    stream[PURMAGHELI_FIELD_VALUE] = code_by_chance(4, 4);
    bin[PURMAGHELI_FIELD_VALUE] = stream[PURMAGHELI_FIELD_VALUE] << 32 | digits;
    bin[PURMAGHELI_FIELD_SECOND] = 0;
}

static void put_payment(uint64_t *p) {
    p[PURMAGHELI_PAYMENT_SIDE + PURMAGHELI_FIELD_VALUE] = chance(2);
    p[PURMAGHELI_PAYMENT_AMOUNT + PURMAGHELI_FIELD_VALUE] = chance(chance(2) ? 1000 : UINT64_C(1000000000000));
    p[PURMAGHELI_PAYMENT_LETTERS + PURMAGHELI_FIELD_VALUE] = status_letters();
    p[PURMAGHELI_PAYMENT_BANK + PURMAGHELI_FIELD_VALUE] = code_by_chance(4, 4);
}

/* A value that may be right somewhere, or nowhere. */
static uint64_t odd_value(void) {
    static const uint64_t odd[] = {0, 1, 10, 11, 99, 100, 131, 132, 133, 134, 999, 1000, 1440, 9999999, 10000000, 36524, 36525, 86399, 86400, UINT64_C(999999999999), UINT64_C(1000000000000), UINT64_C(4294967295), UINT64_C(4294967296), UINT64_MAX};
    return chance(3) ? odd[chance(sizeof odd / sizeof *odd)] : chance(2) ? code_by_chance(1 + chance(8), 8) : code_by_chance(4, 4);
}

static void spoil(uint64_t *row, size_t words) {
    if (chance(3) == 0) return;
    for (uint64_t n = 1 + chance(2); n; n--) row[chance(words / 4) * 4 + 2 + chance(2)] = odd_value();
}

static void test_request(void) {
    uint64_t row[PURMAGHELI_REQUEST_WORDS];
    struct text t;
    for (size_t i = 0; i < PURMAGHELI_REQUEST_WORDS; i++) row[i] = chance(1000);
    put_reference(row + PURMAGHELI_REQUEST_REFERENCE);
    row[PURMAGHELI_REQUEST_SUB_TYPE + PURMAGHELI_FIELD_VALUE] = chance(6) ? 131 : 133;
    put_stream(row + PURMAGHELI_REQUEST_STREAM, row + PURMAGHELI_REQUEST_BIN);
    uint64_t count = 1 + chance(10);
    row[PURMAGHELI_REQUEST_NUMBERS + PURMAGHELI_FIELD_VALUE] = 1 + chance(count);
    row[PURMAGHELI_REQUEST_NUMBERS + PURMAGHELI_FIELD_SECOND] = count;
    row[PURMAGHELI_REQUEST_DATE + PURMAGHELI_FIELD_VALUE] = chance(36525);
    row[PURMAGHELI_REQUEST_ACTIVATION + PURMAGHELI_FIELD_VALUE] = chance(1440);
    row[PURMAGHELI_REQUEST_ACTIVATION + PURMAGHELI_FIELD_SECOND] = chance(2);
    row[PURMAGHELI_REQUEST_COUNT + PURMAGHELI_FIELD_VALUE] = 1 + chance(10);
    for (size_t k = 0; k < PURMAGHELI_PAYMENTS; k++) put_payment(row + PURMAGHELI_REQUEST_PAYMENTS + k * PURMAGHELI_PAYMENT_WORDS);
    spoil(row, chance(2) ? PURMAGHELI_REQUEST_PAYMENTS : PURMAGHELI_REQUEST_WORDS);
    uint64_t number = plain_request(row, &t);
    compare("request", purmagheli_write_request, row, PURMAGHELI_REQUEST_WORDS, chance(4) ? ROOM : t.length - chance(t.length), &t, number);
}

static void test_response(void) {
    uint64_t row[PURMAGHELI_RESPONSE_WORDS];
    struct text t;
    for (size_t i = 0; i < PURMAGHELI_RESPONSE_WORDS; i++) row[i] = chance(1000);
    row[PURMAGHELI_RESPONSE_NUMBER + PURMAGHELI_FIELD_VALUE] = chance(10000000);
    row[PURMAGHELI_RESPONSE_SUB_TYPE + PURMAGHELI_FIELD_VALUE] = chance(3) ? 132 : 134;
    put_reference(row + PURMAGHELI_RESPONSE_REFERENCE);
    put_stream(row + PURMAGHELI_RESPONSE_STREAM, row + PURMAGHELI_RESPONSE_BIN);
    uint64_t status = chance(2);
    row[PURMAGHELI_RESPONSE_STATUS + PURMAGHELI_FIELD_VALUE] = status;
    row[PURMAGHELI_RESPONSE_DETAIL + PURMAGHELI_FIELD_VALUE] = chance(status ? 100 : 36525);
    row[PURMAGHELI_RESPONSE_DETAIL + PURMAGHELI_FIELD_SECOND] = chance(86400);
    spoil(row, PURMAGHELI_RESPONSE_WORDS);
    uint64_t number = plain_response(row, &t);
    compare("response", purmagheli_write_response, row, PURMAGHELI_RESPONSE_WORDS, chance(4) || t.length == 0 ? ROOM : t.length - chance(t.length), &t, number);
}

int main(int argc, char **argv) {
    long rounds = argc > 1 ? atol(argv[1]) : 20000;
    for (long i = 0; i < rounds; i++) {
        test_request();
        test_response();
    }
    if (written < compared / 4) fail("too few texts were written", &(struct text){{0}, 0}, written, compared);
    if (argc > 2) printf("writers: %lu rows, %lu texts written, %lu failures\n", compared, written, failures);
    return failures != 0;
}
