/*
 * The library's entry points against the plain readers: on sound, broken, empty and long inputs, rows
 * of every length, and many thousand generated and mutated inputs from a fixed seed. Every input ends
 * where its page ends, and so does every row, so that a step past either ends the program; words
 * before a row and past what an answer writes hold a pattern that must stay.
 */
#define _DEFAULT_SOURCE
#include <stdio.h>
#include <stdlib.h>
#include <string.h>
#include <sys/mman.h>

#include "plain.h"
#include "purmagheli.h"

#define PATTERN UINT64_C(0xa5c3a5c3a5c3a5c3)
#define LONGEST 65536
#define MARGIN 64
#define MOST_WORDS 256

static unsigned long failures, compared, accepted;

/* A region of so many bytes whose end is the last byte before a page that nobody may touch. */
static uint8_t *region(size_t bytes) {
    size_t page = 4096, whole = (bytes + page - 1) / page * page;
    uint8_t *p = mmap(0, whole + page, PROT_READ | PROT_WRITE, MAP_PRIVATE | MAP_ANONYMOUS, -1, 0);
    if (p == MAP_FAILED || mprotect(p + whole, page, PROT_NONE) != 0) {
        perror("mmap");
        exit(2);
    }
    return p + whole - bytes;
}

static uint8_t *lent_region;
static uint64_t *row_region;

/* The input at the end of its region, after a margin of pattern. */
static uint8_t *lend(const uint8_t *bytes, size_t n) {
    uint8_t *p = lent_region + MARGIN + LONGEST - n;
    memset(p - MARGIN, 0xa5, MARGIN);
    if (n) memcpy(p, bytes, n);
    return p;
}

/* A row of n words at the end of its region, all pattern, with a margin before it. */
static uint64_t *fresh_row(size_t n) {
    uint64_t *row = row_region + MARGIN + MOST_WORDS - n;
    for (uint64_t *w = row - MARGIN; w < row + n; w++) *w = PATTERN;
    return row;
}

static void show(const uint8_t *bytes, size_t n) {
    for (size_t i = 0; i < n && i < 2600; i++)
        if (bytes[i] >= 32 && bytes[i] < 127) putchar(bytes[i]);
        else printf("\\x%02x", bytes[i]);
    putchar('\n');
}

static void fail(const char *what, const uint8_t *bytes, size_t n, uint64_t got, uint64_t want) {
    if (failures++ < 10) {
        printf("gateway test: %s: %llu, wanted %llu, on %zu bytes:\n", what, (unsigned long long)got, (unsigned long long)want, n);
        show(bytes, n);
    }
}

typedef uint64_t reader(const uint8_t *, size_t, uint64_t *, size_t);
typedef uint64_t plain(const uint8_t *, size_t, uint64_t *);

struct kind {
    const char *name;
    reader *library;
    plain *mine;
    size_t words;
};

static const struct kind request_kind = {"request", purmagheli_read_request, plain_read_request, PURMAGHELI_REQUEST_WORDS};
static const struct kind response_kind = {"response", purmagheli_read_response, plain_read_response, PURMAGHELI_RESPONSE_WORDS};
static const struct kind fault_kind = {"fault of a book", purmagheli_find_book_fault, plain_find_book_fault, PURMAGHELI_FAULT_WORDS};
static const struct kind request_break = {"request, explained", purmagheli_explain_request, plain_explain_request, PURMAGHELI_EXPLAIN_WORDS};
static const struct kind response_break = {"response, explained", purmagheli_explain_response, plain_explain_response, PURMAGHELI_EXPLAIN_WORDS};

static void untouched(const uint8_t *lent, const uint8_t *bytes, size_t n) {
    if (n && memcmp(lent, bytes, n) != 0) fail("the input was changed", bytes, n, 1, 0);
    for (size_t i = 1; i <= MARGIN; i++)
        if (lent[-(long)i] != 0xa5) fail("bytes before the input were changed", bytes, n, 1, 0);
}

/* One text over a row of `words` words. */
static void compare(const struct kind *k, const uint8_t *bytes, size_t n, size_t words) {
    uint64_t want[MOST_WORDS + MARGIN], number = 7;
    for (size_t i = 0; i < MOST_WORDS; i++) want[i] = PATTERN;
    if (words >= k->words) number = k->mine(bytes, n, want);
    uint8_t *lent = lend(bytes, n);
    uint64_t *row = fresh_row(words);
    uint64_t got = k->library(lent, n, row, words);
    compared++;
    accepted += got == 0;
    if (got != number) fail(k->name, bytes, n, got, number);
    for (size_t i = 0; i < words; i++)
        if (row[i] != want[i]) {
            char what[64];
            snprintf(what, sizeof what, "%s, word %zu", k->name, i);
            fail(what, bytes, n, row[i], want[i]);
            break;
        }
    for (size_t i = 1; i <= MARGIN; i++)
        if (row[-(long)i] != PATTERN) fail("words before the row were changed", bytes, n, row[-(long)i], PATTERN);
    untouched(lent, bytes, n);
}

static void compare_book(const uint8_t *bytes, size_t n) {
    uint8_t *lent = lend(bytes, n);
    uint64_t got = purmagheli_check_book(lent, n), want = plain_check_book(bytes, n);
    compared++;
    accepted += got == 0;
    if (got != want) fail("book", bytes, n, got, want);
    untouched(lent, bytes, n);
    compare(&fault_kind, bytes, n, n % 7);
    compare(&fault_kind, bytes, n, PURMAGHELI_FAULT_WORDS);
}

/* ---- numbers by chance, from a fixed seed */

static uint64_t seed = UINT64_C(0x9e3779b97f4a7c15);

static uint64_t chance(uint64_t n) {
    seed ^= seed << 13;
    seed ^= seed >> 7;
    seed ^= seed << 17;
    return (seed >> 11) % n;
}

/* ---- generated inputs */

static uint8_t input[LONGEST + 4096];
static size_t size;

static void add(const char *s) {
    memcpy(input + size, s, strlen(s));
    size += strlen(s);
}

static void add_from(const char *alphabet, size_t n) {
    while (n--) input[size++] = (uint8_t)alphabet[chance(strlen(alphabet))];
}

static void add_number(uint64_t v, int width) {
    char b[32];
    snprintf(b, sizeof b, "%0*llu", width, (unsigned long long)v);
    add(b);
}

static const char code_characters[] = "ABCDEFGHIJKLMNOPQRSTUVWXYZ0123456789";
static const char digit_characters[] = "0123456789";

static void add_date(void) {
    add_number(chance(100), 2);
    add_number(chance(25) ? 1 + chance(12) : chance(100), 2);
    add_number(chance(25) ? 1 + chance(29) : chance(40), 2);
}

static void add_address(void) {
    char stream[5] = {0};
    for (int i = 0; i < 4; i++) stream[i] = code_characters[chance(36)];
    add(":22A:");
    add(stream);
    add("\r\n:119:");
    add(stream);
    add_from(digit_characters, 4);
    add("\r\n");
}

static void add_payment(void) {
    int debit = (int)chance(2);
    add(debit ? ":127:DR\r\n:32B:AUD" : ":127:CR\r\n:32B:AUD");
    add_from(digit_characters, 1 + chance(10));
    add(",");
    add_from(digit_characters, chance(3));
    add("\r\n");
    if (debit) {
        add(":113:");
        add_from("ADP ", 3);
        add_from(" ABCXYZ", 1);
        add("\r\n");
    }
    add(":102:");
    add_from(code_characters, 4);
    add("\r\n");
}

static void make_request(void) {
    size = 0;
    int recall = chance(8) == 0;
    add(":20:");
    add_from(code_characters, 1 + chance(16));
    add(recall ? "\r\n:12:133\r\n:77E:\r\n" : "\r\n:12:131\r\n:77E:\r\n");
    add_address();
    if (recall) return;
    uint64_t count = 1 + chance(10), n = 1 + chance(chance(6) ? 3 : 10);
    add(":16A:");
    add_number(1 + chance(count), 2);
    add("/");
    add_number(count, 2);
    add("\r\n:171:");
    add_date();
    add("\r\n");
    if (chance(2)) {
        add(":175:");
        add_number(chance(24), 2);
        add_number(chance(60), 2);
        add("\r\n");
    }
    for (uint64_t i = 0; i < n; i++) add_payment();
    add(":203:");
    add_number(n, 1);
    add("\r\n");
}

static void make_response(void) {
    size = 0;
    int recall = (int)chance(2);
    add(":20:B");
    add_from(digit_characters, 7);
    add(recall ? "\r\n:12:134\r\n:77E:\r\n:21:" : "\r\n:12:132\r\n:77E:\r\n:21:");
    add_from(code_characters, 1 + chance(16));
    add("\r\n");
    if (!recall) add_address();
    if (chance(2)) {
        add(":451:1\r\n:432:");
        add_from(digit_characters, 2);
        add("\r\n");
    } else {
        add(":451:0\r\n");
        if (recall) return;
        add(":13E:");
        add_date();
        add_number(chance(24), 2);
        add_number(chance(60), 2);
        add_number(chance(60), 2);
        add("\r\n");
    }
}

static void store(uint8_t *p, uint64_t v, size_t n) {
    for (size_t i = 0; i < n; i++) p[i] = (uint8_t)(v >> (8 * i));
}

static void seal(uint8_t *block) { store(block + 508, plain_block_sum(block), 4); }

static void make_book(void) {
    size_t banks = 1 + chance(64), blocks = 1 + (banks + 19) / 20, streams = 1 + chance(8);
    size = 512 * blocks;
    memset(input, 0, size);
    for (size_t k = 0; k < blocks; k++) {
        uint8_t *b = input + 512 * k;
        b[0] = 'B';
        b[1] = 'F';
        b[2] = k ? 'B' : 'S';
        b[3] = (uint8_t)k;
        b[4] = (uint8_t)(k == 0 ? streams : k + 1 < blocks ? 20 : banks - 20 * (k - 1));
        b[5] = (uint8_t)blocks;
    }
    char date[8];
    snprintf(date, sizeof date, "%02u%02u%02u", (unsigned)chance(100) % 100, 1 + (unsigned)chance(12) % 12, 1 + (unsigned)chance(28) % 28);
    memcpy(input + 8, date, 6);
    for (size_t i = 0; i < streams; i++) {
        uint8_t *e = input + 16 + 8 * i;
        e[0] = e[1] = 'S';
        e[2] = (uint8_t)('A' + i);
        e[3] = (uint8_t)code_characters[chance(36)];
        e[4] = (uint8_t)(1 + chance(255));
    }
    for (size_t i = 0; i < banks; i++) {
        uint8_t *e = input + 512 * (1 + i / 20) + 8 + 24 * (i % 20);
        e[0] = 'K';
        e[1] = (uint8_t)('A' + i / 26);
        e[2] = (uint8_t)('A' + i % 26);
        e[3] = (uint8_t)code_characters[chance(36)];
        e[4] = (uint8_t)chance(2);
        e[5] = (uint8_t)chance((uint64_t)1 << streams);
        store(e + 8, chance(chance(40) ? UINT64_C(100000000000000) : UINT64_C(6400000000000001)), 8);
        store(e + 16, chance(UINT64_C(6400000000000001)), 8);
    }
    for (size_t k = 0; k < blocks; k++) seal(input + 512 * k);
}

/* ---- mutations */

static void put_bytes(size_t at, size_t gone, const uint8_t *with, size_t n) {
    if (size - gone + n > LONGEST) return;
    memmove(input + at + n, input + at + gone, size - at - gone);
    if (n) memcpy(input + at, with, n);
    size = size - gone + n;
}

static size_t line_at(size_t from) {
    while (from > 0 && input[from - 1] != '\n') from--;
    return from;
}

static size_t line_end(size_t from) {
    while (from < size && input[from] != '\n') from++;
    return from < size ? from + 1 : size;
}

static void mutate_text(void) {
    static const char *const pieces[] = {"\r\n", "\r", "\n", ":", ":20:", ":12:", ":12:999\r\n", ":77E:", ":113:", ":113:AAAA\r\n", ":175:", ":127:", ":203:1\r\n", "RITS", "ACLR", "ASXC",
                                         ",", "0", "9", "A", " ", "X", "AUD", "CR", "DR", "/", "999999999999", ":451:1\r\n", ":432:02\r\n", ":13E:", "\x80", "a"};
    uint8_t line[256];
    size_t at = size ? chance(size) : 0, b, e;
    switch (chance(9)) {
    case 0: /* another byte */
        if (size) input[at] = (uint8_t)chance(256);
        break;
    case 1: /* another byte of those that texts have */
        if (size) input[at] = (uint8_t)"ABCDPRX0123459 ,/:\r\n"[chance(20)];
        break;
    case 2: /* a byte less */
        if (size) put_bytes(at, 1, 0, 0);
        break;
    case 3: /* a piece more */
    case 4: {
        const char *p = pieces[chance(sizeof pieces / sizeof *pieces)];
        put_bytes(at, 0, (const uint8_t *)p, strlen(p));
        break;
    }
    case 5: /* the text cut short */
        size = at;
        break;
    case 6: /* a line less */
        b = line_at(at), e = line_end(at);
        put_bytes(b, e - b, 0, 0);
        break;
    case 7: /* a line twice, here or elsewhere */
        b = line_at(at), e = line_end(at);
        if (e - b > sizeof line) break;
        memcpy(line, input + b, e - b);
        put_bytes(chance(2) ? b : line_at(size ? chance(size) : 0), 0, line, e - b);
        break;
    default: /* a piece in the place of a value's end */
        b = line_end(at);
        if (b >= 2) put_bytes(b - 2, 0, (const uint8_t *)pieces[chance(32)], 1);
        break;
    }
}

static void mutate_book(void) {
    size_t blocks = size / 512, k = chance(blocks), at = chance(512);
    uint8_t *b = input + 512 * k;
    switch (chance(10)) {
    case 0: /* another length */
        size = chance(6 * 512 + 1);
        return;
    case 1: /* a byte, and the check not renewed */
        b[at] ^= (uint8_t)(1 + chance(255));
        return;
    case 2: /* a header's byte */
        b[chance(16)] = (uint8_t)chance(256);
        break;
    case 3: /* a count */
        b[4] = (uint8_t)chance(24);
        break;
    case 4: /* a block more or less */
        size = 512 * (1 + chance(6));
        return;
    case 5: /* an entry's byte */
        b[8 + chance(24 * 20)] = (uint8_t)chance(256);
        break;
    case 6: /* two entries change places */
        if (k && b[4] > 1) {
            uint8_t e[24];
            memcpy(e, b + 8, 24);
            memcpy(b + 8, b + 32, 24);
            memcpy(b + 32, e, 24);
        }
        break;
    case 7: /* a large balance */
        if (k) store(b + 16, UINT64_C(6400000000000000) + chance(2), 8);
        break;
    case 8: /* a small change */
        b[at] = (uint8_t)(b[at] + 1);
        break;
    default: /* an unused byte */
        b[500 + chance(8)] = (uint8_t)chance(2);
        break;
    }
    seal(b);
}

/* ---- the tests */

static void text_tests(const struct kind *k, void (*make)(void), unsigned long rounds) {
    for (unsigned long i = 0; i < rounds; i++) {
        make();
        compare(k, input, size, k->words + chance(8));
        uint64_t turns = 1 + chance(3);
        while (turns--) mutate_text();
        compare(k, input, size, k->words + chance(8));
    }
    make();
    uint8_t whole[4096];
    size_t n = size;
    memcpy(whole, input, n);
    for (size_t words = 0; words <= MOST_WORDS; words++) {
        compare(k, whole, n, words);
        compare(k, whole, n - 1, words);
        compare(k, whole, 0, words);
    }
    for (size_t cut = 0; cut <= n; cut++) compare(k, whole, cut, k->words);
    for (size_t at = 0; at < n; at++)
        for (int c = 0; c < 256; c += 1 + (at % 7 ? 16 : 0)) {
            memcpy(input, whole, n);
            input[at] = (uint8_t)c;
            compare(k, input, n, k->words);
        }
    /* 64 KiB: a sound text and what follows it, one byte over and over, one line over and over */
    memcpy(input, whole, n);
    memset(input + n, 'A', LONGEST - n);
    compare(k, input, LONGEST, k->words);
    for (int c = 0; c < 256; c += 5) {
        memset(input, c, LONGEST);
        compare(k, input, LONGEST, k->words);
    }
    for (size_t at = 0; at < LONGEST; at += n) memcpy(input + at, whole, at + n <= LONGEST ? n : LONGEST - at);
    compare(k, input, LONGEST, k->words);
}

static void book_tests(unsigned long rounds) {
    static uint8_t whole[2560];
    for (unsigned long i = 0; i < rounds; i++) {
        make_book();
        compare_book(input, size);
        uint64_t turns = 1 + chance(2);
        while (turns-- && size >= 512) mutate_book();
        compare_book(input, size);
    }
    do make_book();
    while (size != 2560);
    memcpy(whole, input, 2560);
    for (size_t n = 0; n <= 2560; n++) compare_book(whole, n);
    for (size_t at = 0; at < 2560; at++)
        for (int c = 0; c < 256; c += 15) {
            memcpy(input, whole, 2560);
            input[at] = (uint8_t)c;
            seal(input + at / 512 * 512);
            compare_book(input, 2560);
        }
    memset(input, 0, LONGEST);
    memcpy(input, whole, 2560);
    compare_book(input, 2561);
    compare_book(input, 3072);
    compare_book(input, LONGEST);
}

/* What is refused before anything is read, and the documents' own examples. */
static void known(void) {
    static const char response[] = ":20:B0000001\r\n:12:132\r\n:77E:\r\n:21:PROPNET000000001\r\n:22A:PROP\r\n:119:PROP0001\r\n:451:0\r\n:13E:270203101530\r\n";
    uint64_t row[PURMAGHELI_REQUEST_WORDS];
    if (purmagheli_read_response((const uint8_t *)response, 105, row, PURMAGHELI_RESPONSE_WORDS) != 0) fail("01's response", (const uint8_t *)response, 105, 1, 0);
    if (row[PURMAGHELI_RESPONSE_DETAIL + PURMAGHELI_FIELD_SECOND] != 36930) fail("01's response, second", (const uint8_t *)response, 105, row[27], 36930);
    if (row[PURMAGHELI_RESPONSE_DETAIL + PURMAGHELI_FIELD_VALUE] != 9895) fail("01's response, day", (const uint8_t *)response, 105, row[26], 9895);
    if (purmagheli_read_request((const uint8_t *)response, 105, row, PURMAGHELI_REQUEST_WORDS) != 88) fail("a response as a request", (const uint8_t *)response, 105, 0, 88);
    if (purmagheli_read_request((const uint8_t *)response, 105, row, 0) != 7) fail("no row", (const uint8_t *)response, 105, 0, 7);
    if (purmagheli_check_book((const uint8_t *)response, 0) != 11) fail("an empty book", 0, 0, 0, 11);
}

int main(int argc, char **argv) {
    unsigned long rounds = argc > 1 ? strtoul(argv[1], 0, 10) : 20000;
    lent_region = region(MARGIN + LONGEST);
    row_region = (uint64_t *)(void *)region((MARGIN + MOST_WORDS) * sizeof(uint64_t));
    known();
    text_tests(&request_kind, make_request, rounds);
    text_tests(&response_kind, make_response, rounds);
    text_tests(&request_break, make_request, rounds);
    text_tests(&response_break, make_response, rounds);
    book_tests(rounds / 2);
    if (failures) {
        printf("gateway test: %lu of %lu comparisons failed\n", failures, compared);
        return 1;
    }
    if (accepted * 10 < compared) {
        printf("gateway test: only %lu of %lu inputs were accepted\n", accepted, compared);
        return 1;
    }
    if (argc > 2) printf("gateway test: %lu comparisons, %lu accepted\n", compared, accepted);
    return 0;
}
