/*
 * The gateway's readers and its book check beside plain ones in C, each of the shared objects that are named: some thousand different
 * inputs of a kind, all of them read by each in turns, by the processor's time. Ratios are those of single turns: the library's time to that of the quicker object.
 *
 *     readers PLAIN.so..       medians in nanoseconds an input, and the ratio with its tenth and ninth decile
 */
#define _GNU_SOURCE
#include <dlfcn.h>
#include <inttypes.h>
#include <stdio.h>
#include <stdlib.h>
#include <string.h>
#include <time.h>

#include "purmagheli.h"
#include "readers.h"

enum { TURNS = 301, INPUTS = 4000, BOOKS = 1000, MOST_SIDES = 4, LONGEST = 2560, ROW = PURMAGHELI_REQUEST_WORDS };

/* ---- who reads */

typedef uint64_t reads(const uint8_t *, size_t, uint64_t *, size_t);
typedef uint64_t checks(const uint8_t *, size_t);

struct side {
    const char *name;
    reads *request, *response;
    checks *book;
};

static struct side sides[MOST_SIDES] = {{"library", purmagheli_read_request, purmagheli_read_response, purmagheli_check_book}};
static int side_count = 1;

static void load(const char *path) {
    struct side *s = sides + side_count++;
    void *object = dlopen(path, RTLD_NOW | RTLD_LOCAL);
    if (!object) {
        fprintf(stderr, "%s\n", dlerror());
        exit(2);
    }
    const char *slash = strrchr(path, '/');
    s->name = slash ? slash + 1 : path;
    *(void **)&s->request = dlsym(object, "quick_read_request");
    *(void **)&s->response = dlsym(object, "quick_read_response");
    *(void **)&s->book = dlsym(object, "quick_check_book");
}

/* ---- inputs by chance, from a fixed seed */

static uint8_t *inputs;
static size_t lengths[INPUTS];
static uint8_t *text;
static size_t length;
static uint64_t seed = UINT64_C(0x9e3779b97f4a7c15);

static uint64_t chance(uint64_t n) {
    seed ^= seed << 13;
    seed ^= seed >> 7;
    seed ^= seed << 17;
    return (seed >> 11) % n;
}

static void add(const char *s) {
    memcpy(text + length, s, strlen(s));
    length += strlen(s);
}

static void add_number(uint64_t v, int width) {
    char b[32];
    snprintf(b, sizeof b, "%0*" PRIu64, width, v);
    add(b);
}

static void add_letters(const char *alphabet, size_t n) {
    while (n--) text[length++] = (uint8_t)alphabet[chance(strlen(alphabet))];
}

static const char characters[] = "ABCDEFGHIJKLMNOPQRSTUVWXYZ0123456789";
static const char *const streams[] = {"PROP", "RURL", "ASX1", "NET2"};

/* 20 or 21 with a reference of 8 to 16 characters, which no name begins that is forbidden. */
static void add_reference(const char *tag) {
    add(tag);
    add("N");
    add_letters(characters, 7 + chance(9));
    add("\r\n");
}

static void add_address(const char *stream) {
    add(":22A:");
    add(stream);
    add("\r\n:119:");
    add(stream);
    add_number(chance(10000), 4);
    add("\r\n");
}

static void add_date(void) {
    add_number(chance(100), 2);
    add_number(1 + chance(12), 2);
    add_number(1 + chance(28), 2);
}

static void add_payment(void) {
    int debit = (int)chance(2);
    add(debit ? ":127:DR\r\n:32B:AUD" : ":127:CR\r\n:32B:AUD");
    uint64_t most = 1;
    for (uint64_t n = 1 + chance(9); n; n--) most *= 10;
    add_number(chance(most), 1);
    add(",");
    if (chance(4)) add_number(chance(100), 2);
    if (debit) {
        add("\r\n:113:");
        add_letters("ADP ", 3);
        add_letters("A ", 1);
    }
    add("\r\n:102:");
    add_letters(characters, 4);
    add("\r\n");
}

static void add_request(uint64_t payments) {
    add_reference(":20:");
    add(":12:131\r\n:77E:\r\n");
    add_address(streams[chance(4)]);
    uint64_t count = 1 + chance(10);
    add(":16A:");
    add_number(1 + chance(count), 2);
    add("/");
    add_number(count, 2);
    add("\r\n:171:");
    add_date();
    add("\r\n");
    if (chance(2)) {
        add(":175:");
        add_number(chance(24), 2);
        add_number(chance(60), 2);
        add("\r\n");
    }
    for (uint64_t i = 0; i < payments; i++) add_payment();
    add(":203:");
    add_number(payments, 1);
    add("\r\n");
}

static void add_recall(void) {
    add_reference(":20:");
    add(":12:133\r\n:77E:\r\n");
    add_address(streams[chance(4)]);
}

static void add_response(void) {
    int settlement = (int)chance(4), rejected = (int)chance(2);
    add(":20:B");
    add_number(chance(10000000), 7);
    add(settlement ? "\r\n:12:132\r\n:77E:\r\n" : "\r\n:12:134\r\n:77E:\r\n");
    add_reference(":21:");
    if (settlement) add_address(streams[chance(4)]);
    add(rejected ? ":451:1\r\n:432:" : ":451:0\r\n");
    if (rejected) {
        add_number(chance(100), 2);
        add("\r\n");
    } else if (settlement) {
        add(":13E:");
        add_date();
        add_number(chance(24), 2);
        add_number(chance(60), 2);
        add_number(chance(60), 2);
        add("\r\n");
    }
}

static void put_little(uint8_t *p, uint64_t v, int n) {
    for (int i = 0; i < n; i++) p[i] = (uint8_t)(v >> (8 * i));
}

static void put_block(uint8_t *b, char letter, size_t k, size_t entries, size_t blocks) {
    memset(b, 0, 512);
    b[0] = 'B', b[1] = 'F', b[2] = (uint8_t)letter, b[3] = (uint8_t)k, b[4] = (uint8_t)entries, b[5] = (uint8_t)blocks;
}

static void seal(uint8_t *b) {
    uint32_t sum = 0;
    for (int i = 0; i < 508; i += 4) sum += (uint32_t)b[i] | (uint32_t)b[i + 1] << 8 | (uint32_t)b[i + 2] << 16 | (uint32_t)b[i + 3] << 24;
    put_little(b + 508, sum, 4);
}

static void add_book(size_t banks) {
    size_t blocks = 1 + (banks + 19) / 20;
    put_block(text, 'S', 0, 8, blocks);
    length = 8;
    add_date();
    for (size_t i = 0; i < 8; i++) {
        uint8_t *e = text + 16 + 8 * i;
        for (int j = 0; j < 3; j++) e[j + 1] = (uint8_t)characters[chance(36)];
        e[0] = (uint8_t)('A' + i);
        e[4] = (uint8_t)(1 + chance(255));
    }
    for (size_t i = 0; i < banks; i++) {
        uint8_t *b = text + 512 * (1 + i / 20), *e = b + 8 + 24 * (i % 20);
        if (i % 20 == 0) put_block(b, 'B', 1 + i / 20, banks - i < 20 ? banks - i : 20, blocks);
        e[0] = (uint8_t)('A' + i / 26), e[1] = (uint8_t)('A' + i % 26);
        e[2] = (uint8_t)characters[chance(36)], e[3] = (uint8_t)characters[chance(36)];
        e[4] = (uint8_t)chance(2), e[5] = (uint8_t)chance(256);
        put_little(e + 8, chance(UINT64_C(100000000000000)), 8);
        put_little(e + 16, chance(UINT64_C(6400000000000001)), 8);
    }
    for (size_t k = 0; k < blocks; k++) seal(text + 512 * k);
    length = 512 * blocks;
}

/* ---- the kinds of input */

static void two_payments(void) { add_request(2); }
static void ten_payments(void) { add_request(10); }
static void cut_short(void) { add_request(1 + chance(10)), length -= 1 + chance(length - 1); }
static void four_banks(void) { add_book(4); }
static void full_book(void) { add_book(64); }

enum subject { REQUEST, RESPONSE, BOOK };

static const struct kind {
    const char *name;
    enum subject subject;
    void (*make)(void);
} kinds[] = {{"request, 2 payments", REQUEST, two_payments}, {"request, 10 payments", REQUEST, ten_payments},
             {"request, cut anywhere", REQUEST, cut_short},  {"recall", REQUEST, add_recall},
             {"response", RESPONSE, add_response},           {"book, 4 banks", BOOK, four_banks},
             {"book, 64 banks", BOOK, full_book}};

/* ---- measuring */

static double now(void) {
    struct timespec t;
    clock_gettime(CLOCK_PROCESS_CPUTIME_ID, &t);
    return (double)t.tv_sec * 1e9 + (double)t.tv_nsec;
}

static int by_size(const void *a, const void *b) {
    double x = *(const double *)a, y = *(const double *)b;
    return (x > y) - (x < y);
}

static uint64_t row[ROW];
static volatile uint64_t sink;

static uint64_t ask(const struct side *s, enum subject subject, size_t i) {
    const uint8_t *p = inputs + i * LONGEST;
    switch (subject) {
    case REQUEST: return s->request(p, lengths[i], row, ROW);
    case RESPONSE: return s->response(p, lengths[i], row, ROW);
    default: return s->book(p, lengths[i]);
    }
}

static double turn(const struct side *s, enum subject subject, size_t n) {
    double start = now();
    for (size_t i = 0; i < n; i++) sink += ask(s, subject, i);
    return (now() - start) / (double)n;
}

/* All sides answer the same, and leave the same row. */
static void compare(const struct kind *kind, size_t n) {
    uint64_t left[ROW], answer = 0;
    for (size_t i = 0; i < n; i++) {
        for (int k = 0; k < side_count; k++) {
            for (size_t w = 0; w < ROW; w++) row[w] = UINT64_C(0xa5c3a5c3a5c3a5c3) + w;
            uint64_t a = ask(sides + k, kind->subject, i);
            if (k && (a != answer || memcmp(row, left, sizeof row) != 0)) {
                printf("%s: %s differs from the library\n%.*s\n", kind->name, sides[k].name, (int)lengths[i], inputs + i * LONGEST);
                exit(1);
            }
            answer = a;
            memcpy(left, row, sizeof row);
        }
    }
}

static double median(double *v) {
    qsort(v, TURNS, sizeof *v, by_size);
    return v[TURNS / 2];
}

static void measure(const struct kind *kind) {
    static double times[MOST_SIDES][TURNS], ratios[TURNS];
    size_t n = kind->subject == BOOK ? BOOKS : INPUTS, bytes = 0;
    for (size_t i = 0; i < n; i++) {
        text = inputs + i * LONGEST;
        length = 0;
        kind->make();
        lengths[i] = length;
        bytes += length;
    }
    compare(kind, n);
    for (int i = 0; i < TURNS; i++) {
        double best = 0;
        for (int k = 0; k < side_count; k++) {
            times[k][i] = turn(sides + k, kind->subject, n);
            if (k && (k == 1 || times[k][i] < best)) best = times[k][i];
        }
        ratios[i] = times[0][i] / best;
    }
    printf("%-22s %6zu", kind->name, bytes / n);
    for (int k = 0; k < side_count; k++) printf(" %9.1f", median(times[k]));
    double ratio = median(ratios);
    printf("   %5.2f (%.2f-%.2f)\n", ratio, ratios[TURNS / 10], ratios[TURNS - 1 - TURNS / 10]);
}

int main(int argc, char **argv) {
    if (argc < 2 || argc > MOST_SIDES) {
        fprintf(stderr, "usage: readers PLAIN.so..\n");
        return 2;
    }
    for (int i = 1; i < argc; i++) load(argv[i]);
    inputs = malloc((size_t)INPUTS * LONGEST);
    if (!inputs) return 2;
    printf("%-22s %6s", "nanoseconds an input", "bytes");
    for (int k = 0; k < side_count; k++) printf(" %9s", sides[k].name);
    printf("   library to the quicker\n");
    for (size_t i = 0; i < sizeof kinds / sizeof *kinds; i++) measure(kinds + i);
    free(inputs);
    return 0;
}
