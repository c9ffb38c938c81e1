/*
 * The engine's calls beside the plain engine of tests/engine, which does the same tests of the tables: the library, and the plain engine as each of the
 * shared objects that are named, in turns on the same tables. Before each call the tables are copied anew, and that is not timed.
 *
 *     engine PLAIN.so..                          medians in microseconds, with the tenth and the ninth decile
 *     engine count ROW ENGINE CALLS PLAIN.so..   no time: the tables of a row are copied COUNTED times, with CALLS calls of an engine (0 is the library)
 *
 * The second form runs under a program that counts instructions: twice, with COUNTED calls and with none. The difference is that of the calls.
 */
#define _GNU_SOURCE
#include <dlfcn.h>
#include <inttypes.h>
#include <stdio.h>
#include <stdlib.h>
#include <string.h>
#include <time.h>

#include "../tests/engine/plain.h"
#include "../tests/gateway/plain.h"
#include "purmagheli.h"

enum { TURNS = 1001, COUNTED = 10, MOST_ENGINES = 4, TODAY = 9895, NOON = 43200 };

/* ---- engines */

struct engine {
    const char *name;
    plain_told (*open)(plain_engine *, int, uint64_t, plain_lent, const uint8_t *, size_t);
    plain_told (*message)(plain_engine *, int, uint64_t, plain_lent, uint64_t, const uint8_t *, size_t);
    plain_told (*tick)(plain_engine *, int, uint64_t, plain_lent);
    plain_told (*close)(plain_engine *, int, uint64_t, plain_lent);
    plain_told (*closing_book)(plain_engine *, int, uint64_t, plain_lent, uint64_t);
};

static purmagheli_engine *engine_of(plain_engine *e) { return (purmagheli_engine *)(void *)e; }
static purmagheli_lent lent_of(plain_lent l) { return (purmagheli_lent){l.out, l.room, l.tries, l.rows}; }
static plain_told told_of(purmagheli_told t) { return (plain_told){t.answer, t.written, t.tried}; }

static plain_told library_open(plain_engine *e, int quick, uint64_t clock, plain_lent lent, const uint8_t *book, size_t length) {
    return told_of(purmagheli_open(engine_of(e), quick, clock, lent_of(lent), book, length));
}
static plain_told library_message(plain_engine *e, int quick, uint64_t clock, plain_lent lent, uint64_t sender, const uint8_t *text, size_t length) {
    return told_of(purmagheli_message(engine_of(e), quick, clock, lent_of(lent), sender, text, length));
}
static plain_told library_tick(plain_engine *e, int quick, uint64_t clock, plain_lent lent) {
    return told_of(purmagheli_tick(engine_of(e), quick, clock, lent_of(lent)));
}
static plain_told library_close(plain_engine *e, int quick, uint64_t clock, plain_lent lent) {
    return told_of(purmagheli_close(engine_of(e), quick, clock, lent_of(lent)));
}
static plain_told library_closing_book(plain_engine *e, int quick, uint64_t clock, plain_lent lent, uint64_t date) {
    return told_of(purmagheli_closing_book(engine_of(e), quick, clock, lent_of(lent), date));
}

static struct engine engines[MOST_ENGINES] = {{"library", library_open, library_message, library_tick, library_close, library_closing_book}};
static int engine_count = 1;

static void load_engine(const char *path) {
    struct engine *e = engines + engine_count++;
    void *object = dlopen(path, RTLD_NOW | RTLD_LOCAL);
    if (!object) {
        fprintf(stderr, "%s\n", dlerror());
        exit(2);
    }
    const char *slash = strrchr(path, '/');
    e->name = slash ? slash + 1 : path;
    *(void **)&e->open = dlsym(object, "plain_open");
    *(void **)&e->message = dlsym(object, "plain_message");
    *(void **)&e->tick = dlsym(object, "plain_tick");
    *(void **)&e->close = dlsym(object, "plain_close");
    *(void **)&e->closing_book = dlsym(object, "plain_closing_book");
}

/* ---- calls */

enum action { OPEN, MESSAGE, TICK, CLOSE, CLOSING };

struct ask {
    enum action action;
    int quick;
    uint8_t input[4096];
    size_t length;
};

static uint8_t out[PLAIN_ROOM];
static uint64_t tries[PLAIN_ROWS];
static const plain_lent lent = {out, sizeof out, tries, PLAIN_ROWS};

static plain_told make_call(const struct engine *f, plain_engine *e, const struct ask *a) {
    switch (a->action) {
    case OPEN: return f->open(e, a->quick, NOON, lent, a->input, a->length);
    case MESSAGE: return f->message(e, a->quick, NOON, lent, 5, a->input, a->length);
    case TICK: return f->tick(e, a->quick, NOON, lent);
    case CLOSE: return f->close(e, a->quick, NOON, lent);
    default: return f->closing_book(e, a->quick, NOON, lent, 270205);
    }
}

/* ---- measuring */

static double now(void) {
    struct timespec t;
    clock_gettime(CLOCK_MONOTONIC, &t);
    return (double)t.tv_sec * 1e6 + (double)t.tv_nsec * 1e-3;
}

static int by_size(const void *a, const void *b) {
    double x = *(const double *)a, y = *(const double *)b;
    return (x > y) - (x < y);
}

static plain_engine work;
static double times[MOST_ENGINES][TURNS];

/* Each engine leaves the same, which is what the first call must answer. */
static void compare(const char *name, const plain_engine *e, const struct ask *a, uint64_t answer) {
    static plain_engine left;
    static uint8_t written[PLAIN_ROOM];
    static uint64_t tried[PLAIN_ROWS];
    plain_told told = {0, 0, 0};
    for (int k = 0; k < engine_count; k++) {
        work = *e;
        plain_told t = make_call(engines + k, &work, a);
        int same = k == 0 || (t.written == told.written && t.tried == told.tried && memcmp(&left, &work, sizeof work) == 0);
        if (k && same) same = memcmp(written, out, t.written) == 0 && memcmp(tried, tries, 8 * t.tried) == 0;
        if (t.answer != answer || !same) {
            printf("%s: %s answers %" PRIu64 ", or leaves something else\n", name, engines[k].name, t.answer);
            exit(1);
        }
        told = t;
        left = work;
        memcpy(written, out, t.written);
        memcpy(tried, tries, 8 * t.tried);
    }
}

/* What is counted: a row of the table, an engine and its calls; -1: everything is timed. */
static long counted_row = -1, counted_engine, counted_calls, row;

static void count(const char *name, const plain_engine *e, const struct ask *a) {
    for (long i = 0; i < COUNTED; i++) {
        work = *e;
        if (i < counted_calls) make_call(engines + counted_engine, &work, a);
    }
    puts(name);
    exit(0);
}

static void measure(const char *name, const plain_engine *e, const struct ask *a, uint64_t answer) {
    if (counted_row == row) count(name, e, a);
    row++;
    if (counted_row >= 0) return;
    compare(name, e, a, answer);
    for (int i = 0; i < TURNS; i++) {
        for (int k = 0; k < engine_count; k++) {
            work = *e;
            double start = now();
            make_call(engines + k, &work, a);
            times[k][i] = now() - start;
        }
    }
    double best = 0;
    printf("%-44s", name);
    for (int k = 0; k < engine_count; k++) {
        qsort(times[k], TURNS, sizeof **times, by_size);
        double median = times[k][TURNS / 2];
        if (k && (k == 1 || median < best)) best = median;
        printf(" %8.1f (%.1f-%.1f)", median, times[k][TURNS / 10], times[k][TURNS - 1 - TURNS / 10]);
    }
    if (engine_count > 1) printf("   %.2f", times[0][TURNS / 2] / best);
    putchar('\n');
}

/* ---- a house of 64 banks and eight streams, of which PROP is the first, of administrator 5 */

static void put_little(uint8_t *p, uint64_t v, int n) {
    for (int i = 0; i < n; i++) p[i] = (uint8_t)(v >> (8 * i));
}

static void bank_name(char name[5], unsigned i) {
    name[0] = name[1] = 'B';
    name[2] = (char)('0' + i / 10);
    name[3] = (char)('0' + i % 10);
    name[4] = 0;
}

static void book_of(struct ask *a, const char *date) {
    a->action = OPEN;
    a->length = 2560;
    memset(a->input, 0, a->length);
    for (size_t k = 0; k < 5; k++) {
        const uint8_t head[6] = {'B', 'F', k ? 'B' : 'S', (uint8_t)k, k == 0 ? 8 : k == 4 ? 4 : 20, 5};
        memcpy(a->input + 512 * k, head, sizeof head);
    }
    memcpy(a->input + 8, date, 6);
    for (size_t i = 0; i < 8; i++) {
        uint8_t *entry = a->input + 16 + 8 * i;
        memcpy(entry, "PROP\5", 5);
        entry[0] = (uint8_t)('P' + i);
    }
    for (size_t i = 0; i < PLAIN_BANKS; i++) {
        uint8_t *entry = a->input + 512 * (1 + i / 20) + 8 + 24 * (i % 20);
        char name[5];
        bank_name(name, (unsigned)i);
        memcpy(entry, name, 4);
        entry[5] = 255;
        put_little(entry + 8, 1000000, 8);
    }
    for (size_t k = 0; k < 5; k++) put_little(a->input + 512 * k + 508, plain_block_sum(a->input + 512 * k), 4);
}

static void add(struct ask *a, const char *s) {
    memcpy(a->input + a->length, s, strlen(s));
    a->length += strlen(s);
}

/* A message of payments of 1.00 by so many banks from one on, the first half of the batch's banks pay; the payer of `deferred` has the letter D. */
static void message_of(struct ask *a, unsigned batch, unsigned number, unsigned count, unsigned first, unsigned payments, unsigned half, int deferred) {
    static unsigned references;
    char s[120], bank[5];
    a->action = MESSAGE;
    a->length = 0;
    snprintf(s, sizeof s, ":20:BENCH%011u\r\n:12:131\r\n:77E:\r\n:22A:PROP\r\n", references++);
    add(a, s);
    snprintf(s, sizeof s, ":119:PROP%04u\r\n:16A:%02u/%02u\r\n:171:270203\r\n", batch, number, count);
    add(a, s);
    for (unsigned i = first; i < first + payments; i++) {
        bank_name(bank, i);
        if (i < half) snprintf(s, sizeof s, ":127:DR\r\n:32B:AUD1,00\r\n:113:%cAA \r\n:102:%s\r\n", (int)i == deferred ? 'D' : 'A', bank);
        else snprintf(s, sizeof s, ":127:CR\r\n:32B:AUD1,00\r\n:102:%s\r\n", bank);
        add(a, s);
    }
    snprintf(s, sizeof s, ":203:%u\r\n", payments);
    add(a, s);
}

static void ask_plain(plain_engine *e, const struct ask *a, uint64_t answer) {
    plain_told told = make_call(engines + 1, e, a);
    if (told.answer == answer) return;
    printf("the tables could not be laid: %" PRIu64 "\n", told.answer);
    exit(2);
}

static void open_day(plain_engine *e) {
    static struct ask a;
    memset(e, 0, sizeof *e);
    book_of(&a, "270203");
    ask_plain(e, &a, 0);
}

/* Batches of ten messages and 64 payments each that wait for the last payer; tried by the quick test. */
static void wait_for_last(plain_engine *e, unsigned batches) {
    static struct ask a;
    a.quick = 1;
    for (unsigned b = 0; b < batches; b++) {
        for (unsigned k = 0; k < 10; k++) {
            unsigned first = k < 4 ? 7 * k : 28 + 6 * (k - 4);
            message_of(&a, b, 1 + k, 10, first, k < 4 ? 7 : 6, 32, 31);
            ask_plain(e, &a, 0);
        }
    }
}

/* Places filled up with entries of this day, but for so many. */
static void remember(uint64_t (*entries)[3], int places, const char *form) {
    for (int i = 0; i < places; i++) {
        char code[24];
        if (entries[i][0]) continue;
        snprintf(code, sizeof code, form, i);
        entries[i][0] = purmagheli_code_high(code);
        entries[i][1] = purmagheli_code_low(code);
        entries[i][2] = TODAY;
    }
}

static void measure_references(const plain_engine *empty, const struct ask *message) {
    static const int held[] = {0, 512, 1024, 2047, 2048};
    static const char *const forms[][2] = {{"HELD%08d", "of 12 characters"}, {"HELDFOR00000%04d", "of 16 characters"}, {"ASX1%08d", "ASX1.., of 12 characters"}};
    static plain_engine e;
    for (int i = 0; i < 5; i++) {
        char name[60];
        e = *empty;
        remember(e.references, held[i], "HELD%08d");
        snprintf(name, sizeof name, "message, %d references held", held[i]);
        measure(name, &e, message, held[i] == PLAIN_REFERENCES ? 4 : 0);
    }
    for (int i = 0; i < 3; i++) {
        char name[60];
        e = *empty;
        remember(e.references, 2047, forms[i][0]);
        snprintf(name, sizeof name, "message, 2047 held %s", forms[i][1]);
        measure(name, &e, message, 0);
    }
}

int main(int argc, char **argv) {
    static plain_engine empty, full, e;
    static struct ask message, a;
    int first = 1;
    if (argc > 5 && strcmp(argv[1], "count") == 0) {
        counted_row = strtol(argv[2], 0, 10);
        counted_engine = strtol(argv[3], 0, 10);
        counted_calls = strtol(argv[4], 0, 10);
        first = 5;
    }
    for (int i = first; i < argc && engine_count < MOST_ENGINES; i++) load_engine(argv[i]);
    if (engine_count < 2 || counted_engine >= engine_count) return 2;
    if (counted_row < 0) {
        printf("%-44s", "microseconds: median (tenth-ninth decile)");
        for (int k = 0; k < engine_count; k++) printf(" %-20s", engines[k].name);
        printf(" library to the best\n");
    }

    open_day(&empty);
    message_of(&message, 9999, 1, 1, 0, 10, 5, -1);
    message.quick = 1;
    measure("message that settles, empty tables", &empty, &message, 0);

    full = empty;
    wait_for_last(&full, 31);
    remember(full.references, PLAIN_REFERENCES - 1, "HELD%08d");
    remember(full.bins, PLAIN_BINS - 1, "HELD%04d");
    measure("message that settles, full tables", &full, &message, 0);

    e = empty;
    wait_for_last(&e, 32);
    remember(e.references, PLAIN_REFERENCES, "HELD%08d");
    remember(e.bins, PLAIN_BINS, "HELD%04d");
    full = e;
    a.action = TICK;
    measure("tick, 32 batches wait, plain test", &full, &a, 0);
    a.quick = 1;
    measure("tick, 32 batches wait, quick test", &full, &a, 0);
    a.action = CLOSE;
    measure("close, 32 batches of ten messages", &full, &a, 0);
    ask_plain(&e, &a, 0);
    a.action = CLOSING;
    measure("closing book, 64 banks", &e, &a, 0);
    book_of(&a, "270204");
    measure("opening, 64 banks, full memories", &e, &a, 0);
    memset(&e, 0, sizeof e);
    measure("opening, 64 banks, a fresh start", &e, &a, 0);
    measure_references(&empty, &message);
    return counted_row < 0 ? 0 : 3;
}
