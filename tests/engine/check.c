/*
 * Random days over the plain engine: by the plain test, and by either test as each call asks, which must agree; and over an engine
 * beside it, which must leave every word, byte and try the same. Each call is judged by what document 01 promises (judge.h). Some calls are also
 * made on tables that were altered by hand. Everything lent ends at a page that nobody may touch, with a pattern before it that must stay.
 *
 *     check SEED CALLS [shown] [beside COMMAND..]     days from a seed; with `shown` the counts are printed
 *     check tables STDIN STDOUT                       the tables of crates/run_rules, and what must be answered of each
 *
 * The engine beside is the one that COMMAND starts (library.c), in a process of its own: so it may be code for another machine, under an emulator.
 * Without one it is the plain engine again, once in so many calls: on other memory it must do the same.
 */
#define _GNU_SOURCE
#include <inttypes.h>
#include <signal.h>
#include <stdio.h>
#include <stdlib.h>
#include <string.h>
#include <sys/mman.h>
#include <sys/wait.h>
#include <time.h>
#include <unistd.h>

#include "../gateway/plain.h"
#include "areas.h"
#include "asks.h"
#include "judge.h"

enum { PATTERN = 0xa5, SELDOM = 16 };

static uint64_t seed, calls, done;
static const struct ask *at_work;

static const char *const action_names[] = {"clear", "open", "message", "sublimit", "status", "tick", "close", "closing"};

static void fail(const char *who, const char *what) {
    printf("tests/engine: seed %" PRIu64 ", call %" PRIu64 " (%s), %s: %s\n", seed, done, action_names[at_work->action], who, what);
    fflush(stdout);
    exit(1);
}

static void stop(const char *what) {
    perror(what);
    exit(2);
}

/* ---- an engine in another process: a byte goes to it for each call, and one comes back */

static struct exchange *exchange; /* a null pointer: there is none */
static int to_beside, from_beside;

/* It finds the bytes at 0 and 1, and the file at 3. */
static void start_beside(char **command, struct areas *areas) {
    int go[2], back[2], file = memfd_create("lent", 0);
    if (file < 0 || pipe(go) || pipe(back)) stop("pipe");
    exchange = map_exchange(file, 1, areas);
    signal(SIGPIPE, SIG_IGN);
    pid_t child = fork();
    if (child < 0) stop("fork");
    if (child == 0) {
        if (dup2(go[0], 0) < 0 || dup2(back[1], 1) < 0 || dup2(file, 3) < 0) stop("dup2");
        for (int i = 4; i < 16; i++) close(i);
        execvp(command[0], command);
        stop(command[0]);
    }
    close(go[0]);
    close(back[1]);
    to_beside = go[1];
    from_beside = back[0];
}

/* It ends where no more bytes come. */
static void end_beside(void) {
    int status;
    close(to_beside);
    if (wait(&status) < 0 || status) fail("beside", "its process did not end well");
}

static plain_told ask_process(const struct ask *a) {
    char byte = 0;
    exchange->ask = *a;
    if (write(to_beside, &byte, 1) != 1 || read(from_beside, &byte, 1) != 1) fail("beside", "its process has ended");
    return exchange->told;
}

/* ---- what is lent */

static int is_pattern(const void *p, size_t bytes) {
    static uint8_t pattern[MOST_ROOM + MARGIN];
    if (!pattern[0]) memset(pattern, PATTERN, sizeof pattern);
    return memcmp(p, pattern, bytes) == 0;
}

struct side {
    const char *name;
    int as_asked, elsewhere; /* the test, else the plain one; in another process */
    struct areas areas;
    plain_engine *e;
    plain_lent lent;
    plain_told told;
    struct history history;
};

static void make_side(struct side *s, const char *name, int as_asked, struct areas areas) {
    s->name = name;
    s->as_asked = as_asked;
    s->areas = areas;
    s->e = areas.e;
    memset((uint8_t *)s->e - MARGIN, PATTERN, MARGIN);
}

static int test_of(const struct side *s, const struct ask *a) { return s->as_asked && a->quick; }

static plain_told make_call(const struct side *s, const struct ask *a) {
    int quick = test_of(s, a);
    const uint8_t *text = s->areas.text_end - a->length;
    if (s->elsewhere) return ask_process(a);
    switch (a->action) {
    case CLEAR: return plain_clear(s->e);
    case OPEN: return plain_open(s->e, quick, a->clock, s->lent, text, a->length);
    case MESSAGE: return plain_message(s->e, quick, a->clock, s->lent, a->sender, text, a->length);
    case SUBLIMIT: return plain_sublimit(s->e, quick, a->clock, s->lent, a->bank, a->cents);
    case STATUS: return plain_status(s->e, quick, a->clock, s->lent, a->bank, a->bin[0], a->bin[1], a->letter);
    case TICK: return plain_tick(s->e, quick, a->clock, s->lent);
    case CLOSE: return plain_close(s->e, quick, a->clock, s->lent);
    default: return plain_closing_book(s->e, quick, a->clock, s->lent, a->date);
    }
}

/* A call on a side; what lies past the reported lengths and before all that is lent must stay. */
static void ask_side(struct side *s, const struct ask *a) {
    uint8_t *text = s->areas.text_end - a->length;
    s->lent = (plain_lent){s->areas.out_end - a->room, a->room, s->areas.tries_end - a->rows, a->rows};
    memset(s->lent.out - MARGIN, PATTERN, a->room + MARGIN);
    memset((uint8_t *)s->lent.tries - MARGIN, PATTERN, a->rows * 8 + MARGIN);
    memcpy(text, a->text, a->length);
    s->told = make_call(s, a);
    if (s->told.written > a->room || s->told.tried > a->rows) fail(s->name, "a reported length is too long");
    if (!is_pattern(s->lent.out + s->told.written, a->room - s->told.written)) fail(s->name, "bytes past the reported length were changed");
    if (!is_pattern(s->lent.tries + s->told.tried, 8 * (a->rows - s->told.tried))) fail(s->name, "tries past the reported length were changed");
    if (!is_pattern(s->lent.out - MARGIN, MARGIN)) fail(s->name, "something before the buffer was changed");
    if (!is_pattern((uint8_t *)s->lent.tries - MARGIN, MARGIN)) fail(s->name, "something before the row of tries was changed");
    if (!is_pattern((uint8_t *)s->e - MARGIN, MARGIN)) fail(s->name, "something before the tables was changed");
    if (memcmp(text, a->text, a->length)) fail(s->name, "the text was changed");
}

/* ---- comparisons */

static int same_told(const struct side *s, const struct side *t) {
    return s->told.answer == t->told.answer && s->told.written == t->told.written && memcmp(s->lent.out, t->lent.out, s->told.written) == 0;
}

static void compare_all(const struct side *s, const struct side *t) {
    if (!same_told(s, t)) fail(t->name, "another answer, or other bytes");
    if (s->told.tried != t->told.tried || memcmp(s->lent.tries, t->lent.tries, 8 * s->told.tried)) fail(t->name, "other tries");
    if (memcmp(s->e, t->e, sizeof *s->e)) fail(t->name, "other tables");
}

/* All but the tries and the quick test's memory; the tables in every fourth call of a day, and whenever none is open. */
static void compare_tests(const struct side *s, const struct side *t) {
    if (!same_told(s, t)) fail(t->name, "another answer, or other bytes, than by the other test");
    if (done % 4 && plain_desk_of(s->e)->phase == PLAIN_OPEN) return;
    if (memcmp(s->e, t->e, offsetof(plain_engine, batches))) fail(t->name, "another desk or other accounts than by the other test");
    if (memcmp(s->e->references, t->e->references, sizeof *s->e - offsetof(plain_engine, references))) fail(t->name, "other memories than by the other test");
    for (int p = 0; p < PLAIN_BATCHES; p++) {
        const uint64_t *a = s->e->batches[p], *b = t->e->batches[p];
        if (memcmp(a, b, 6 * sizeof *a) || memcmp(a + 7, b + 7, (PLAIN_BATCH_WORDS - 7) * sizeof *a)) fail(t->name, "other batches than by the other test");
    }
}

/* 05 to 07, and 11 to 15 of an opening: nothing changed, nothing reported. */
static int changes_nothing(const struct ask *a, uint64_t answer) {
    return (answer >= 5 && answer <= 7) || (a->action == OPEN && answer);
}

static void compare_nothing(const struct side *s, const plain_engine *before) {
    if (s->told.written || s->told.tried || memcmp(s->e, before, sizeof *before)) fail(s->name, "a refusal that changes nothing changed something");
}

/* ---- the days */

static struct side by_plain, by_either, beside, altered;
static plain_engine before;
static unsigned long answers[100], actions[8], on_altered, broken_tables, compared, most_live, most_queued, most_tries, most_written;
static unsigned alive; /* calls still to be made on the altered tables */

static void judge(struct side *s, const struct ask *a) {
    const char *wrong = judge_tries(&before, s->e, a, s->told, test_of(s, a), s->lent.tries, &s->history);
    if (wrong) fail(s->name, wrong);
}

/* The same call on the same tables elsewhere. */
static void ask_beside(const struct side *s, const plain_engine *was, const struct ask *a) {
    if (!beside.elsewhere && done % SELDOM) return;
    *beside.e = *was;
    ask_side(&beside, a);
    compare_all(s, &beside);
    compared++;
}

static void ask_altered(const struct ask *a) {
    static plain_engine was;
    static plain_index references, bins;
    was = *altered.e;
    int right = plain_right(&was, &references, &bins) || a->action == CLEAR;
    ask_side(&altered, a);
    ask_beside(&altered, &was, a);
    if ((altered.told.answer == 6) == right) fail(altered.name, "06 where the tables keep their rules, or none where they break them");
    if (changes_nothing(a, altered.told.answer)) compare_nothing(&altered, &was);
    on_altered++;
    broken_tables += !right;
    alive = right && alive ? alive - 1 : 0;
}

static void count(const struct ask *a) {
    unsigned long live = 0, queued = 0;
    for (int p = 0; p < PLAIN_BATCHES; p++) {
        live += plain_batch_at(by_plain.e, p)->phase != PLAIN_FREE;
        queued += plain_batch_at(by_plain.e, p)->phase == PLAIN_QUEUED;
    }
    if (live > most_live) most_live = live;
    if (queued > most_queued) most_queued = queued;
    if (by_plain.told.tried > most_tries) most_tries = by_plain.told.tried;
    if (a->action != CLOSING && by_plain.told.written > most_written) most_written = by_plain.told.written;
    answers[by_plain.told.answer % 100]++;
    actions[a->action]++;
}

static void ask_all(const struct ask *a) {
    before = *by_either.e;
    ask_side(&by_plain, a);
    ask_side(&by_either, a);
    ask_beside(&by_either, &before, a);
    if (by_plain.told.answer == 6) fail("plain", "06 on tables that only calls have altered");
    compare_tests(&by_plain, &by_either);
    if (changes_nothing(a, by_either.told.answer)) {
        compare_nothing(&by_either, &before);
    } else {
        judge(&by_plain, a);
        judge(&by_either, a);
        const char *wrong = judge_texts(&before, by_plain.e, a, by_plain.told, by_plain.lent.out);
        if (wrong) fail("plain", wrong);
    }
    count(a);
    was_asked(a, by_plain.told, by_plain.lent.out);
}

/* Full memories, on all sides alike. */
static void fill_sides(void) {
    before = *by_plain.e;
    fill_memories(&before);
    struct side *const sides[] = {&by_plain, &by_either};
    for (int i = 0; i < 2; i++) {
        memcpy(sides[i]->e->references, before.references, sizeof before.references);
        memcpy(sides[i]->e->bins, before.bins, sizeof before.bins);
    }
}

static void days(void) {
    static struct ask a;
    at_work = &a;
    for (int step = 0; story_ask(&a, step); step++) ask_all(&a);
    if (most_tries != PLAIN_ROWS || most_written != 320 * 105 + 95) fail("plain", "the fullest call is not as full as it should be");
    for (done = 0; done < calls; done++) {
        next_ask(by_either.e, &a);
        if (a.action == OPEN && chance(40) == 0 && plain_desk_of(by_plain.e)->phase != PLAIN_FRESH) fill_sides();
        if (alive == 0 && chance(8) == 0) {
            *altered.e = *by_either.e;
            do alter(altered.e);
            while (chance(3) == 0);
            alive = 1 + (unsigned)chance(6);
        }
        if (alive) ask_altered(&a);
        ask_all(&a);
    }
}

/* Every number that document 01 lists for a call or a text was met. */
static int all_met(void) {
    static const uint8_t listed[] = {0, 1, 2, 4, 5, 7, 11, 12, 13, 14, 15, 73, 74, 76, 77, 78, 80, 81, 84, 87, 88};
    static const uint8_t in_texts[] = {0, 1, 2, 3, 74, 76, 77, 78, 80, 81, 84, 86, 87};
    int missed = broken_tables == 0;
    for (size_t i = 0; i < sizeof listed; i++)
        if (!answers[listed[i]]) missed = printf("tests/engine: no call was answered %02d\n", listed[i]);
    for (size_t i = 0; i < sizeof in_texts; i++)
        if (!text_numbers[in_texts[i]]) missed = printf("tests/engine: no text carried %02d\n", in_texts[i]);
    return !missed;
}

static void show(double seconds) {
    printf("%" PRIu64 " calls in %.1f s; on altered tables %lu, of these 06 %lu; compared %lu\n", calls, seconds, on_altered, broken_tables, compared);
    printf("at the most: live batches %lu, queued %lu, tries %lu, bytes %lu\nactions:", most_live, most_queued, most_tries, most_written);
    for (int i = 0; i < 8; i++) printf(" %s %lu", action_names[i], actions[i]);
    printf("\nanswers:");
    for (int i = 0; i < 100; i++)
        if (answers[i]) printf(" %02d %lu", i, answers[i]);
    printf("\ntexts:");
    for (int i = 0; i < 100; i++)
        if (text_numbers[i]) printf(" %02d %lu", i, text_numbers[i]);
    putchar('\n');
}

/* ---- the tables of crates/run_rules: words by number, then a name; lengths in the words 24 to 31 */

static void take_tables(const uint64_t *w, plain_engine *e) {
    memcpy(e->desk, w, sizeof e->desk);
    for (int i = 0; i < PLAIN_BANKS; i++) e->banks[i] = (plain_bank){w[32 + i], w[128 + i], w[224 + i], w[320 + i], w[19584 + i]};
    memcpy(e->batches, w + 512, sizeof e->batches);
    memcpy(e->references, w + 11776, sizeof e->references);
    memcpy(e->bins, w + 17984, sizeof e->bins);
}

static int tables(const char *in, const char *out) {
    static uint64_t words[20608];
    static const uint64_t lengths[8] = {64, 64, 64, 64, PLAIN_BATCHES * PLAIN_BATCH_WORDS, 3 * PLAIN_REFERENCES, 3 * PLAIN_BINS, 64};
    static plain_index references, bins;
    char line[256], wanted[256], got[300];
    FILE *given = fopen(in, "r"), *told = fopen(out, "r");
    int n = 0;
    while (given && told && fgets(line, sizeof line, given)) {
        unsigned at;
        uint64_t word;
        char rest;
        if (sscanf(line, "%u %" SCNu64 "%c", &at, &word, &rest) == 3 && rest == '\n' && at < 20608) {
            words[at] = word;
            continue;
        }
        line[strcspn(line, "\n")] = 0;
        take_tables(words, &before);
        int right = memcmp(words + 24, lengths, sizeof lengths) == 0 && plain_right(&before, &references, &bins);
        snprintf(got, sizeof got, "%s %s\n", line, right ? "0" : "06");
        if (!fgets(wanted, sizeof wanted, told) || strcmp(wanted, got)) {
            printf("tests/engine: of the tables '%s' the plain test says %s\n", line, right ? "0" : "06");
            return 1;
        }
        n++;
    }
    if (n < 100) printf("tests/engine: only %d tables in %s\n", n, in);
    return n < 100;
}

/* The plain engine is compiled with sanitizers, which take more of a stack. */
enum { PLAIN_STACK = 65536 };

int main(int argc, char **argv) {
    if (argc == 4 && strcmp(argv[1], "tables") == 0) return tables(argv[2], argv[3]);
    if (argc < 3) return 2;
    seed = strtoull(argv[1], 0, 10);
    calls = strtoull(argv[2], 0, 10);
    int shown = argc > 3 && strcmp(argv[3], "shown") == 0, command = shown ? 4 : 3;
    struct areas areas;
    if (argc > command + 1 && strcmp(argv[command], "beside") == 0) start_beside(argv + command + 1, &areas);
    else areas = make_areas();
    make_side(&beside, "beside", 1, areas);
    beside.elsewhere = exchange != 0;
    make_side(&by_plain, "plain test", 0, make_areas());
    make_side(&by_either, "either test", 1, make_areas());
    make_side(&altered, "altered tables", 1, make_areas());
    seed_chance(seed);

    struct timespec start, end;
    clock_gettime(CLOCK_MONOTONIC, &start);
    on_small_stack(PLAIN_STACK, days);
    clock_gettime(CLOCK_MONOTONIC, &end);
    if (exchange) end_beside();
    if (shown) show((double)(end.tv_sec - start.tv_sec) + 1e-9 * (double)(end.tv_nsec - start.tv_nsec));
    return calls >= 100000 && !all_met();
}
