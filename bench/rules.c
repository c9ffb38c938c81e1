/* The time of the test of the table rules (crate tables_rules::whole, by crate tables_as_row) at full tables, beside a plain test in C of the same rules. */
#define _POSIX_C_SOURCE 199309L
#include <stdint.h>
#include <stdio.h>
#include <string.h>
#include <time.h>

uint64_t purmagheli_row_right(const uint64_t *words, size_t n);

enum { WORDS = 19584, WIDTH = 349, LIVE = 32, REFERENCES = 2048, BINS = 512 };
enum { CODES = 32, FLAGS = 128, BALANCES = 224, LIMITS = 320, BATCHES = 512, REFERENCE = 11776, BIN = 17984 };

static const uint64_t MOST = 6400000000000000;

/* ---- the plain test */

static int is_code(uint64_t b) { return (b >= '0' && b <= '9') || (b >= 'A' && b <= 'Z'); }
static int is_digit(uint64_t b) { return b >= '0' && b <= '9'; }

static int is_short(uint64_t v) {
    if (v >> 32) return 0;
    for (int i = 0; i < 32; i += 8)
        if (!is_code(v >> i & 255)) return 0;
    return 1;
}

/* How many characters a code has; -1 where one is no A-Z 0-9 or stands behind a zero. */
static int code_length(uint64_t high, uint64_t low) {
    int n = 0, ended = 0;
    for (int half = 0; half < 2; half++) {
        uint64_t v = half ? low : high;
        for (int i = 56; i >= 0; i -= 8) {
            uint64_t b = v >> i & 255;
            if (b == 0) {
                ended = 1;
            } else {
                if (ended || !is_code(b)) return -1;
                n++;
            }
        }
    }
    return n;
}

static int is_reference(uint64_t high, uint64_t low) {
    uint64_t first = high >> 32;
    if (code_length(high, low) < 1) return 0;
    return first != 0x52495453 && first != 0x41434C52 && first != 0x41535843;
}

static int is_bin(uint64_t high, uint64_t low) {
    if (low != 0 || code_length(high, low) != 8) return 0;
    for (int i = 0; i < 32; i += 8)
        if (!is_digit(high >> i & 255)) return 0;
    return 1;
}

static int is_status(uint64_t b) { return b == 'A' || b == 'D' || b == 'P' || b == ' '; }

static int are_letters(uint64_t v) {
    uint64_t last = v & 255;
    if (v >> 32) return 0;
    if (!is_status(v >> 24) || !is_status(v >> 16 & 255) || !is_status(v >> 8 & 255)) return 0;
    return last == ' ' || (last >= 'A' && last <= 'Z');
}

static int all_zero(const uint64_t *w, int n) {
    uint64_t any = 0;
    for (int i = 0; i < n; i++) any |= w[i];
    return any == 0;
}

static int remembered(uint64_t day, uint64_t today) { return day <= today && today - day <= 14; }

static int house_right(const uint64_t *w) {
    uint64_t banks = w[4], n = w[5], total = MOST;
    if (n < 1 || n > 8 || banks < 1 || banks > 64) return 0;
    for (uint64_t i = 0; i < n; i++) {
        if (!is_short(w[6 + 2 * i]) || w[7 + 2 * i] < 1 || w[7 + 2 * i] > 255) return 0;
        if (i && w[6 + 2 * i] <= w[4 + 2 * i]) return 0;
    }
    if (!all_zero(w + 6 + 2 * n, 16 - 2 * n)) return 0;
    for (uint64_t p = 0; p < banks; p++) {
        if (!is_short(w[CODES + p]) || (p && w[CODES + p] <= w[CODES + p - 1])) return 0;
        if (w[FLAGS + p] >> (n + 1) || w[LIMITS + p] > MOST || w[BALANCES + p] > total) return 0;
        total -= w[BALANCES + p];
    }
    return all_zero(w + CODES + banks, 64 - banks) && all_zero(w + FLAGS + banks, 64 - banks) && all_zero(w + BALANCES + banks, 64 - banks)
        && all_zero(w + LIMITS + banks, 64 - banks);
}

static int row_right(const uint64_t *r, uint64_t banks) {
    uint64_t taken = 0, numbers = 0, sizes = 0, credit = 0, debit = 0, held = 0;
    if (r[0] == 0) return all_zero(r, WIDTH);
    if (r[0] > 3 || !is_bin(r[2], r[3]) || r[4] < 1 || r[4] > 10 || r[5] > 1440 || r[7] < 1 || r[7] > r[4]) return 0;
    for (uint64_t i = 0; i < r[7]; i++) {
        const uint64_t *m = r + 9 + 4 * i;
        if (!is_reference(m[0], m[1]) || m[2] < 1 || m[2] > r[4] || m[3] < 1 || m[3] > 10) return 0;
        if (numbers >> m[2] & 1) return 0;
        numbers |= (uint64_t)1 << m[2];
        sizes += m[3];
    }
    if (sizes != r[8]) return 0;
    for (uint64_t j = 0; j < r[8]; j++) {
        const uint64_t *p = r + 49 + 3 * j;
        if (p[0] >= banks || p[1] > 999999999999 || (p[2] && !are_letters(p[2])) || (taken >> p[0] & 1)) return 0;
        taken |= (uint64_t)1 << p[0];
        if (p[2]) debit += p[1], held |= p[0] + 1 == r[6]; else credit += p[1];
    }
    if (!all_zero(r + 9 + 4 * r[7], 40 - 4 * (int)r[7]) || !all_zero(r + 49 + 3 * r[8], 300 - 3 * (int)r[8])) return 0;
    if (r[0] == 1) return r[1] == 0 && r[6] == 0 && r[7] < r[4];
    if (r[7] != r[4] || credit != debit) return 0;
    return r[0] == 2 ? r[5] >= 1 && r[6] == 0 : r[6] == 0 || held;
}

static int ranks_right(const uint64_t *t, uint64_t phase) {
    uint64_t seen = 0, n = 0;
    for (int p = 0; p < LIVE; p++) n += t[p * WIDTH] == phase;
    for (int p = 0; p < LIVE; p++) {
        uint64_t rank = t[p * WIDTH + 1];
        if (t[p * WIDTH] != phase) continue;
        if (rank >= n || (seen >> rank & 1)) return 0;
        seen |= (uint64_t)1 << rank;
    }
    return 1;
}

/* Entries allowed, and none remembered twice, by open addressing; slots hold an entry and 1. */
static int entries_right(const uint64_t *t, int n, uint64_t today, int references, uint16_t *slots) {
    memset(slots, 0, 4096 * sizeof *slots);
    for (int i = 0; i < n; i++) {
        const uint64_t *e = t + 3 * i;
        if (e[0] == 0 && e[1] == 0 && e[2] == 0) continue;
        if (e[2] > today || !(references ? is_reference(e[0], e[1]) : is_bin(e[0], e[1]))) return 0;
        if (!remembered(e[2], today)) continue;
        uint64_t s = ((e[0] ^ e[1]) * 0x9E3779B97F4A7C15u) >> 52;
        while (slots[s]) {
            const uint64_t *o = t + 3 * (slots[s] - 1);
            if (o[0] == e[0] && o[1] == e[1]) return 0;
            s = (s + 1) & 4095;
        }
        slots[s] = (uint16_t)(i + 1);
    }
    return 1;
}

static int cross_right(const uint64_t *w) {
    const uint64_t *t = w + BATCHES, *bins = w + BIN, *refs = w + REFERENCE;
    uint64_t today = w[1], noted = 0, messages = 0;
    for (int p = 0; p < LIVE; p++) {
        const uint64_t *r = t + p * WIDTH;
        int found = 0;
        if (r[0] == 0) continue;
        for (int q = p + 1; q < LIVE; q++)
            if (t[q * WIDTH] && t[q * WIDTH + 2] == r[2] && t[q * WIDTH + 3] == r[3]) return 0;
        for (int i = 0; i < BINS && !found; i++) found = bins[3 * i] == r[2] && bins[3 * i + 1] == r[3] && remembered(bins[3 * i + 2], today);
        if (!found) return 0;
        messages += r[7];
    }
    for (int i = 0; i < REFERENCES; i++) noted += (refs[3 * i] || refs[3 * i + 1]) && refs[3 * i + 2] == today;
    return w[3] <= noted && messages <= noted - w[3];
}

static int plain_right(const uint64_t *w) {
    uint16_t slots[4096];
    static const uint64_t lengths[7] = {64, 64, 64, 64, LIVE * WIDTH, 3 * REFERENCES, 3 * BINS};
    for (int i = 0; i < 7; i++)
        if (w[24 + i] != lengths[i]) return 0;
    if (w[0] == 0) return all_zero(w + 1, 21) && all_zero(w + CODES, 64) && all_zero(w + FLAGS, 64) && all_zero(w + BALANCES, 64)
        && all_zero(w + LIMITS, 64) && all_zero(w + BATCHES, LIVE * WIDTH) && all_zero(w + REFERENCE, 3 * REFERENCES) && all_zero(w + BIN, 3 * BINS);
    if (w[1] > 36524 || w[2] > 86399 || !house_right(w)) return 0;
    for (int p = 0; p < LIVE; p++)
        if (!row_right(w + BATCHES + p * WIDTH, w[4])) return 0;
    if (!ranks_right(w + BATCHES, 2) || !ranks_right(w + BATCHES, 3)) return 0;
    if (!entries_right(w + BIN, BINS, w[1], 0, slots) || !entries_right(w + REFERENCE, REFERENCES, w[1], 1, slots)) return 0;
    if (w[0] == 2 && !all_zero(w + BATCHES, LIVE * WIDTH)) return 0;
    return cross_right(w);
}

/* ---- tables */

static uint64_t packed(const char *s, int n) {
    uint64_t v = 0;
    int ended = 0;
    for (int i = 0; i < n; i++) {
        if (!ended && s[i] == 0) ended = 1;
        v = v << 8 | (ended ? 0 : (unsigned char)s[i]);
    }
    return v;
}

static void put_code(uint64_t *at, const char *s) {
    char b[17] = {0};
    strncpy(b, s, 16);
    at[0] = packed(b, 8);
    at[1] = strlen(b) > 8 ? packed(b + 8, 8) : 0;
}

/* 64 banks, 8 streams, 32 queued batches of 7 messages with 64 payments, all references and BINs of today. */
static void fill(uint64_t *w) {
    char s[64];
    memset(w, 0, WORDS * sizeof *w);
    w[0] = 1, w[1] = 9895, w[2] = 36930, w[3] = 1024, w[4] = 64, w[5] = 8;
    for (int i = 0; i < 8; i++) snprintf(s, sizeof s, "STR%d", i), w[6 + 2 * i] = packed(s, 4), w[7 + 2 * i] = 5;
    const uint64_t lengths[7] = {64, 64, 64, 64, LIVE * WIDTH, 3 * REFERENCES, 3 * BINS};
    memcpy(w + 24, lengths, sizeof lengths);
    for (int p = 0; p < 64; p++) {
        snprintf(s, sizeof s, "B%03d", p);
        w[CODES + p] = packed(s, 4), w[FLAGS + p] = 510, w[BALANCES + p] = 1000000, w[LIMITS + p] = 1000;
    }
    for (int p = 0; p < LIVE; p++) {
        uint64_t *r = w + BATCHES + p * WIDTH;
        snprintf(s, sizeof s, "PROP%04d", p);
        r[0] = 3, r[1] = LIVE - 1 - p, put_code(r + 2, s), r[4] = 7, r[5] = 600, r[6] = 1, r[7] = 7, r[8] = 64;
        for (int i = 0; i < 7; i++) {
            snprintf(s, sizeof s, "PROPNET%09d", 7 * p + i);
            put_code(r + 9 + 4 * i, s), r[11 + 4 * i] = 7 - i, r[12 + 4 * i] = i < 6 ? 10 : 4;
        }
        for (int j = 0; j < 64; j++) r[49 + 3 * j] = j, r[50 + 3 * j] = 2000000, r[51 + 3 * j] = j % 2 ? 0 : packed("AAAA", 4);
    }
    for (int i = 0; i < REFERENCES; i++) snprintf(s, sizeof s, "PROPNET%09d", i), put_code(w + REFERENCE + 3 * i, s), w[REFERENCE + 3 * i + 2] = 9895;
    for (int i = 0; i < BINS; i++) snprintf(s, sizeof s, "PROP%04d", i), put_code(w + BIN + 3 * i, s), w[BIN + 3 * i + 2] = 9895;
}

/* References chosen so that all of them lie in one chain of crate tables_rules::entry_rules. */
static void choose(uint64_t *w) {
    char s[64];
    int n = 0;
    for (long k = 0; n < REFERENCES; k++) {
        uint64_t c[2];
        snprintf(s, sizeof s, "PROPNET%09ld", k);
        put_code(c, s);
        if ((c[0] % 2039 * 257 + c[1] % 2039) % 2039 == 0) w[REFERENCE + 3 * n] = c[0], w[REFERENCE + 3 * n + 1] = c[1], n++;
    }
}

/* ---- the time */

static double now(void) {
    struct timespec t;
    clock_gettime(CLOCK_PROCESS_CPUTIME_ID, &t);
    return (double)t.tv_sec * 1e6 + (double)t.tv_nsec / 1e3;
}

static uint64_t library(const uint64_t *w) { return purmagheli_row_right(w, WORDS); }
static uint64_t plain(const uint64_t *w) { return plain_right(w) ? 0 : 6; }

/* The least of some rounds, in microseconds of the processor's time a test. */
static double least(uint64_t (*test)(const uint64_t *), const uint64_t *w, int turns) {
    double best = 1e18;
    for (int round = 0; round < 25; round++) {
        double start = now();
        for (int i = 0; i < turns; i++)
            if (test(w)) return -1;
        double one = (now() - start) / turns;
        if (one < best) best = one;
    }
    return best;
}

static void tell(const char *name, const uint64_t *w, int turns) {
    double a = least(library, w, turns), b = least(plain, w, turns);
    printf("%-40s library %8.1f us, plain C %8.1f us, %.2f\n", name, a, b, a / b);
}

int main(void) {
    static uint64_t w[WORDS];
    fill(w);
    tell("full tables", w, 200);
    choose(w);
    tell("references chosen to lie in one chain", w, 3);
    memset(w, 0, sizeof w);
    const uint64_t lengths[7] = {64, 64, 64, 64, LIVE * WIDTH, 3 * REFERENCES, 3 * BINS};
    memcpy(w + 24, lengths, sizeof lengths);
    tell("a fresh start", w, 1000);
    return 0;
}
