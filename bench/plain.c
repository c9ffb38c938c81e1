/*
 * The readers and the book's check in plain C, written to be quick: one pass over the text with a pointer, each
 * character looked at once, tags compared as fixed strings, and fields kept in a row that is not cleared before.
 */
#include "readers.h"

#include <string.h>

#include "purmagheli.h"

/* How much of a request's head was read, which stands in the row of a request that is refused behind it. */
enum { READ_NOTHING, READ_SUB_TYPE, READ_STREAM, READ_BIN };

struct reader {
    const uint8_t *text, *p, *end;
    const uint8_t *line; /* where the present line begins */
    uint64_t missing, number;
    uint64_t *row;
};

static inline int is_digit(uint8_t c) { return (uint8_t)(c - '0') < 10; }
static inline int is_upper(uint8_t c) { return (uint8_t)(c - 'A') < 26; }
static inline int is_code(uint8_t c) { return is_digit(c) || is_upper(c); }

static int refuse(struct reader *r, uint64_t number, uint64_t missing) {
    r->number = number;
    r->missing = missing;
    return 0;
}

static int wrong(struct reader *r) { return refuse(r, 87, 0); }

/* A tag of n characters, which is a string constant where it is called. */
static inline int stands(const struct reader *r, const char *tag, size_t n) { return (size_t)(r->end - r->p) >= n && memcmp(r->p, tag, n) == 0; }
#define STANDS(r, tag) stands(r, tag, sizeof(tag) - 1)

static inline int begin(struct reader *r, const char *tag, size_t n) {
    r->line = r->p;
    if (!stands(r, tag, n)) return refuse(r, 87, 1);
    r->p += n;
    return 1;
}
#define BEGIN(r, tag) begin(r, tag, sizeof(tag) - 1)

/* The value from `start` to here, and CR LF behind it. */
static inline int over(struct reader *r, size_t at, const uint8_t *start, uint64_t value, uint64_t second) {
    if (!STANDS(r, "\r\n")) return wrong(r);
    uint64_t *field = r->row + at;
    field[PURMAGHELI_FIELD_START] = (uint64_t)(start - r->text);
    field[PURMAGHELI_FIELD_LENGTH] = (uint64_t)(r->p - start);
    field[PURMAGHELI_FIELD_VALUE] = value;
    field[PURMAGHELI_FIELD_SECOND] = second;
    r->p += 2;
    return 1;
}

static inline void nothing(uint64_t *field) { memset(field, 0, PURMAGHELI_FIELD_WORDS * sizeof *field); }

/* n digits as a number, or -1. */
static inline int64_t digits(struct reader *r, size_t n) {
    int64_t v = 0;
    if ((size_t)(r->end - r->p) < n) return -1;
    for (size_t i = 0; i < n; i++) {
        uint8_t c = r->p[i];
        if (!is_digit(c)) return -1;
        v = v * 10 + (c - '0');
    }
    r->p += n;
    return v;
}

static inline uint64_t four(const uint8_t *p) { return (uint64_t)p[0] << 24 | (uint64_t)p[1] << 16 | (uint64_t)p[2] << 8 | p[3]; }

static inline int word(struct reader *r, size_t at) {
    const uint8_t *p = r->p;
    if (r->end - p < 4 || !is_code(p[0]) || !is_code(p[1]) || !is_code(p[2]) || !is_code(p[3])) return wrong(r);
    r->p += 4;
    return over(r, at, p, four(p), 0);
}

static inline int reference(struct reader *r, size_t at) {
    const uint8_t *start = r->p;
    size_t n = 0, most = (size_t)(r->end - start) < 16 ? (size_t)(r->end - start) : 16;
    uint64_t half[2] = {0, 0};
    for (; n < most && is_code(start[n]); n++) half[n >> 3] |= (uint64_t)start[n] << (56 - 8 * (n & 7));
    if (n == 0) return wrong(r);
    uint32_t first = (uint32_t)(half[0] >> 32);
    if (first == 0x52495453 || first == 0x41434c52 || first == 0x41535843) return wrong(r); /* RITS, ACLR, ASXC */
    r->p += n;
    return over(r, at, start, half[0], half[1]);
}

static inline int bin(struct reader *r, size_t at, uint64_t stream) {
    const uint8_t *p = r->p;
    if (r->end - p < 8 || four(p) != stream) return wrong(r);
    if (!is_digit(p[4]) || !is_digit(p[5]) || !is_digit(p[6]) || !is_digit(p[7])) return wrong(r);
    r->p += 8;
    return over(r, at, p, stream << 32 | four(p + 4), 0);
}

/* The day of YYMMDD, or -1. */
static int64_t day_of(int64_t date) {
    static const int before[] = {0, 31, 59, 90, 120, 151, 181, 212, 243, 273, 304, 334, 365};
    if (date < 0) return -1;
    int y = (int)(date / 10000), m = (int)(date / 100 % 100), d = (int)(date % 100), leap = y % 4 == 0;
    if (m < 1 || m > 12 || d < 1 || d > before[m] - before[m - 1] + (m == 2 && leap)) return -1;
    return y * 365 + (y + 3) / 4 + before[m - 1] + (m > 2 && leap) + d - 1;
}

static int ends(struct reader *r) {
    r->line = r->p;
    return r->p == r->end ? 1 : refuse(r, 87, 1);
}

static inline int amount(struct reader *r, size_t at) {
    const uint8_t *start = r->p, *p = start, *end = r->end;
    if (!STANDS(r, "AUD")) return wrong(r);
    p += 3;
    const uint8_t *whole = p, *most = end - p < 10 ? end : p + 10;
    uint64_t v = 0;
    while (p < most && is_digit(*p)) v = v * 10 + (uint64_t)(*p++ - '0');
    if (p == whole || p == end || *p != ',') return wrong(r);
    p++;
    v *= 100;
    if (p < end && is_digit(*p)) {
        v += 10 * (uint64_t)(*p++ - '0');
        if (p < end && is_digit(*p)) v += (uint64_t)(*p++ - '0');
    }
    r->p = p;
    return over(r, at, start, v, 0);
}

static inline int is_status(uint8_t c) { return c == 'A' || c == 'D' || c == 'P' || c == ' '; }

static inline int letters(struct reader *r, size_t at) {
    const uint8_t *p = r->p;
    if (r->end - p < 6 || p[4] != '\r' || p[5] != '\n') return wrong(r);
    for (int i = 0; i < 4; i++)
        if (p[i] == '\r' && p[i + 1] == '\n') return wrong(r);
    if (!is_status(p[0])) return refuse(r, 80, 0);
    if (!is_status(p[1]) || !is_status(p[2])) return refuse(r, 81, 0);
    if (p[3] != ' ' && !is_upper(p[3])) return wrong(r);
    r->p += 4;
    return over(r, at, p, four(p), 0);
}

static int payment(struct reader *r, size_t at) {
    if (!BEGIN(r, ":127:")) return 0;
    const uint8_t *p = r->p;
    if (r->end - p < 2 || p[1] != 'R' || (p[0] != 'C' && p[0] != 'D')) return wrong(r);
    uint64_t debit = p[0] == 'D';
    r->p += 2;
    if (!over(r, at + PURMAGHELI_PAYMENT_SIDE, p, debit, 0)) return 0;
    if (!BEGIN(r, ":32B:") || !amount(r, at + PURMAGHELI_PAYMENT_AMOUNT)) return 0;
    if (debit) {
        if (!BEGIN(r, ":113:") || !letters(r, at + PURMAGHELI_PAYMENT_LETTERS)) return 0;
    } else {
        r->line = r->p;
        if (STANDS(r, ":113:")) return wrong(r);
        nothing(r->row + at + PURMAGHELI_PAYMENT_LETTERS);
    }
    return BEGIN(r, ":102:") && word(r, at + PURMAGHELI_PAYMENT_BANK);
}

static int terms(struct reader *r) {
    if (!BEGIN(r, ":16A:")) return 0;
    const uint8_t *start = r->p;
    int64_t number = digits(r, 2), count = -1;
    if (number >= 0 && STANDS(r, "/")) {
        r->p++;
        count = digits(r, 2);
    }
    if (number < 1 || count > 10 || number > count) return wrong(r);
    if (!over(r, PURMAGHELI_REQUEST_NUMBERS, start, (uint64_t)number, (uint64_t)count)) return 0;
    if (!BEGIN(r, ":171:")) return 0;
    start = r->p;
    int64_t day = day_of(digits(r, 6));
    if (day < 0) return wrong(r);
    if (!over(r, PURMAGHELI_REQUEST_DATE, start, (uint64_t)day, 0)) return 0;
    nothing(r->row + PURMAGHELI_REQUEST_ACTIVATION);
    if (!STANDS(r, ":175:")) return 1;
    BEGIN(r, ":175:");
    start = r->p;
    int64_t time = digits(r, 4);
    if (time < 0 || time > 2359 || time % 100 > 59) return wrong(r);
    return over(r, PURMAGHELI_REQUEST_ACTIVATION, start, (uint64_t)(time / 100 * 60 + time % 100), 1);
}

static int settlement(struct reader *r, size_t *payments) {
    size_t n = 0;
    if (!terms(r)) return 0;
    do {
        if (!payment(r, PURMAGHELI_REQUEST_PAYMENTS + n * PURMAGHELI_PAYMENT_WORDS)) return 0;
        n++;
    } while (n < PURMAGHELI_PAYMENTS && STANDS(r, ":127:"));
    *payments = n;
    if (!BEGIN(r, ":203:")) return 0;
    const uint8_t *start = r->p;
    char spelled[3] = {(char)('0' + n), 0, 0};
    if (n == 10) memcpy(spelled, "10", 2);
    size_t width = n == 10 ? 2 : 1;
    if (!stands(r, spelled, width)) return wrong(r);
    r->p += width;
    return over(r, PURMAGHELI_REQUEST_COUNT, start, n, 0) && ends(r);
}

static int request(struct reader *r, uint64_t *reached, size_t *payments) {
    if (!BEGIN(r, ":20:") || !reference(r, PURMAGHELI_REQUEST_REFERENCE)) return 0;
    if (!BEGIN(r, ":12:")) return 0;
    const uint8_t *start = r->p;
    int64_t kind = digits(r, 3);
    if (kind < 0 || !over(r, PURMAGHELI_REQUEST_SUB_TYPE, start, (uint64_t)kind, 0)) return wrong(r);
    if (kind != 131 && kind != 133) return refuse(r, 88, 0);
    *reached = READ_SUB_TYPE;
    if (!BEGIN(r, ":77E:")) return 0;
    if (!STANDS(r, "\r\n")) return wrong(r);
    r->p += 2;
    if (!BEGIN(r, ":22A:") || !word(r, PURMAGHELI_REQUEST_STREAM)) return 0;
    *reached = READ_STREAM;
    if (!BEGIN(r, ":119:") || !bin(r, PURMAGHELI_REQUEST_BIN, r->row[PURMAGHELI_REQUEST_STREAM + PURMAGHELI_FIELD_VALUE])) return 0;
    *reached = READ_BIN;
    return kind == 131 ? settlement(r, payments) : ends(r);
}

static void put_break(uint64_t *row, const struct reader *r, uint64_t reached) {
    row[PURMAGHELI_BREAK_AT] = (uint64_t)(r->line - r->text);
    row[PURMAGHELI_BREAK_MISSING] = r->missing;
    row[PURMAGHELI_BREAK_REACHED] = reached;
    row[PURMAGHELI_BREAK_ZERO] = 0;
}

/* The fields of sub type, stream and BIN, which lie one behind another, as far as they were read. */
static void put_refused(uint64_t *row, const struct reader *r, uint64_t reached) {
    static const uint64_t told[] = {PURMAGHELI_REACHED_NOTHING, PURMAGHELI_REACHED_NOTHING, PURMAGHELI_REACHED_STREAM, PURMAGHELI_REACHED_BIN};
    const uint64_t *fields = r->row;
    put_break(row, r, told[reached]);
    memset(row + PURMAGHELI_REQUEST_SUB_TYPE, 0, 3 * PURMAGHELI_FIELD_WORDS * sizeof *row);
    memcpy(row + PURMAGHELI_REQUEST_SUB_TYPE, fields + PURMAGHELI_REQUEST_SUB_TYPE, reached * PURMAGHELI_FIELD_WORDS * sizeof *row);
}

uint64_t quick_read_request(const uint8_t *text, size_t length, uint64_t *row, size_t words) {
    uint64_t fields[PURMAGHELI_REQUEST_WORDS], reached = READ_NOTHING;
    struct reader r = {text, text, text + length, text, 0, 0, fields};
    size_t payments = 0;
    if (words < PURMAGHELI_REQUEST_WORDS) return 7;
    if (!request(&r, &reached, &payments)) {
        put_refused(row, &r, reached);
        return r.number;
    }
    size_t head = payments ? PURMAGHELI_REQUEST_PAYMENTS : PURMAGHELI_REQUEST_NUMBERS, used = head + payments * PURMAGHELI_PAYMENT_WORDS;
    memcpy(row, fields, used * sizeof *row);
    memset(row + used, 0, (PURMAGHELI_REQUEST_WORDS - used) * sizeof *row);
    return 0;
}

static int detail(struct reader *r, int settled) {
    if (settled ? !BEGIN(r, ":13E:") : !BEGIN(r, ":432:")) return 0;
    const uint8_t *start = r->p;
    if (!settled) {
        int64_t number = digits(r, 2);
        if (number < 0) return wrong(r);
        return over(r, PURMAGHELI_RESPONSE_DETAIL, start, (uint64_t)number, 0) && ends(r);
    }
    int64_t day = day_of(digits(r, 6)), time = day < 0 ? -1 : digits(r, 6);
    if (time < 0 || time > 235959 || time / 100 % 100 > 59 || time % 100 > 59) return wrong(r);
    return over(r, PURMAGHELI_RESPONSE_DETAIL, start, (uint64_t)day, (uint64_t)(time / 10000 * 3600 + time / 100 % 100 * 60 + time % 100)) && ends(r);
}

static int response(struct reader *r) {
    if (!BEGIN(r, ":20:")) return 0;
    const uint8_t *start = r->p;
    if (!STANDS(r, "B")) return wrong(r);
    r->p++;
    int64_t number = digits(r, 7);
    if (number < 0 || !over(r, PURMAGHELI_RESPONSE_NUMBER, start, (uint64_t)number, 0)) return wrong(r);
    if (!BEGIN(r, ":12:")) return 0;
    start = r->p;
    int64_t kind = digits(r, 3);
    if (kind < 0 || !over(r, PURMAGHELI_RESPONSE_SUB_TYPE, start, (uint64_t)kind, 0)) return wrong(r);
    if (kind != 132 && kind != 134) return refuse(r, 88, 0);
    if (!BEGIN(r, ":77E:")) return 0;
    if (!STANDS(r, "\r\n")) return wrong(r);
    r->p += 2;
    if (!BEGIN(r, ":21:") || !reference(r, PURMAGHELI_RESPONSE_REFERENCE)) return 0;
    if (kind == 132) {
        if (!BEGIN(r, ":22A:") || !word(r, PURMAGHELI_RESPONSE_STREAM)) return 0;
        if (!BEGIN(r, ":119:") || !bin(r, PURMAGHELI_RESPONSE_BIN, r->row[PURMAGHELI_RESPONSE_STREAM + PURMAGHELI_FIELD_VALUE])) return 0;
    } else {
        nothing(r->row + PURMAGHELI_RESPONSE_STREAM);
        nothing(r->row + PURMAGHELI_RESPONSE_BIN);
    }
    if (!BEGIN(r, ":451:")) return 0;
    start = r->p;
    int64_t status = digits(r, 1);
    if (status < 0 || status > 1) return wrong(r);
    if (!over(r, PURMAGHELI_RESPONSE_STATUS, start, (uint64_t)status, 0)) return 0;
    if (status || kind == 132) return detail(r, !status);
    nothing(r->row + PURMAGHELI_RESPONSE_DETAIL);
    return ends(r);
}

uint64_t quick_read_response(const uint8_t *text, size_t length, uint64_t *row, size_t words) {
    uint64_t fields[PURMAGHELI_RESPONSE_WORDS];
    struct reader r = {text, text, text + length, text, 0, 0, fields};
    if (words < PURMAGHELI_RESPONSE_WORDS) return 7;
    if (!response(&r)) {
        put_break(row, &r, 0);
        return r.number;
    }
    memcpy(row, fields, sizeof fields);
    return 0;
}

/* ---- the book */

static inline uint64_t little(const uint8_t *p, size_t n) {
    uint64_t v = 0;
    for (size_t i = n; i > 0; i--) v = v << 8 | p[i - 1];
    return v;
}

static uint32_t block_sum(const uint8_t *block) {
    uint32_t sum = 0;
    for (size_t i = 0; i < 508; i += 4) sum += (uint32_t)little(block + i, 4);
    return sum;
}

static int zeros(const uint8_t *p, size_t n) {
    uint8_t any = 0;
    for (size_t i = 0; i < n; i++) any |= p[i];
    return any == 0;
}

static const uint64_t most = UINT64_C(6400000000000000);

static int header(const uint8_t *b, uint8_t letter, size_t number, size_t blocks, size_t first, size_t width, size_t least, size_t limit) {
    size_t n = b[4];
    if (b[0] != 'B' || b[1] != 'F' || b[2] != letter || b[3] != number || b[5] != blocks || b[6] || b[7]) return 0;
    return n >= least && n <= limit && zeros(b + first + n * width, 508 - first - n * width);
}

static inline int is_word(const uint8_t *p) { return is_code(p[0]) && is_code(p[1]) && is_code(p[2]) && is_code(p[3]); }

static int streams_right(const uint8_t *book, size_t streams) {
    uint64_t before = 0;
    for (size_t i = 0; i < streams; i++) {
        const uint8_t *e = book + 16 + 8 * i;
        uint64_t code = four(e);
        if (code <= before || !is_word(e) || !e[4] || e[5] || e[6] || e[7]) return 0;
        before = code;
    }
    return 1;
}

static int banks_right(const uint8_t *block, size_t streams, uint64_t *before, uint64_t *total) {
    for (size_t i = 0; i < block[4]; i++) {
        const uint8_t *e = block + 8 + 24 * i;
        uint64_t code = four(e), balance = little(e + 8, 8);
        if (code <= *before || !is_word(e) || e[4] > 1 || e[5] >> streams || e[6] || e[7]) return 0;
        if (balance > most || little(e + 16, 8) > most) return 0;
        *total += balance;
        *before = code;
    }
    return 1;
}

uint64_t quick_check_book(const uint8_t *book, size_t length) {
    if (length % 512 || length < 2 * 512 || length > 5 * 512) return 11;
    size_t blocks = length / 512, streams = book[4];
    uint64_t total = 0, before = 0;
    struct reader r = {book, book + 8, book + 14, book, 0, 0, 0};
    if (little(book + 508, 4) != block_sum(book)) return 12;
    if (!header(book, 'S', 0, blocks, 16, 8, 1, 8) || day_of(digits(&r, 6)) < 0 || book[14] || book[15]) return 13;
    if (!streams_right(book, streams)) return 14;
    for (size_t k = 1; k < blocks; k++) {
        const uint8_t *b = book + 512 * k;
        if (little(b + 508, 4) != block_sum(b)) return 12;
        if (!header(b, 'B', k, blocks, 8, 24, k + 1 == blocks ? 1 : 20, k == 4 ? 4 : 20)) return 13;
        if (!banks_right(b, streams, &before, &total)) return 14;
    }
    return total > most ? 15 : 0;
}
