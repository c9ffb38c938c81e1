/* Plain C readers: each line is found first, from its tag to the next CR LF, and its value judged whole. */
#include "plain.h"

#include <string.h>

#include "purmagheli.h"

struct text {
    const uint8_t *bytes;
    size_t length;
    size_t at;       /* where the next line begins */
    size_t line;     /* where the present line begins */
    uint64_t nth;    /* its number, and of how many lines the tag was found */
    uint64_t taken;
    const char *first, *second; /* the tags that may stand there */
    const uint8_t *value;
    size_t size;     /* of the present value */
    int missing;
    uint64_t number; /* of the refusal */
};

static int is_digit(uint8_t c) { return c >= '0' && c <= '9'; }
static int is_upper(uint8_t c) { return c >= 'A' && c <= 'Z'; }
static int is_code(uint8_t c) { return is_digit(c) || is_upper(c); }

static int all(const uint8_t *p, size_t n, int (*kind)(uint8_t)) {
    for (size_t i = 0; i < n; i++)
        if (!kind(p[i])) return 0;
    return 1;
}

static uint64_t decimal(const uint8_t *p, size_t n) {
    uint64_t v = 0;
    for (size_t i = 0; i < n; i++) v = v * 10 + (uint64_t)(p[i] - '0');
    return v;
}

/* The characters from `from` on, eight at the most, as a number of eight bytes, or of `width`. */
static uint64_t code(const uint8_t *p, size_t n, size_t from, size_t width) {
    uint64_t v = 0;
    for (size_t i = from; i < from + width; i++) v = v << 8 | (i < n ? p[i] : 0);
    return v;
}

static int begins(const struct text *t, const char *tag) {
    size_t n = strlen(tag);
    return t->length - t->at >= n && memcmp(t->bytes + t->at, tag, n) == 0;
}

static int refuse(struct text *t, uint64_t number, int missing) {
    t->number = number;
    t->missing = missing;
    return 0;
}

/* Looks at the line that is next, where a tag may stand, or none. */
static void look(struct text *t, const char *tag) {
    t->line = t->at;
    t->nth = t->taken + 1;
    t->first = tag;
    t->second = 0;
}

/* Takes the line of a tag; its value ends at the first CR LF. */
static int take(struct text *t, const char *tag) {
    look(t, tag);
    if (!begins(t, tag)) return refuse(t, 87, 1);
    size_t start = t->at + strlen(tag), e = start;
    while (e + 1 < t->length && !(t->bytes[e] == '\r' && t->bytes[e + 1] == '\n')) e++;
    if (e + 1 >= t->length) return refuse(t, 87, 0);
    t->value = t->bytes + start;
    t->size = e - start;
    t->at = e + 2;
    t->taken++;
    return 1;
}

/* Another tag may stand before the one that is missing. */
static int either(struct text *t, const char *tag) {
    if (t->missing) {
        t->second = t->first;
        t->first = tag;
    }
    return 0;
}

static int wrong(struct text *t) { return refuse(t, 87, 0); }

static void put(uint64_t *field, const struct text *t, uint64_t value, uint64_t second) {
    field[PURMAGHELI_FIELD_START] = (uint64_t)(t->value - t->bytes);
    field[PURMAGHELI_FIELD_LENGTH] = t->size;
    field[PURMAGHELI_FIELD_VALUE] = value;
    field[PURMAGHELI_FIELD_SECOND] = second;
}

static void put_code(uint64_t *field, const struct text *t) {
    put(field, t, code(t->value, t->size, 0, 8), code(t->value, t->size, 8, 8));
}

static int digits(struct text *t, const char *tag, size_t n) {
    if (!take(t, tag)) return 0;
    return t->size == n && all(t->value, n, is_digit) ? 1 : wrong(t);
}

static int word(struct text *t, const char *tag) {
    if (!take(t, tag)) return 0;
    return t->size == 4 && all(t->value, 4, is_code) ? 1 : wrong(t);
}

static int reference(struct text *t, const char *tag) {
    static const char *const names[] = {"RITS", "ACLR", "ASXC"};
    if (!take(t, tag)) return 0;
    if (t->size < 1 || t->size > 16 || !all(t->value, t->size, is_code)) return wrong(t);
    for (int i = 0; i < 3; i++)
        if (t->size >= 4 && memcmp(t->value, names[i], 4) == 0) return wrong(t);
    return 1;
}

static int empty(struct text *t) {
    if (!take(t, ":77E:")) return 0;
    return t->size == 0 ? 1 : wrong(t);
}

static int bin(struct text *t, const uint8_t *stream) {
    if (!take(t, ":119:")) return 0;
    return t->size == 8 && memcmp(t->value, stream, 4) == 0 && all(t->value + 4, 4, is_digit) ? 1 : wrong(t);
}

/* The day of YYMMDD, or -1. */
static long day_of(const uint8_t *p) {
    static const int lengths[] = {31, 28, 31, 30, 31, 30, 31, 31, 30, 31, 30, 31};
    long y = (long)decimal(p, 2), m = (long)decimal(p + 2, 2), d = (long)decimal(p + 4, 2);
    if (m < 1 || m > 12 || d < 1 || d > lengths[m - 1] + (m == 2 && y % 4 == 0)) return -1;
    long day = y * 365 + (y + 3) / 4 + d - 1;
    for (long i = 1; i < m; i++) day += lengths[i - 1] + (i == 2 && y % 4 == 0);
    return day;
}

static int ends(struct text *t) {
    look(t, 0);
    return t->at == t->length ? 1 : refuse(t, 87, 1);
}

static int amount(struct text *t, uint64_t *cents) {
    if (!take(t, ":32B:")) return 0;
    if (t->size < 5 || memcmp(t->value, "AUD", 3) != 0) return wrong(t);
    const uint8_t *p = t->value + 3;
    size_t n = t->size - 3, whole = 0;
    while (whole < n && p[whole] != ',') whole++;
    if (whole < 1 || whole > 10 || whole == n || n - whole - 1 > 2) return wrong(t);
    size_t after = n - whole - 1;
    if (!all(p, whole, is_digit) || !all(p + whole + 1, after, is_digit)) return wrong(t);
    uint64_t part = decimal(p + whole + 1, after);
    *cents = decimal(p, whole) * 100 + (after == 1 ? part * 10 : part);
    return 1;
}

static int is_status(uint8_t c) { return c == 'A' || c == 'D' || c == 'P' || c == ' '; }

static int letters(struct text *t) {
    if (!take(t, ":113:")) return 0;
    if (t->size != 4) return wrong(t);
    if (!is_status(t->value[0])) return refuse(t, 80, 0);
    if (!is_status(t->value[1]) || !is_status(t->value[2])) return refuse(t, 81, 0);
    return t->value[3] == ' ' || is_upper(t->value[3]) ? 1 : wrong(t);
}

static int payment(struct text *t, uint64_t *row) {
    uint64_t cents = 0;
    if (!take(t, ":127:")) return 0;
    if (t->size != 2 || t->value[1] != 'R' || (t->value[0] != 'C' && t->value[0] != 'D')) return wrong(t);
    int debit = t->value[0] == 'D';
    put(row + PURMAGHELI_PAYMENT_SIDE, t, (uint64_t)debit, 0);
    if (!amount(t, &cents)) return 0;
    put(row + PURMAGHELI_PAYMENT_AMOUNT, t, cents, 0);
    if (debit) {
        if (!letters(t)) return 0;
        put(row + PURMAGHELI_PAYMENT_LETTERS, t, code(t->value, 4, 0, 4), 0);
    } else if (begins(t, ":113:")) {
        look(t, ":113:");
        return wrong(t);
    }
    if (!word(t, ":102:")) return 0;
    put(row + PURMAGHELI_PAYMENT_BANK, t, code(t->value, 4, 0, 4), 0);
    return 1;
}

static int settlement(struct text *t, uint64_t *row) {
    if (!take(t, ":16A:")) return 0;
    if (t->size != 5 || t->value[2] != '/' || !all(t->value, 2, is_digit) || !all(t->value + 3, 2, is_digit)) return wrong(t);
    uint64_t number = decimal(t->value, 2), count = decimal(t->value + 3, 2);
    if (number < 1 || count > 10 || number > count) return wrong(t);
    put(row + PURMAGHELI_REQUEST_NUMBERS, t, number, count);

    if (!digits(t, ":171:", 6)) return 0;
    long day = day_of(t->value);
    if (day < 0) return wrong(t);
    put(row + PURMAGHELI_REQUEST_DATE, t, (uint64_t)day, 0);

    int activated = begins(t, ":175:");
    if (activated) {
        if (!digits(t, ":175:", 4)) return 0;
        uint64_t hour = decimal(t->value, 2), minute = decimal(t->value + 2, 2);
        if (hour > 23 || minute > 59) return wrong(t);
        put(row + PURMAGHELI_REQUEST_ACTIVATION, t, hour * 60 + minute, 1);
    }

    uint64_t n = 0;
    do {
        size_t at = t->at;
        if (!payment(t, row + PURMAGHELI_REQUEST_PAYMENTS + n * PURMAGHELI_PAYMENT_WORDS)) return n == 0 && !activated && t->line == at ? either(t, ":175:") : 0;
        n++;
    } while (n < PURMAGHELI_PAYMENTS && begins(t, ":127:"));

    if (!take(t, ":203:")) return n < PURMAGHELI_PAYMENTS ? either(t, ":127:") : 0;
    if (t->size < 1 || t->size > 2 || !all(t->value, t->size, is_digit) || t->value[0] == '0' || decimal(t->value, t->size) != n) return wrong(t);
    put(row + PURMAGHELI_REQUEST_COUNT, t, n, 0);
    return ends(t);
}

static int request(struct text *t, uint64_t *row, uint64_t *reached) {
    if (!reference(t, ":20:")) return 0;
    put_code(row + PURMAGHELI_REQUEST_REFERENCE, t);
    if (!digits(t, ":12:", 3)) return 0;
    uint64_t kind = decimal(t->value, 3);
    if (kind != 131 && kind != 133) return refuse(t, 88, 0);
    put(row + PURMAGHELI_REQUEST_SUB_TYPE, t, kind, 0);
    if (!empty(t) || !word(t, ":22A:")) return 0;
    const uint8_t *stream = t->value;
    put(row + PURMAGHELI_REQUEST_STREAM, t, code(stream, 4, 0, 4), 0);
    *reached = PURMAGHELI_REACHED_STREAM;
    if (!bin(t, stream)) return 0;
    put_code(row + PURMAGHELI_REQUEST_BIN, t);
    *reached = PURMAGHELI_REACHED_BIN;
    return kind == 131 ? settlement(t, row) : ends(t);
}

static void put_break(uint64_t *row, const struct text *t, uint64_t reached) {
    row[PURMAGHELI_BREAK_AT] = t->line;
    row[PURMAGHELI_BREAK_MISSING] = (uint64_t)t->missing;
    row[PURMAGHELI_BREAK_REACHED] = reached;
    row[PURMAGHELI_BREAK_ZERO] = 0;
}

uint64_t plain_read_request(const uint8_t *bytes, size_t length, uint64_t *row) {
    struct text t = {bytes, length, 0, 0, 0, 0, 0, 0, bytes, 0, 0, 0};
    uint64_t fields[PURMAGHELI_REQUEST_WORDS] = {0}, reached = PURMAGHELI_REACHED_NOTHING;
    if (request(&t, fields, &reached)) {
        memcpy(row, fields, sizeof fields);
        return 0;
    }
    put_break(row, &t, reached);
    memcpy(row + PURMAGHELI_REQUEST_SUB_TYPE, fields + PURMAGHELI_REQUEST_SUB_TYPE, 3 * PURMAGHELI_FIELD_WORDS * sizeof *row);
    return t.number;
}

static int rejected(struct text *t, uint64_t *row) {
    if (!digits(t, ":432:", 2)) return 0;
    put(row + PURMAGHELI_RESPONSE_DETAIL, t, decimal(t->value, 2), 0);
    return ends(t);
}

static int settled(struct text *t, uint64_t *row) {
    if (!digits(t, ":13E:", 12)) return 0;
    const uint8_t *p = t->value;
    long day = day_of(p);
    uint64_t h = decimal(p + 6, 2), m = decimal(p + 8, 2), s = decimal(p + 10, 2);
    if (day < 0 || h > 23 || m > 59 || s > 59) return wrong(t);
    put(row + PURMAGHELI_RESPONSE_DETAIL, t, (uint64_t)day, h * 3600 + m * 60 + s);
    return ends(t);
}

static int response(struct text *t, uint64_t *row) {
    if (!take(t, ":20:")) return 0;
    if (t->size != 8 || t->value[0] != 'B' || !all(t->value + 1, 7, is_digit)) return wrong(t);
    put(row + PURMAGHELI_RESPONSE_NUMBER, t, decimal(t->value + 1, 7), 0);
    if (!digits(t, ":12:", 3)) return 0;
    uint64_t kind = decimal(t->value, 3);
    if (kind != 132 && kind != 134) return refuse(t, 88, 0);
    put(row + PURMAGHELI_RESPONSE_SUB_TYPE, t, kind, 0);
    if (!empty(t) || !reference(t, ":21:")) return 0;
    put_code(row + PURMAGHELI_RESPONSE_REFERENCE, t);
    if (kind == 132) {
        if (!word(t, ":22A:")) return 0;
        const uint8_t *stream = t->value;
        put(row + PURMAGHELI_RESPONSE_STREAM, t, code(stream, 4, 0, 4), 0);
        if (!bin(t, stream)) return 0;
        put_code(row + PURMAGHELI_RESPONSE_BIN, t);
    }
    if (!digits(t, ":451:", 1)) return 0;
    if (t->value[0] > '1') return wrong(t);
    uint64_t status = decimal(t->value, 1);
    put(row + PURMAGHELI_RESPONSE_STATUS, t, status, 0);
    if (status == 1) return rejected(t, row);
    return kind == 132 ? settled(t, row) : ends(t);
}

uint64_t plain_read_response(const uint8_t *bytes, size_t length, uint64_t *row) {
    struct text t = {bytes, length, 0, 0, 0, 0, 0, 0, bytes, 0, 0, 0};
    uint64_t fields[PURMAGHELI_RESPONSE_WORDS] = {0};
    if (response(&t, fields)) {
        memcpy(row, fields, sizeof fields);
        return 0;
    }
    put_break(row, &t, 0);
    return t.number;
}

/* A tag's number, 0 for none. */
static uint64_t tag_number(const char *tag) {
    static const char *const tags[] = {":20:", ":12:", ":77E:", ":22A:", ":119:", ":16A:", ":171:", ":175:", ":127:", ":32B:", ":113:", ":102:", ":203:", ":21:", ":451:", ":13E:", ":432:"};
    for (uint64_t i = 0; tag && i < sizeof tags / sizeof *tags; i++)
        if (strcmp(tag, tags[i]) == 0) return i + 1;
    return 0;
}

static uint64_t explain(const struct text *t, int sound, uint64_t *row) {
    memset(row, 0, PURMAGHELI_EXPLAIN_WORDS * sizeof *row);
    if (sound) return 0;
    row[PURMAGHELI_EXPLAIN_AT] = t->line;
    row[PURMAGHELI_EXPLAIN_LINE] = t->nth;
    row[PURMAGHELI_EXPLAIN_MISSING] = (uint64_t)t->missing;
    row[PURMAGHELI_EXPLAIN_FIRST] = tag_number(t->first);
    row[PURMAGHELI_EXPLAIN_SECOND] = tag_number(t->second);
    if (!t->missing) row[PURMAGHELI_EXPLAIN_VALUE] = t->line + strlen(t->first);
    return t->number;
}

uint64_t plain_explain_request(const uint8_t *bytes, size_t length, uint64_t *row) {
    struct text t = {bytes, length, 0, 0, 0, 0, 0, 0, bytes, 0, 0, 0};
    uint64_t fields[PURMAGHELI_REQUEST_WORDS] = {0}, reached = 0;
    return explain(&t, request(&t, fields, &reached), row);
}

uint64_t plain_explain_response(const uint8_t *bytes, size_t length, uint64_t *row) {
    struct text t = {bytes, length, 0, 0, 0, 0, 0, 0, bytes, 0, 0, 0};
    uint64_t fields[PURMAGHELI_RESPONSE_WORDS] = {0};
    return explain(&t, response(&t, fields), row);
}

static uint64_t little(const uint8_t *p, size_t n) {
    uint64_t v = 0;
    for (size_t i = n; i > 0; i--) v = v << 8 | p[i - 1];
    return v;
}

uint32_t plain_block_sum(const uint8_t *block) {
    uint32_t sum = 0;
    for (size_t i = 0; i < 508; i += 4) sum += (uint32_t)little(block + i, 4);
    return sum;
}

static int zeros(const uint8_t *p, size_t n) {
    for (size_t i = 0; i < n; i++)
        if (p[i]) return 0;
    return 1;
}

static const uint64_t most = UINT64_C(6400000000000000);

/* The header of a block, its counts and its unused bytes. */
static int header(const uint8_t *b, uint8_t letter, size_t number, size_t blocks, size_t first, size_t width, size_t least, size_t limit) {
    size_t n = b[4];
    if (b[0] != 'B' || b[1] != 'F' || b[2] != letter || b[3] != number || b[5] != blocks || b[6] || b[7]) return 0;
    if (n < least || n > limit) return 0;
    return zeros(b + first + n * width, 508 - first - n * width);
}

static int codes_rise(const uint8_t *before, const uint8_t *entry) {
    return all(entry, 4, is_code) && (!before || memcmp(before, entry, 4) < 0);
}

uint64_t plain_check_book(const uint8_t *book, size_t length) {
    if (length % 512 || length < 2 * 512 || length > 5 * 512) return 11;
    size_t blocks = length / 512, streams = book[4];
    uint64_t total = 0;
    const uint8_t *before = 0;
    if (little(book + 508, 4) != plain_block_sum(book)) return 12;
    if (!header(book, 'S', 0, blocks, 16, 8, 1, 8)) return 13;
    if (!all(book + 8, 6, is_digit) || day_of(book + 8) < 0 || book[14] || book[15]) return 13;
    for (size_t i = 0; i < streams; i++) {
        const uint8_t *e = book + 16 + 8 * i;
        if (!codes_rise(before, e) || !e[4] || !zeros(e + 5, 3)) return 14;
        before = e;
    }
    before = 0;
    for (size_t k = 1; k < blocks; k++) {
        const uint8_t *b = book + 512 * k;
        int last = k + 1 == blocks;
        if (little(b + 508, 4) != plain_block_sum(b)) return 12;
        if (!header(b, 'B', k, blocks, 8, 24, last ? 1 : 20, k == 4 ? 4 : 20)) return 13;
        for (size_t i = 0; i < b[4]; i++) {
            const uint8_t *e = b + 8 + 24 * i;
            uint64_t balance = little(e + 8, 8);
            if (!codes_rise(before, e) || e[4] > 1 || e[5] >> streams || !zeros(e + 6, 2)) return 14;
            if (balance > most || little(e + 16, 8) > most) return 14;
            total += balance;
            before = e;
        }
    }
    return total > most ? 15 : 0;
}

static uint64_t fault(uint64_t *row, size_t block, size_t entry, uint64_t test, uint64_t number) {
    row[0] = block;
    row[1] = entry;
    row[2] = test;
    return number;
}

/* The number of the first test that an entry fails, as it stands in its block; 0 for none. */
static uint64_t entry_fault(const uint8_t *e, const uint8_t *before, int is_bank, unsigned streams) {
    if (!all(e, 4, is_code)) return 8;
    if (before && memcmp(before, e, 4) >= 0) return 9;
    if (!is_bank) return !e[4] ? 10 : e[5] | e[6] | e[7] ? 13 : 0;
    if (e[4] != 0 && e[4] != 1) return 11;
    if (e[5] >= 1u << streams) return 12;
    if (e[6] | e[7]) return 13;
    if (little(e + 8, 8) > most) return 14;
    return little(e + 16, 8) > most ? 15 : 0;
}

uint64_t plain_find_book_fault(const uint8_t *book, size_t length, uint64_t *row) {
    size_t blocks = length / 512;
    uint64_t total = 0, test;
    if (length != blocks * 512 || blocks < 2 || blocks > 5) return fault(row, 0, 0, 1, 11);
    for (size_t k = 0; k < blocks; k++) {
        const uint8_t *b = book + 512 * k, *before = k > 1 ? b - 512 + 8 + 24 * 19 : 0;
        const uint8_t head[8] = {'B', 'F', k ? 'B' : 'S', (uint8_t)k, b[4], (uint8_t)blocks, 0, 0};
        size_t n = b[4], most_entries = k == 0 ? 8 : k == 4 ? 4 : 20, first = k ? 8 : 16, width = k ? 24 : 8;
        if (plain_block_sum(b) != little(b + 508, 4)) return fault(row, k, 0, 2, 12);
        if (memcmp(b, head, 8) != 0) return fault(row, k, 0, 3, 13);
        if (n == 0 || n > most_entries || (k && k + 1 < blocks && n != 20)) return fault(row, k, 0, 4, 13);
        if (k == 0 && (!all(b + 8, 6, is_digit) || day_of(b + 8) < 0)) return fault(row, 0, 0, 5, 13);
        if (k == 0 && (b[14] | b[15])) return fault(row, 0, 0, 6, 13);
        for (size_t at = first + n * width; at < 508; at++)
            if (b[at]) return fault(row, k, 0, 7, 13);
        for (size_t i = 0; i < n; i++) {
            const uint8_t *e = b + first + i * width;
            if ((test = entry_fault(e, before, k > 0, book[4])) != 0) return fault(row, k, i, test, 14);
            if (k) total += little(e + 8, 8);
            before = e;
        }
    }
    return total > most ? fault(row, 0, 0, 16, 15) : fault(row, 0, 0, 0, 0);
}
