#include "asks.h"

#include <inttypes.h>
#include <stdio.h>
#include <string.h>

#include "../gateway/plain.h"

static uint64_t state;

void seed_chance(uint64_t seed) {
    state = seed * UINT64_C(0x9e3779b97f4a7c15) + UINT64_C(0x632be59bd9b4e019);
    if (!state) state = 1;
    for (int i = 0; i < 8; i++) chance(2);
}

uint64_t chance(uint64_t n) {
    state ^= state << 13;
    state ^= state >> 7;
    state ^= state << 17;
    return (state >> 11) % n;
}

/* Once in n times. */
static int once(uint64_t n) { return chance(n) == 0; }

static const char code_characters[] = "ABCDEFGHIJKLMNOPQRSTUVWXYZ0123456789";

static void name_of(uint64_t code, char *name, int width) {
    for (int i = 0; i < width; i++) name[i] = (char)(code >> (8 * (width - 1 - i)));
    name[width] = 0;
}

/* ---- what is kept of the days so far */

static struct {
    uint64_t days;     /* still to come before a clearing */
    uint64_t calls;    /* still to come before the close */
    uint64_t scale;    /* of the day's amounts */
    int crowded;       /* many batches at once */
    int test;          /* 0 plain, 1 quick, 2 either, call by call */
    uint64_t made;     /* references so far, so that the next one is new */
    uint8_t book[2560]; /* the last closing book */
    size_t length;
} course;

/* References that were used, so that some are used again. */
enum { RECENT = 512 };
static char recent[RECENT][17];
static uint64_t recents;

/* ---- texts */

static struct ask *into;

static void add(const char *s) {
    size_t n = strlen(s);
    memcpy(into->text + into->length, s, n);
    into->length += n;
}

static void add_line(const char *tag, const char *value) {
    add(tag);
    add(value);
    add("\r\n");
}

/* The same cents in one of the ways that a text may have them. */
static void add_amount(uint64_t cents) {
    char s[40];
    int zeros = once(8) && cents < 100000 ? (int)chance(4) : 0;
    snprintf(s, sizeof s, "%0*" PRIu64 ",%02" PRIu64, 1 + zeros, cents / 100, cents % 100);
    size_t n = strlen(s);
    if (cents % 10 == 0 && once(2)) s[--n] = 0;
    if (cents % 100 == 0 && s[n - 1] == '0' && s[n - 2] == ',' && once(2)) s[--n] = 0;
    add(":32B:AUD");
    add_line("", s);
}

static void new_reference(char *reference) {
    if (recents && once(40)) {
        strcpy(reference, recent[chance(recents < RECENT ? recents : RECENT)]);
        return;
    }
    if (once(20)) {
        size_t n = 1 + chance(chance(2) ? 2 : 16);
        for (size_t i = 0; i < n; i++) reference[i] = code_characters[chance(36)];
        reference[n] = 0;
    } else {
        snprintf(reference, 17, once(2) ? "PROPNET%09" PRIu64 : "N%" PRIu64, course.made++);
    }
    strcpy(recent[recents++ % RECENT], reference);
}

static void add_head(const char *reference, const char *sub_type, const char *bin) {
    char stream[5] = {bin[0], bin[1], bin[2], bin[3], 0};
    add_line(":20:", reference);
    add_line(":12:", sub_type);
    add_line(":77E:", "");
    add_line(":22A:", stream);
    add_line(":119:", bin);
}

/* ---- batches that are to come: all their payments at first, sent part by part */

enum fault { NONE, UNEVEN, TWICE, PAST, FUTURE, OTHER_COUNT, OTHER_ACTIVATION, SAME_NUMBER, FAULTS };

struct line {
    char bank[5], letters[5]; /* no letters: a credit */
    uint64_t cents, part;
};

struct plan {
    char bin[9];
    uint64_t count, sent; /* messages; bits of those sent */
    int minute;           /* -1: no activation */
    int payments;
    struct line payment[100];
    enum fault fault;
    uint64_t faulty; /* the part that has it */
};

enum { PLANS = 40 };
static struct plan plans[PLANS];
static int planned;
static int asked_plan = -1; /* the plan that the last ask belongs to, and which part it sent */
static uint64_t asked_part;

/* Banks that a batch of a stream may name, in an order by chance; now and then another. */
static int some_banks(const plain_engine *e, int stream, int *places) {
    const plain_desk *d = plain_desk_of(e);
    int n = 0;
    for (int i = 0; i < (int)d->banks; i++) {
        int fit = (e->banks[i].flags >> (stream + 1) & 1) && !(e->banks[i].flags & 1);
        if (fit || once(60)) places[n++] = i;
    }
    for (int i = n - 1; i > 0; i--) {
        int j = (int)chance((uint64_t)i + 1), t = places[i];
        places[i] = places[j];
        places[j] = t;
    }
    return n;
}

static void letters_by_chance(char *letters) {
    static const char *const usual[] = {"AAA ", "    ", "PAA ", "A A ", "P  X", "AAAA", "PDD "};
    if (once(6)) {
        for (int i = 0; i < 3; i++) letters[i] = "ADP "[chance(4)];
        letters[3] = once(2) ? ' ' : (char)('A' + chance(26));
        letters[4] = 0;
    } else {
        strcpy(letters, usual[chance(sizeof usual / sizeof *usual)]);
    }
}

/* Debits by chance, then credits of the same sum. */
static void plan_amounts(struct plan *p, int payers) {
    uint64_t sum = 0, most = PLAIN_MOST_CENTS;
    for (int i = 0; i < payers; i++) {
        uint64_t cents = once(12) ? 0 : chance(course.scale + 1);
        if (cents > most) cents = most;
        if (sum + cents > most * (uint64_t)(p->payments - payers)) cents = 0;
        letters_by_chance(p->payment[i].letters);
        p->payment[i].cents = cents;
        sum += cents;
    }
    for (int i = payers; i < p->payments; i++) {
        uint64_t behind = most * (uint64_t)(p->payments - 1 - i), least = sum > behind ? sum - behind : 0, top = sum < most ? sum : most;
        uint64_t cents = i + 1 == p->payments ? sum : least + chance(top - least + 1);
        p->payment[i].letters[0] = 0;
        p->payment[i].cents = cents;
        sum -= cents;
    }
    if (p->fault == UNEVEN) p->payment[chance((uint64_t)p->payments)].cents ^= 1;
}

/* Payments in an order by chance, cut into messages of one to ten. */
static void plan_parts(struct plan *p) {
    for (int i = p->payments - 1; i > 0; i--) {
        int j = (int)chance((uint64_t)i + 1);
        struct line t = p->payment[i];
        p->payment[i] = p->payment[j];
        p->payment[j] = t;
    }
    uint64_t n = (uint64_t)p->payments, least = (n + 9) / 10, most = n < 10 ? n : 10;
    p->count = once(2) ? least : least + chance(most - least + 1);
    for (uint64_t i = 0; i < n; i++) p->payment[i].part = i * p->count / n;
}

static void name_bin(const plain_engine *e, char *bin, int stream) {
    name_of(plain_desk_of(e)->stream[stream].code, bin, 4);
    snprintf(bin + 4, 5, "%04u", (unsigned)(once(12) ? chance(40) : chance(10000)));
}

static int make_plan(const plain_engine *e) {
    struct plan *p = plans + planned;
    const plain_desk *d = plain_desk_of(e);
    int places[PLAIN_BANKS], stream = (int)chance(d->streams), n = some_banks(e, stream, places);
    if (n < 1 || planned == PLANS) return 0;
    int wanted = once(30) ? n : 2 + (int)chance(once(5) ? 12 : 3);
    memset(p, 0, sizeof *p);
    name_bin(e, p->bin, stream);
    p->fault = once(5) ? (enum fault)chance(FAULTS) : NONE;
    p->payments = n < wanted ? n : wanted;
    for (int i = 0; i < p->payments; i++) name_of(e->banks[places[i]].code, p->payment[i].bank, 4);
    if (once(60)) memcpy(p->payment[chance((uint64_t)p->payments)].bank, "NONE", 4);
    if (p->fault == TWICE) memcpy(p->payment[0].bank, p->payment[p->payments - 1].bank, 4);
    plan_amounts(p, p->payments < 2 ? 1 : 1 + (int)chance((uint64_t)p->payments - 1));
    plan_parts(p);
    p->faulty = chance(p->count);
    int minute = (int)(d->clock / 60) - 1 + (int)chance(6);
    p->minute = once(3) ? (minute > 1439 ? 1439 : minute < 0 ? 0 : minute) : -1;
    if (once(80)) p->minute = (int)chance(1440);
    planned++;
    return 1;
}

static void drop_plan(int i) { plans[i] = plans[--planned]; }

static void add_payments(const struct plan *p, uint64_t part) {
    int n = 0;
    char count[12];
    for (int i = 0; i < p->payments; i++) {
        if (p->payment[i].part != part) continue;
        int debit = p->payment[i].letters[0] != 0;
        add_line(":127:", debit ? "DR" : "CR");
        add_amount(p->payment[i].cents);
        if (debit) add_line(":113:", p->payment[i].letters);
        add_line(":102:", p->payment[i].bank);
        n++;
    }
    snprintf(count, sizeof count, "%d", n);
    add_line(":203:", count);
}

static void add_terms(const plain_engine *e, const struct plan *p, uint64_t part) {
    char s[64];
    int wrong = part == p->faulty, minute = p->minute;
    uint64_t number = part + 1, count = p->count, day = plain_desk_of(e)->date;
    if (wrong && p->fault == OTHER_COUNT) count = count < 10 ? count + 1 : 10;
    if (wrong && p->fault == SAME_NUMBER) number = 1 + chance(count);
    if (wrong && p->fault == PAST && day > 0) day--;
    if (wrong && p->fault == FUTURE && day < 36524) day += 1 + chance(2);
    if (wrong && p->fault == OTHER_ACTIVATION) minute = once(2) ? -1 : (int)chance(1440);
    snprintf(s, sizeof s, "%02" PRIu64 "/%02" PRIu64, number, count);
    add_line(":16A:", s);
    snprintf(s, sizeof s, "%06" PRIu64, plain_date_of(day > 36524 ? 36524 : day));
    add_line(":171:", s);
    if (minute < 0) return;
    snprintf(s, sizeof s, "%02d%02d", minute / 60, minute % 60);
    add_line(":175:", s);
}

static void send_part(const plain_engine *e, struct plan *p) {
    char reference[17];
    new_reference(reference);
    do asked_part = chance(p->count);
    while (p->sent >> asked_part & 1);
    add_head(reference, "131", p->bin);
    add_terms(e, p, asked_part);
    add_payments(p, asked_part);
    p->sent |= UINT64_C(1) << asked_part;
}

/* ---- texts that break */

static void put_bytes(struct ask *a, size_t at, size_t gone, const char *with, size_t n) {
    if (a->length - gone + n > LONGEST) return;
    memmove(a->text + at + n, a->text + at + gone, a->length - at - gone);
    memcpy(a->text + at, with, n);
    a->length = a->length - gone + n;
}

static void break_letters(struct ask *a) {
    for (size_t i = 0, from = chance(a->length); i + 9 < a->length; i++) {
        size_t at = (from + i) % a->length;
        if (at + 9 < a->length && memcmp(a->text + at, ":113:", 5) == 0) {
            at += 5 + chance(4);
            a->text[at] = (uint8_t)"XB1a"[chance(4)];
            return;
        }
    }
}

static void break_text(struct ask *a) {
    static const char *const pieces[] = {"\r\n", "\r", "\n", ":", ":113:AAAA\r\n", ":175:0900\r\n", ":203:1\r\n", "RITS", ",", "0", "9", "A", " ", "\x80"};
    size_t at = chance(a->length);
    const char *piece = pieces[chance(sizeof pieces / sizeof *pieces)];
    switch (chance(6)) {
    case 0: a->text[at] = (uint8_t)chance(256); break;
    case 1: put_bytes(a, at, 1, "", 0); break;
    case 2: put_bytes(a, at, 0, piece, strlen(piece)); break;
    case 3: a->length = at; break;
    case 4: {
        uint8_t *sub_type = (uint8_t *)strstr((char *)a->text, ":12:1");
        if (sub_type) sub_type[6] = (uint8_t)('0' + chance(10));
        break;
    }
    default: break_letters(a);
    }
}

/* Where the n-th line behind 119 begins, the text's end included, around from the first; 0 if the text has no such line. */
static size_t line_behind_119(const struct ask *a, uint64_t n) {
    size_t begins[80], lines = 0, at = 0;
    while (at + 5 <= a->length && memcmp(a->text + at, ":119:", 5)) at++;
    while (++at < a->length && lines < 80)
        if (a->text[at - 2] == '\r' && a->text[at - 1] == '\n') begins[lines++] = at;
    if (lines < 80) begins[lines++] = a->length;
    return lines > 1 ? begins[n % lines] : 0;
}

/* A fault behind 119: the text cut where a line begins or within it, a line left out or doubled, an empty value, 113 after CR, bytes behind 203. */
static void break_part(struct ask *a) {
    uint64_t n = chance(64);
    size_t at = line_behind_119(a, n), next = line_behind_119(a, n + 1), size = next > at ? next - at : 0;
    char line[64];
    if (size > sizeof line || at == 0) return;
    memcpy(line, a->text + at, size);
    switch (chance(8)) {
    case 0: a->length = at; break;
    case 1: a->length = at + chance(size + 1); break;
    case 2: put_bytes(a, at, size, "", 0); break;
    case 3: put_bytes(a, at, 0, line, size); break;
    case 4:
        if (size > 7) put_bytes(a, at + 5, size - 7, "", 0);
        break;
    case 5:
        if (size > 5 && memcmp(line, ":102:", 5) == 0) put_bytes(a, at, 0, ":113:AAA \r\n", 11);
        break;
    case 6: put_bytes(a, a->length, 0, ":203:1\r\n", 1 + chance(8)); break;
    default: break_letters(a);
    }
}

/* ---- books */

static void store(uint8_t *p, uint64_t v, int n) {
    for (int i = 0; i < n; i++) p[i] = (uint8_t)(v >> (8 * i));
}

static void seal(uint8_t *block) { store(block + 508, plain_block_sum(block), 4); }

static size_t entry_at(size_t bank) { return 512 * (1 + bank / 20) + 8 + 24 * (bank % 20); }

/* Streams rise by their second character, banks by two in the middle. */
static void add_streams(uint8_t *book, size_t streams) {
    static const char second[] = "0AEKPSVZ";
    for (size_t i = 0; i < streams; i++) {
        uint8_t *entry = book + 16 + 8 * i;
        entry[0] = 'S';
        entry[1] = (uint8_t)second[i];
        entry[2] = (uint8_t)"R7"[once(9)];
        entry[3] = 'M';
        entry[4] = (uint8_t)(once(4) ? 5 : 1 + chance(255));
    }
}

static uint64_t money(uint64_t scale, uint64_t most) {
    uint64_t v = once(5) ? 0 : chance(3 * scale + 1);
    return v < most ? v : most;
}

static void add_banks(uint8_t *book, size_t banks, size_t streams) {
    uint64_t left = PLAIN_MOST_MONEY, scale = course.scale;
    int tight = once(3), poor = once(4);
    for (size_t i = 0; i < banks; i++) {
        uint8_t *entry = book + entry_at(i);
        uint64_t balance = poor && i ? money(scale / 8, left) : money(scale, left);
        if (once(400)) balance = left;
        entry[0] = 'B';
        entry[1] = (uint8_t)code_characters[10 + i / 26];
        entry[2] = (uint8_t)code_characters[10 + i % 26];
        entry[3] = (uint8_t)code_characters[once(20) ? chance(36) : 0];
        entry[4] = (uint8_t)once(12);
        entry[5] = (uint8_t)(once(6) ? chance(UINT64_C(1) << streams) : (UINT64_C(1) << streams) - 1);
        store(entry + 8, balance, 8);
        store(entry + 16, tight ? money(scale / 2, PLAIN_MOST_MONEY) : once(50) ? PLAIN_MOST_MONEY : 0, 8);
        left -= balance;
    }
}

/* The headers and the date. */
static void lay_book(struct ask *a, uint64_t day, size_t banks, size_t streams) {
    size_t blocks = 1 + (banks + 19) / 20;
    char date[24];
    a->length = 512 * blocks;
    memset(a->text, 0, a->length);
    for (size_t k = 0; k < blocks; k++) {
        uint8_t *b = a->text + 512 * k;
        memcpy(b, k ? "BFB" : "BFS", 3);
        b[3] = (uint8_t)k;
        b[4] = (uint8_t)(k == 0 ? streams : k + 1 < blocks ? 20 : banks - 20 * (k - 1));
        b[5] = (uint8_t)blocks;
    }
    snprintf(date, sizeof date, "%06" PRIu64, plain_date_of(day));
    memcpy(a->text + 8, date, 6);
}

static void seal_book(struct ask *a) {
    for (size_t at = 0; at < a->length; at += 512) seal(a->text + at);
}

static void make_book(struct ask *a, uint64_t day) {
    static const uint64_t scales[] = {1, 60, 1000, 1000, 100000, 999999999999};
    size_t banks = once(8) ? 1 + chance(64) : once(3) ? 6 + chance(16) : 2 + chance(7), streams = once(3) ? 1 + chance(8) : 1 + chance(3);
    course.scale = scales[chance(sizeof scales / sizeof *scales)];
    lay_book(a, day, banks, streams);
    add_streams(a->text, streams);
    add_banks(a->text, banks, streams);
    seal_book(a);
}

static void break_book(struct ask *a) {
    size_t blocks = a->length / 512, k = chance(blocks), at = chance(512);
    uint8_t *b = a->text + 512 * k;
    switch (chance(7)) {
    case 0: a->length = chance(6 * 512 + 1); return;
    case 1: b[at] ^= (uint8_t)(1 + chance(255)); return;
    case 2: b[at % 16] = (uint8_t)chance(256); break;
    case 3: b[4] = (uint8_t)chance(24); break;
    case 4: b[at % 500] = (uint8_t)chance(256); break;
    case 5:
        if (k) store(b + 16, PLAIN_MOST_MONEY + chance(2), 8);
        break;
    default:
        for (size_t i = 1; i < blocks; i++) {
            if (a->text[512 * i + 4]) store(a->text + 512 * i + 16, PLAIN_MOST_MONEY, 8);
            seal(a->text + 512 * i);
        }
        break;
    }
    seal(b);
}

/* ---- asks */

static uint64_t gap(void) {
    static const uint8_t gaps[] = {1, 1, 1, 1, 1, 1, 1, 2, 3, 5, 7, 13, 14, 15, 16, 30};
    return gaps[chance(sizeof gaps)];
}

static void ask_open(const plain_engine *e, struct ask *a) {
    const plain_desk *d = plain_desk_of(e);
    uint64_t day = d->phase == PLAIN_FRESH ? chance(once(20) ? 36525 : 36000) : d->date + gap();
    a->action = OPEN;
    a->clock = once(10) ? chance(86400) : 3600 * chance(12);
    if (d->phase == PLAIN_CLOSED && once(20)) day = d->date - (d->date ? chance(2) : 0);
    if (day > 36524) day = 36524;
    if (d->phase != PLAIN_FRESH && course.length && !once(3)) {
        memcpy(a->text, course.book, course.length);
        a->length = course.length;
    } else {
        make_book(a, day);
    }
    if (once(4)) break_book(a);
    if (once(40)) a->clock = UINT64_C(86400) << chance(40);
}

static void ask_message(const plain_engine *e, struct ask *a) {
    const plain_desk *d = plain_desk_of(e);
    a->action = MESSAGE;
    into = a;
    if (planned < (course.crowded ? PLANS : 4) && (planned == 0 || once(2))) make_plan(e);
    if (planned == 0) {
        add("\r\n");
        return;
    }
    asked_plan = (int)chance((uint64_t)planned);
    struct plan *p = plans + asked_plan;
    if (once(200)) memcpy(p->bin, "ZZZZ", 4);
    send_part(e, p);
    for (uint64_t i = 0; i < d->streams; i++)
        if (d->stream[i].code == plain_code4(p->bin)) a->sender = d->stream[i].administrator;
    if (once(50)) a->sender = once(2) ? a->sender + 256 : chance(300);
    if (once(25)) break_text(a);
    else if (once(p->count > 1 ? 12 : 50)) break_part(a);
}

/* A live batch by chance, or a null pointer. */
static const plain_batch *some_batch(const plain_engine *e) {
    for (int i = 0; i < 40; i++) {
        const plain_batch *b = plain_batch_at(e, (int)chance(PLAIN_BATCHES));
        if (b->phase != PLAIN_FREE) return b;
    }
    return 0;
}

/* A text for the BIN of a live batch, with a reference that stands in it or with a new one. */
static void ask_for_live(const plain_engine *e, struct ask *a, const plain_batch *b) {
    struct plan p = {.minute = -1, .count = 1, .payments = 1};
    char reference[17], used[17];
    const uint64_t *code = b->message[chance(b->messages)].reference;
    a->action = MESSAGE;
    into = a;
    new_reference(reference);
    name_of(code[0], used, 8);
    name_of(code[1], used + 8, 8);
    name_of(b->bin[0], p.bin, 8);
    name_of(e->banks[0].code, p.payment[0].bank, 4);
    add_head(once(3) ? reference : used, "131", p.bin);
    add_terms(e, &p, 0);
    add_payments(&p, 0);
    for (uint64_t i = 0; i < plain_desk_of(e)->streams; i++)
        if (plain_desk_of(e)->stream[i].code == b->bin[0] >> 32) a->sender = plain_desk_of(e)->stream[i].administrator;
}

static void ask_recall(const plain_engine *e, struct ask *a) {
    const plain_desk *d = plain_desk_of(e);
    const plain_batch *b = some_batch(e);
    char bin[9], reference[17];
    int stream = (int)chance(d->streams);
    a->action = MESSAGE;
    new_reference(reference);
    into = a;
    if (b && !once(4)) name_of(b->bin[0], bin, 8);
    else name_bin(e, bin, stream);
    for (uint64_t i = 0; i < d->streams; i++)
        if (b && b->bin[0] >> 32 == d->stream[i].code) stream = (int)i;
    if (!b) name_bin(e, bin, stream);
    add_head(reference, "133", bin);
    a->sender = once(40) ? chance(300) : d->stream[stream].administrator;
    if (once(40)) break_text(a);
}

static uint64_t some_bank(const plain_engine *e) { return once(30) ? plain_code4("NONE") : e->banks[chance(plain_desk_of(e)->banks)].code; }

static void ask_sublimit(const plain_engine *e, struct ask *a) {
    const plain_bank *b = e->banks + chance(plain_desk_of(e)->banks);
    a->action = SUBLIMIT;
    a->bank = once(30) ? b->code + (UINT64_C(1) << chance(50)) : b->code;
    switch (chance(6)) {
    case 0: a->cents = 0; break;
    case 1: a->cents = b->balance; break;
    case 2: a->cents = b->balance > 10 ? b->balance - chance(10) : b->balance; break;
    case 3: a->cents = b->sublimit; break;
    case 4: a->cents = chance(b->balance + 2); break;
    default: a->cents = once(3) ? PLAIN_MOST_MONEY + chance(2) : once(8) ? UINT64_MAX - chance(2) : chance(course.scale + 1);
    }
}

static void ask_status(const plain_engine *e, struct ask *a) {
    const plain_batch *b = some_batch(e);
    a->action = STATUS;
    a->bank = some_bank(e);
    a->bin[0] = plain_code8("SRXM0000");
    if (b) {
        uint64_t j = chance(b->payments);
        for (int i = 0; i < 8 && !b->payment[j].letters; i++) j = chance(b->payments);
        a->bin[0] = b->bin[0];
        if (!once(10)) a->bank = e->banks[b->payment[j].bank].code;
    }
    a->bin[1] = (uint64_t)once(40);
    a->letter = (uint8_t)"AADPPP"[chance(6)];
    if (once(15)) a->letter = once(2) ? (uint8_t)"X a\0"[chance(4)] : a->letter + (UINT64_C(1) << (8 + chance(50)));
}

static void ask_closing(const plain_engine *e, struct ask *a) {
    uint64_t day = plain_desk_of(e)->date + gap();
    a->action = CLOSING;
    a->date = day > 36524 ? 991231 : plain_date_of(day);
    if (once(5)) a->date = once(3) ? 270229 : once(3) ? UINT64_MAX - chance(1000000) : once(2) ? 1000000 + a->date : plain_date_of(plain_desk_of(e)->date);
}

/* Time goes on, by seconds most often. */
static uint64_t later(uint64_t clock) {
    uint64_t next = clock + (once(12) ? chance(900) : once(3) ? chance(60) : chance(3));
    return next > 86399 ? 86399 : next;
}

static int live_batches(const plain_engine *e) {
    int n = 0;
    for (int p = 0; p < PLAIN_BATCHES; p++) n += plain_batch_at(e, p)->phase != PLAIN_FREE;
    return n;
}

static void ask_on_open_day(const plain_engine *e, struct ask *a) {
    const plain_batch *b;
    uint64_t kind = chance(100);
    a->clock = later(plain_desk_of(e)->clock);
    if (course.calls == 0 && !once(3)) a->action = CLOSE;
    else if (live_batches(e) > (course.crowded ? 31 : 16) && once(4)) ask_recall(e, a);
    else if (kind == 0 && (b = some_batch(e))) ask_for_live(e, a, b);
    else if (kind < 66) ask_message(e, a);
    else if (kind < 74) ask_recall(e, a);
    else if (kind < 82) ask_sublimit(e, a);
    else if (kind < 90) ask_status(e, a);
    else if (kind < 98) a->action = TICK;
    else if (once(2)) ask_open(e, a);
    else ask_closing(e, a);
}

static void ask_on_closed_day(const plain_engine *e, struct ask *a) {
    a->clock = later(plain_desk_of(e)->clock);
    if (once(12)) a->action = once(2) ? TICK : CLOSE;
    else if (once(20)) ask_message(e, a);
    else if (once(course.length ? 5 : 2)) ask_closing(e, a);
    else ask_open(e, a);
}

/* Buffers that are too short by one or by all, or longer than they need be; a clock that is wrong. */
static void spoil(const plain_engine *e, struct ask *a) {
    const plain_desk *d = plain_desk_of(e);
    size_t book = 512 * (1 + (size_t)(d->banks + 19) / 20);
    if (a->action == CLOSING && once(3)) a->room = once(2) ? book : book - 1;
    if (once(60)) a->room = once(3) ? chance(PLAIN_ROOM) : PLAIN_ROOM - 1;
    if (once(60)) a->rows = once(3) ? chance(PLAIN_ROWS) : PLAIN_ROWS - 1;
    if (once(8)) a->room += chance(MOST_ROOM - a->room + 1);
    if (once(8)) a->rows += chance(MOST_ROWS - a->rows + 1);
    if (once(60)) a->clock = once(3) ? 86400 : once(3) ? UINT64_MAX : once(2) ? a->clock + (UINT64_C(1) << 32) : d->clock - (d->clock ? 1 : 0);
}

void next_ask(const plain_engine *e, struct ask *a) {
    const plain_desk *d = plain_desk_of(e);
    *a = (struct ask){.action = TICK, .quick = course.test == 2 ? once(2) : course.test, .room = PLAIN_ROOM, .rows = PLAIN_ROWS};
    asked_plan = -1;
    if ((d->phase != PLAIN_OPEN && course.days == 0) || once(20000)) a->action = CLEAR;
    else if (d->phase == PLAIN_OPEN) ask_on_open_day(e, a);
    else if (d->phase == PLAIN_CLOSED) ask_on_closed_day(e, a);
    else if (once(8)) ask_closing(e, a);
    else if (once(8)) a->action = once(2) ? TICK : CLOSE;
    else ask_open(e, a);
    spoil(e, a);
}

/* A part that was refused and not answered is sent again most often; one that ended its batch, or was the last, ends the plan. */
static void after_part(struct plan *p, plain_told told) {
    int again = told.answer && told.written == 0 && !once(5);
    if (again) p->sent &= ~(UINT64_C(1) << asked_part);
    if (p->sent == (UINT64_C(1) << p->count) - 1 || (told.answer && !again && !once(5))) drop_plan(asked_plan);
}

void was_asked(const struct ask *a, plain_told told, const uint8_t *out) {
    if (course.calls) course.calls--;
    if (a->action == CLEAR) {
        course.days = once(10) ? 16 : 1 + chance(6);
        course.length = 0;
    }
    if (a->action == OPEN && told.answer == 0) {
        if (course.days) course.days--;
        course.calls = once(6) ? 600 + chance(600) : once(6) ? chance(10) : 40 + chance(300);
        course.crowded = once(6);
        course.test = once(8) ? 0 : 1 + once(2);
        course.length = 0;
        planned = 0;
    }
    if (a->action == CLOSING && told.answer == 0) {
        memcpy(course.book, out, told.written);
        course.length = told.written;
    }
    if (asked_plan >= 0) after_part(plans + asked_plan, told);
}

/* ---- two days that fill a call's output */

/* 64 banks, all in one stream; the first has money, and the others have as much or none. */
static void story_book(struct ask *a, uint64_t day, uint64_t first, uint64_t others) {
    a->action = OPEN;
    lay_book(a, day, PLAIN_BANKS, 1);
    memcpy(a->text + 16, "PROP\5", 5);
    for (size_t i = 0; i < PLAIN_BANKS; i++) {
        uint8_t *entry = a->text + entry_at(i);
        const uint8_t head[6] = {'B', 'K', (uint8_t)('A' + i / 10), (uint8_t)('0' + i % 10), 0, 1};
        memcpy(entry, head, sizeof head);
        store(entry + 8, i ? others : first, 8);
    }
    seal_book(a);
}

/* A part with one payment of 1.00 out of a bank, one to a bank, or both; -1 for none. */
static void story_part(struct ask *a, uint64_t day, unsigned batch, unsigned number, unsigned count, int payer, int payee) {
    static unsigned references;
    char s[80];
    a->action = MESSAGE;
    a->sender = 5;
    into = a;
    snprintf(s, sizeof s, ":20:STORY%011u\r\n:12:131\r\n:77E:\r\n:22A:PROP\r\n", references++);
    add(s);
    snprintf(s, sizeof s, ":119:PROP%04u\r\n:16A:%02u/%02u\r\n:171:%06" PRIu64 "\r\n:175:1200\r\n", batch, number, count, plain_date_of(day));
    add(s);
    snprintf(s, sizeof s, ":127:DR\r\n:32B:AUD1,00\r\n:113:AAA \r\n:102:BK%c%d\r\n", 'A' + payer / 10, payer % 10);
    if (payer >= 0) add(s);
    snprintf(s, sizeof s, ":127:CR\r\n:32B:AUD1,00\r\n:102:BK%c%d\r\n", 'A' + payee / 10, payee % 10);
    if (payee >= 0) add(s);
    add(payer >= 0 && payee >= 0 ? ":203:2\r\n" : ":203:1\r\n");
}

/* Bank 31 pays 32, 30 pays 31, and so on, in this order: only the last can pay, and each walk settles one. */
static void story_chain(struct ask *a, int k) { story_part(a, 9895, (unsigned)k, 1, 1, 31 - k, 32 - k); }

/* Ten parts in each of 32 batches, five banks pay five. */
static void story_full(struct ask *a, int k) {
    int bank = k % 10;
    story_part(a, 9896, 100 + (unsigned)k / 10, 1 + (unsigned)bank, 10, bank < 5 ? bank : -1, bank < 5 ? -1 : bank);
}

int story_ask(struct ask *a, int step) {
    *a = (struct ask){.action = TICK, .quick = 1, .clock = 32400 + (uint64_t)step, .room = PLAIN_ROOM, .rows = PLAIN_ROWS};
    asked_plan = -1;
    if (step == 0) a->action = CLEAR;
    else if (step == 1) story_book(a, 9895, 100, 0);
    else if (step < 34) story_chain(a, step - 2);
    else if (step == 34) a->clock = 43200;
    else if (step == 35) a->action = CLOSE, a->clock = 43201;
    else if (step == 36) story_book(a, 9896, 100000, 100000);
    else if (step < 357) story_full(a, step - 37);
    else if (step == 357) story_chain(a, 0), a->clock = 43200; /* its BIN is yesterday's: 87 alone, before the 320 */
    else if (step == 358) a->action = CLOSE, a->clock = 43201;
    else return 0;
    return 1;
}

/* ---- tables by hand */

/* Entries of the last days, and some that have expired, in places that are free; a few stay free. */
static void fill(uint64_t (*entries)[3], int n, uint64_t today, int bins) {
    int left = once(4) ? 0 : (int)chance(once(2) ? 12 : 400);
    for (int i = 0; i < n; i++) {
        uint64_t *entry = entries[i], back = once(12) ? 15 + chance(10) : chance(15);
        char code[17];
        unsigned by_chance = (unsigned)chance(100);
        if (entry[0] && plain_remembered(entry[2], today)) continue;
        if (back > today || (left && once(4) && left--)) continue;
        snprintf(code, sizeof code, bins ? "F%02uX%04d" : "FILL%02uXX%04d", by_chance, i);
        entry[0] = plain_code8(code);
        entry[1] = bins ? 0 : plain_code8(code + 8);
        entry[2] = today - back;
    }
}

void fill_memories(plain_engine *e) {
    uint64_t today = plain_desk_of(e)->date;
    if (!once(3)) fill(e->references, PLAIN_REFERENCES, today, 0);
    if (!once(3)) fill(e->bins, PLAIN_BINS, today, 1);
}

static plain_batch *any_batch(plain_engine *e) {
    for (int i = 0; i < 60; i++) {
        plain_batch *b = (plain_batch *)e->batches[chance(PLAIN_BATCHES)];
        if (b->phase != PLAIN_FREE) return b;
    }
    return (plain_batch *)e->batches[chance(PLAIN_BATCHES)];
}

/* A number near to what a word holds, or far from it. */
static void alter_word(uint64_t *word) {
    switch (chance(7)) {
    case 0: *word += 1; break;
    case 1: *word -= 1; break;
    case 2: *word = 0; break;
    case 3: *word ^= UINT64_C(1) << chance(64); break;
    case 4: *word = chance(70); break;
    case 5: *word = UINT64_MAX - chance(3); break;
    default: *word = chance(2); break;
    }
}

/* One of the four is another letter, or a wrong one. */
static void alter_letters(plain_payment *p) {
    uint64_t at = 8 * chance(4), letter = (uint8_t)"AADDPP  QX"[chance(10)];
    p->letters = (p->letters & ~(UINT64_C(255) << at)) | letter << at;
}

static void alter_batch(plain_engine *e, plain_batch *b) {
    plain_payment *p = b->payment + (b->payments && b->payments <= 100 ? chance(b->payments) : chance(100));
    plain_part *m = b->message + (b->messages && b->messages <= 10 ? chance(b->messages) : chance(10));
    switch (chance(16)) {
    case 0: alter_word(&b->phase); break;
    case 1: alter_word(&b->rank); break;
    case 2: alter_word(&b->bin[chance(2)]); break;
    case 3: alter_word(&b->count); break;
    case 4: b->activation = chance(once(4) ? 1600 : 1441); break;
    case 5: b->memory = p->bank + 1; break;
    case 6: alter_word(&b->memory); break;
    case 7: alter_word(once(2) ? &b->messages : &b->payments); break;
    case 8: alter_word(&m->reference[chance(2)]); break;
    case 9: alter_word(once(2) ? &m->number : &m->size); break;
    case 10: alter_word(&p->bank); break;
    case 11: alter_word(&p->cents); break;
    case 12: alter_letters(p); break;
    case 13: memset(b, 0, sizeof *b); break;
    case 14: *(plain_batch *)e->batches[chance(PLAIN_BATCHES)] = *b; break;
    default: alter_word((uint64_t *)b + chance(PLAIN_BATCH_WORDS)); break;
    }
}

static void alter_entries(uint64_t (*entries)[3], uint64_t n, uint64_t today) {
    uint64_t used = 0;
    while (used < n && entries[used][0]) used++;
    uint64_t *entry = entries[used && !once(6) ? chance(used) : chance(n)], *other = entries[used ? chance(used) : 0], half = chance(2);
    switch (chance(6)) {
    case 0: entry[2] = today - (today > 20 ? chance(20) : 0); break;
    case 1: entry[2] = today + chance(3); break;
    case 2: memcpy(entry, other, 16); break;
    case 3: memset(entry, 0, 24); break;
    case 4: entry[half] ^= UINT64_C(1) << chance(64); break;
    default: alter_word(entry + chance(3)); break;
    }
}

/* Two batches of one order change places in it. */
static void alter_order(plain_engine *e) {
    plain_batch *a = any_batch(e), *b = any_batch(e);
    uint64_t rank = a->rank;
    if (a->phase != b->phase) return;
    a->rank = b->rank;
    b->rank = rank;
}

/* Ticket 2: one bank's total is a cent more or less, or another word; two banks' are exchanged; a debit's bank or cents change. */
static void alter_waiting(plain_engine *e, plain_bank *bank) {
    plain_bank *other = e->banks + chance(PLAIN_BANKS);
    uint64_t waiting = bank->waiting;
    plain_batch *b = any_batch(e);
    plain_payment *p = b->payment + (b->payments && b->payments <= 100 ? chance(b->payments) : 0);
    switch (chance(5)) {
    case 0: bank->waiting += 1; break;
    case 1: bank->waiting -= 1; break;
    case 2:
        bank->waiting = other->waiting;
        other->waiting = waiting;
        break;
    case 3:
        /* As the batch is moved to another bank, the totals may follow it, or not. */
        if (p->bank < PLAIN_BANKS && once(2)) {
            e->banks[p->bank].waiting -= p->cents;
            bank->waiting += p->cents;
        }
        p->bank = (uint64_t)(bank - e->banks);
        break;
    default: alter_word(&bank->waiting); break;
    }
}

/* A balance that makes the total of all the greatest there may be, or a cent more. */
static void alter_total(plain_engine *e, plain_bank *bank) {
    uint64_t others = 0;
    for (int i = 0; i < PLAIN_BANKS; i++) others += e->banks + i == bank ? 0 : e->banks[i].balance;
    bank->balance = PLAIN_MOST_MONEY - others + chance(2);
}

void alter(plain_engine *e) {
    uint64_t banks = plain_desk_of(e)->banks;
    plain_bank *bank = e->banks + chance(once(3) || banks >= PLAIN_BANKS ? PLAIN_BANKS : banks + 1);
    switch (chance(11)) {
    case 0: alter_word(e->desk + chance(6)); break;
    case 1: alter_word(e->desk + chance(22)); break;
    case 2:
        if (once(4)) alter_total(e, bank);
        else alter_word(once(2) ? &bank->balance : &bank->sublimit);
        break;
    case 3: alter_word(once(2) ? &bank->code : &bank->flags); break;
    case 4: alter_entries(e->references, PLAIN_REFERENCES, plain_desk_of(e)->date); break;
    case 5: alter_entries(e->bins, PLAIN_BINS, plain_desk_of(e)->date); break;
    case 6: alter_order(e); break;
    case 7: alter_waiting(e, bank); break;
    default: alter_batch(e, any_batch(e)); break;
    }
}
