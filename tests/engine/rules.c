/* The table rules of document 01 over the words as they are lent (docs/FORMAT.md; R1 to R15 of docs/DECISIONS.md). */
#include <string.h>

#include "plain.h"

/* A digit is 1, a letter of A-Z 2. */
static const uint8_t kind[256] = {
    ['0'] = 1, ['1'] = 1, ['2'] = 1, ['3'] = 1, ['4'] = 1, ['5'] = 1, ['6'] = 1, ['7'] = 1, ['8'] = 1, ['9'] = 1, ['A'] = 130, [' '] = 128, ['B'] = 2,
    ['C'] = 2, ['D'] = 130, ['E'] = 2, ['F'] = 2, ['G'] = 2, ['H'] = 2, ['I'] = 2, ['J'] = 2, ['K'] = 2, ['L'] = 2, ['M'] = 2, ['N'] = 2,
    ['O'] = 2, ['P'] = 130, ['Q'] = 2, ['R'] = 2, ['S'] = 2, ['T'] = 2, ['U'] = 2, ['V'] = 2, ['W'] = 2, ['X'] = 2, ['Y'] = 2, ['Z'] = 2,
};

static int all_zero(const void *p, size_t bytes) {
    static const uint8_t zeros[4096];
    const uint8_t *b = p;
    for (; bytes > sizeof zeros; b += sizeof zeros, bytes -= sizeof zeros)
        if (memcmp(b, zeros, sizeof zeros)) return 0;
    return memcmp(b, zeros, bytes) == 0;
}

/* ---- codes */

static int is_four(uint64_t code) { return code >> 32 == 0 && (kind[code >> 24]&3) && (kind[code >> 16 & 255]&3) && (kind[code >> 8 & 255]&3) && (kind[code & 255]&3); }


#define B(x) (UINT64_C(0x0101010101010101) * (x))
/* all eight bytes of A-Z 0-9 */
static inline int eight(uint64_t v) {
    uint64_t d = (v + B(0x50)) & ~(v + B(0x46)), u = (v + B(0x3f)) & ~(v + B(0x25));
    return (((d | u) & ~v) & B(0x80)) == B(0x80);
}
/* zeros at the end filled up with '0' */
static inline uint64_t filled(uint64_t v) { int z = __builtin_ctzll(v) & 56; return v | (B(0x30) & ((UINT64_C(1) << z) - 1)); }

static inline int is_reference(const uint64_t code[2]) {
    uint64_t first = code[0] >> 32;
    if (code[1] ? !(eight(code[0]) & eight(filled(code[1]))) : !code[0] || !eight(filled(code[0]))) return 0;
    return first != 0x52495453 && first != 0x41434C52 && first != 0x41535843;
}

static inline int is_bin(const uint64_t code[2]) {
    uint64_t v = code[0], low = v | 0x3030303000000000u; (void)low;
    uint64_t d = (v + B(0x50)) & ~(v + B(0x46)), u = (v + B(0x3f)) & ~(v + B(0x25));
    return code[1] == 0 && (((d | (u & 0xffffffff00000000u)) & ~v) & B(0x80)) == B(0x80);
}

/* ---- the house */

static int streams_right(const plain_desk *d) {
    if (d->streams < 1 || d->streams > PLAIN_STREAMS) return 0;
    for (uint64_t i = 0; i < d->streams; i++) {
        if (!is_four(d->stream[i].code) || d->stream[i].administrator < 1 || d->stream[i].administrator > 255) return 0;
        if (i && d->stream[i - 1].code >= d->stream[i].code) return 0;
    }
    return all_zero(d->stream + d->streams, (PLAIN_STREAMS - d->streams) * sizeof *d->stream);
}

static int banks_right(const plain_engine *e, const plain_desk *d) {
    uint64_t left = PLAIN_MOST_MONEY;
    if (d->banks < 1 || d->banks > PLAIN_BANKS) return 0;
    for (uint64_t i = 0; i < d->banks; i++) {
        const plain_bank *b = e->banks + i;
        if (!is_four(b->code) || (i && b[-1].code >= b->code)) return 0;
        if (b->flags >> (d->streams + 1) || b->sublimit > PLAIN_MOST_MONEY || b->balance > left) return 0;
        left -= b->balance;
    }
    return all_zero(e->banks + d->banks, (PLAIN_BANKS - d->banks) * sizeof *e->banks);
}

/* ---- batches */

static inline int is_status(uint64_t c) { return kind[c] >> 7; }

static int are_letters(uint64_t v) {
    uint64_t fourth = v & 255;
    return v >> 32 == 0 && is_status(v >> 24) && is_status(v >> 16 & 255) && is_status(v >> 8 & 255) && (fourth == ' ' || (kind[fourth] & 2));
}

static int messages_right(const plain_batch *b) {
    uint64_t numbers = 0, payments = 0;
    for (uint64_t i = 0; i < b->messages; i++) {
        const plain_part *m = b->message + i;
        if (!is_reference(m->reference) || m->number < 1 || m->number > b->count || m->size < 1 || m->size > 10) return 0;
        if (numbers >> m->number & 1) return 0;
        numbers |= UINT64_C(1) << m->number;
        payments += m->size;
    }
    return payments == b->payments && all_zero(b->message + b->messages, (10 - b->messages) * sizeof *b->message);
}

/* The sums of a batch's payments, and the banks that pay. */
struct sums {
    uint64_t credits, debits, payers;
};

static int payments_right(const plain_batch *b, uint64_t banks, struct sums *s) {
    uint64_t taken = 0;
    for (uint64_t i = 0; i < b->payments; i++) {
        const plain_payment *p = b->payment + i;
        if (p->bank >= banks || p->cents > PLAIN_MOST_CENTS || (p->letters && !are_letters(p->letters))) return 0;
        uint64_t bank = UINT64_C(1) << p->bank;
        if (taken & bank) return 0;
        taken |= bank;
        if (p->letters) {
            s->debits += p->cents;
            s->payers |= bank;
        } else {
            s->credits += p->cents;
        }
    }
    return all_zero(b->payment + b->payments, (100 - b->payments) * sizeof *b->payment);
}

static int batch_right(const plain_batch *b, uint64_t banks) {
    struct sums s = {0, 0, 0};
    if (b->phase == PLAIN_FREE) return all_zero(b, sizeof *b);
    if (b->phase > PLAIN_QUEUED || !is_bin(b->bin) || b->count < 1 || b->count > 10 || b->activation > 1440) return 0;
    if (b->messages < 1 || b->messages > b->count || !messages_right(b) || !payments_right(b, banks, &s)) return 0;
    if (b->phase == PLAIN_ASSEMBLING) return b->messages < b->count && b->rank == 0 && b->memory == 0;
    if (b->messages != b->count || s.credits != s.debits) return 0;
    if (b->phase == PLAIN_PENDING) return b->activation && b->memory == 0;
    return b->memory == 0 || (b->memory <= PLAIN_BANKS && s.payers >> (b->memory - 1) & 1);
}

/* The ranks of a phase: as many as its batches, each once. */
static int order_right(const plain_engine *e, uint64_t phase) {
    uint64_t seen = 0, n = 0;
    for (int p = 0; p < PLAIN_BATCHES; p++) {
        const plain_batch *b = plain_batch_at(e, p);
        if (b->phase != phase) continue;
        if (b->rank >= PLAIN_BATCHES) return 0;
        seen |= UINT64_C(1) << b->rank;
        n++;
    }
    return seen == (UINT64_C(1) << n) - 1;
}

static int batches_right(const plain_engine *e, const plain_desk *d) {
    for (int p = 0; p < PLAIN_BATCHES; p++)
        if (!batch_right(plain_batch_at(e, p), d->banks)) return 0;
    return order_right(e, PLAIN_PENDING) && order_right(e, PLAIN_QUEUED);
}

/* Ticket 2: of each bank "the total of its debits in pending and queued batches", in batches that keep their rules. */
static int totals_right(const plain_engine *e) {
    uint64_t left[PLAIN_BANKS];
    for (int i = 0; i < PLAIN_BANKS; i++) left[i] = e->banks[i].waiting;
    for (int p = 0; p < PLAIN_BATCHES; p++) {
        const plain_batch *b = plain_batch_at(e, p);
        if (b->phase != PLAIN_PENDING && b->phase != PLAIN_QUEUED) continue;
        for (uint64_t i = 0; i < b->payments; i++)
            if (b->payment[i].letters) left[b->payment[i].bank] -= b->payment[i].cents;
    }
    return all_zero(left, sizeof left);
}

/* ---- references and BINs */

static size_t slot_of(const uint64_t code[2]) {
    return (code[0] * UINT64_C(0x9E3779B97F4A7C15) ^ code[1] * UINT64_C(0xC2B2AE3D27D4EB4F)) >> 52;
}

static int same(const uint64_t a[2], const uint64_t b[2]) { return a[0] == b[0] && a[1] == b[1]; }

int plain_find(const plain_index *x, const uint64_t code[2]) {
    for (size_t s = slot_of(code); x->slots[s]; s = (s + 1) % 4096)
        if (same(x->entries[x->slots[s] - 1], code)) return x->slots[s] - 1;
    return -1;
}

static inline __attribute__((always_inline)) int entries_right(const uint64_t (*entries)[3], int n, uint64_t today, int references, plain_index *x,
                                                               uint64_t *noted) {
    memset(x->slots, 0, sizeof x->slots);
    x->entries = entries;
    x->free = -1;
    uint64_t count = 0;
    for (int i = n - 1; i >= 0; i--) {
        const uint64_t *entry = entries[i];
        if (!(entry[0] | entry[1] | entry[2])) { x->free = i; continue; }
        if (entry[2] > today || !(references ? is_reference(entry) : is_bin(entry))) return 0;
        count += entry[2] == today;
        if (today - entry[2] > 14) { x->free = i; continue; }
        size_t s = slot_of(entry);
        for (; x->slots[s]; s = (s + 1) % 4096)
            if (same(entries[x->slots[s] - 1], entry)) return 0;
        x->slots[s] = (uint16_t)(i + 1);
    }
    *noted = count;
    return 1;
}

/* "live BINs differ and are remembered": two live ones alike would be found at one place. */
static int live_bins_right(const plain_engine *e, const plain_index *bins) {
    uint8_t found[PLAIN_BINS] = {0};
    for (int p = 0; p < PLAIN_BATCHES; p++) {
        const plain_batch *b = plain_batch_at(e, p);
        if (b->phase == PLAIN_FREE) continue;
        int place = plain_find(bins, b->bin);
        if (place < 0 || found[place]++) return 0;
    }
    return 1;
}

static int texts_right(const plain_engine *e, const plain_desk *d, uint64_t noted) {
    uint64_t messages = 0;
    for (int p = 0; p < PLAIN_BATCHES; p++) messages += plain_batch_at(e, p)->messages;
    return d->texts <= noted && messages <= noted - d->texts;
}

int plain_right(const plain_engine *e, plain_index *references, plain_index *bins) {
    const plain_desk *d = plain_desk_of(e);
    uint64_t noted, unused;
    if (d->phase == PLAIN_FRESH) return all_zero(e, sizeof *e);
    if (d->phase > PLAIN_CLOSED || d->date > 36524 || d->clock > 86399) return 0;
    if (!streams_right(d) || !banks_right(e, d)) return 0;
    if (d->phase == PLAIN_OPEN ? !batches_right(e, d) : !all_zero(e->batches, sizeof e->batches)) return 0;
    if (!totals_right(e)) return 0;
    if (!entries_right(e->references, PLAIN_REFERENCES, d->date, 1, references, &noted)) return 0;
    if (!entries_right(e->bins, PLAIN_BINS, d->date, 0, bins, &unused)) return 0;
    return live_bins_right(e, bins) && texts_right(e, d, noted);
}
