/*
 * A gateway's first step, over the library: reads a text or a book from a file, and prints what is to be
 * passed on, or the number with which the sender is to be answered.
 *
 *     gateway request|response|book FILE
 *
 * The exit status is 0, or 1 where the file is refused or cannot be read, or 2 for a wrong call.
 */
#include <inttypes.h>
#include <stdio.h>
#include <string.h>

#include "purmagheli.h"

/* Longer than any text or book that is accepted, so that a longer file is refused as it should be. */
static uint8_t bytes[65536];

/* The part of the text where a field stands. */
static void print_field(const char *name, const uint64_t *row, size_t field) {
    printf("%s %.*s\n", name, (int)row[field + PURMAGHELI_FIELD_LENGTH], (const char *)bytes + row[field + PURMAGHELI_FIELD_START]);
}

static void print_request(const uint64_t *row) {
    print_field("reference", row, PURMAGHELI_REQUEST_REFERENCE);
    print_field("bin", row, PURMAGHELI_REQUEST_BIN);
    if (row[PURMAGHELI_REQUEST_SUB_TYPE + PURMAGHELI_FIELD_VALUE] != 131) return;
    uint64_t count = row[PURMAGHELI_REQUEST_COUNT + PURMAGHELI_FIELD_VALUE];
    for (uint64_t k = 0; k < count; k++) {
        const uint64_t *payment = row + PURMAGHELI_REQUEST_PAYMENTS + k * PURMAGHELI_PAYMENT_WORDS;
        printf("%s %" PRIu64 " cents, ", payment[PURMAGHELI_PAYMENT_SIDE + PURMAGHELI_FIELD_VALUE] ? "debit" : "credit",
               payment[PURMAGHELI_PAYMENT_AMOUNT + PURMAGHELI_FIELD_VALUE]);
        print_field("bank", payment, PURMAGHELI_PAYMENT_BANK);
    }
}

static void print_response(const uint64_t *row) {
    print_field("number", row, PURMAGHELI_RESPONSE_NUMBER);
    print_field("reference", row, PURMAGHELI_RESPONSE_REFERENCE);
    if (row[PURMAGHELI_RESPONSE_STATUS + PURMAGHELI_FIELD_VALUE] == 0) printf("done\n");
    else printf("rejected %02" PRIu64 "\n", row[PURMAGHELI_RESPONSE_DETAIL + PURMAGHELI_FIELD_VALUE]);
}

static int usage(void) {
    fprintf(stderr, "usage: gateway request|response|book FILE\n");
    return 2;
}

/* How many bytes of a file stand in `bytes` now; -1 if it cannot be read, which has been told. */
static long read_file(const char *name) {
    FILE *file = fopen(name, "rb");
    if (!file) {
        perror(name);
        return -1;
    }
    size_t length = fread(bytes, 1, sizeof bytes, file);
    int failed = ferror(file); /* a directory can be opened, but not read */
    if (failed) perror(name);
    fclose(file);
    return failed ? -1 : (long)length;
}

/* A tag as it stands in a text. */
static const char *tag_text(uint64_t tag) {
    static const char *const texts[] = {"the end", ":20:", ":12:", ":77E:", ":22A:", ":119:", ":16A:", ":171:", ":175:", ":127:", ":32B:", ":113:", ":102:", ":203:", ":21:", ":451:", ":13E:", ":432:"};
    return tag <= PURMAGHELI_TAG_432 ? texts[tag] : "?";
}

/* Where and why a text is refused. */
static int refused_at(uint64_t number, const uint64_t *row) {
    printf("refused %02" PRIu64 " at byte %" PRIu64 ", line %" PRIu64 ": %s", number, row[PURMAGHELI_EXPLAIN_AT], row[PURMAGHELI_EXPLAIN_LINE], tag_text(row[PURMAGHELI_EXPLAIN_FIRST]));
    if (row[PURMAGHELI_EXPLAIN_SECOND] != PURMAGHELI_TAG_NONE) printf(" or %s", tag_text(row[PURMAGHELI_EXPLAIN_SECOND]));
    printf("%s\n", row[PURMAGHELI_EXPLAIN_MISSING] ? " expected" : " is wrong");
    return 1;
}

static int show_request(size_t length) {
    uint64_t row[PURMAGHELI_REQUEST_WORDS];
    if (purmagheli_read_request(bytes, length, row, PURMAGHELI_REQUEST_WORDS)) return refused_at(purmagheli_explain_request(bytes, length, row, PURMAGHELI_REQUEST_WORDS), row);
    print_request(row);
    return 0;
}

static int show_response(size_t length) {
    uint64_t row[PURMAGHELI_RESPONSE_WORDS];
    if (purmagheli_read_response(bytes, length, row, PURMAGHELI_RESPONSE_WORDS)) return refused_at(purmagheli_explain_response(bytes, length, row, PURMAGHELI_RESPONSE_WORDS), row);
    print_response(row);
    return 0;
}

/* A book that is refused leaves in the row where it breaks. */
static int show_book(size_t length) {
    uint64_t row[PURMAGHELI_FAULT_WORDS];
    uint64_t number = purmagheli_find_book_fault(bytes, length, row, PURMAGHELI_FAULT_WORDS);
    if (number) {
        printf("refused %02" PRIu64 " at block %" PRIu64 ", entry %" PRIu64 ", fault %" PRIu64 "\n", number,
               row[PURMAGHELI_FAULT_BLOCK], row[PURMAGHELI_FAULT_ENTRY], row[PURMAGHELI_FAULT_TEST]);
        return 1;
    }
    printf("sound\n");
    return 0;
}

int main(int argc, char **argv) {
    if (argc != 3) return usage();
    int (*show)(size_t) = strcmp(argv[1], "request") == 0    ? show_request
                          : strcmp(argv[1], "response") == 0 ? show_response
                          : strcmp(argv[1], "book") == 0     ? show_book
                                                             : 0;
    if (!show) return usage();
    long length = read_file(argv[2]);
    if (length < 0) return 1;
    int status = show((size_t)length);
    if (fflush(stdout) != 0 || ferror(stdout)) {
        perror("standard output");
        return 1;
    }
    return status;
}
