/*
 * A house's first calls from C: its day is opened with a book, a message comes, and what the engine writes is printed.
 *
 *     ./purmagheli library
 *     gcc -std=c99 -O2 -Iinclude examples/engine.c target/staticlib/libpurmagheli.a -o /tmp/engine
 *     /tmp/engine
 */
#include <stdio.h>
#include <stdlib.h>

#include "purmagheli.h"

static purmagheli_engine house;
static uint8_t out[PURMAGHELI_ROOM], book[4096], text[4096];
static uint64_t tries[PURMAGHELI_TRIES];

static size_t load(const char *name, uint8_t *bytes) {
    FILE *file = fopen(name, "rb");
    size_t n;
    if (!file) {
        perror(name);
        exit(1);
    }
    n = fread(bytes, 1, 4096, file);
    fclose(file);
    return n;
}

int main(void) {
    size_t book_length = load("examples/day/270203.book", book), text_length = load("examples/day/texts/RURL0001", text);
    purmagheli_lent lent = {out, PURMAGHELI_ROOM, tries, PURMAGHELI_TRIES};
    purmagheli_told told = purmagheli_clear(&house);
    told = purmagheli_open(&house, 1, 32400, lent, book, book_length);
    printf("open %02d\n", (int)told.answer);
    told = purmagheli_message(&house, 1, 33600, lent, 9, text, text_length);
    printf("message %02d\n", (int)told.answer);
    fwrite(out, 1, told.written, stdout);
    return 0;
}
