/*
 * The library's engine for check.c, as a program of its own: for each byte at 0 the call that the exchange in the file at 3 asks for, on what is lent
 * there, by the functions of include/purmagheli.h; then a byte at 1. Each call is made on the stack that docs/OPERATING.md says is enough. With a
 * word behind its name it says at the end how much of that stack was touched.
 */
#include <stdio.h>
#include <unistd.h>

#include "areas.h"
#include "purmagheli.h"

_Static_assert(sizeof(purmagheli_engine) == sizeof(plain_engine) && sizeof(purmagheli_engine) == 8 * 19190, "the engine is 19,190 words");

static struct exchange *exchange;
static struct areas areas;

static purmagheli_told make_call(const struct ask *a) {
    purmagheli_engine *e = (purmagheli_engine *)(void *)areas.e;
    purmagheli_lent lent = {areas.out_end - a->room, a->room, areas.tries_end - a->rows, a->rows};
    const uint8_t *text = areas.text_end - a->length;
    switch (a->action) {
    case CLEAR: return purmagheli_clear(e);
    case OPEN: return purmagheli_open(e, a->quick, a->clock, lent, text, a->length);
    case MESSAGE: return purmagheli_message(e, a->quick, a->clock, lent, a->sender, text, a->length);
    case SUBLIMIT: return purmagheli_sublimit(e, a->quick, a->clock, lent, a->bank, a->cents);
    case STATUS: return purmagheli_status(e, a->quick, a->clock, lent, a->bank, a->bin[0], a->bin[1], a->letter);
    case TICK: return purmagheli_tick(e, a->quick, a->clock, lent);
    case CLOSE: return purmagheli_close(e, a->quick, a->clock, lent);
    default: return purmagheli_closing_book(e, a->quick, a->clock, lent, a->date);
    }
}

static void serve(void) {
    char byte;
    while (read(0, &byte, 1) == 1) {
        purmagheli_told told = make_call(&exchange->ask);
        exchange->told = (plain_told){told.answer, told.written, told.tried};
        if (write(1, &byte, 1) != 1) return;
    }
}

enum { CALL_STACK = 16384 };

int main(int argc, char **argv) {
    (void)argv;
    exchange = map_exchange(3, 0, &areas);
    size_t touched = on_small_stack(CALL_STACK, serve);
    if (argc > 1) fprintf(stderr, "stack: %zu of %d bytes touched\n", touched, CALL_STACK);
    return 0;
}
