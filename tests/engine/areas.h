/* What is lent to an engine, between pages that nobody may touch; and a small stack. An engine may be in another process: what is lent to it then
   stands in a file that both have mapped. */
#ifndef AREAS_H
#define AREAS_H

#include "ask.h"

/* Bytes before each thing lent that must stay. */
enum { MARGIN = 64 };

/* Each thing ends where the pages begin that nobody may touch, so that a shorter buffer, row or text begins later. */
struct areas {
    plain_engine *e;
    uint8_t *out_end, *text_end;
    uint64_t *tries_end;
};

/* What an engine in another process is asked, and what it tells. */
struct exchange {
    struct ask ask;
    plain_told told;
};

/* In memory of this process alone. */
struct areas make_areas(void);

/* In a file, behind the exchange; `fresh` makes the file as long as it must be. */
struct exchange *map_exchange(int file, int fresh, struct areas *areas);

/* Runs on a stack of so many bytes, below which nobody may touch anything: how many of them were touched. */
size_t on_small_stack(size_t bytes, void (*run)(void));

#endif
