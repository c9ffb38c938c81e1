/* Calls by chance, that make up days: batches that complete, wait, are recalled and rejected, and whatever else may be asked. */
#ifndef ASKS_H
#define ASKS_H

#include "ask.h"

/* A number below n, from the seed on. */
void seed_chance(uint64_t seed);
uint64_t chance(uint64_t n);

/* The next call on these tables; and what became of it. */
void next_ask(const plain_engine *e, struct ask *a);
void was_asked(const struct ask *a, plain_told told, const uint8_t *out);

/* The calls of two days that fill a call's output: 528 tries, and 321 texts. Whether there was such a step. */
int story_ask(struct ask *a, int step);

/* Tables with full memories that keep the rules, as no call but many would leave them. */
void fill_memories(plain_engine *e);

/* One thing in the tables is made another: most often they then break the table rules, at times not. */
void alter(plain_engine *e);

#endif
