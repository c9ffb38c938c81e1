/* What document 01 promises of calls from a fresh start, judged from outside: by the tables before and after, the texts and the tries. */
#ifndef JUDGE_H
#define JUDGE_H

#include "ask.h"

/* A list of tries, and what the omission rule looks back on: moments of tries, of credits and changes. */
struct history {
    uint64_t now, tried[PLAIN_BATCHES], bank[PLAIN_BATCHES], bank_woken[PLAIN_BANKS], batch_woken[PLAIN_BATCHES];
};

/* How many texts carried each number; 0 for those of settled batches and done recalls. */
extern unsigned long text_numbers[100];

/* Each answers a null pointer, or what is wrong. `h` is that of the list of this engine's tries. */
const char *judge_tries(
    const plain_engine *before, const plain_engine *after, const struct ask *a, plain_told told, int quick, const uint64_t *tries, struct history *h);
const char *judge_texts(const plain_engine *before, const plain_engine *after, const struct ask *a, plain_told told, const uint8_t *out);

#endif
