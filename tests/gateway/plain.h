/*
 * Readers of requests, responses and books in plain C, written from document 01 and from nothing of
 * the library: the tests compare the two, and the benchmark runs them side by side.
 */
#ifndef PLAIN_H
#define PLAIN_H

#include <stddef.h>
#include <stdint.h>

/* As the functions of purmagheli.h, over rows that are long enough. */
uint64_t plain_read_request(const uint8_t *text, size_t length, uint64_t *row);
uint64_t plain_read_response(const uint8_t *text, size_t length, uint64_t *row);
uint64_t plain_explain_request(const uint8_t *text, size_t length, uint64_t *row);
uint64_t plain_explain_response(const uint8_t *text, size_t length, uint64_t *row);
uint64_t plain_check_book(const uint8_t *book, size_t length);
uint64_t plain_find_book_fault(const uint8_t *book, size_t length, uint64_t *row);

/* The sum of a block's first 127 words. */
uint32_t plain_block_sum(const uint8_t *block);

#endif
