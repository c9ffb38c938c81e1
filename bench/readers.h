/* The readers and the book's check, as the library has them, in plain C. */
#ifndef READERS_H
#define READERS_H

#include <stddef.h>
#include <stdint.h>

uint64_t quick_read_request(const uint8_t *text, size_t length, uint64_t *row, size_t words);
uint64_t quick_read_response(const uint8_t *text, size_t length, uint64_t *row, size_t words);
uint64_t quick_check_book(const uint8_t *book, size_t length);

#endif
