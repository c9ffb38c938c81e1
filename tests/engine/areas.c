#define _DEFAULT_SOURCE
#include "areas.h"

#include <stdio.h>
#include <stdlib.h>
#include <string.h>
#include <sys/mman.h>
#include <ucontext.h>
#include <unistd.h>

/* A multiple of the page of any machine, so that both processes mean the same pages. */
enum { PAGES = 65536 };

static size_t in_pages(size_t bytes) { return (bytes + PAGES - 1) / PAGES * PAGES; }

static void stop(const char *what) {
    perror(what);
    exit(2);
}

/* The end of so many bytes, with a margin before them, between pages that nobody may touch; from `at` on in a file, or (-1) in none. */
static uint8_t *region(size_t bytes, int file, size_t *at) {
    size_t whole = in_pages(bytes + MARGIN);
    uint8_t *p = mmap(0, whole + 2 * PAGES, PROT_READ | PROT_WRITE, file < 0 ? MAP_PRIVATE | MAP_ANONYMOUS : MAP_SHARED, file, (off_t)*at);
    if (p == MAP_FAILED || mprotect(p, PAGES, PROT_NONE) || mprotect(p + PAGES + whole, PAGES, PROT_NONE)) stop("mmap");
    *at += whole + 2 * PAGES;
    return p + PAGES + whole;
}

static struct areas areas_from(int file, size_t *at) {
    struct areas a;
    a.e = (plain_engine *)(void *)region(sizeof *a.e, file, at) - 1;
    a.out_end = region(MOST_ROOM, file, at);
    a.tries_end = (uint64_t *)(void *)region(8 * MOST_ROWS, file, at);
    a.text_end = region(LONGEST, file, at);
    return a;
}

struct areas make_areas(void) {
    size_t at = 0;
    return areas_from(-1, &at);
}

struct exchange *map_exchange(int file, int fresh, struct areas *areas) {
    size_t at = in_pages(sizeof(struct exchange));
    void *p = mmap(0, at, PROT_READ | PROT_WRITE, MAP_SHARED, file, 0);
    if (p == MAP_FAILED) stop("mmap");
    *areas = areas_from(file, &at);
    if (fresh && ftruncate(file, (off_t)at)) stop("ftruncate");
    return p;
}

size_t on_small_stack(size_t bytes, void (*run)(void)) {
    enum { UNTOUCHED = 0xA5 };
    ucontext_t here, there;
    size_t at = 0, whole = in_pages(bytes), left = 0;
    uint8_t *lowest = region(whole - MARGIN, -1, &at) - whole;
    memset(lowest, UNTOUCHED, bytes);
    if (getcontext(&there)) stop("getcontext");
    there.uc_stack.ss_sp = lowest;
    there.uc_stack.ss_size = bytes;
    there.uc_link = &here;
    makecontext(&there, run, 0);
    if (swapcontext(&here, &there)) stop("swapcontext");
    while (left < bytes && lowest[left] == UNTOUCHED) left++;
    return bytes - left;
}
