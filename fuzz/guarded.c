#define _DEFAULT_SOURCE
#include "guarded.h"

#include <stdio.h>
#include <stdlib.h>
#include <string.h>
#include <sys/mman.h>
#include <unistd.h>

void guarded_make(struct guarded *g, size_t bytes) {
    size_t page = (size_t)sysconf(_SC_PAGESIZE);
    g->room = (bytes + page - 1) / page * page;
    uint8_t *all = mmap(NULL, g->room + 2 * page, PROT_NONE, MAP_PRIVATE | MAP_ANONYMOUS, -1, 0);
    if (all == MAP_FAILED || mprotect(all + page, g->room, PROT_READ | PROT_WRITE) != 0) {
        perror("guarded pages");
        exit(1);
    }
    g->pages = all + page;
}

void guarded_lend(struct guarded *g, size_t bytes, int at_end, uint8_t pattern) {
    if (bytes > g->room) {
        fprintf(stderr, "a buffer of %zu bytes does not fit its pages\n", bytes);
        exit(1);
    }
    memset(g->pages, pattern, g->room);
    g->at = at_end ? g->pages + g->room - bytes : g->pages;
    g->length = bytes;
    g->pattern = pattern;
}

/* Whether so many bytes hold the pattern. */
static int all_pattern(const uint8_t *bytes, size_t count, uint8_t pattern) {
    return count == 0 || (bytes[0] == pattern && memcmp(bytes, bytes + 1, count - 1) == 0);
}

int guarded_kept(const struct guarded *g, size_t from, size_t to) {
    size_t front = (size_t)(g->at - g->pages) + from;
    size_t back = (size_t)(g->at - g->pages) + to;
    return all_pattern(g->pages, front, g->pattern) && all_pattern(g->pages + back, g->room - back, g->pattern);
}
