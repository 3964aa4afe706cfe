/* Buffers that show every access outside of them: pages without access on both sides, and a pattern in what is left of their own pages. */
#ifndef GUARDED_H
#define GUARDED_H

#include <stddef.h>
#include <stdint.h>

struct guarded {
    uint8_t *pages;
    size_t room;
    /* The buffer lent: its first byte and its length. */
    uint8_t *at;
    size_t length;
    uint8_t pattern;
};

/* Room for buffers of so many bytes. */
void guarded_make(struct guarded *g, size_t bytes);

/* Lends so many bytes, against the pages' end or their start, all of the pattern. */
void guarded_lend(struct guarded *g, size_t bytes, int at_end, uint8_t pattern);

/* Whether all but the buffer's bytes from `from` to `to` still holds the pattern. */
int guarded_kept(const struct guarded *g, size_t from, size_t to);

#endif
