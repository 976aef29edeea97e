/*
 * Areas to lend. Each is two: one for the library and its twin, with the same
 * content, for the reference.
 *
 * The reference is built with the sanitizers, so the twin is a heap block of
 * the exact size. The library is not, so its area stands on a page between two
 * that may not be touched: at its first byte, at its last, or between guard
 * bytes.
 */
#ifndef AREAS_H
#define AREAS_H

#include "check.h"

/* An area lent to the library, and its twin lent to the reference. */
struct lent {
    size_t unit;                  /* bytes of each of its places             */
    void *blocks[MOST_BYTES + 1]; /* the twins, one for each count of places */
    uint8_t *page;                /* the page that the area stands on        */
    uint8_t *at;                  /* where on it                             */
    void *twin;
    size_t size;                  /* in bytes                                */
    size_t before, after;         /* how many guard bytes are on each side   */
    const uint8_t *filling;       /* what guards and area were filled with   */
};

/* To be called once for each, with its unit set and the most places that it may have. */
void prepare(struct lent *l, size_t most);

/* Places the area anew, and fills it with the content, or with noise if there is none. */
void lend(struct lent *l, const void *content, size_t count);

/* Whether the guard bytes are as they were. */
bool guards_whole(const struct lent *l);

/* Whether the area and its twin are the same. */
bool same(const struct lent *l);

/* Whether the noise still stands from this byte of the area on. */
bool untouched(const struct lent *l, size_t from);

#endif
