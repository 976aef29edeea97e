/*
 * Areas of words to lend. Each is three: one for the library, its twin for the
 * model, and one that is lent to nobody and has what both should have.
 *
 * The model is built with the sanitizers, so the twin is a heap block of the
 * exact size. The library is not, so its area ends where a page that may not be
 * touched begins; before its first word stand guard bytes down to another one.
 */
#ifndef WORDS_H
#define WORDS_H

#include <stdbool.h>
#include <stddef.h>
#include <stdint.h>

struct words {
    uint64_t *lent;
    uint64_t *twin;
    uint64_t *kept;
    size_t length;
    uint8_t *guard;       /* the first of the guard bytes before lent   */
    uint64_t *end;        /* where the page that may not be touched is  */
};

/* An area of so many words, filled with noise. */
void words_make(struct words *w, size_t length);

/* Another length, at most the one it was made with, and new noise. */
void words_resize(struct words *w, size_t length);

/* As the other one is; both have the same length. */
void words_copy(struct words *to, const struct words *from);

bool words_guard_whole(const struct words *w);

/* Whether library and model have left their areas as they were. */
bool words_unchanged(const struct words *w);

/*
 * Whether library and model have the same in their areas, and at most one word
 * is another than before; it is kept from then on.
 */
bool words_one_stored(struct words *w);

#endif
