/*
 * Marks of held words: which of one sender's 128 words are held in one slot.
 *
 * Word i (from 1) is bit i - 1, the first 64 in `low`. Assumes that an index
 * given to `held` or `mark` is 1 to 128.
 */
#ifndef MODEL_MARKS_H
#define MODEL_MARKS_H

#include <stdbool.h>
#include <stdint.h>

struct model_marks {
    uint64_t low;
    uint64_t high;
};

static inline bool held(const struct model_marks *m, unsigned i)
{
    return ((i <= 64 ? m->low >> (i - 1) : m->high >> (i - 65)) & 1u) != 0;
}

static inline void mark(struct model_marks *m, unsigned i)
{
    if (i <= 64)
        m->low |= UINT64_C(1) << (i - 1);
    else
        m->high |= UINT64_C(1) << (i - 65);
}

/* The longest k with words 1 to k all held: the ones below the lowest zero. */
static inline unsigned run(const struct model_marks *m)
{
    if (m->low != UINT64_MAX)
        return (unsigned)__builtin_ctzll(~m->low);
    if (m->high != UINT64_MAX)
        return 64u + (unsigned)__builtin_ctzll(~m->high);
    return 128;
}

/* No word is held beyond the run: adding 1 carries through every bit set. */
static inline bool no_gap(const struct model_marks *m)
{
    const bool high_after_low = m->high == 0 || m->low == UINT64_MAX;
    return high_after_low && (m->low & (m->low + 1)) == 0 && (m->high & (m->high + 1)) == 0;
}

#endif
