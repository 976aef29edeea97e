/*
 * Sets, views and cuts: the small values that everything else is made of.
 *
 * A set is a byte, bit n for member n. A cut is eight counts, one for each
 * sender. Assumes nothing: each test takes any values and has an answer.
 */
#ifndef MODEL_VIEWS_H
#define MODEL_VIEWS_H

#include <stdbool.h>
#include <stdint.h>
#include <string.h>

enum {
    MEMBERS = 8,  /* at most so many in a group: numbers 0 to 7 */
    WORDS = 128   /* at most so many of one sender in one view */
};

/* Start numbers first: the four-byte parts then stand without holes. */
struct model_view {
    uint32_t starts[MEMBERS];
    uint32_t id;
    uint8_t set;
};

static inline bool has_member(uint8_t set, unsigned n)
{
    return n < MEMBERS && (set >> n & 1u) != 0;
}

static inline uint8_t only_member(unsigned n)
{
    return (uint8_t)(1u << n);
}

static inline uint8_t without_member(uint8_t set, unsigned n)
{
    return (uint8_t)(set & ~(1u << n));
}

static inline bool within(uint8_t part, uint8_t whole)
{
    return (part & ~(unsigned)whole) == 0;
}

/* Bit n at place n: a loop over these, unlike one over shifts, is done eight at once. */
static const uint32_t member_bit[MEMBERS] = { 1, 2, 4, 8, 16, 32, 64, 128 };

/* Whether exactly these members have a start number other than 0. */
static inline bool numbered_exactly(const struct model_view *v, uint8_t set)
{
    uint32_t wrong = 0;
    for (unsigned n = 0; n < MEMBERS; n++)
        wrong |= (v->starts[n] != 0) != ((set & member_bit[n]) != 0);
    return wrong == 0;
}

static inline bool view_well_formed(const struct model_view *v)
{
    const bool one_member = v->set != 0 && (v->set & (v->set - 1)) == 0;
    if (v->id == 0)
        return one_member && numbered_exactly(v, 0);
    return v->set != 0 && numbered_exactly(v, v->set);
}

/* All three parts count: two partitions may use one id. */
static inline bool same_view(const struct model_view *a, const struct model_view *b)
{
    if (a->id != b->id || a->set != b->set)
        return false;
    uint32_t differ = 0;
    for (unsigned n = 0; n < MEMBERS; n++)
        differ |= a->starts[n] ^ b->starts[n];
    return differ == 0;
}

static inline struct model_view initial_view(unsigned p)
{
    return (struct model_view){ .set = only_member(p) };
}

/* Eight counts in one number, so that one operation looks at all of them. */
static inline uint64_t eight_counts(const uint8_t counts[MEMBERS])
{
    uint64_t eight;
    memcpy(&eight, counts, sizeof eight);
    return eight;
}

/* The top bit of each byte that is not 0: adding 127 carries into it. */
static inline uint64_t bytes_not_zero(uint64_t eight)
{
    const uint64_t low = UINT64_C(0x7f7f7f7f7f7f7f7f);
    return (((eight & low) + low) | eight) & ~low;
}

/* The top bit of each byte above 128: it has the top bit and another. */
static inline uint64_t bytes_above_words(uint64_t eight)
{
    const uint64_t low = UINT64_C(0x7f7f7f7f7f7f7f7f);
    return ((eight & low) + low) & eight & ~low;
}

/* A cut goes with a view's set: who is not in it has sent nothing there. */
static inline bool cut_well_formed(const uint8_t cut[MEMBERS], uint8_t set)
{
    static const uint8_t bits[MEMBERS] = { 1, 2, 4, 8, 16, 32, 64, 128 };
    const uint64_t counts = eight_counts(cut);
    const uint64_t members = set * UINT64_C(0x0101010101010101) & eight_counts(bits);
    return (bytes_above_words(counts) | (bytes_not_zero(counts) & ~bytes_not_zero(members))) == 0;
}

#endif
