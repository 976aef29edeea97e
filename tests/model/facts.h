/*
 * Facts about an end-point that more than one step uses, in the scope's words:
 * spent and slots, run, ready, named, T, agreed, due; and the few changes that
 * steps share. Private to the model.
 *
 * Assumes a sound end-point, except for slot_of and spent, which the test of
 * soundness uses: these assume that p is 0 to 7.
 */
#ifndef MODEL_FACTS_H
#define MODEL_FACTS_H

#include "endpoint.h"

static inline bool sound_enough(const struct model_endpoint *e)
{
#ifdef MODEL_TRUSTING
    (void)e;
    return true;
#else
    return model_sound(e);
#endif
}

/* Spent and slots. SLOTS stands for "none". */

static inline bool spent(const struct model_endpoint *e, const struct model_view *v)
{
    const uint32_t start = v->starts[e->p];
    return !same_view(v, &e->current)
        && (v->id <= e->current.id || start < e->start_number
            || (start == e->start_number && !e->pending));
}

static inline unsigned slot_of(const struct model_endpoint *e, const struct model_view *v)
{
    unsigned s = 0;
    while (s < SLOTS && !(e->slot_used[s] && same_view(&e->slot_view[s], v)))
        s++;
    return s;
}

static inline unsigned current_slot(const struct model_endpoint *e)
{
    return slot_of(e, &e->current);
}

static inline unsigned lowest_free_slot(const struct model_endpoint *e)
{
    unsigned s = 0;
    while (s < SLOTS && e->slot_used[s])
        s++;
    return s;
}

/* Marks stay: they are cleared when the slot is taken. */
static inline void free_spent_slots(struct model_endpoint *e)
{
    for (unsigned s = 0; s < SLOTS; s++)
        if (e->slot_used[s] && spent(e, &e->slot_view[s]))
            e->slot_used[s] = 0;
}

/* Assumes that a slot is free. */
static inline void take_slot(struct model_endpoint *e, const struct model_view *v)
{
    const unsigned s = lowest_free_slot(e);
    e->slot_used[s] = 1;
    e->slot_view[s] = *v;
    memset(e->marks[s], 0, sizeof e->marks[s]);
}

/* Words. */

static inline size_t place(unsigned slot, unsigned r, unsigned i)
{
    return (size_t)slot * MEMBERS * WORDS + (size_t)r * WORDS + i - 1;
}

static inline void store(struct model_endpoint *e, uint64_t *area,
                         unsigned slot, unsigned r, unsigned i, uint64_t word)
{
    area[place(slot, r, i)] = word;
    mark(&e->marks[slot][r], i);
}

static inline bool other_word_held(const struct model_endpoint *e, const uint64_t *area,
                                   unsigned slot, unsigned r, unsigned i, uint64_t word)
{
    return held(&e->marks[slot][r], i) && area[place(slot, r, i)] != word;
}

/* Sync records. */

static inline const struct model_record *record_numbered(const struct model_endpoint *e,
                                                         unsigned r, uint32_t number)
{
    for (unsigned k = 0; k < e->record_count[r]; k++)
        if (e->records[r][k].number == number)
            return &e->records[r][k];
    return NULL;
}

/* The rule of four: with four held, the oldest goes. */
static inline void store_record(struct model_endpoint *e, unsigned r, uint32_t number,
                                const struct model_view *view, const uint8_t cut[MEMBERS])
{
    if (e->record_count[r] == RECORDS)
        memmove(&e->records[r][0], &e->records[r][1], (RECORDS - 1) * sizeof e->records[r][0]);
    else
        e->record_count[r]++;
    struct model_record *newest = &e->records[r][e->record_count[r] - 1];
    newest->number = number;
    newest->view = *view;
    memcpy(newest->cut, cut, MEMBERS);
}

/* The change. */

static inline bool ready(const struct model_endpoint *e)
{
    return e->pending && e->membership.id > e->current.id
        && e->membership.starts[e->p] == e->start_number;
}

static inline const struct model_record *named(const struct model_endpoint *e, unsigned r)
{
    return record_numbered(e, r, e->membership.starts[r]);
}

static inline uint8_t members_of_both(const struct model_endpoint *e)
{
    return e->current.set & e->membership.set;
}

static inline bool named_record_missing(const struct model_endpoint *e)
{
    for (unsigned r = 0; r < MEMBERS; r++)
        if (has_member(members_of_both(e), r) && named(e, r) == NULL)
            return true;
    return false;
}

/* T: who comes along, by the records held. */
static inline uint8_t t_of(const struct model_endpoint *e)
{
    uint8_t t = 0;
    for (unsigned r = 0; r < MEMBERS; r++) {
        if (!has_member(members_of_both(e), r))
            continue;
        const struct model_record *record = named(e, r);
        if (record != NULL && same_view(&record->view, &e->current))
            t |= only_member(r);
    }
    return t;
}

/* The agreed counts of all senders at once: each record is walked once. */
static inline void agreed_counts(const struct model_endpoint *e, uint8_t t, uint8_t agreed[MEMBERS])
{
    memset(agreed, 0, MEMBERS);
    for (unsigned m = 0; m < MEMBERS; m++) {
        if (!has_member(t, m))
            continue;
        const uint8_t *cut = named(e, m)->cut;
        for (unsigned r = 0; r < MEMBERS; r++)
            agreed[r] = agreed[r] < cut[r] ? cut[r] : agreed[r];
    }
}

/* The words i with above < i <= last; none where last <= above. */
struct stretch {
    unsigned above;
    unsigned last;
};

/*
 * The words of r due from p to q. They are one stretch: what q or a lower
 * member of T has is always a first part of r's words, so one bound covers all.
 */
static inline struct stretch due(const struct model_endpoint *e, uint8_t t, unsigned q, unsigned r)
{
    struct stretch words = { 0, 0 };
    if (!has_member(e->current.set, r) || has_member(t, r))
        return words;
    if (!has_member(t, e->p) || !has_member(t, q) || q == e->p)
        return words;
    for (unsigned m = 0; m < MEMBERS; m++) {
        if (!has_member(t, m) || (m != q && m >= e->p))
            continue;
        const unsigned has = named(e, m)->cut[r];
        words.above = words.above < has ? has : words.above;
    }
    words.last = named(e, e->p)->cut[r];
    return words;
}

/* The due words above the mark: those still to be forwarded. */
static inline struct stretch due_above_mark(const struct model_endpoint *e, uint8_t t,
                                            unsigned q, unsigned r)
{
    struct stretch words = due(e, t, q, r);
    if (words.above < e->forwarded[q][r])
        words.above = e->forwarded[q][r];
    return words;
}

#endif
