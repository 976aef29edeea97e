/*
 * What the application is given: give out, and the batch of give-outs.
 *
 * Assumes that the word area has the length given beside it, and a batch's own
 * area the room, and that these two do not overlap.
 */
#include "facts.h"

/* The last of q's words that is there: held, and if it is p's own passed out. */
static unsigned available(const struct model_endpoint *e, unsigned slot, unsigned q)
{
    /* Sound: no more are passed out than held. */
    return q == e->p ? e->passed : run(&e->marks[slot][q]);
}

/* The highest index that the change allows to be given out from q. */
static unsigned limit(const struct model_endpoint *e, unsigned q)
{
    if (!e->pending)
        return WORDS;
    const struct model_record *own = record_numbered(e, e->p, e->start_number);
    if (own == NULL)
        return WORDS;
    if (!ready(e))
        return own->cut[q];
    uint8_t agreed[MEMBERS];
    agreed_counts(e, t_of(e), agreed);
    return agreed[q];
}

enum model_number model_give_out(struct model_endpoint *e, const uint64_t *area, size_t length,
                                 uint8_t q, uint64_t *word)
{
    if (!sound_enough(e) || length != AREA || q >= MEMBERS)
        return NO1_MALFORMED;
    if (!has_member(e->current.set, q))
        return NO2_ABSENT;
    const unsigned slot = current_slot(e);
    const unsigned next = e->given[q] + 1u;
    if (next > available(e, slot, q))
        return NO10_NOTHING_TO_DO;
    if (next > limit(e, q))
        return NO11_BEYOND_CUT;

    *word = area[place(slot, q, next)];
    e->given[q] = (uint8_t)next;
    return ACCEPTED;
}

enum model_number model_batch(struct model_endpoint *e, const uint64_t *area, size_t length,
                              uint8_t q, uint64_t *out, size_t room, size_t *count)
{
    if (!sound_enough(e) || length != AREA || q >= MEMBERS)
        return NO1_MALFORMED;
    if (!has_member(e->current.set, q))
        return NO2_ABSENT;

    /* Giving out moves neither bound, so the last index is known beforehand. */
    const unsigned slot = current_slot(e);
    const unsigned given = e->given[q];
    const unsigned available_to = available(e, slot, q);
    const unsigned allowed_to = limit(e, q);
    const unsigned last = available_to < allowed_to ? available_to : allowed_to;
    const size_t there = last > given ? last - given : 0;
    *count = there < room ? there : room;
    if (*count > 0)
        memcpy(out, &area[place(slot, q, given + 1)], *count * sizeof *out);
    e->given[q] = (uint8_t)(given + *count);
    return ACCEPTED;
}
