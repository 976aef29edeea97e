/*
 * Receive: a message from another end-point, one function for each kind.
 *
 * Each of them assumes what the step itself has tested: a sound end-point, an
 * area of the right length, a sender q that is not p, a well formed message.
 */
#include "facts.h"

static enum model_number receive_view(struct model_endpoint *e, unsigned q,
                                      const struct model_view *view)
{
    if (!has_member(view->set, e->p) || !has_member(view->set, q))
        return NO2_ABSENT;
    if (view->id <= e->announced_view[q].id)
        return NO3_NOT_NEWER;
    const bool needs_slot = !spent(e, view) && slot_of(e, view) == SLOTS;
    if (needs_slot && lowest_free_slot(e) == SLOTS)
        return NO7_NO_SLOT;

    e->announced_view[q] = *view;
    e->received[q] = 0;
    if (needs_slot)
        take_slot(e, view);
    return ACCEPTED;
}

static enum model_number receive_word(struct model_endpoint *e, uint64_t *area, unsigned q,
                                      uint64_t word)
{
    const struct model_view *view = &e->announced_view[q];
    if (view->id == 0)
        return NO4_OUT_OF_TURN;
    if (spent(e, view))
        return ACCEPTED;
    if (e->received[q] == WORDS)
        return NO6_FULL;
    const unsigned slot = slot_of(e, view);
    const unsigned next = e->received[q] + 1u;
    if (other_word_held(e, area, slot, q, next, word))
        return NO14_OTHER_WORD;

    store(e, area, slot, q, next, word);
    e->received[q] = (uint8_t)next;
    return ACCEPTED;
}

static enum model_number receive_sync(struct model_endpoint *e, unsigned q,
                                      const struct model_message *m)
{
    const unsigned count = e->record_count[q];
    const uint32_t newest = count == 0 ? 0 : e->records[q][count - 1].number;
    if (!has_member(m->view.set, q))
        return NO2_ABSENT;
    if (m->number <= newest)
        return NO3_NOT_NEWER;

    store_record(e, q, m->number, &m->view, m->cut);
    return ACCEPTED;
}

static enum model_number receive_forward(struct model_endpoint *e, uint64_t *area, unsigned q,
                                         const struct model_message *m)
{
    const unsigned r = m->sender;
    const uint8_t set = m->view.set;
    if (!has_member(set, e->p) || !has_member(set, q) || !has_member(set, r) || r == e->p)
        return NO2_ABSENT;
    if (!same_view(&m->view, &e->current))
        return ACCEPTED;
    const unsigned slot = current_slot(e);
    if (other_word_held(e, area, slot, r, m->index, m->word))
        return NO14_OTHER_WORD;

    store(e, area, slot, r, m->index, m->word);
    return ACCEPTED;
}

enum model_number model_receive(struct model_endpoint *e, uint64_t *area, size_t length,
                                uint8_t q, const struct model_message *m)
{
    if (!sound_enough(e) || length != AREA || q >= MEMBERS || q == e->p)
        return NO1_MALFORMED;
    if (!model_message_well_formed(m))
        return NO1_MALFORMED;
    switch (m->kind) {
    case KIND_VIEW:    return receive_view(e, q, &m->view);
    case KIND_WORD:    return receive_word(e, area, q, m->word);
    case KIND_SYNC:    return receive_sync(e, q, m);
    case KIND_FORWARD: return receive_forward(e, area, q, m);
    default:           return NO1_MALFORMED;  /* these come from the membership service */
    }
}
