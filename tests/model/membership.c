/*
 * What the membership service says: start change and membership view.
 *
 * Assumes only that the view lent is not a part of the end-point itself.
 */
#include "facts.h"

enum model_number model_start_change(struct model_endpoint *e, uint32_t number, uint8_t set)
{
    if (!sound_enough(e))
        return NO1_MALFORMED;
    if (!has_member(set, e->p))
        return NO2_ABSENT;
    if (number <= e->start_number)
        return NO3_NOT_NEWER;

    e->start_number = number;
    e->start_set = set;
    e->open = 1;
    e->pending = 1;
    free_spent_slots(e);
    return ACCEPTED;
}

enum model_number model_membership_view(struct model_endpoint *e, const struct model_view *view)
{
    if (!sound_enough(e) || !view_well_formed(view))
        return NO1_MALFORMED;
    if (!has_member(view->set, e->p))
        return NO2_ABSENT;
    if (view->id <= e->membership.id)
        return NO3_NOT_NEWER;
    if (!e->open || view->starts[e->p] != e->start_number || !within(view->set, e->start_set))
        return NO4_OUT_OF_TURN;

    e->membership = *view;
    e->open = 0;
    /* T may differ now: what a lower holder was to send may fall to p. */
    memset(e->forwarded, 0, sizeof e->forwarded);
    return ACCEPTED;
}
