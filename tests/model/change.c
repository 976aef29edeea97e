/*
 * The change of view: ask to block, declare and install.
 *
 * Assumes nothing: none of these takes the word area.
 */
#include "facts.h"

enum model_number model_ask_to_block(struct model_endpoint *e)
{
    if (!sound_enough(e))
        return NO1_MALFORMED;
    if (!e->pending || e->block != FREE)
        return NO4_OUT_OF_TURN;

    e->block = ASKED;
    return ACCEPTED;
}

enum model_number model_declare(struct model_endpoint *e, uint8_t *declared)
{
    if (!sound_enough(e))
        return NO1_MALFORMED;

    e->declared = e->current.set | (e->pending ? e->start_set : 0);
    *declared = e->declared;
    return ACCEPTED;
}

/* Held or not: a due word that is not held keeps the view from being left. */
static bool some_due_word_not_forwarded(const struct model_endpoint *e, uint8_t t)
{
    for (unsigned q = 0; q < MEMBERS; q++)
        for (unsigned r = 0; r < MEMBERS; r++) {
            const struct stretch words = due_above_mark(e, t, q, r);
            if (words.above < words.last)
                return true;
        }
    return false;
}

static bool some_given_fewer(const struct model_endpoint *e, const uint8_t agreed[MEMBERS])
{
    for (unsigned r = 0; r < MEMBERS; r++)
        if (has_member(e->current.set, r) && e->given[r] < agreed[r])
            return true;
    return false;
}

static bool some_given_more(const struct model_endpoint *e, const uint8_t agreed[MEMBERS])
{
    for (unsigned r = 0; r < MEMBERS; r++)
        if (has_member(e->current.set, r) && e->given[r] > agreed[r])
            return true;
    return false;
}

static void enter_membership_view(struct model_endpoint *e)
{
    e->current = e->membership;
    memset(e->given, 0, sizeof e->given);
    e->passed = 0;
    e->announced = 0;
    e->pending = 0;
    e->block = FREE;
    /* The view just left is spent now, so a slot is free for the new one. */
    free_spent_slots(e);
    if (current_slot(e) == SLOTS)
        take_slot(e, &e->current);
}

enum model_number model_install(struct model_endpoint *e, struct model_installed *installed)
{
    if (!sound_enough(e))
        return NO1_MALFORMED;
    if (!ready(e))
        return NO4_OUT_OF_TURN;
    if (named_record_missing(e))
        return NO9_NO_RECORD;
    const uint8_t t = t_of(e);
    if (some_due_word_not_forwarded(e, t))
        return NO12_NOT_FORWARDED;
    uint8_t agreed[MEMBERS];
    agreed_counts(e, t, agreed);
    if (some_given_fewer(e, agreed))
        return NO13_TOO_FEW_GIVEN;
    if (some_given_more(e, agreed))
        return NO15_TOO_MANY_GIVEN;

    enter_membership_view(e);
    installed->view = e->current;
    installed->t = t;
    return ACCEPTED;
}
