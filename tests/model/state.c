/*
 * A fresh end-point, and what makes an end-point sound.
 *
 * Assumes nothing: any bytes may stand in the end-point that is tested. The
 * clauses are tested in an order in which each relies only on those before it.
 */
#include "facts.h"

enum model_number model_fresh(struct model_endpoint *e, uint8_t p)
{
    if (p >= MEMBERS)
        return NO1_MALFORMED;
    memset(e, 0, sizeof *e);
    e->p = p;
    e->current = initial_view(p);
    e->membership = initial_view(p);
    e->declared = only_member(p);
    for (unsigned q = 0; q < MEMBERS; q++)
        if (q != p)
            e->announced_view[q] = initial_view(q);
    e->block = FREE;
    e->announced = 1;
    take_slot(e, &e->current);
    return ACCEPTED;
}

/* Values that no end-point of the paper has: every other clause relies on these. */
static bool in_range(const struct model_endpoint *e)
{
    bool ok = e->p < MEMBERS && e->open <= 1 && e->pending <= 1
        && e->block <= BLOCKED && e->announced <= 1;
    for (unsigned s = 0; s < SLOTS; s++)
        ok &= e->slot_used[s] <= 1;
    for (unsigned r = 0; r < MEMBERS; r++)
        ok &= e->record_count[r] <= RECORDS;
    return ok;
}

static bool views_sound(const struct model_endpoint *e)
{
    if (!view_well_formed(&e->current) || !view_well_formed(&e->membership))
        return false;
    if (!has_member(e->current.set & e->membership.set, e->p))
        return false;
    for (unsigned q = 0; q < MEMBERS; q++)
        if (q != e->p && !view_well_formed(&e->announced_view[q]))
            return false;
    for (unsigned s = 0; s < SLOTS; s++)
        if (e->slot_used[s] && !view_well_formed(&e->slot_view[s]))
            return false;
    return true;
}

static bool counts_and_marks_sound(const struct model_endpoint *e)
{
    uint64_t above = bytes_above_words(eight_counts(e->given));
    for (unsigned q = 0; q < MEMBERS; q++) {
        above |= bytes_above_words(eight_counts(e->forwarded[q]));
        above |= q != e->p && e->received[q] > WORDS;
    }
    return above == 0 && e->passed <= WORDS;
}

static bool records_of_sound(const struct model_endpoint *e, unsigned r)
{
    for (unsigned k = 0; k < e->record_count[r]; k++) {
        const struct model_record *record = &e->records[r][k];
        if (!view_well_formed(&record->view) || !cut_well_formed(record->cut, record->view.set))
            return false;
        if (k > 0 && record->number <= e->records[r][k - 1].number)
            return false;
        if (r == e->p && record->number > e->start_number)
            return false;
    }
    return true;
}

static bool records_sound(const struct model_endpoint *e)
{
    for (unsigned r = 0; r < MEMBERS; r++)
        if (!records_of_sound(e, r))
            return false;
    return true;
}

static bool slots_sound(const struct model_endpoint *e)
{
    for (unsigned s = 0; s < SLOTS; s++) {
        if (!e->slot_used[s])
            continue;
        if (!no_gap(&e->marks[s][e->p]) || spent(e, &e->slot_view[s]))
            return false;
        if (slot_of(e, &e->slot_view[s]) != s)
            return false;
    }
    return true;
}

static bool live_views_have_slots(const struct model_endpoint *e)
{
    if (current_slot(e) == SLOTS)
        return false;
    for (unsigned q = 0; q < MEMBERS; q++) {
        const struct model_view *v = &e->announced_view[q];
        if (q != e->p && v->id > 0 && !spent(e, v) && slot_of(e, v) == SLOTS)
            return false;
    }
    return true;
}

static bool given_and_passed_within_runs(const struct model_endpoint *e)
{
    const struct model_marks *marks = e->marks[current_slot(e)];
    bool ok = e->passed <= run(&marks[e->p]);
    for (unsigned r = 0; r < MEMBERS; r++)
        ok &= e->given[r] <= run(&marks[r]);
    return ok;
}

bool model_sound(const struct model_endpoint *e)
{
    return in_range(e) && views_sound(e) && counts_and_marks_sound(e) && records_sound(e)
        && slots_sound(e) && live_views_have_slots(e) && given_and_passed_within_runs(e);
}
