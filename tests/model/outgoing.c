/*
 * The steps that send: announce, pass out, sync and forward.
 *
 * Fields of the message sent that its kind does not have are 0. Assumes that the
 * word area has the length given beside it.
 */
#include "facts.h"

enum model_number model_announce(struct model_endpoint *e, struct model_sending *sending)
{
    if (!sound_enough(e))
        return NO1_MALFORMED;
    if (!within(e->current.set, e->declared))
        return NO8_NOT_DECLARED;
    if (e->announced)
        return NO10_NOTHING_TO_DO;

    e->announced = 1;
    *sending = (struct model_sending){
        .to = without_member(e->current.set, e->p),
        .message = { .kind = KIND_VIEW, .view = e->current }
    };
    return ACCEPTED;
}

enum model_number model_pass_out(struct model_endpoint *e, const uint64_t *area, size_t length,
                                 struct model_sending *sending)
{
    if (!sound_enough(e) || length != AREA)
        return NO1_MALFORMED;
    if (!e->announced)
        return NO4_OUT_OF_TURN;
    const unsigned slot = current_slot(e);
    if (e->passed == run(&e->marks[slot][e->p]))
        return NO10_NOTHING_TO_DO;

    e->passed++;
    *sending = (struct model_sending){
        .to = without_member(e->current.set, e->p),
        .message = { .kind = KIND_WORD, .word = area[place(slot, e->p, e->passed)] }
    };
    return ACCEPTED;
}

enum model_number model_sync(struct model_endpoint *e, struct model_sending *sending)
{
    if (!sound_enough(e))
        return NO1_MALFORMED;
    if (!e->pending || e->block != BLOCKED || record_numbered(e, e->p, e->start_number) != NULL)
        return NO4_OUT_OF_TURN;
    if (!within(e->start_set, e->declared))
        return NO8_NOT_DECLARED;

    const struct model_marks *marks = e->marks[current_slot(e)];
    uint8_t cut[MEMBERS] = { 0 };
    for (unsigned r = 0; r < MEMBERS; r++)
        if (has_member(e->current.set, r))
            cut[r] = (uint8_t)run(&marks[r]);
    store_record(e, e->p, e->start_number, &e->current, cut);
    *sending = (struct model_sending){
        .to = without_member(e->start_set, e->p),
        .message = { .kind = KIND_SYNC, .number = e->start_number, .view = e->current }
    };
    memcpy(sending->message.cut, cut, MEMBERS);
    return ACCEPTED;
}

/* The lowest held word of r that is due to q above the mark; 0 where there is none. */
static unsigned next_to_forward(const struct model_endpoint *e, unsigned slot, unsigned q, unsigned r)
{
    const struct stretch words = due_above_mark(e, t_of(e), q, r);
    for (unsigned i = words.above + 1; i <= words.last; i++)
        if (held(&e->marks[slot][r], i))
            return i;
    return 0;
}

enum model_number model_forward(struct model_endpoint *e, const uint64_t *area, size_t length,
                                uint8_t q, uint8_t r, struct model_sending *sending)
{
    if (!sound_enough(e) || length != AREA || q >= MEMBERS || r >= MEMBERS)
        return NO1_MALFORMED;
    if (!ready(e))
        return NO4_OUT_OF_TURN;
    if (named_record_missing(e))
        return NO9_NO_RECORD;
    const unsigned slot = current_slot(e);
    const unsigned i = next_to_forward(e, slot, q, r);
    if (i == 0)
        return NO10_NOTHING_TO_DO;

    e->forwarded[q][r] = (uint8_t)i;
    *sending = (struct model_sending){
        .to = only_member(q),
        .message = { .kind = KIND_FORWARD, .sender = r, .index = (uint8_t)i,
                     .view = e->current, .word = area[place(slot, r, i)] }
    };
    return ACCEPTED;
}
