/*
 * What the application does: application send and block-ok.
 *
 * Assumes of the word area only that it has the length given beside it.
 */
#include "facts.h"

enum model_number model_send(struct model_endpoint *e, uint64_t *area, size_t length, uint64_t word)
{
    if (!sound_enough(e) || length != AREA)
        return NO1_MALFORMED;
    if (e->block == BLOCKED)
        return NO5_BLOCKED;
    const unsigned slot = current_slot(e);
    const unsigned own = run(&e->marks[slot][e->p]);
    if (own == WORDS)
        return NO6_FULL;

    store(e, area, slot, e->p, own + 1, word);
    return ACCEPTED;
}

enum model_number model_block_ok(struct model_endpoint *e)
{
    if (!sound_enough(e))
        return NO1_MALFORMED;
    if (e->block != ASKED)
        return NO4_OUT_OF_TURN;

    e->block = BLOCKED;
    return ACCEPTED;
}
