/*
 * The model as a side: built once with its test of soundness, and once without it
 * (MODEL_TRUSTING). SIDE names the one that is built.
 */
#include "side.h"

static unsigned send(struct desk *d, uint64_t word)
{
    return model_send(&d->m, d->area, AREA, word);
}

static unsigned block_ok(struct desk *d)
{
    return model_block_ok(&d->m);
}

static unsigned start_change(struct desk *d, uint32_t number, uint8_t set)
{
    return model_start_change(&d->m, number, set);
}

static unsigned membership_view(struct desk *d, const nh_view *view)
{
    struct model_view said = { .id = view->id, .set = view->set };

    memcpy(said.starts, view->starts, sizeof said.starts);
    return model_membership_view(&d->m, &said);
}

static unsigned receive(struct desk *d, uint8_t from, const struct sent *sent)
{
    return model_receive(&d->m, d->area, AREA, from, &sent->sending.message);
}

static unsigned ask_to_block(struct desk *d)
{
    return model_ask_to_block(&d->m);
}

static unsigned declare(struct desk *d)
{
    uint8_t declared;

    return model_declare(&d->m, &declared);
}

static unsigned announce(struct desk *d, struct sent *sent)
{
    return model_announce(&d->m, &sent->sending);
}

static unsigned pass_out(struct desk *d, struct sent *sent)
{
    return model_pass_out(&d->m, d->area, AREA, &sent->sending);
}

static unsigned sync(struct desk *d, struct sent *sent)
{
    return model_sync(&d->m, &sent->sending);
}

static unsigned give_out(struct desk *d, uint8_t from)
{
    return model_give_out(&d->m, d->area, AREA, from, &d->out[0]);
}

static unsigned install(struct desk *d)
{
    struct model_installed installed;

    return model_install(&d->m, &installed);
}

static unsigned give_batch(struct desk *d, uint8_t from)
{
    size_t count;

    return model_batch(&d->m, d->area, AREA, from, d->out, NH_MOST, &count);
}

/* What the steps with words change. */
static void rewind(struct desk *d, const struct desk *before)
{
    memcpy(d->m.received, before->m.received, sizeof d->m.received);
    memcpy(d->m.given, before->m.given, sizeof d->m.given);
    d->m.passed = before->m.passed;
    for (unsigned s = 0; s < SLOTS; s++)
        memcpy(d->m.marks[s], before->m.marks[s], 2 * sizeof(struct model_marks));
}

const struct side SIDE = {
    .size = sizeof(struct model_endpoint),
    .send = send, .block_ok = block_ok, .start_change = start_change,
    .membership_view = membership_view, .receive = receive, .ask_to_block = ask_to_block,
    .declare = declare, .announce = announce, .pass_out = pass_out, .sync = sync,
    .give_out = give_out, .install = install, .give_batch = give_batch, .rewind = rewind
};
