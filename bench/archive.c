/*
 * The proved archive as a side. As a driver does, each call hands the end-point
 * over and keeps the one handed back: both copies are part of a step's time.
 */
#include "side.h"

static unsigned keep(struct desk *d, const nh_answer *answer)
{
    d->e = answer->ep;
    return answer->number;
}

static unsigned keep_sent(struct desk *d, const nh_answer *answer, struct sent *sent)
{
    sent->message = answer->message;
    return keep(d, answer);
}

static unsigned send(struct desk *d, uint64_t word)
{
    nh_answer answer = nh_send(d->e, d->area, NH_AREA, word);
    return keep(d, &answer);
}

static unsigned block_ok(struct desk *d)
{
    nh_answer answer = nh_block_ok(d->e);
    return keep(d, &answer);
}

static unsigned start_change(struct desk *d, uint32_t number, uint8_t set)
{
    nh_answer answer = nh_start_change(d->e, number, set);
    return keep(d, &answer);
}

static unsigned membership_view(struct desk *d, const nh_view *view)
{
    nh_answer answer = nh_membership_view(d->e, *view);
    return keep(d, &answer);
}

static unsigned receive(struct desk *d, uint8_t from, const struct sent *sent)
{
    nh_answer answer = nh_receive(d->e, d->area, NH_AREA, from, sent->message);
    return keep(d, &answer);
}

static unsigned ask_to_block(struct desk *d)
{
    nh_answer answer = nh_ask_to_block(d->e);
    return keep(d, &answer);
}

static unsigned declare(struct desk *d)
{
    nh_answer answer = nh_declare(d->e);
    return keep(d, &answer);
}

static unsigned announce(struct desk *d, struct sent *sent)
{
    nh_answer answer = nh_announce(d->e);
    return keep_sent(d, &answer, sent);
}

static unsigned pass_out(struct desk *d, struct sent *sent)
{
    nh_answer answer = nh_pass_out(d->e, d->area, NH_AREA);
    return keep_sent(d, &answer, sent);
}

static unsigned sync(struct desk *d, struct sent *sent)
{
    nh_answer answer = nh_sync(d->e);
    return keep_sent(d, &answer, sent);
}

static unsigned give_out(struct desk *d, uint8_t from)
{
    nh_answer answer = nh_give_out(d->e, d->area, NH_AREA, from);

    d->out[0] = answer.word;
    return keep(d, &answer);
}

static unsigned install(struct desk *d)
{
    nh_answer answer = nh_install(d->e);
    return keep(d, &answer);
}

static unsigned give_batch(struct desk *d, uint8_t from)
{
    nh_batch batch = nh_give_batch(d->e, d->area, NH_AREA, from, d->out, NH_MOST);

    d->e = batch.ep;
    return batch.number;
}

/* What the steps with words change. */
static void rewind(struct desk *d, const struct desk *before)
{
    memcpy(d->e.received, before->e.received, sizeof d->e.received);
    memcpy(d->e.given, before->e.given, sizeof d->e.given);
    d->e.passed = before->e.passed;
    for (unsigned s = 0; s < NH_SLOTS; s++)
        memcpy(d->e.slots.marks[s].rows, before->e.slots.marks[s].rows, 2 * sizeof(nh_held));
}

const struct side archive = {
    .size = sizeof(nh_endpoint),
    .send = send, .block_ok = block_ok, .start_change = start_change,
    .membership_view = membership_view, .receive = receive, .ask_to_block = ask_to_block,
    .declare = declare, .announce = announce, .pass_out = pass_out, .sync = sync,
    .give_out = give_out, .install = install, .give_batch = give_batch, .rewind = rewind
};
