/*
 * Steps with forged arguments, one function for each step.
 * Assumes nothing of the desk's end-point.
 */
#include "anystep.h"
#include "facts.h"
#include "forge.h"
#include "make.h"

static void any_send(struct desk *d)
{
    both_send(d, dice());
}

static void any_block_ok(struct desk *d)
{
    both_block_ok(d);
}

static void any_start_change(struct desk *d)
{
    uint32_t number = forge_number(d->e.change.number);
    uint8_t set = forge_set();

    if (!chance(6))
        set |= only_member(me_of(&d->e));
    both_start_change(d, number, set);
}

static void any_membership_view(struct desk *d)
{
    nh_view v = forge_membership(&d->e);

    both_membership_view(d, &v);
}

static void any_receive(struct desk *d)
{
    static const uint64_t no_words[AREA];
    const uint64_t *area = d->words->length == AREA ? d->words->kept : no_words;
    uint8_t from = forge_member();
    nh_message m;

    if (from == d->e.me && !chance(10))
        from = (uint8_t)((from + 1) % MEMBERS);
    m = forge_message(&d->e, from, area);
    both_receive(d, from, &m);
}

static void any_ask(struct desk *d)
{
    both_ask_to_block(d);
}

static void any_declare(struct desk *d)
{
    both_declare(d);
}

static void any_announce(struct desk *d)
{
    both_announce(d);
}

static void any_pass_out(struct desk *d)
{
    both_pass_out(d);
}

static void any_sync(struct desk *d)
{
    both_sync(d);
}

/* A member of this set after a few tries, or anyone. */
static uint8_t someone_in(uint8_t set)
{
    uint8_t member = forge_member();

    for (unsigned tries = 0; tries < 6 && !has_member(set, member); tries++)
        member = forge_member();
    return member;
}

/* Mostly to a member of both views, of one that leaves. */
static void any_forward(struct desk *d)
{
    uint8_t both = d->e.current.set & d->e.membership.set;
    uint8_t to = someone_in(without_member(both, me_of(&d->e)));
    uint8_t of = someone_in(d->e.current.set & (uint8_t)~both);

    for (unsigned most = 1 + dice_below(4); most > 0; most--)
        if (both_forward(d, to, of).number != ACCEPTED)
            return;
}

static void any_give_out(struct desk *d)
{
    both_give_out(d, chance(4) ? forge_member() : someone_in(d->e.current.set));
}

static void any_install(struct desk *d)
{
    both_install(d);
}

static void any_batch(struct desk *d)
{
    uint8_t from = chance(4) ? forge_member() : someone_in(d->e.current.set);
    size_t room = dice_below(MOST_ROOM + 1);

    if (chance(8))
        room = 0;
    if (chance(4))
        room = MOST_ROOM;
    both_batch(d, from, room);
}

typedef void any_step(struct desk *d);

/* Those that take more arguments stand here more than once. */
static any_step *const steps[] = {
    any_send, any_block_ok, any_start_change, any_membership_view, any_membership_view,
    any_receive, any_receive, any_receive, any_receive, any_receive, any_receive,
    any_ask, any_declare, any_announce, any_pass_out, any_sync, any_forward,
    any_forward, any_forward, any_give_out, any_give_out, any_install, any_install,
    any_install, any_batch
};

enum { STEP_CHOICES = sizeof steps / sizeof steps[0] };

void anystep(struct desk *d)
{
    steps[dice_below(STEP_CHOICES)](d);
}

void anystep_each(struct desk *d)
{
    for (unsigned k = 0; k < STEP_CHOICES; k++)
        steps[k](d);
}
