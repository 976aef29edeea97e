/*
 * Plays runs. A channel keeps its messages, as bytes, in order; a refused one
 * stays at its head; a channel to one outside the declared set may lose its tail.
 * The membership service mostly means well. In hostile runs it does not, and
 * messages that nobody sent come in between.
 */
#include "group.h"
#include "anystep.h"
#include "damage.h"
#include "forge.h"
#include "make.h"
#include "seen.h"

#include <string.h>

enum { CHANNEL_ROOM = 512, SAID_ROOM = 32, ODD_LENGTHS = 4 };

struct packet {
    uint8_t bytes[NH_LONGEST];
    size_t length;
};

/* A ring: the head moves on when a message is received. */
struct channel {
    struct packet packets[CHANNEL_ROOM];
    unsigned head;
    unsigned count;
};

/* What the membership service has said to one desk, and not yet been heard. */
struct said {
    nh_message messages[SAID_ROOM];
    unsigned head;
    unsigned count;
};

static struct desk desks[MEMBERS], spare;
static struct words areas[MEMBERS], spare_area, odd_areas[ODD_LENGTHS];
static struct channel channels[MEMBERS][MEMBERS]; /* from by to */

/* The service: the latest numbers and id, the start set, and when it speaks next. */
static struct said said[MEMBERS];
static uint32_t numbers[MEMBERS], last_id;
static uint8_t start_set;
static unsigned until_start, until_view;

/* The run: how many desks, whether it is hostile, how long a view lasts. */
static unsigned size, pace;
static bool hostile;

void group_prepare(void)
{
    static const size_t odd_lengths[ODD_LENGTHS] = { 0, 1, AREA - 1, AREA + 1 };

    for (unsigned p = 0; p < MEMBERS; p++) {
        words_make(&areas[p], AREA);
        desks[p].words = &areas[p];
    }
    words_make(&spare_area, AREA);
    spare.words = &spare_area;
    for (unsigned k = 0; k < ODD_LENGTHS; k++)
        words_make(&odd_areas[k], odd_lengths[k]);
}

/* ---- Channels. ---- */

static struct packet *packet_at(struct channel *c, unsigned k)
{
    return &c->packets[(c->head + k) % CHANNEL_ROOM];
}

static bool channels_have_room(unsigned p)
{
    for (unsigned q = 0; q < size; q++)
        if (channels[p][q].count == CHANNEL_ROOM)
            return false;
    return true;
}

/* What a step gave to be sent goes into the channels of those in its set. */
static void send_out(unsigned p, const struct given *g)
{
    struct packet packet;

    if (g->number != ACCEPTED)
        return;
    packet.length = both_write(&g->message, packet.bytes);
    for (unsigned q = 0; q < size; q++)
        if (has_member(g->set, q)) {
            *packet_at(&channels[p][q], channels[p][q].count) = packet;
            channels[p][q].count++;
        }
}

static void lose(unsigned p)
{
    unsigned q = dice_below(size);
    struct channel *c = &channels[p][q];

    if (has_member(desks[p].e.declared, q) || c->count == 0)
        return;
    c->count -= 1 + dice_below(c->count);
}

/* ---- The membership service. ---- */

static void say(unsigned p, const nh_message *message)
{
    struct said *s = &said[p];

    if (s->count < SAID_ROOM)
        s->messages[(s->head + s->count++) % SAID_ROOM] = *message;
}

static uint8_t everyone(void)
{
    return (uint8_t)((1u << size) - 1);
}

/* Everyone, or all but one, or anyone. */
static uint8_t some_set(void)
{
    uint8_t one = only_member(dice_below(size));

    switch (dice_below(4)) {
    case 0:
        return one | (uint8_t)(dice_below(256) & everyone());
    case 1:
        return everyone();
    default:
        return everyone() == one ? one : (uint8_t)(everyone() & ~one);
    }
}

/* Beyond what the desks have seen: in a hostile run they may have heard others. */
static void catch_up(void)
{
    for (unsigned p = 0; p < size; p++) {
        const nh_endpoint *e = &desks[p].e;

        if (numbers[p] < e->change.number && e->change.number < UINT32_MAX / 2)
            numbers[p] = e->change.number;
        if (last_id < e->membership.id && e->membership.id < UINT32_MAX / 2)
            last_id = e->membership.id;
    }
}

static void start_change(void)
{
    catch_up();
    start_set = some_set();
    for (unsigned p = 0; p < size; p++) {
        if (!has_member(start_set, p))
            continue;
        numbers[p] += 1 + (chance(8) ? dice_below(3) : 0);
        say(p, &(nh_message){ .kind = NH_START_CHANGE, .number = numbers[p], .set = start_set });
    }
}

static void say_view(uint8_t set)
{
    nh_message message = { .kind = NH_MEMBERSHIP_VIEW, .view = { .id = last_id, .set = set } };

    for (unsigned p = 0; p < size; p++)
        if (has_member(set, p))
            message.view.starts[p] = numbers[p];
    for (unsigned p = 0; p < size; p++)
        if (has_member(set, p))
            say(p, &message);
}

/* Of the whole start set, of all but one, or two views of its two parts under one id. */
static void form_view(void)
{
    uint8_t part = start_set & (uint8_t)dice_below(256), rest = start_set & (uint8_t)~part;

    last_id++;
    if (chance(3)) {
        rest = start_set & (uint8_t)~only_member(dice_below(size));
        part = 0;
    } else if (chance(2)) {
        rest = start_set;
        part = 0;
    }
    if (part != 0)
        say_view(part);
    if (rest != 0)
        say_view(rest);
}

/* A start, its view some time after, and so on: now and then a start too many. */
static void serve(void)
{
    if (until_start == 0 || chance(8 * pace)) {
        start_change();
        until_view = 1 + dice_below(pace / 2);
        until_start = until_view + pace / 2 + dice_below(pace);
    }
    until_start--;
    if (until_view > 0 && --until_view == 0)
        form_view();
}

static void hear(unsigned p)
{
    struct said *s = &said[p];
    nh_message *message = &s->messages[s->head];

    if (s->count == 0)
        return;
    if (message->kind == NH_START_CHANGE)
        both_start_change(&desks[p], message->number, message->set);
    else
        both_membership_view(&desks[p], &message->view);
    s->head = (s->head + 1) % SAID_ROOM;
    s->count--;
}

/* ---- What a desk does in its turn. ---- */

/* Mostly a member of this set, if it has one. */
static uint8_t someone_in(uint8_t set)
{
    unsigned n = dice_below(size);

    for (unsigned k = 0; k < size && !chance(8) && !has_member(set, n); k++)
        n = (n + 1) % size;
    return (uint8_t)n;
}

/* One whose channel to p is not empty, if there is one. */
static unsigned someone_waiting(unsigned p)
{
    unsigned q = dice_below(size);

    for (unsigned k = 0; k < size && channels[q][p].count == 0; k++)
        q = (q + 1) % size;
    return q;
}

static unsigned burst(void)
{
    return chance(6) ? dice_below(64) : 1 + dice_below(4);
}

static void turn_receive(unsigned p)
{
    unsigned q = someone_waiting(p), most = burst();
    struct channel *c = &channels[q][p];

    for (; most > 0 && c->count > 0; most--) {
        nh_message message = both_read(packet_at(c, 0)->bytes, packet_at(c, 0)->length);

        /* In a hostile run what is stuck goes at last. */
        if (both_receive(&desks[p], (uint8_t)q, &message).number != ACCEPTED && !(hostile && chance(4)))
            return;
        c->head = (c->head + 1) % CHANNEL_ROOM;
        c->count--;
    }
}

static void turn_send(unsigned p)
{
    unsigned count = chance(30) ? 140 : burst();

    while (count-- > 0)
        if (both_send(&desks[p], chance(4) ? dice_below(3) : dice()).number != ACCEPTED)
            return;
}

static void turn_pass_out(unsigned p)
{
    unsigned count = burst();

    while (count-- > 0 && channels_have_room(p)) {
        struct given g = both_pass_out(&desks[p]);

        send_out(p, &g);
        if (g.number != ACCEPTED)
            return;
    }
}

static void turn_give_out(unsigned p)
{
    uint8_t q = someone_in(desks[p].e.current.set);

    if (chance(2)) {
        both_batch(&desks[p], q, chance(6) ? 0 : dice_below(MOST_ROOM + 1));
        return;
    }
    for (unsigned count = burst(); count > 0; count--)
        if (both_give_out(&desks[p], q).number != ACCEPTED)
            return;
}

static void turn_forward(unsigned p)
{
    uint8_t q = someone_in(desks[p].e.membership.set), r = someone_in(desks[p].e.current.set);

    for (unsigned count = burst(); count > 0 && channels_have_room(p); count--) {
        struct given g = both_forward(&desks[p], q, r);

        send_out(p, &g);
        if (g.number != ACCEPTED)
            return;
    }
}

/* All that a desk can do towards a change, in order. */
static void turn_change(unsigned p)
{
    both_declare(&desks[p]);
    both_ask_to_block(&desks[p]);
    both_block_ok(&desks[p]);
    if (channels_have_room(p)) {
        struct given g = both_sync(&desks[p]);

        send_out(p, &g);
    }
}

static void turn_declare(unsigned p)
{
    both_declare(&desks[p]);
}

static void turn_ask(unsigned p)
{
    both_ask_to_block(&desks[p]);
}

static void turn_block_ok(unsigned p)
{
    both_block_ok(&desks[p]);
}

static void turn_sync(unsigned p)
{
    struct given g;

    if (!channels_have_room(p))
        return;
    g = both_sync(&desks[p]);
    send_out(p, &g);
}

static void turn_announce(unsigned p)
{
    struct given g;

    if (!channels_have_room(p))
        return;
    g = both_announce(&desks[p]);
    send_out(p, &g);
}

static void turn_install(unsigned p)
{
    both_install(&desks[p]);
}

/* ---- Hostility. ---- */

/* A step on a copy, with an area of another length. */
static void try_odd_length(void)
{
    spare.words = &odd_areas[dice_below(ODD_LENGTHS)];
    anystep(&spare);
    spare.words = &spare_area;
}

/* An unsound one stays as it is, so every call can be given it; a sound one goes on. */
static void try_steps(void)
{
    bool sound = model_sound(&spare.m);

    seen_if(sound && spare.e.heard[spare.e.me].id != 0, CASE_STALE_SOUND);
    if (chance(8))
        try_odd_length();
    if (!sound && chance(6))
        anystep_each(&spare);
    for (unsigned count = sound ? 1 + dice_below(12) : 2; count > 0; count--)
        anystep(&spare);
}

/* Copies of this desk, most of them damaged, are given random steps. */
static void try_damaged(unsigned p)
{
    words_copy(&spare_area, &areas[p]);
    for (unsigned k = 0; k < 6; k++) {
        spare.e = desks[p].e;
        if (!chance(8))
            damage(&spare.e);
        both_agree(&spare);
        try_steps();
    }
    both_fresh(&spare, forge_member());
}

/* ---- The run. ---- */

struct action {
    void (*take)(unsigned p);
    unsigned weight;
};

static const struct action actions[] = {
    { turn_receive, 12 }, { turn_send, 3 }, { turn_pass_out, 5 }, { turn_give_out, 8 },
    { turn_forward, 5 }, { turn_change, 3 }, { turn_declare, 1 }, { turn_ask, 1 },
    { turn_block_ok, 1 }, { turn_sync, 1 }, { turn_announce, 3 }, { turn_install, 4 },
    { hear, 5 }, { lose, 1 }
};

enum { ACTIONS = sizeof actions / sizeof actions[0] };

static void begin_run(void)
{
    size = 2 + dice_below(MEMBERS - 1);
    hostile = chance(2);
    pace = (20 + dice_below(100)) * size;
    last_id = 0;
    until_start = until_view = 0;
    memset(channels, 0, sizeof channels);
    memset(said, 0, sizeof said);
    memset(numbers, 0, sizeof numbers);
    for (unsigned p = 0; p < size; p++) {
        words_resize(&areas[p], AREA);
        both_fresh(&desks[p], (uint8_t)p);
        /* So that the last slots are as full as the first. */
        if (chance(2)) {
            swap_slots(&desks[p].e, 0, dice_below(SLOTS));
            both_agree(&desks[p]);
        }
    }
}

static void take_turn(const unsigned weights[ACTIONS], unsigned total)
{
    unsigned p = dice_below(size), roll = dice_below(total), k = 0;

    while (roll >= weights[k])
        roll -= weights[k++];
    actions[k].take(p);
    serve();
    if (hostile && chance(100))
        anystep(&desks[p]);
    if (chance(24))
        try_damaged(p);
}

/* Each run has weights of its own: some desks hardly give out, some hardly receive. */
void group_run(unsigned turns)
{
    unsigned weights[ACTIONS], total = 0;

    begin_run();
    for (unsigned k = 0; k < ACTIONS; k++) {
        weights[k] = actions[k].weight * (chance(6) ? 1 : 4);
        total += weights[k];
    }
    for (turns *= size; turns > 0; turns--)
        take_turn(weights, total);
}
