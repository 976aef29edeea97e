/*
 * Damages end-points, one function for each way.
 * Assumes nothing of the end-point: it may have been damaged before.
 */
#include "damage.h"
#include "facts.h"
#include "fields.h"
#include "forge.h"
#include "make.h"

static nh_view *any_view(nh_endpoint *e)
{
    switch (dice_below(6)) {
    case 0:
        return &e->current;
    case 1:
        return &e->membership;
    case 2:
        return &e->heard[dice_below(MEMBERS)];
    case 3:
        return &e->records.held[dice_below(MEMBERS * RECORDS)].view;
    default:
        return &e->slots.tags[dice_below(SLOTS)].view;
    }
}

static void damage_byte(nh_endpoint *e)
{
    ((uint8_t *)e)[dice_below(sizeof *e)] = (uint8_t)dice_below(256);
}

static void damage_bit(nh_endpoint *e)
{
    unsigned at = dice_below(sizeof *e);

    ((uint8_t *)e)[at] ^= (uint8_t)(1u << dice_below(8));
}

static void damage_field(nh_endpoint *e)
{
    unsigned k = dice_below(fields_count());
    uint64_t value = field_get(e, k);

    switch (dice_below(4)) {
    case 0:
        value++;
        break;
    case 1:
        value--;
        break;
    case 2:
        value = edges[dice_below(EDGES)];
        break;
    default:
        value = dice();
    }
    field_set(e, k, value);
}

static void damage_views_same(nh_endpoint *e)
{
    nh_view *to = any_view(e);

    *to = *any_view(e);
}

static void damage_view_altered(nh_endpoint *e)
{
    alter_view(any_view(e));
}

static void damage_view_spoiled(nh_endpoint *e)
{
    spoil_view(any_view(e));
}

/* A run of some length, or a hole in one. */
static void damage_marks(nh_endpoint *e)
{
    unsigned slot = chance(2) ? slot_for(e, &e->current) : dice_below(SLOTS);
    unsigned r = chance(3) ? me_of(e) : dice_below(MEMBERS), to = forge_count(dice_below(6));
    struct model_marks marks = { 0, 0 };

    for (unsigned i = 1; i <= to && i <= WORDS; i++)
        mark(&marks, i);
    if (chance(2))
        mark(&marks, 1 + dice_below(WORDS));
    e->slots.marks[slot].rows[r] = (nh_held){ marks.low, marks.high };
}

static void damage_given(nh_endpoint *e)
{
    unsigned slot = slot_for(e, &e->current), r = dice_below(MEMBERS);

    if (chance(3))
        e->passed = forge_count(run_of(e, slot, me_of(e)));
    else
        e->given[r] = forge_count(run_of(e, slot, r));
}

static void damage_counts(nh_endpoint *e)
{
    unsigned q = dice_below(MEMBERS), r = dice_below(MEMBERS);

    if (chance(2))
        e->received[q] = forge_count(WORDS);
    else
        e->forwarded[q].marks[r] = forge_count(chance(2) ? WORDS : e->forwarded[q].marks[r]);
}

static nh_record *some_record(nh_endpoint *e, unsigned r)
{
    unsigned count = e->records.counts[r] % (RECORDS + 1);

    return &e->records.held[r * RECORDS + dice_below(count == 0 ? RECORDS : count)];
}

/* A cut in one of the records: lower, higher, or of no member. */
static void damage_cut(nh_endpoint *e)
{
    unsigned r = chance(2) ? me_of(e) : dice_below(MEMBERS), n = dice_below(MEMBERS);
    nh_record *record = some_record(e, r);

    if (chance(4) || has_member(record->view.set, n))
        record->cut.counts[n] = forge_count(record->cut.counts[n]);
}

static void damage_record(nh_endpoint *e)
{
    unsigned r = chance(2) ? me_of(e) : dice_below(MEMBERS);
    nh_record *record = some_record(e, r);

    switch (dice_below(6)) {
    case 0:
        record->number = forge_number(e->change.number);
        break;
    case 1:
        record->number = forge_number(record->number);
        break;
    case 2:
        e->records.counts[r] = (uint8_t)dice_below(RECORDS + 2);
        break;
    case 3:
        record->view = chance(2) ? e->current : forge_view(e, r);
        break;
    case 4:
        record->number = some_record(e, r)->number;
        break;
    default:
        *record = *some_record(e, r);
    }
}

/* A record of r, newer than all, for what the membership view names, of the current view or near it. */
static void damage_record_named(nh_endpoint *e)
{
    unsigned r = dice_below(MEMBERS), count = e->records.counts[r] % RECORDS;
    nh_record *record = &e->records.held[r * RECORDS + count];
    nh_message m = { .view = e->current };

    if (chance(4))
        alter_view(&m.view);
    forge_cut(e, &m);
    record->view = m.view;
    record->cut = m.cut;
    record->number = e->membership.starts[r];
    e->records.counts[r] = (uint8_t)(count + 1);
}

static void damage_slot(nh_endpoint *e)
{
    nh_tag *tag = &e->slots.tags[dice_below(SLOTS)];

    switch (dice_below(5)) {
    case 0:
        tag->used ^= 1;
        break;
    case 1:
        tag->used = (uint8_t)dice_below(4);
        break;
    case 2:
        tag->view = *any_view(e);
        tag->used = 1;
        break;
    case 3:
        tag->view = forge_view(e, dice_below(MEMBERS));
        tag->used = 1;
        break;
    default:
        *tag = e->slots.tags[dice_below(SLOTS)];
    }
}

void swap_slots(nh_endpoint *e, unsigned s, unsigned t)
{
    const nh_tag tag = e->slots.tags[s];
    const nh_marks marks = e->slots.marks[s];

    e->slots.tags[s] = e->slots.tags[t];
    e->slots.marks[s] = e->slots.marks[t];
    e->slots.tags[t] = tag;
    e->slots.marks[t] = marks;
}

static void damage_slots_swapped(nh_endpoint *e)
{
    swap_slots(e, slot_for(e, &e->current), dice_below(SLOTS));
}

/* The next word of member 7 goes to the last place of the area. */
static void damage_last_place(nh_endpoint *e)
{
    swap_slots(e, slot_for(e, &e->current), SLOTS - 1);
    e->slots.marks[SLOTS - 1].rows[MEMBERS - 1] = (nh_held){ UINT64_MAX, UINT64_MAX >> 1 };
    if (e->me == MEMBERS - 1)
        return;
    e->heard[MEMBERS - 1] = e->current;
    e->received[MEMBERS - 1] = WORDS - 1;
}

/* Every free slot gets a view ahead of all. */
static void damage_slots_full(nh_endpoint *e)
{
    for (unsigned s = 0; s < SLOTS; s++)
        if (e->slots.tags[s].used == 0) {
            nh_view v = new_view(e, dice_below(MEMBERS));

            v.id = e->current.id + 1 + s + dice_below(4);
            v.starts[me_of(e)] = e->change.number + 1 + dice_below(2);
            e->slots.tags[s] = (nh_tag){ .view = v, .used = 1 };
            e->slots.marks[s].rows[me_of(e)] = (nh_held){ 0, 0 };
        }
}

/* The next word of someone is held already, in the view that it announced. */
static void damage_next_held(nh_endpoint *e)
{
    for (unsigned q = 0; q < MEMBERS; q++) {
        nh_held *row = &e->slots.marks[slot_for(e, &e->heard[q])].rows[q];
        struct model_marks marks = { row->low, row->high };

        if (q == me_of(e) || e->heard[q].id == 0 || e->received[q] >= WORDS)
            continue;
        mark(&marks, e->received[q] + 1u);
        *row = (nh_held){ marks.low, marks.high };
    }
}

/* All 128 words of someone are held, and none is given out. */
static void damage_all_held(nh_endpoint *e)
{
    unsigned slot = slot_for(e, &e->current), r = dice_below(MEMBERS);

    e->slots.marks[slot].rows[r] = (nh_held){ UINT64_MAX, UINT64_MAX };
    e->given[r] = 0;
    if (r == me_of(e))
        e->passed = forge_count(WORDS);
}

/* The current view, in its slot too, has more members. */
static void widen_current(nh_endpoint *e)
{
    unsigned slot = slot_for(e, &e->current);
    nh_view *v = &e->current;

    v->id = v->id == 0 ? 1 : v->id;
    v->set |= (uint8_t)(forge_set() | only_member(me_of(e)));
    for (unsigned n = 0; n < MEMBERS; n++)
        if (has_member(v->set, n) && v->starts[n] == 0)
            v->starts[n] = 1 + dice_below(3);
    e->slots.tags[slot].view = *v;
}

/* The record that the membership view names of r: the newest, or one before it. */
static void name_record(nh_endpoint *e, unsigned r)
{
    nh_record *record = &e->records.held[r * RECORDS];

    e->records.counts[r] = 1;
    record->view = e->current;
    record->number = e->membership.starts[r];
    for (unsigned n = 0; n < MEMBERS; n++)
        record->cut.counts[n] = has_member(e->current.set, n) ? (uint8_t)dice_below(6) : 0;
    if (chance(4))
        alter_view(&record->view);
    if (r == me_of(e) || !chance(4))
        return;
    record[1] = record[0];
    record[1].number += 1 + dice_below(3);
    e->records.counts[r] = 2;
    for (unsigned n = 0; n < MEMBERS; n++)
        record[1].cut.counts[n] += record[1].cut.counts[n] != 0;
}

/* Of each member as many words are held and given out as agreed, and all due ones are forwarded. */
static void give_as_agreed(nh_endpoint *e)
{
    unsigned slot = slot_for(e, &e->current);
    struct model_endpoint m;
    uint8_t agreed[MEMBERS];

    for (unsigned r = 0; r < MEMBERS; r++)
        if (e->me >= MEMBERS || e->records.counts[r] > RECORDS)
            return;
    model_of_endpoint(e, &m);
    agreed_counts(&m, t_of(&m), agreed);
    for (unsigned r = 0; r < MEMBERS; r++) {
        struct model_marks marks = { 0, 0 };

        for (unsigned i = 1; i <= agreed[r] && i <= WORDS; i++)
            mark(&marks, i);
        e->slots.marks[slot].rows[r] = (nh_held){ marks.low, marks.high };
        e->given[r] = agreed[r];
        for (unsigned q = 0; q < MEMBERS; q++)
            e->forwarded[q].marks[r] = agreed[r];
    }
    e->passed = agreed[e->me];
}

/* A view is ready, with records that name some members of the current one and some words held. */
static void damage_ready(nh_endpoint *e)
{
    unsigned me = me_of(e), slot;

    if (chance(2))
        widen_current(e);
    slot = slot_for(e, &e->current);
    e->change.number += e->change.number == 0;
    e->change.pending = 1;
    e->membership = (nh_view){ .id = e->current.id + 1, .set = forge_set() | only_member(me) };
    number_members(&e->membership);
    e->membership.starts[me] = e->change.number;
    for (unsigned r = 0; r < MEMBERS; r++) {
        uint64_t some = dice() & dice(), row = ((UINT64_C(1) << dice_below(7)) - 1) | (some & 0xff);

        if (has_member(e->membership.set, r) && !chance(40))
            name_record(e, r);
        if (r == me)
            continue;
        e->slots.marks[slot].rows[r] = (nh_held){ row, 0 };
        e->given[r] = (uint8_t)dice_below(run_of(e, slot, r) + 1);
    }
    if (chance(2))
        e->forwarded[dice_below(MEMBERS)].marks[dice_below(MEMBERS)] = (uint8_t)dice_below(6);
    if (chance(3))
        give_as_agreed(e);
}

static void damage_heard(nh_endpoint *e)
{
    unsigned q = dice_below(MEMBERS);

    e->heard[q] = forge_view(e, q);
}

static void damage_change(nh_endpoint *e)
{
    switch (dice_below(8)) {
    case 0:
        e->change.number = forge_number(e->change.number);
        break;
    case 1:
        e->change.set = forge_set();
        break;
    case 2:
        e->change.opened ^= 1;
        break;
    case 3:
        e->change.pending ^= 1;
        break;
    case 4:
        e->change.block = (uint8_t)dice_below(4);
        break;
    case 5:
        e->change.opened = (uint8_t)dice_below(3);
        break;
    case 6:
        e->change.pending = (uint8_t)dice_below(3);
        break;
    default:
        e->change.number = e->membership.starts[me_of(e)];
        e->change.pending = 1;
    }
}

static void damage_own(nh_endpoint *e)
{
    switch (dice_below(4)) {
    case 0:
        e->me = forge_member();
        break;
    case 1:
        e->declared = forge_set();
        break;
    case 2:
        e->told = (uint8_t)dice_below(3);
        break;
    default:
        e->change.block = NH_BLOCKED;
    }
}

/* Noise in what no step reads: it stays sound if it was. */
static void damage_unread(nh_endpoint *e)
{
    unsigned r = dice_below(MEMBERS), s = dice_below(SLOTS), k = dice_below(RECORDS);
    nh_record *record = &e->records.held[r * RECORDS + k];

    if (e->me < MEMBERS) {
        e->received[e->me] = (uint8_t)dice_below(256);
        e->heard[e->me] = (nh_view){ .id = (uint32_t)dice(), .set = (uint8_t)dice_below(256) };
    }
    if (k >= e->records.counts[r]) {
        record->view.set = (uint8_t)dice_below(256);
        record->number = (uint32_t)dice();
        record->cut.counts[r] = (uint8_t)dice_below(256);
    }
    if (e->slots.tags[s].used == 0) {
        e->slots.marks[s].rows[r].low = dice();
        e->slots.tags[s].view = chance(2) ? e->current : (nh_view){ .starts = { 1, 2, 3 } };
    }
}

static void damage_all(nh_endpoint *e)
{
    bool small = chance(2);

    for (size_t k = 0; k < sizeof *e; k++)
        ((uint8_t *)e)[k] = (uint8_t)dice_below(small ? 2 : 256);
    if (chance(2))
        e->me = (uint8_t)dice_below(MEMBERS);
}

void damage(nh_endpoint *e)
{
    static void (*const damages[])(nh_endpoint *e) = {
        damage_byte, damage_bit, damage_field, damage_field, damage_views_same, damage_view_altered,
        damage_view_spoiled, damage_marks, damage_marks, damage_given, damage_counts, damage_cut,
        damage_cut, damage_record, damage_record, damage_record_named, damage_record_named,
        damage_slot, damage_slots_full, damage_next_held, damage_all_held, damage_all_held,
        damage_ready, damage_ready, damage_ready, damage_heard, damage_change, damage_change,
        damage_own, damage_unread, damage_slots_swapped, damage_last_place
    };
    unsigned count = chance(3) ? 2 + dice_below(2) : 1;

    if (chance(60)) {
        damage_all(e);
        return;
    }
    while (count-- > 0)
        damages[dice_below(sizeof damages / sizeof damages[0])](e);
}
