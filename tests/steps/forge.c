/*
 * Forges numbers, sets, views and messages.
 * Assumes that the end-point that is looked at may be any bytes.
 */
#include "forge.h"
#include "facts.h"
#include "fields.h"
#include "make.h"

bool chance(unsigned n)
{
    return dice_below(n) == 0;
}

uint32_t forge_number(uint32_t near)
{
    switch (dice_below(10)) {
    case 0:
        return near - 1;
    case 1:
        return near;
    case 2:
        return near + 2 + dice_below(5);
    case 3:
        return (uint32_t)edges[dice_below(EDGES)];
    case 4:
        return (uint32_t)dice() >> dice_below(32);
    default:
        return near + 1;
    }
}

uint8_t forge_member(void)
{
    uint8_t member = (uint8_t)dice_below(MEMBERS);

    return chance(40) ? (uint8_t)(chance(2) ? MEMBERS : dice_below(256)) : member;
}

uint8_t forge_set(void)
{
    uint8_t one = (uint8_t)dice_below(256), other = (uint8_t)dice_below(256);

    switch (dice_below(3)) {
    case 0:
        return one;
    case 1:
        return one & other;
    default:
        return one | other;
    }
}

uint8_t me_of(const nh_endpoint *e)
{
    return e->me % MEMBERS;
}

/* ---- Views. ---- */

void number_members(nh_view *v)
{
    for (unsigned n = 0; n < MEMBERS; n++)
        v->starts[n] = has_member(v->set, n) ? 1 + dice_below(4) : 0;
}

nh_view new_view(const nh_endpoint *e, unsigned q)
{
    nh_view v = { .set = (uint8_t)(forge_set() | only_member(me_of(e)) | only_member(q % MEMBERS)) };

    v.id = e->current.id > e->heard[q % MEMBERS].id ? e->current.id : e->heard[q % MEMBERS].id;
    v.id = forge_number(v.id);
    number_members(&v);
    v.starts[me_of(e)] = e->change.number + dice_below(4);
    if (chance(6))
        v.starts[me_of(e)] = forge_number(e->change.number);
    return v;
}

static nh_view known_view(const nh_endpoint *e, unsigned q)
{
    switch (dice_below(7)) {
    case 0:
        return e->current;
    case 1:
        return e->membership;
    case 2:
    case 3:
        return e->slots.tags[dice_below(SLOTS)].view;
    case 4:
        return e->heard[q % MEMBERS];
    case 5:
        return e->heard[dice_below(MEMBERS)];
    default:
        return e->records.held[dice_below(MEMBERS * RECORDS)].view;
    }
}

void alter_view(nh_view *v)
{
    unsigned n = dice_below(MEMBERS);

    switch (dice_below(4)) {
    case 0:
        v->id += chance(2) ? 1 : 2;
        break;
    case 1:
        if (v->id > 1)
            v->id--;
        break;
    case 2:
        if (v->starts[n] != 0 && v->starts[n] != UINT32_MAX)
            v->starts[n]++;
        break;
    default:
        if (v->id == 0 || v->set == only_member(n))
            break;
        v->set ^= only_member(n);
        v->starts[n] = has_member(v->set, n) ? 1 + dice_below(3) : 0;
    }
}

void spoil_view(nh_view *v)
{
    unsigned n = dice_below(MEMBERS);

    switch (dice_below(5)) {
    case 0:
        v->id = 0;
        break;
    case 1:
        v->set ^= only_member(n);
        break;
    case 2:
        v->starts[n] = v->starts[n] == 0 ? 1u << dice_below(32) : 0;
        break;
    case 3:
        v->set = 0;
        break;
    default:
        *v = (nh_view){ .set = forge_set() };
    }
}

nh_view forge_view(const nh_endpoint *e, unsigned q)
{
    nh_view v = chance(2) ? new_view(e, q) : known_view(e, q);

    if (chance(4))
        alter_view(&v);
    if (chance(30))
        spoil_view(&v);
    return v;
}

nh_view forge_membership(const nh_endpoint *e)
{
    nh_view v = { .id = forge_number(e->membership.id), .set = e->change.set & forge_set() };

    v.set |= only_member(me_of(e));
    if (chance(3))
        v.set = e->change.set;
    number_members(&v);
    for (unsigned r = 0; r < MEMBERS; r++) {
        unsigned count = e->records.counts[r] % (RECORDS + 1);

        /* Often one that names a record held. */
        if (has_member(v.set, r) && count > 0 && !chance(4))
            v.starts[r] = e->records.held[r * RECORDS + dice_below(count)].number;
    }
    v.starts[me_of(e)] = e->change.number;
    if (chance(8))
        v.starts[me_of(e)] = forge_number(e->change.number);
    if (chance(8))
        alter_view(&v);
    if (chance(20))
        spoil_view(&v);
    return v;
}

/* ---- Messages. ---- */

uint8_t forge_count(unsigned near)
{
    static const uint8_t some[] = { 0, 1, 2, 63, 64, 65, 127, 128, 129, 255 };

    switch (dice_below(8)) {
    case 0:
        return some[dice_below(sizeof some)];
    case 1:
        return (uint8_t)dice_below(WORDS + 1);
    default:
        return (uint8_t)(near + dice_below(4) - 1 > 255 ? 0 : near + dice_below(4) - 1);
    }
}

unsigned slot_for(const nh_endpoint *e, const nh_view *v)
{
    unsigned s = 0;

    while (s < SLOTS - 1 && !(e->slots.tags[s].used == 1 && same_nh_view(&e->slots.tags[s].view, v)))
        s++;
    return s;
}

unsigned run_of(const nh_endpoint *e, unsigned slot, unsigned r)
{
    const nh_held *row = &e->slots.marks[slot].rows[r];
    const struct model_marks marks = { row->low, row->high };

    return run(&marks);
}

/* The word that stands at this place, another, or one of a few. */
static uint64_t forge_word(const uint64_t *area, unsigned slot, unsigned r, unsigned i)
{
    if (chance(4))
        return dice_below(3);
    if (chance(3) || i == 0 || i > WORDS)
        return dice();
    return area[place(slot, r, i)];
}

void forge_cut(const nh_endpoint *e, nh_message *m)
{
    unsigned slot = slot_for(e, &m->view);

    for (unsigned r = 0; r < MEMBERS; r++) {
        uint8_t count = forge_count(run_of(e, slot, r));

        if (has_member(m->view.set, r))
            m->cut.counts[r] = count > WORDS && !chance(20) ? WORDS : count;
    }
    if (chance(40))
        m->cut.counts[dice_below(MEMBERS)] = (uint8_t)dice_below(256);
}

static uint32_t record_number(const nh_endpoint *e, unsigned q)
{
    unsigned count = e->records.counts[q] % (RECORDS + 1);

    if (e->membership.starts[q] != 0 && chance(3))
        return e->membership.starts[q];
    return forge_number(count == 0 ? 0 : e->records.held[q * RECORDS + count - 1].number);
}

static void spoil_message(nh_message *m)
{
    switch (dice_below(8)) {
    case 0:
        m->number = chance(2) ? 1 : (uint32_t)dice();
        break;
    case 1:
        m->set = (uint8_t)(1u << dice_below(8));
        break;
    case 2:
        m->sender = (uint8_t)(chance(2) ? 8 : dice_below(256));
        break;
    case 3:
        m->index = (uint8_t)(chance(2) ? 0 : 129 + dice_below(127));
        break;
    case 4:
        m->word = UINT64_C(1) << dice_below(64);
        break;
    case 5:
        m->cut.counts[dice_below(MEMBERS)] = (uint8_t)(chance(2) ? 129 : dice_below(256));
        break;
    case 6:
        m->kind = (uint8_t)(chance(2) ? dice_below(8) : dice_below(256));
        break;
    default:
        spoil_view(&m->view);
    }
}

nh_message forge_message(const nh_endpoint *e, unsigned q, const uint64_t *area)
{
    static const uint8_t kinds[] = { 1, 1, 1, 2, 2, 2, 3, 3, 4, 4, 4, 5, 6 };
    nh_message m = { .kind = kinds[dice_below(sizeof kinds)] };

    q %= MEMBERS;
    if (m.kind != NH_WORD && m.kind != NH_START_CHANGE)
        m.view = forge_view(e, q);
    switch (m.kind) {
    case NH_WORD:
        m.word = forge_word(area, slot_for(e, &e->heard[q]), q, (e->received[q] + 1u) % (WORDS + 1));
        break;
    case NH_SYNC:
        if (chance(2))
            m.view = e->current;
        m.number = record_number(e, q);
        forge_cut(e, &m);
        break;
    case NH_FORWARD:
        if (chance(2))
            m.view = e->current;
        m.sender = (uint8_t)dice_below(MEMBERS);
        m.index = forge_count(run_of(e, slot_for(e, &e->current), m.sender) + 1);
        if (m.index == 0 || m.index > WORDS)
            m.index = chance(20) ? m.index : 1;
        m.word = forge_word(area, slot_for(e, &e->current), m.sender, m.index);
        break;
    case NH_START_CHANGE:
        m.number = forge_number(e->change.number);
        m.set = forge_set();
        break;
    }
    if (chance(20))
        spoil_message(&m);
    return m;
}
