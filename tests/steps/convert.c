/*
 * Between the library's structs and the model's. Assumes nothing of the values:
 * whatever stands in a field is handed on.
 */
#include "convert.h"

struct model_view model_view_of(const nh_view *v)
{
    struct model_view view = { .id = v->id, .set = v->set };

    memcpy(view.starts, v->starts, sizeof view.starts);
    return view;
}

nh_view view_of_model(const struct model_view *v)
{
    nh_view view = { .id = v->id, .set = v->set };

    memcpy(view.starts, v->starts, sizeof view.starts);
    return view;
}

struct model_message model_message_of(const nh_message *m)
{
    struct model_message message = {
        .view = model_view_of(&m->view), .word = m->word, .number = m->number, .kind = m->kind,
        .set = m->set, .sender = m->sender, .index = m->index
    };

    memcpy(message.cut, m->cut.counts, MEMBERS);
    return message;
}

nh_message message_of_model(const struct model_message *m)
{
    nh_message message = {
        .view = view_of_model(&m->view), .word = m->word, .number = m->number, .kind = m->kind,
        .set = m->set, .sender = m->sender, .index = m->index
    };

    memcpy(message.cut.counts, m->cut, MEMBERS);
    return message;
}

void model_of_endpoint(const nh_endpoint *e, struct model_endpoint *m)
{
    for (unsigned s = 0; s < SLOTS; s++) {
        m->slot_view[s] = model_view_of(&e->slots.tags[s].view);
        m->slot_used[s] = e->slots.tags[s].used;
        for (unsigned r = 0; r < MEMBERS; r++) {
            m->marks[s][r].low = e->slots.marks[s].rows[r].low;
            m->marks[s][r].high = e->slots.marks[s].rows[r].high;
        }
    }
    for (unsigned r = 0; r < MEMBERS; r++) {
        for (unsigned k = 0; k < RECORDS; k++) {
            const nh_record *record = &e->records.held[r * RECORDS + k];

            m->records[r][k].view = model_view_of(&record->view);
            m->records[r][k].number = record->number;
            memcpy(m->records[r][k].cut, record->cut.counts, MEMBERS);
        }
        m->record_count[r] = e->records.counts[r];
        m->announced_view[r] = model_view_of(&e->heard[r]);
        memcpy(m->forwarded[r], e->forwarded[r].marks, MEMBERS);
    }
    memcpy(m->received, e->received, MEMBERS);
    memcpy(m->given, e->given, MEMBERS);
    m->current = model_view_of(&e->current);
    m->membership = model_view_of(&e->membership);
    m->start_number = e->change.number;
    m->start_set = e->change.set;
    m->open = e->change.opened;
    m->pending = e->change.pending;
    m->block = e->change.block;
    m->p = e->me;
    m->declared = e->declared;
    m->announced = e->told;
    m->passed = e->passed;
}

void endpoint_of_model(const struct model_endpoint *m, nh_endpoint *e)
{
    for (unsigned s = 0; s < SLOTS; s++) {
        e->slots.tags[s].view = view_of_model(&m->slot_view[s]);
        e->slots.tags[s].used = m->slot_used[s];
        for (unsigned r = 0; r < MEMBERS; r++) {
            e->slots.marks[s].rows[r].low = m->marks[s][r].low;
            e->slots.marks[s].rows[r].high = m->marks[s][r].high;
        }
    }
    for (unsigned r = 0; r < MEMBERS; r++) {
        for (unsigned k = 0; k < RECORDS; k++) {
            nh_record *record = &e->records.held[r * RECORDS + k];

            record->view = view_of_model(&m->records[r][k].view);
            record->number = m->records[r][k].number;
            memcpy(record->cut.counts, m->records[r][k].cut, MEMBERS);
        }
        e->records.counts[r] = m->record_count[r];
        e->heard[r] = view_of_model(&m->announced_view[r]);
        memcpy(e->forwarded[r].marks, m->forwarded[r], MEMBERS);
    }
    memcpy(e->received, m->received, MEMBERS);
    memcpy(e->given, m->given, MEMBERS);
    e->current = view_of_model(&m->current);
    e->membership = view_of_model(&m->membership);
    e->change.number = m->start_number;
    e->change.set = m->start_set;
    e->change.opened = m->open;
    e->change.pending = m->pending;
    e->change.block = m->block;
    e->me = m->p;
    e->declared = m->declared;
    e->told = m->announced;
    e->passed = m->passed;
}
