/*
 * Reading and writing messages in bytes: little-endian, exact lengths.
 *
 * Assumes that a lent area has as many bytes as the length beside it says.
 */
#include "messages.h"

enum { VIEW_BODY = 4 + 1 + 4 * MEMBERS };

size_t model_message_length(unsigned kind)
{
    switch (kind) {
    case KIND_VIEW:            return 1 + VIEW_BODY;
    case KIND_WORD:            return 1 + 8;
    case KIND_SYNC:            return 1 + 4 + VIEW_BODY + MEMBERS;
    case KIND_FORWARD:         return 1 + 1 + 1 + VIEW_BODY + 8;
    case KIND_START_CHANGE:    return 1 + 4 + 1;
    case KIND_MEMBERSHIP_VIEW: return 1 + VIEW_BODY;
    default:                   return 0;
    }
}

bool model_message_well_formed(const struct model_message *m)
{
    switch (m->kind) {
    case KIND_VIEW:
    case KIND_MEMBERSHIP_VIEW:
        return view_well_formed(&m->view);
    case KIND_SYNC:
        return view_well_formed(&m->view) && cut_well_formed(m->cut, m->view.set);
    case KIND_FORWARD:
        return m->sender < MEMBERS && m->index >= 1 && m->index <= WORDS
            && view_well_formed(&m->view);
    case KIND_WORD:
    case KIND_START_CHANGE:
        return true;
    default:
        return false;
    }
}

/* Each `take` reads a number and moves the place past it; `put` writes one. */

static uint64_t take(const uint8_t **at, unsigned bytes)
{
    uint64_t value = 0;
    for (unsigned k = 0; k < bytes; k++)
        value |= (uint64_t)(*at)[k] << (8 * k);
    *at += bytes;
    return value;
}

static void put(uint8_t **at, unsigned bytes, uint64_t value)
{
    for (unsigned k = 0; k < bytes; k++)
        (*at)[k] = (uint8_t)(value >> (8 * k));
    *at += bytes;
}

static void take_view(const uint8_t **at, struct model_view *v)
{
    v->id = (uint32_t)take(at, 4);
    v->set = (uint8_t)take(at, 1);
    for (unsigned n = 0; n < MEMBERS; n++)
        v->starts[n] = (uint32_t)take(at, 4);
}

static void put_view(uint8_t **at, const struct model_view *v)
{
    put(at, 4, v->id);
    put(at, 1, v->set);
    for (unsigned n = 0; n < MEMBERS; n++)
        put(at, 4, v->starts[n]);
}

static void take_fields(const uint8_t *at, struct model_message *m)
{
    m->kind = (uint8_t)take(&at, 1);
    switch (m->kind) {
    case KIND_VIEW:
    case KIND_MEMBERSHIP_VIEW:
        take_view(&at, &m->view);
        break;
    case KIND_WORD:
        m->word = take(&at, 8);
        break;
    case KIND_SYNC:
        m->number = (uint32_t)take(&at, 4);
        take_view(&at, &m->view);
        memcpy(m->cut, at, MEMBERS);
        break;
    case KIND_FORWARD:
        m->sender = (uint8_t)take(&at, 1);
        m->index = (uint8_t)take(&at, 1);
        take_view(&at, &m->view);
        m->word = take(&at, 8);
        break;
    case KIND_START_CHANGE:
        m->number = (uint32_t)take(&at, 4);
        m->set = (uint8_t)take(&at, 1);
        break;
    }
}

static void put_fields(uint8_t *at, const struct model_message *m)
{
    put(&at, 1, m->kind);
    switch (m->kind) {
    case KIND_VIEW:
    case KIND_MEMBERSHIP_VIEW:
        put_view(&at, &m->view);
        break;
    case KIND_WORD:
        put(&at, 8, m->word);
        break;
    case KIND_SYNC:
        put(&at, 4, m->number);
        put_view(&at, &m->view);
        memcpy(at, m->cut, MEMBERS);
        break;
    case KIND_FORWARD:
        put(&at, 1, m->sender);
        put(&at, 1, m->index);
        put_view(&at, &m->view);
        put(&at, 8, m->word);
        break;
    case KIND_START_CHANGE:
        put(&at, 4, m->number);
        put(&at, 1, m->set);
        break;
    }
}

int model_read(const uint8_t *bytes, size_t length, struct model_message *m)
{
    struct model_message read = { 0 };
    if (length == 0 || length != model_message_length(bytes[0]))
        return 1;
    take_fields(bytes, &read);
    if (!model_message_well_formed(&read))
        return 1;
    *m = read;
    return 0;
}

int model_write(const struct model_message *m, uint8_t *area, size_t room, size_t *length)
{
    if (!model_message_well_formed(m) || room < model_message_length(m->kind))
        return 1;
    put_fields(area, m);
    *length = model_message_length(m->kind);
    return 0;
}
