/*
 * The table of an end-point's fields, made once from the header's structs.
 * Assumes nothing of the library.
 */
#include "fields.h"

#include <inttypes.h>
#include <stdio.h>
#include <stdlib.h>
#include <string.h>

enum { MOST_FIELDS = 1024, NAME = 48, MOST_SHOWN = 12 };

struct field {
    char name[NAME];
    size_t at;
    size_t size;
};

/* Fields that stand side by side, as one stretch of bytes. */
struct stretch {
    size_t at;
    size_t size;
};

static struct field fields[MOST_FIELDS];
static struct stretch stretches[MOST_FIELDS];
static unsigned field_total, stretch_total;

static void add(const char *of, const char *part, unsigned k, size_t at, size_t size)
{
    struct field *f = &fields[field_total++];

    if (field_total > MOST_FIELDS) {
        printf("more fields than there is room for\n");
        exit(1);
    }
    snprintf(f->name, sizeof f->name, "%s%s[%u]", of, part, k);
    f->at = at;
    f->size = size;
    if (stretch_total > 0 && stretches[stretch_total - 1].at + stretches[stretch_total - 1].size == at) {
        stretches[stretch_total - 1].size += size;
        return;
    }
    stretches[stretch_total++] = (struct stretch){ at, size };
}

static void add_bytes(const char *name, size_t at, unsigned count)
{
    for (unsigned k = 0; k < count; k++)
        add("", name, k, at + k, 1);
}

static void add_view(const char *name, unsigned k, size_t at)
{
    char of[NAME];

    snprintf(of, sizeof of, "%s[%u]", name, k);
    for (unsigned n = 0; n < NH_MEMBERS; n++)
        add(of, ".starts", n, at + offsetof(nh_view, starts) + 4 * n, 4);
    add(of, ".id", 0, at + offsetof(nh_view, id), 4);
    add(of, ".set", 0, at + offsetof(nh_view, set), 1);
}

static void add_records(size_t at)
{
    for (unsigned k = 0; k < NH_MEMBERS * NH_HELD; k++) {
        size_t record = at + offsetof(nh_records, held) + k * sizeof(nh_record);
        char of[NAME];

        snprintf(of, sizeof of, "records[%u]", k);
        add_view("records.view", k, record + offsetof(nh_record, view));
        for (unsigned n = 0; n < NH_MEMBERS; n++)
            add(of, ".cut", n, record + offsetof(nh_record, cut) + n, 1);
        add(of, ".number", 0, record + offsetof(nh_record, number), 4);
    }
    add_bytes("records.counts", at + offsetof(nh_records, counts), NH_MEMBERS);
}

static void add_slots(size_t at)
{
    for (unsigned s = 0; s < NH_SLOTS; s++) {
        size_t tag = at + offsetof(nh_slots, tags) + s * sizeof(nh_tag);

        add_view("tags.view", s, tag + offsetof(nh_tag, view));
        add("tags.", "used", s, tag + offsetof(nh_tag, used), 1);
    }
    for (unsigned k = 0; k < NH_SLOTS * NH_MEMBERS; k++) {
        size_t row = at + offsetof(nh_slots, marks) + k * sizeof(nh_held);

        add("marks.", "low", k, row + offsetof(nh_held, low), 8);
        add("marks.", "high", k, row + offsetof(nh_held, high), 8);
    }
}

void fields_prepare(void)
{
    add_view("current", 0, offsetof(nh_endpoint, current));
    add_view("membership", 0, offsetof(nh_endpoint, membership));
    for (unsigned q = 0; q < NH_MEMBERS; q++)
        add_view("heard", q, offsetof(nh_endpoint, heard) + q * sizeof(nh_view));
    add_records(offsetof(nh_endpoint, records));
    add_slots(offsetof(nh_endpoint, slots));
    add_bytes("forwarded", offsetof(nh_endpoint, forwarded), NH_MEMBERS * NH_MEMBERS);
    add_bytes("received", offsetof(nh_endpoint, received), NH_MEMBERS);
    add_bytes("given", offsetof(nh_endpoint, given), NH_MEMBERS);
    add("change.", "number", 0, offsetof(nh_endpoint, change.number), 4);
    add("change.", "set", 0, offsetof(nh_endpoint, change.set), 1);
    add("change.", "opened", 0, offsetof(nh_endpoint, change.opened), 1);
    add("change.", "pending", 0, offsetof(nh_endpoint, change.pending), 1);
    add("change.", "block", 0, offsetof(nh_endpoint, change.block), 1);
    add("", "me", 0, offsetof(nh_endpoint, me), 1);
    add("", "declared", 0, offsetof(nh_endpoint, declared), 1);
    add("", "told", 0, offsetof(nh_endpoint, told), 1);
    add("", "passed", 0, offsetof(nh_endpoint, passed), 1);
}

bool fields_same(const nh_endpoint *a, const nh_endpoint *b)
{
    for (unsigned k = 0; k < stretch_total; k++)
        if (memcmp((const uint8_t *)a + stretches[k].at, (const uint8_t *)b + stretches[k].at,
                   stretches[k].size) != 0)
            return false;
    return true;
}

unsigned fields_count(void)
{
    return field_total;
}

uint64_t field_get(const nh_endpoint *e, unsigned k)
{
    const uint8_t *at = (const uint8_t *)e + fields[k].at;
    uint64_t eight;
    uint32_t four;

    switch (fields[k].size) {
    case 1:
        return *at;
    case 4:
        memcpy(&four, at, 4);
        return four;
    default:
        memcpy(&eight, at, 8);
        return eight;
    }
}

void field_set(nh_endpoint *e, unsigned k, uint64_t value)
{
    uint8_t *at = (uint8_t *)e + fields[k].at;
    uint32_t four = (uint32_t)value;

    switch (fields[k].size) {
    case 1:
        *at = (uint8_t)value;
        break;
    case 4:
        memcpy(at, &four, 4);
        break;
    default:
        memcpy(at, &value, 8);
    }
}

void fields_show_difference(const nh_endpoint *library, const nh_endpoint *expected)
{
    unsigned shown = 0;

    for (unsigned k = 0; k < field_total && shown < MOST_SHOWN; k++)
        if (field_get(library, k) != field_get(expected, k)) {
            printf("  %s is %" PRIu64 " and should be %" PRIu64 "\n", fields[k].name,
                   field_get(library, k), field_get(expected, k));
            shown++;
        }
}

bool same_nh_view(const nh_view *a, const nh_view *b)
{
    return a->id == b->id && a->set == b->set && memcmp(a->starts, b->starts, sizeof a->starts) == 0;
}

bool same_nh_message(const nh_message *a, const nh_message *b)
{
    return same_nh_view(&a->view, &b->view) && a->word == b->word && a->number == b->number
        && memcmp(&a->cut, &b->cut, sizeof a->cut) == 0 && a->kind == b->kind && a->set == b->set
        && a->sender == b->sender && a->index == b->index;
}
