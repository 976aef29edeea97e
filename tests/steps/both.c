/*
 * Takes each step on the library's end-point and on the model's, compares all
 * that the two give back and leave behind, and notes what was seen.
 *
 * The library's end-point is the one that it handed back the time before, and so
 * is the model's: neither is ever mended by the other. What no step reads (own
 * entries, records beyond a count, free slots) is compared too: a step leaves it
 * as it was, or as the model's step does, which moves the same fields.
 */
#include "both.h"
#include "facts.h"
#include "fields.h"
#include "seen.h"

#include <inttypes.h>
#include <stdio.h>
#include <stdlib.h>

#ifdef __SANITIZE_ADDRESS__
#include <sanitizer/common_interface_defs.h>
#endif

/* The call that is being compared, to be shown if it goes wrong. */
static struct {
    const char *name;
    const struct desk *desk;
    uint64_t first, second;
    const nh_view *view;
    const nh_message *message;
    unsigned expected;
} call = { .name = "no call" };

static uint64_t the_seed;
static struct words out;

static void show_view(const char *name, const nh_view *v)
{
    printf("  %s: id %" PRIu32 " set %02x starts", name, v->id, v->set);
    for (unsigned n = 0; n < MEMBERS; n++)
        printf(" %" PRIu32, v->starts[n]);
    printf("\n");
}

static void show_call(const char *what)
{
    printf("seed %" PRIu64 ", call %lu, %s: %s\n", the_seed, seen_calls() + 1, call.name, what);
    printf("  arguments %" PRIu64 " and %" PRIu64 ", number of the model %u\n", call.first,
           call.second, call.expected);
    if (call.message != NULL) {
        const nh_message *m = call.message;

        printf("  message: kind %u number %" PRIu32 " set %02x sender %u index %u word %" PRIx64
               " cut", m->kind, m->number, m->set, m->sender, m->index, m->word);
        for (unsigned n = 0; n < MEMBERS; n++)
            printf(" %u", m->cut.counts[n]);
        printf("\n");
        show_view("message view", &m->view);
    }
    if (call.view != NULL)
        show_view("view", call.view);
    if (call.desk != NULL) {
        printf("  end-point %u, an area of %zu words\n", call.desk->e.me, call.desk->words->length);
        show_view("current", &call.desk->e.current);
        show_view("membership", &call.desk->e.membership);
    }
    fflush(stdout);
}

static void check_that(bool holds, const char *what)
{
    if (holds)
        return;
    show_call(what);
    exit(1);
}

static void check_number(unsigned number, unsigned expected)
{
    call.expected = expected;
    if (number == expected)
        return;
    printf("the library gives %u, the model %u\n", number, expected);
    check_that(false, "the numbers differ");
}

static void check_endpoint(const nh_endpoint *library, const nh_endpoint *expected, const char *what)
{
    if (fields_same(library, expected))
        return;
    show_call(what);
    fields_show_difference(library, expected);
    exit(1);
}

#ifdef __SANITIZE_ADDRESS__
static void show_death(void)
{
    show_call("ended by the sanitizer or by a touch outside of an area");
}
#endif

void both_prepare(uint64_t seed)
{
    the_seed = seed;
    fields_prepare();
    words_make(&out, MOST_ROOM);
#ifdef __SANITIZE_ADDRESS__
    __sanitizer_set_death_callback(show_death);
#endif
}

void both_agree(struct desk *d)
{
    model_of_endpoint(&d->e, &d->m);
}

/* Before a call: what it is, and an answer that has nothing yet. */
static struct given begin(const char *name, const struct desk *d, uint64_t first, uint64_t second)
{
    call.name = name;
    call.desk = d;
    call.first = first;
    call.second = second;
    call.view = NULL;
    call.message = NULL;
    call.expected = 0;
    return (struct given){ 0 };
}

static void note_one(const struct desk *d, bool takes_area, unsigned number)
{
    size_t length = d->words->length;

    if (number != NO1_MALFORMED)
        return;
    seen_if(!model_sound(&d->m), CASE_ONE_UNSOUND);
    if (!takes_area || !model_sound(&d->m))
        return;
    seen_if(length == 0, CASE_ONE_LENGTH_0);
    seen_if(length == 1, CASE_ONE_LENGTH_1);
    seen_if(length == AREA - 1, CASE_ONE_LENGTH_4095);
    seen_if(length == AREA + 1, CASE_ONE_LENGTH_4097);
}

/* After any call: the end-point handed back, and the areas. */
static void check_left(const struct desk *d, const nh_endpoint *library, unsigned number, bool stores)
{
    nh_endpoint expected;

    endpoint_of_model(&d->m, &expected);
    if (number != ACCEPTED)
        check_endpoint(library, &d->e, "refused, and yet the end-point is another");
    check_endpoint(library, &expected, "the end-points differ");
    check_that(words_guard_whole(d->words), "bytes before the word area were changed");
    if (number != ACCEPTED || !stores) {
        check_that(words_unchanged(d->words), "a word area was changed that is not to be");
        return;
    }
    const uint64_t last = d->words->kept[AREA - 1];
    check_that(words_one_stored(d->words), "the word areas differ");
    seen_if(d->words->kept[AREA - 1] != last, CASE_LAST_PLACE);
}

/* What may be asked of an end-point between its steps. The model's ready is for a sound one. */
static void check_asked(const struct desk *d)
{
    const bool sound = model_sound(&d->m);

    check_that(nh_sound(d->e) == (sound ? 1 : 0), "the library and the model differ on sound");
    seen_if(!sound, CASE_ASKED_UNSOUND);
    if (!sound)
        return;
    check_that(nh_ready(d->e) == (ready(&d->m) ? 1 : 0), "the library and the model differ on ready");
    seen_if(ready(&d->m), CASE_ASKED_READY);
    seen_if(!ready(&d->m) && d->m.pending, CASE_ASKED_PENDING);
}

static void settle(enum step step, struct desk *d, const nh_answer *a, const struct given *x)
{
    const bool stores = step == STEP_SEND || step == STEP_RECEIVE_WORD || step == STEP_RECEIVE_FORWARD;

    check_number(a->number, x->number);
    check_left(d, &a->ep, x->number, stores);
    check_that(same_nh_message(&a->message, &x->message), "the messages given differ");
    check_that(same_nh_view(&a->view, &x->view), "the views given differ");
    check_that(a->word == x->word, "the words given differ");
    check_that(a->set == x->set, "the sets given differ");
    d->e = a->ep;
    seen_step(step, x->number);
    check_asked(d);
}

/* What the model sends, as the library should. */
static void sends(struct given *x, const struct model_sending *sending)
{
    if (x->number != ACCEPTED)
        return;
    x->message = message_of_model(&sending->message);
    x->set = sending->to;
}

/* ---- Fresh. ---- */

/* Above 7: its number, and no set is its own. */
static void fresh_above(nh_endpoint *e, uint8_t p)
{
    memset(e, 0, sizeof *e);
    e->me = p;
    e->told = 1;
    e->slots.tags[0].used = 1;
    for (unsigned q = 0; q < MEMBERS; q++)
        e->heard[q].set = (uint8_t)(1u << q);
}

struct given both_fresh(struct desk *d, uint8_t p)
{
    struct given x = begin("fresh", d, p, 0);
    struct model_endpoint m;
    nh_answer a = nh_fresh(p);
    nh_endpoint expected;

    x.number = model_fresh(&m, p);
    if (x.number == ACCEPTED) {
        /* The model leaves its own entry blank, and never reads it. */
        m.announced_view[p] = initial_view(p);
        d->m = m;
        endpoint_of_model(&m, &d->e);
    }
    fresh_above(&expected, p);
    check_number(a.number, x.number);
    check_endpoint(&a.ep, x.number == ACCEPTED ? &d->e : &expected, "the fresh end-points differ");
    check_that(same_nh_message(&a.message, &x.message) && same_nh_view(&a.view, &x.view)
               && a.word == 0 && a.set == 0, "a fresh end-point came with more");
    if (x.number == ACCEPTED)
        d->e = a.ep;
    seen_step(STEP_FRESH, x.number);
    seen_if(p > MEMBERS, CASE_FRESH_ABOVE_8);
    return x;
}

/* ---- The application. ---- */

struct given both_send(struct desk *d, uint64_t word)
{
    struct given x = begin("send", d, word, 0);
    const bool asked = d->m.block == ASKED;

    x.number = model_send(&d->m, d->words->twin, d->words->length, word);
    nh_answer a = nh_send(d->e, d->words->lent, d->words->length, word);
    settle(STEP_SEND, d, &a, &x);
    note_one(d, true, x.number);
    if (x.number != ACCEPTED)
        return x;
    const unsigned slot = current_slot(&d->m);
    seen_if(asked, CASE_SEND_ASKED);
    seen_if(slot == SLOTS - 1, CASE_SEND_SLOT_3);
    seen_if(run(&d->m.marks[slot][d->m.p]) == WORDS, CASE_SEND_128);
    return x;
}

struct given both_block_ok(struct desk *d)
{
    struct given x = begin("block-ok", d, 0, 0);

    x.number = model_block_ok(&d->m);
    nh_answer a = nh_block_ok(d->e);
    settle(STEP_BLOCK_OK, d, &a, &x);
    note_one(d, false, x.number);
    return x;
}

/* ---- The membership service. ---- */

static unsigned slots_used(const struct model_endpoint *m)
{
    unsigned count = 0;

    for (unsigned s = 0; s < SLOTS; s++)
        count += m->slot_used[s];
    return count;
}

struct given both_start_change(struct desk *d, uint32_t number, uint8_t set)
{
    struct given x = begin("start change", d, number, set);
    const unsigned before = slots_used(&d->m);

    x.number = model_start_change(&d->m, number, set);
    nh_answer a = nh_start_change(d->e, number, set);
    settle(STEP_START_CHANGE, d, &a, &x);
    note_one(d, false, x.number);
    seen_if(x.number == ACCEPTED && slots_used(&d->m) < before, CASE_START_FREES);
    seen_if(x.number == ACCEPTED && d->m.block != FREE, CASE_START_KEEPS_BLOCK);
    return x;
}

static bool any_forwarded(const struct model_endpoint *m)
{
    for (unsigned q = 0; q < MEMBERS; q++)
        if (eight_counts(m->forwarded[q]) != 0)
            return true;
    return false;
}

struct given both_membership_view(struct desk *d, const nh_view *view)
{
    struct given x = begin("membership view", d, 0, 0);
    const struct model_view v = model_view_of(view);
    const bool marked = any_forwarded(&d->m);

    call.view = view;
    x.number = model_membership_view(&d->m, &v);
    nh_answer a = nh_membership_view(d->e, *view);
    settle(STEP_MEMBERSHIP_VIEW, d, &a, &x);
    note_one(d, false, x.number);
    seen_if(x.number == NO1_MALFORMED && model_sound(&d->m), CASE_ONE_VIEW);
    seen_if(x.number == ACCEPTED && marked, CASE_MEMBERSHIP_CLEARS);
    if (x.number != NO4_OUT_OF_TURN)
        return x;
    const bool newest = v.starts[d->m.p] == d->m.start_number, fits = within(v.set, d->m.start_set);
    seen_if(!d->m.open, CASE_MEMBERSHIP_4_CLOSED);
    seen_if(!d->m.open && d->m.pending && newest && fits, CASE_MEMBERSHIP_4_PENDING);
    seen_if(d->m.open && !newest && fits, CASE_MEMBERSHIP_4_NUMBER);
    seen_if(d->m.open && newest && !fits, CASE_MEMBERSHIP_4_SET);
    return x;
}

/* ---- Receive. ---- */

static bool blank_view(const nh_view *v)
{
    return same_nh_view(v, &(nh_view){ 0 });
}

/* A field that is not 0 and that the kind does not have: the model has no eye for these. */
static bool other_field(const nh_message *m)
{
    const bool number = m->kind == NH_SYNC || m->kind == NH_START_CHANGE;
    const bool word = m->kind == NH_WORD || m->kind == NH_FORWARD;

    return (!number && m->number != 0) || (!word && m->word != 0)
        || (m->kind != NH_FORWARD && (m->sender != 0 || m->index != 0))
        || (m->kind != NH_START_CHANGE && m->set != 0)
        || (m->kind != NH_SYNC && eight_counts(m->cut.counts) != 0)
        || ((m->kind == NH_WORD || m->kind == NH_START_CHANGE) && !blank_view(&m->view));
}

static enum step step_of_kind(uint8_t kind)
{
    switch (kind) {
    case NH_VIEW:    return STEP_RECEIVE_VIEW;
    case NH_WORD:    return STEP_RECEIVE_WORD;
    case NH_SYNC:    return STEP_RECEIVE_SYNC;
    case NH_FORWARD: return STEP_RECEIVE_FORWARD;
    default:         return STEP_RECEIVE_OTHER;
    }
}

static bool marks_in(const struct model_marks marks[MEMBERS])
{
    uint64_t any = 0;

    for (unsigned r = 0; r < MEMBERS; r++)
        any |= marks[r].low | marks[r].high;
    return any != 0;
}

static void note_view(const struct model_endpoint *before, const struct model_view *v)
{
    const bool is_current = same_view(v, &before->current), gone = spent(before, v);
    const bool there = slot_of(before, v) < SLOTS, takes = !gone && !there;

    seen_if(takes, CASE_VIEW_TAKES_SLOT);
    seen_if(takes && marks_in(before->marks[lowest_free_slot(before)]), CASE_VIEW_TAKES_STALE);
    seen_if(there && !is_current, CASE_VIEW_HAS_SLOT);
    seen_if(is_current, CASE_VIEW_CURRENT);
    seen_if(gone, CASE_VIEW_SPENT);
    seen_if(lowest_free_slot(before) == SLOTS, CASE_VIEW_FULL_NOT_NEEDED);
}

static void note_word(const struct model_endpoint *before, unsigned q)
{
    const struct model_view *v = &before->announced_view[q];
    const unsigned slot = slot_of(before, v), next = before->received[q] + 1u;

    if (spent(before, v)) {
        seen_if(true, CASE_WORD_SPENT);
        seen_if(before->received[q] == WORDS, CASE_WORD_SPENT_128);
        return;
    }
    seen_if(!same_view(v, &before->current), CASE_WORD_AHEAD);
    seen_if(held(&before->marks[slot][q], next), CASE_WORD_HELD);
    seen_if(next == WORDS, CASE_WORD_128);
    seen_if(slot == SLOTS - 1, CASE_WORD_SLOT_3);
    seen_if(run(&before->marks[slot][q]) + 1 < next, CASE_WORD_GAP);
}

static void note_forward(const struct model_endpoint *before, const struct model_message *m)
{
    const bool here = same_view(&m->view, &before->current);
    const bool there = here && held(&before->marks[current_slot(before)][m->sender], m->index);

    seen_if(here && !there, CASE_FORWARD_STORED);
    seen_if(there, CASE_FORWARD_HELD);
    seen_if(!here, CASE_FORWARD_NOT_CURRENT);
    seen_if(!here && m->view.id == before->current.id, CASE_FORWARD_SAME_ID);
}

static void note_received(const struct model_endpoint *before, unsigned q, const struct model_message *m)
{
    switch (m->kind) {
    case KIND_VIEW:
        note_view(before, &m->view);
        break;
    case KIND_WORD:
        note_word(before, q);
        break;
    case KIND_SYNC:
        seen_if(before->record_count[q] == RECORDS, CASE_SYNC_FIFTH);
        break;
    default:
        note_forward(before, m);
    }
}

static void note_not_received(const struct desk *d, uint8_t q, const nh_message *message)
{
    const struct model_message m = model_message_of(message);

    if (!model_sound(&d->m) || d->words->length != AREA)
        return;
    seen_if(q >= MEMBERS, CASE_ONE_MEMBER);
    seen_if(q == d->m.p, CASE_ONE_ONESELF);
    if (q >= MEMBERS || q == d->m.p)
        return;
    seen_if(other_field(message) && model_message_well_formed(&m), CASE_ONE_OTHER_FIELD);
    seen_if(!model_message_well_formed(&m) && !other_field(message), CASE_ONE_MESSAGE);
    seen_if(message->kind == NH_START_CHANGE && !other_field(message), CASE_ONE_KIND_5);
    seen_if(message->kind == NH_MEMBERSHIP_VIEW && !other_field(message)
            && model_message_well_formed(&m), CASE_ONE_KIND_6);
}

struct given both_receive(struct desk *d, uint8_t from, const nh_message *message)
{
    struct given x = begin("receive", d, from, message->kind);
    const struct model_message m = model_message_of(message);
    const struct model_endpoint before = d->m;

    call.message = message;
    x.number = NO1_MALFORMED;
    if (!other_field(message))
        x.number = model_receive(&d->m, d->words->twin, d->words->length, from, &m);
    nh_answer a = nh_receive(d->e, d->words->lent, d->words->length, from, *message);
    settle(step_of_kind(message->kind), d, &a, &x);
    note_one(d, true, x.number);
    if (x.number == ACCEPTED)
        note_received(&before, from, &m);
    if (x.number == NO1_MALFORMED)
        note_not_received(d, from, message);
    seen_if(x.number == NO2_ABSENT && m.kind == KIND_FORWARD && m.sender == d->m.p
            && has_member(m.view.set, m.sender) && has_member(m.view.set, from), CASE_FORWARD_OWN);
    return x;
}

/* ---- The change. ---- */

struct given both_ask_to_block(struct desk *d)
{
    struct given x = begin("ask to block", d, 0, 0);

    x.number = model_ask_to_block(&d->m);
    nh_answer a = nh_ask_to_block(d->e);
    settle(STEP_ASK, d, &a, &x);
    note_one(d, false, x.number);
    seen_if(x.number == NO4_OUT_OF_TURN && !d->m.pending && d->m.block == FREE, CASE_ASK_4_FREE);
    seen_if(x.number == NO4_OUT_OF_TURN && d->m.pending, CASE_ASK_4_ASKED);
    return x;
}

struct given both_declare(struct desk *d)
{
    struct given x = begin("declare", d, 0, 0);
    uint8_t declared = 0;

    x.number = model_declare(&d->m, &declared);
    x.set = declared;
    nh_answer a = nh_declare(d->e);
    settle(STEP_DECLARE, d, &a, &x);
    note_one(d, false, x.number);
    if (x.number != ACCEPTED)
        return x;
    const bool more = !within(d->m.start_set, d->m.current.set);
    seen_if(d->m.pending && more, CASE_DECLARE_PENDING);
    seen_if(d->m.pending && !d->m.open && more, CASE_DECLARE_CLOSED);
    seen_if(!d->m.pending && more, CASE_DECLARE_PLAIN);
    return x;
}

struct given both_announce(struct desk *d)
{
    struct given x = begin("announce", d, 0, 0);
    struct model_sending sending;

    x.number = model_announce(&d->m, &sending);
    sends(&x, &sending);
    nh_answer a = nh_announce(d->e);
    settle(STEP_ANNOUNCE, d, &a, &x);
    note_one(d, false, x.number);
    return x;
}

struct given both_pass_out(struct desk *d)
{
    struct given x = begin("pass out", d, 0, 0);
    struct model_sending sending;

    x.number = model_pass_out(&d->m, d->words->twin, d->words->length, &sending);
    sends(&x, &sending);
    nh_answer a = nh_pass_out(d->e, d->words->lent, d->words->length);
    settle(STEP_PASS_OUT, d, &a, &x);
    note_one(d, true, x.number);
    return x;
}

struct given both_sync(struct desk *d)
{
    struct given x = begin("sync", d, 0, 0);
    struct model_sending sending;
    const unsigned count = d->m.p < MEMBERS ? d->m.record_count[d->m.p] : 0;

    x.number = model_sync(&d->m, &sending);
    sends(&x, &sending);
    nh_answer a = nh_sync(d->e);
    settle(STEP_SYNC, d, &a, &x);
    note_one(d, false, x.number);
    seen_if(x.number == ACCEPTED && count == RECORDS, CASE_OWN_FIFTH);
    if (x.number != NO4_OUT_OF_TURN)
        return x;
    const bool there = record_numbered(&d->m, d->m.p, d->m.start_number) != NULL;
    const bool blocked = d->m.block == BLOCKED;
    seen_if(!d->m.pending && blocked && !there, CASE_SYNC_4_PENDING);
    seen_if(d->m.pending && !blocked && !there, CASE_SYNC_4_BLOCKED);
    seen_if(d->m.pending && blocked && there, CASE_SYNC_4_RECORD);
    return x;
}

static void note_due(const struct model_endpoint *before, unsigned q, unsigned r, const struct given *x)
{
    const uint8_t t = t_of(before);
    const struct stretch words = due_above_mark(before, t, q, r);

    seen_if(x->number == ACCEPTED && x->message.index > words.above + 1, CASE_DUE_SKIPS);
    seen_if(x->number == ACCEPTED && before->forwarded[q][r] > 0, CASE_DUE_SECOND);
    if (x->number != NO10_NOTHING_TO_DO)
        return;
    seen_if(words.above < words.last, CASE_DUE_NOT_HELD);
    if (!has_member(t, before->p) || !has_member(t, q) || q == before->p || has_member(t, r))
        return;
    /* p has words of r that q lacks, and yet none is due: another was there first. */
    seen_if(before->forwarded[q][r] == 0 && named(before, q)->cut[r] < words.last
            && words.above >= words.last, CASE_DUE_LOWER_HOLDER);
}

struct given both_forward(struct desk *d, uint8_t to, uint8_t of)
{
    struct given x = begin("forward", d, to, of);
    struct model_sending sending;
    const struct model_endpoint before = d->m;

    x.number = model_forward(&d->m, d->words->twin, d->words->length, to, of, &sending);
    sends(&x, &sending);
    nh_answer a = nh_forward(d->e, d->words->lent, d->words->length, to, of);
    settle(STEP_FORWARD, d, &a, &x);
    note_one(d, true, x.number);
    if (x.number == ACCEPTED || x.number == NO10_NOTHING_TO_DO)
        note_due(&before, to, of, &x);
    seen_if(x.number == NO1_MALFORMED && model_sound(&d->m) && d->words->length == AREA,
            CASE_ONE_MEMBER);
    return x;
}

/* ---- Give out. ---- */

static const struct model_record *own_record(const struct model_endpoint *m)
{
    return m->pending ? record_numbered(m, m->p, m->start_number) : NULL;
}

struct given both_give_out(struct desk *d, uint8_t from)
{
    struct given x = begin("give out", d, from, 0);
    uint64_t word = 0;

    x.number = model_give_out(&d->m, d->words->twin, d->words->length, from, &word);
    x.word = word;
    nh_answer a = nh_give_out(d->e, d->words->lent, d->words->length, from);
    settle(STEP_GIVE_OUT, d, &a, &x);
    note_one(d, true, x.number);
    if (x.number == NO1_MALFORMED) {
        seen_if(model_sound(&d->m) && d->words->length == AREA, CASE_ONE_MEMBER);
        return x;
    }
    const struct model_record *own = own_record(&d->m);
    seen_if(x.number == NO10_NOTHING_TO_DO && from == d->m.p
            && d->m.given[from] < run(&d->m.marks[current_slot(&d->m)][from]), CASE_GIVE_OWN_10);
    seen_if(x.number == ACCEPTED && current_slot(&d->m) == SLOTS - 1, CASE_GIVE_SLOT_3);
    seen_if(x.number == NO11_BEYOND_CUT && !ready(&d->m), CASE_GIVE_11_CUT);
    seen_if(x.number == NO11_BEYOND_CUT && ready(&d->m), CASE_GIVE_11_AGREED);
    seen_if(x.number == ACCEPTED && own != NULL && d->m.given[from] > own->cut[from], CASE_GIVE_AGREED);
    return x;
}

/* The batch against the model's, and against so many single give-outs of the model's. */
static void check_batch(const struct model_endpoint *before, const struct desk *d, uint8_t from,
                        size_t room, size_t count)
{
    struct model_endpoint single = *before;
    enum model_number ended = ACCEPTED;
    size_t given = 0;
    uint64_t word = 0;

    while (ended == ACCEPTED && given < room) {
        ended = model_give_out(&single, d->words->twin, d->words->length, from, &word);
        if (ended != ACCEPTED)
            break;
        check_that(out.lent[given] == word, "a batch gave another word than a give-out");
        given++;
    }
    check_that(given == count, "a batch gave another count than give-outs");
    check_that(single.given[from] == d->m.given[from], "a batch left another count given");
    seen_if(ended == ACCEPTED && room > 0, CASE_BATCH_ROOM);
    seen_if(ended == NO10_NOTHING_TO_DO, CASE_BATCH_10);
    seen_if(ended == NO11_BEYOND_CUT, CASE_BATCH_11);
    seen_if(room == 0 && model_give_out(&single, d->words->twin, d->words->length, from, &word)
            == ACCEPTED, CASE_BATCH_NONE);
    seen_if(count == WORDS, CASE_BATCH_128);
}

unsigned both_batch(struct desk *d, uint8_t from, size_t room)
{
    struct given x = begin("batch", d, from, room);
    const struct model_endpoint before = d->m;
    size_t count = 0;

    words_resize(&out, room);
    x.number = model_batch(&d->m, d->words->twin, d->words->length, from, out.twin, room, &count);
    nh_batch b = nh_give_batch(d->e, d->words->lent, d->words->length, from, out.lent, room);
    check_number(b.number, x.number);
    check_that(b.count == count, "the counts given differ");
    check_left(d, &b.ep, x.number, false);
    check_that(words_guard_whole(&out), "bytes before the batch's area were changed");
    check_that(memcmp(out.lent, out.twin, room * sizeof *out.lent) == 0, "the words given differ");
    check_that(memcmp(out.lent + count, out.kept + count, (room - count) * sizeof *out.lent) == 0,
               "words after the given ones were changed");
    d->e = b.ep;
    seen_step(STEP_BATCH, x.number);
    note_one(d, true, x.number);
    if (x.number == ACCEPTED)
        check_batch(&before, d, from, room, count);
    return (unsigned)count;
}

/* ---- Install. ---- */

static void note_install(const struct model_endpoint *before)
{
    const uint8_t t = t_of(before);

    seen_if(slot_of(before, &before->membership) < SLOTS, CASE_INSTALL_OWN_SLOT);
    seen_if(slot_of(before, &before->membership) == SLOTS, CASE_INSTALL_NEW_SLOT);
    seen_if(before->open, CASE_INSTALL_WHILE_OPEN);
    for (unsigned r = 0; r < MEMBERS; r++) {
        if (!has_member(members_of_both(before), r))
            continue;
        const struct model_record *record = named(before, r);
        seen_if(!has_member(t, r), CASE_T_LACKS);
        seen_if(!has_member(t, r) && record->view.id == before->current.id, CASE_T_SAME_ID);
        seen_if(record != &before->records[r][before->record_count[r] - 1], CASE_NAMED_NOT_NEWEST);
    }
}

static bool next_due_held(const struct model_endpoint *m)
{
    for (unsigned q = 0; q < MEMBERS; q++)
        for (unsigned r = 0; r < MEMBERS; r++) {
            const struct stretch words = due_above_mark(m, t_of(m), q, r);

            for (unsigned i = words.above + 1; i <= words.last; i++)
                if (held(&m->marks[current_slot(m)][r], i))
                    return true;
        }
    return false;
}

struct given both_install(struct desk *d)
{
    struct given x = begin("install", d, 0, 0);
    struct model_installed installed;
    const struct model_endpoint before = d->m;

    x.number = model_install(&d->m, &installed);
    if (x.number == ACCEPTED) {
        x.view = view_of_model(&installed.view);
        x.set = installed.t;
    }
    nh_answer a = nh_install(d->e);
    settle(STEP_INSTALL, d, &a, &x);
    note_one(d, false, x.number);
    if (x.number == ACCEPTED)
        note_install(&before);
    seen_if(x.number == NO12_NOT_FORWARDED && !next_due_held(&d->m), CASE_TWELVE_NOT_HELD);
    return x;
}

/* ---- Messages in bytes. ---- */

nh_message both_read(const uint8_t *bytes, size_t length)
{
    nh_message read = { 0 };
    struct model_message m;

    begin("read", NULL, length, 0);
    check_that(nh_read_message(bytes, length, &read) == 0 && model_read(bytes, length, &m) == 0,
               "a message in bytes was refused");
    const nh_message expected = message_of_model(&m);
    check_that(same_nh_message(&read, &expected), "the messages read differ");
    return read;
}

size_t both_write(const nh_message *message, uint8_t bytes[NH_LONGEST])
{
    const struct model_message m = model_message_of(message);
    uint8_t twin[NH_LONGEST];
    size_t length = 0;

    begin("write", NULL, message->kind, 0);
    call.message = message;
    check_that(nh_write_message(message, bytes, NH_LONGEST) == 0
               && model_write(&m, twin, NH_LONGEST, &length) == 0, "a message was not written");
    check_that(nh_length(message->kind) == length, "a message has another length");
    check_that(memcmp(bytes, twin, length) == 0, "the messages written differ");
    const nh_message back = both_read(bytes, length);
    check_that(same_nh_message(&back, message), "another message is read than was written");
    return length;
}
