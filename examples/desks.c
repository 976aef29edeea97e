/*
 * Two desks come together in a view, send words to each other and give them out:
 * what a driver does with an end-point. All that goes from desk to desk, and from
 * the membership service to a desk, goes as bytes.
 * Assumes nothing but the public header; link it with libnhuoseng.a alone.
 */
#include "nhuoseng.h"

#include <inttypes.h>
#include <stdio.h>
#include <stdlib.h>
#include <string.h>

enum { DESKS = 2, CHANNEL_ROOM = 8, GIVEN_ROOM = 8 };

struct packet {
    uint8_t bytes[NH_LONGEST];
    size_t length;
};

/* In order: what came first is received first. */
struct channel {
    struct packet packets[CHANNEL_ROOM];
    unsigned count;
};

/* What the driver keeps of a desk: its end-point, its word area, what it gave out. */
struct desk {
    nh_endpoint e;
    uint64_t area[NH_AREA];
    uint64_t given[DESKS][GIVEN_ROOM];
    size_t given_count[DESKS];
};

static struct desk desks[DESKS];
static struct channel channels[DESKS][DESKS]; /* from by to */

static void stop_where_refused(unsigned p, const char *step, unsigned number)
{
    if (number == NH_ACCEPTED)
        return;
    printf("desk %u, %s: refused with %u, which was not expected\n", p, step, number);
    exit(1);
}

/* Every step goes through here: the desk's end-point is the one handed back. */
static nh_answer after(unsigned p, const char *step, nh_answer answer)
{
    stop_where_refused(p, step, answer.number);
    desks[p].e = answer.ep;
    return answer;
}

static void print_set(uint8_t set)
{
    const char *before = "";

    printf("{");
    for (unsigned n = 0; n < NH_MEMBERS; n++)
        if (set >> n & 1) {
            printf("%s%u", before, n);
            before = ",";
        }
    printf("}");
}

static struct packet packet_of(unsigned p, const nh_message *message)
{
    struct packet packet = { .length = nh_length(message->kind) };

    stop_where_refused(p, "write", nh_write_message(message, packet.bytes, sizeof packet.bytes));
    return packet;
}

/* What a step gave to be sent, into the channels of those in its set. */
static void send_out(unsigned p, const char *what, const nh_answer *answer)
{
    struct packet packet = packet_of(p, &answer->message);

    for (unsigned q = 0; q < DESKS; q++)
        if (answer->set >> q & 1) {
            struct channel *channel = &channels[p][q];

            if (channel->count == CHANNEL_ROOM) {
                printf("the channel from desk %u to desk %u is full\n", p, q);
                exit(1);
            }
            channel->packets[channel->count++] = packet;
        }
    printf("desk %u: %s to ", p, what);
    print_set(answer->set);
    printf(", %zu bytes\n", packet.length);
}

/* All that desk p has waiting from desk q. */
static void receive_all(unsigned p, unsigned q)
{
    struct channel *channel = &channels[q][p];

    for (unsigned k = 0; k < channel->count; k++) {
        struct packet *packet = &channel->packets[k];
        nh_message message = { 0 };

        stop_where_refused(p, "read", nh_read_message(packet->bytes, packet->length, &message));
        after(p, "receive", nh_receive(desks[p].e, desks[p].area, NH_AREA, (uint8_t)q, message));
        printf("desk %u: received %zu bytes of kind %u from desk %u\n", p, packet->length,
               message.kind, q);
    }
    channel->count = 0;
}

static void each_receives(void)
{
    receive_all(0, 1);
    receive_all(1, 0);
}

/* What the membership service says comes as bytes too. */
static void hear_membership(unsigned p, const nh_message *said)
{
    struct packet packet = packet_of(p, said);
    nh_message message = { 0 };

    stop_where_refused(p, "read", nh_read_message(packet.bytes, packet.length, &message));
    if (message.kind == NH_START_CHANGE) {
        after(p, "start change", nh_start_change(desks[p].e, message.number, message.set));
        printf("desk %u: start change %" PRIu32 " with ", p, message.number);
        print_set(message.set);
    } else {
        after(p, "membership view", nh_membership_view(desks[p].e, message.view));
        printf("desk %u: membership view %" PRIu32 " of ", p, message.view.id);
        print_set(message.view.set);
    }
    printf("\n");
}

/* Between start change and view: who must be reached, the application blocked, the cut told. */
static void prepare(unsigned p)
{
    nh_answer answer = after(p, "declare", nh_declare(desks[p].e));

    printf("desk %u: declared ", p);
    print_set(answer.set);
    after(p, "ask to block", nh_ask_to_block(desks[p].e));
    after(p, "block-ok", nh_block_ok(desks[p].e));
    printf("; asked to block, and blocked\n");
    answer = after(p, "sync", nh_sync(desks[p].e));
    send_out(p, "sync", &answer);
}

static void install(unsigned p)
{
    nh_answer answer = after(p, "install", nh_install(desks[p].e));

    printf("desk %u: installed view %" PRIu32 " of ", p, answer.view.id);
    print_set(answer.view.set);
    printf("; from its view before come ");
    print_set(answer.set);
    printf("\n");
    answer = after(p, "announce", nh_announce(desks[p].e));
    send_out(p, "announced its view", &answer);
}

static void send_words(unsigned p, const uint64_t *words, unsigned count)
{
    for (unsigned k = 0; k < count; k++) {
        nh_answer answer;

        after(p, "send", nh_send(desks[p].e, desks[p].area, NH_AREA, words[k]));
        answer = after(p, "pass out", nh_pass_out(desks[p].e, desks[p].area, NH_AREA));
        printf("desk %u: the application sends %" PRIu64 "\n", p, words[k]);
        send_out(p, "word", &answer);
    }
}

/* The first word of each member by itself, the rest as a batch. */
static void give_out(unsigned p)
{
    struct desk *d = &desks[p];

    for (uint8_t q = 0; q < DESKS; q++) {
        nh_batch batch;

        d->given[q][0] = after(p, "give out", nh_give_out(d->e, d->area, NH_AREA, q)).word;
        batch = nh_give_batch(d->e, d->area, NH_AREA, q, d->given[q] + 1, GIVEN_ROOM - 1);
        stop_where_refused(p, "batch", batch.number);
        d->e = batch.ep;
        d->given_count[q] = 1 + (size_t)batch.count;
        printf("desk %u: gave out from desk %u:", p, q);
        for (size_t k = 0; k < d->given_count[q]; k++)
            printf(" %" PRIu64, d->given[q][k]);
        printf("\n");
    }
}

static int same_given_out(void)
{
    for (unsigned q = 0; q < DESKS; q++)
        if (desks[0].given_count[q] != desks[1].given_count[q]
            || memcmp(desks[0].given[q], desks[1].given[q],
                      desks[0].given_count[q] * sizeof desks[0].given[q][0]) != 0)
            return 0;
    return 1;
}

int main(void)
{
    static const nh_message start = { .kind = NH_START_CHANGE, .number = 1, .set = 1 << 0 | 1 << 1 };
    static const nh_message view = {
        .kind = NH_MEMBERSHIP_VIEW,
        .view = { .id = 1, .set = 1 << 0 | 1 << 1, .starts = { 1, 1 } }
    };
    static const uint64_t of_0[] = { 100, 101, 102 }, of_1[] = { 200, 201 };

    for (uint8_t p = 0; p < DESKS; p++) {
        after(p, "fresh", nh_fresh(p));
        printf("desk %u: fresh, alone in its view\n", p);
    }
    for (unsigned p = 0; p < DESKS; p++) {
        hear_membership(p, &start);
        prepare(p);
    }
    each_receives();
    for (unsigned p = 0; p < DESKS; p++) {
        hear_membership(p, &view);
        install(p);
    }
    each_receives();
    send_words(0, of_0, 3);
    send_words(1, of_1, 2);
    each_receives();
    for (unsigned p = 0; p < DESKS; p++)
        give_out(p);

    if (!same_given_out()) {
        printf("the desks gave out different words\n");
        return 1;
    }
    printf("both desks gave out the same words\n");
    return 0;
}
