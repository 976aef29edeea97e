/*
 * States are made by the library's calls and handed on to the model. What one desk
 * sends is received by the others in the same order everywhere.
 */
#include "desks.h"
#include "convert.h"

#include <stdio.h>
#include <stdlib.h>

/* What each sends in a view that is left again. */
enum { WORDS_BEFORE = 5 };

void demand(unsigned number, const char *step)
{
    if (number == NH_ACCEPTED)
        return;
    fprintf(stderr, "%s: refused with %u\n", step, number);
    exit(1);
}

void desks_convert(struct desk *desks, unsigned count)
{
    for (unsigned p = 0; p < count; p++)
        model_of_endpoint(&desks[p].e, &desks[p].m);
}

static void each_receives(const struct side *side, struct desk *desks, unsigned count,
                          const struct sent *sent, const char *what)
{
    for (unsigned p = 0; p < count; p++)
        for (unsigned q = 0; q < count; q++)
            if (q != p)
                demand(side->receive(&desks[p], (uint8_t)q, &sent[q]), what);
}

static void tell_syncs(const struct side *side, struct desk *desks, unsigned count,
                       const nh_view *next)
{
    struct sent sent[NH_MEMBERS];

    for (unsigned p = 0; p < count; p++) {
        demand(side->start_change(&desks[p], next->id, next->set), "start change");
        demand(side->declare(&desks[p]), "declare");
        demand(side->ask_to_block(&desks[p]), "ask to block");
        demand(side->block_ok(&desks[p]), "block-ok");
        demand(side->sync(&desks[p], &sent[p]), "sync");
    }
    each_receives(side, desks, count, sent, "receive of a sync");
}

/* Which view comes next is kept here: each has an id and start numbers of its own. */
void desks_change(const struct side *side, struct desk *desks, unsigned count)
{
    static uint32_t last;
    nh_view next = { .id = ++last, .set = (uint8_t)((1u << count) - 1) };
    struct sent sent[NH_MEMBERS];

    for (unsigned p = 0; p < count; p++)
        next.starts[p] = next.id;
    tell_syncs(side, desks, count, &next);
    for (unsigned p = 0; p < count; p++) {
        demand(side->membership_view(&desks[p], &next), "membership view");
        demand(side->install(&desks[p]), "install");
        demand(side->announce(&desks[p], &sent[p]), "announce");
    }
    each_receives(side, desks, count, sent, "receive of a view");
}

void desks_speak(struct desk *desks, unsigned count, unsigned words)
{
    struct sent sent[NH_MEMBERS];

    for (unsigned k = 0; k < words; k++) {
        for (unsigned p = 0; p < count; p++) {
            demand(archive.send(&desks[p], 7), "send");
            demand(archive.pass_out(&desks[p], &sent[p]), "pass out");
        }
        each_receives(&archive, desks, count, sent, "receive of a word");
        for (unsigned p = 0; p < count; p++)
            for (unsigned q = 0; q < count; q++)
                demand(archive.give_out(&desks[p], (uint8_t)q), "give out");
    }
}

void desks_meet(struct desk *desks, unsigned count)
{
    for (unsigned p = 0; p < count; p++) {
        memset(&desks[p], 0, sizeof desks[p]);
        desks[p].e = nh_fresh((uint8_t)p).ep;
    }
    /* The first record is of the view before, in which nobody spoke. */
    for (unsigned k = 0; k <= NH_HELD; k++) {
        desks_change(&archive, desks, count);
        if (k < NH_HELD)
            desks_speak(desks, count, WORDS_BEFORE);
    }
    desks_convert(desks, count);
}
