/*
 * The benchmark of steps: nanoseconds per step of the archive, beside the model
 * with the same test of soundness and the model without it.
 *
 * In every round each side takes each step a few times, in turn, so that all meet
 * the same machine; the best of all rounds counts. A step is taken on one state
 * over and over: what it changed is set back after it, which is part of its time.
 * Assumes that the sides are built apart, so that no call is inlined.
 */
#define _POSIX_C_SOURCE 199309L

#include "convert.h"
#include "desks.h"

#include <stdio.h>
#include <time.h>

enum { SIDES = 3, PASSES = 64, ROUNDS = 1200, CHANGING = 3 };

typedef unsigned step_call(const struct side *side, struct desk *desks);

struct row {
    const char *title; /* of the table that begins here, or NULL */
    const char *step;
    step_call *take;
    unsigned members, words; /* words: in the view after the step */
    unsigned desks;          /* how many the step is about */
    struct desk now[CHANGING], before;
    double ns[SIDES];
};

static const struct side *const sides[SIDES] = { &archive, &checking, &trusting };
static const struct sent a_word = {
    .message = { .kind = NH_WORD, .word = 7 },
    .sending = { .message = { .kind = KIND_WORD, .word = 7 } }
};

static double now(void)
{
    struct timespec t;

    clock_gettime(CLOCK_MONOTONIC, &t);
    return 1e9 * (double)t.tv_sec + (double)t.tv_nsec;
}

static unsigned send(const struct side *side, struct desk *d)
{
    return side->send(d, 7);
}

static unsigned pass_out(const struct side *side, struct desk *d)
{
    struct sent sent;

    return side->pass_out(d, &sent);
}

static unsigned receive(const struct side *side, struct desk *d)
{
    return side->receive(d, 1, &a_word);
}

static unsigned give_out(const struct side *side, struct desk *d)
{
    return side->give_out(d, 1);
}

static unsigned give_batch(const struct side *side, struct desk *d)
{
    return side->give_batch(d, 1);
}

static unsigned change(const struct side *side, struct desk *desks)
{
    desks_change(side, desks, CHANGING);
    return 0;
}

/* The state before the step: all words but the last there and given out, then what the step needs. */
static void prepare(struct row *row)
{
    static struct desk desks[NH_MEMBERS];
    unsigned last = row->take == give_batch ? row->words : 1;

    desks_meet(desks, row->members);
    desks_speak(desks, row->members, row->words - last);
    if (row->take == pass_out)
        demand(archive.send(&desks[0], 7), "send");
    if (row->take == give_out || row->take == give_batch)
        for (unsigned k = 0; k < last; k++)
            demand(archive.receive(&desks[0], 1, &a_word), "receive of a word");
    desks_convert(desks, row->members);
    memcpy(row->now, desks, row->desks * sizeof desks[0]);
    row->before = desks[0];
    for (unsigned k = 0; k < SIDES; k++)
        row->ns[k] = 1e9;
}

static double time_steps(struct row *row, const struct side *side)
{
    unsigned passes = row->desks == 1 ? PASSES : 1, refused = 0;
    double start = now(), end;

    for (unsigned k = 0; k < passes; k++) {
        refused |= row->take(side, row->now);
        if (row->desks == 1)
            side->rewind(row->now, &row->before);
    }
    end = now();
    demand(refused, row->step);
    return (end - start) / passes;
}

static void measure(struct row *rows, unsigned count)
{
    for (unsigned r = 0; r < count; r++)
        prepare(&rows[r]);
    for (unsigned round = 0; round < ROUNDS; round++)
        for (unsigned r = 0; r < count; r++)
            for (unsigned k = 0; k < SIDES; k++) {
                double ns = time_steps(&rows[r], sides[k]);

                if (ns < rows[r].ns[k])
                    rows[r].ns[k] = ns;
            }
}

static void print(const struct row *rows, unsigned count)
{
    for (unsigned r = 0; r < count; r++) {
        const struct row *row = &rows[r];

        if (row->title != NULL)
            printf("%s\n%-20s %7s %5s %8s %9s %6s %9s %6s\n", row->title, "nanoseconds", "members",
                   "words", "archive", "checking", "ratio", "trusting", "ratio");
        printf("%-20s %7u %5u %8.0f %9.0f %6.2f %9.1f %6.1f\n", row->step, row->members,
               row->words, row->ns[0], row->ns[1], row->ns[0] / row->ns[1], row->ns[2],
               row->ns[0] / row->ns[2]);
    }
}

#define ROW(name, call, of, in) .step = name, .take = call, .members = of, .words = in, .desks = 1
static struct row rows[] = {
    { .title = "Steps", ROW("send", send, 4, 64) },
    { ROW("pass out", pass_out, 4, 64) },
    { ROW("receive a word", receive, 4, 64) },
    { ROW("give out", give_out, 4, 64) },
    { ROW("batch of 128", give_batch, 4, 128) },
    { .step = "change, three desks", .take = change, .members = 3, .words = 1, .desks = 3 },
    { .title = "By members", ROW("send", send, 2, 64) },
    { ROW("send", send, 8, 64) },
    { ROW("receive a word", receive, 2, 64) },
    { ROW("receive a word", receive, 8, 64) },
    { ROW("give out", give_out, 2, 64) },
    { ROW("give out", give_out, 8, 64) },
    { .title = "By words in the view", ROW("send", send, 4, 1) },
    { ROW("send", send, 4, 128) },
    { ROW("receive a word", receive, 4, 1) },
    { ROW("receive a word", receive, 4, 128) },
    { ROW("give out", give_out, 4, 1) },
    { ROW("give out", give_out, 4, 128) }
};

int main(void)
{
    enum { ROWS = sizeof rows / sizeof rows[0] };

    measure(rows, ROWS);
    print(rows, ROWS);
    printf("Size of the state in bytes: %zu archive, %zu model\n", archive.size, checking.size);
    return 0;
}
