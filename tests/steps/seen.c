/*
 * Counts what the test has seen. Which numbers a step can give is the scope's.
 */
#include "seen.h"

#include <stdio.h>

enum { NUMBERS = 16 };

#define N(number) (1u << (number))

static const struct {
    const char *name;
    unsigned numbers;
} steps[STEPS] = {
    [STEP_FRESH] = { "fresh", N(0) | N(1) },
    [STEP_SEND] = { "send", N(0) | N(1) | N(5) | N(6) },
    [STEP_BLOCK_OK] = { "block-ok", N(0) | N(1) | N(4) },
    [STEP_START_CHANGE] = { "start change", N(0) | N(1) | N(2) | N(3) },
    [STEP_MEMBERSHIP_VIEW] = { "membership view", N(0) | N(1) | N(2) | N(3) | N(4) },
    [STEP_RECEIVE_VIEW] = { "receive view", N(0) | N(1) | N(2) | N(3) | N(7) },
    [STEP_RECEIVE_WORD] = { "receive word", N(0) | N(1) | N(4) | N(6) | N(14) },
    [STEP_RECEIVE_SYNC] = { "receive sync", N(0) | N(1) | N(2) | N(3) },
    [STEP_RECEIVE_FORWARD] = { "receive forward", N(0) | N(1) | N(2) | N(14) },
    [STEP_RECEIVE_OTHER] = { "receive another kind", N(1) },
    [STEP_ASK] = { "ask to block", N(0) | N(1) | N(4) },
    [STEP_DECLARE] = { "declare", N(0) | N(1) },
    [STEP_ANNOUNCE] = { "announce", N(0) | N(1) | N(8) | N(10) },
    [STEP_PASS_OUT] = { "pass out", N(0) | N(1) | N(4) | N(10) },
    [STEP_SYNC] = { "sync", N(0) | N(1) | N(4) | N(8) },
    [STEP_FORWARD] = { "forward", N(0) | N(1) | N(4) | N(9) | N(10) },
    [STEP_GIVE_OUT] = { "give out", N(0) | N(1) | N(2) | N(10) | N(11) },
    [STEP_INSTALL] = { "install", N(0) | N(1) | N(4) | N(9) | N(12) | N(13) | N(15) },
    [STEP_BATCH] = { "batch", N(0) | N(1) | N(2) }
};

#define CASE_TEXT(name, text) text,
static const char *const case_texts[CASE_COUNT] = { CASES(CASE_TEXT) };
#undef CASE_TEXT

static unsigned long counts[STEPS][NUMBERS], cases[CASE_COUNT], calls;

void seen_step(enum step step, unsigned number)
{
    counts[step][number < NUMBERS ? number : NUMBERS - 1]++;
    calls++;
}

void seen_if(bool holds, enum seen_case which)
{
    cases[which] += holds;
}

const char *step_name(enum step step)
{
    return steps[step].name;
}

unsigned long seen_calls(void)
{
    return calls;
}

static bool steps_seen(void)
{
    bool fine = true;

    for (unsigned step = 0; step < STEPS; step++) {
        printf("%-20s", steps[step].name);
        for (unsigned number = 0; number < NUMBERS; number++) {
            bool can = (steps[step].numbers >> number & 1) != 0, was = counts[step][number] > 0;

            if (can || was)
                printf("  %u: %lu%s", number, counts[step][number],
                       can == was ? "" : can ? " NEVER SEEN" : " CANNOT BE");
            fine &= can == was;
        }
        printf("\n");
    }
    return fine;
}

static bool cases_seen(void)
{
    bool fine = true;

    for (unsigned which = 0; which < CASE_COUNT; which++) {
        printf("%9lu  %s%s\n", cases[which], case_texts[which], cases[which] ? "" : " NEVER SEEN");
        fine &= cases[which] > 0;
    }
    return fine;
}

bool seen_all(void)
{
    bool all_steps = steps_seen(), all_cases = cases_seen();

    return all_steps && all_cases;
}
