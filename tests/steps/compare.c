/*
 * The test: plays runs of two to eight desks on the library and on the model and
 * compares what they do, call by call. In between, copies of the desks as they
 * stand are damaged and given to every call.
 * The first argument, if any, is the seed of the dice.
 * Assumes that both.c ends the program at the first difference.
 */
#include "group.h"
#include "make.h"
#include "seen.h"

#include <inttypes.h>
#include <stdio.h>
#include <stdlib.h>

/* So many runs of so many turns for each desk; fewer calls, and the test has tested nothing. */
enum { RUNS = 44, TURNS = 1000 };
static const unsigned long least_calls = 400000;

int main(int argc, char **argv)
{
    uint64_t seed = argc > 1 ? strtoull(argv[1], NULL, 0) : 1;
    bool fine;

    printf("seed %" PRIu64 "\n", seed);
    fflush(stdout);
    dice_seed(seed);
    both_prepare(seed);
    group_prepare();
    for (unsigned k = 0; k < RUNS; k++)
        group_run(TURNS);
    fine = seen_all();
    printf("compared %lu calls on end-points with the model%s\n", seen_calls(),
           fine ? "" : "; what was NEVER SEEN, or CANNOT BE, is marked above");
    if (seen_calls() < least_calls) {
        printf("too few calls compared\n");
        fine = false;
    }
    return fine ? 0 : 1;
}
