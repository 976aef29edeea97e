/*
 * Makes one call to the library and to the reference, on areas of their own,
 * compares answers, areas and everything around them, and counts the calls.
 * Assumes that the areas it lends are watched as areas.h says.
 */
#include "areas.h"
#include "check.h"
#include "make.h"
#include "reference.h"

#include <inttypes.h>
#include <stdio.h>
#include <stdlib.h>
#include <string.h>

#ifdef __SANITIZE_ADDRESS__
#include <sanitizer/common_interface_defs.h>
#endif

enum { NO_ANSWER = 255 };

/* Fewer calls than these, of any kind or in all, and the test has tested nothing. */
enum { LEAST = 100000, LEAST_READS = 10000000, LEAST_WRITES = 1000000 };

static struct lent bytes_lent = { .unit = 1 }, fields_lent = { .unit = sizeof(uint64_t) };

/* The call that is being compared, to be shown if it goes wrong. */
static const char *call_name = "no call";
static uint8_t answer = NO_ANSWER, expected = NO_ANSWER;

/* By call (read, write), kind (0 for any other) and answer. */
enum { READ, WRITE };
static uint64_t counts[2][KINDS + 1][2];
/* Accepted messages with a view: first those of id 0, then by the size of the set. */
static uint64_t views[9];

static void show_bytes(const char *whose, const uint8_t *bytes)
{
    printf("  bytes of the %s:", whose);
    for (size_t i = 0; i < bytes_lent.size; i++)
        printf(" %02x", bytes[i]);
    printf("\n");
}

static void show_fields(const char *whose, const void *area)
{
    const uint64_t *fields = area;

    printf("  fields of the %s:", whose);
    for (size_t i = 0; i < fields_lent.size / sizeof *fields; i++)
        printf(" %" PRIu64, fields[i]);
    printf("\n");
}

static void show_call(const char *what)
{
    printf("%s: %s\n", call_name, what);
    if (answer == NO_ANSWER)
        printf("  no answer of the library, of the reference: %u\n", expected);
    else
        printf("  answer of the library: %u, of the reference: %u\n", answer, expected);
    show_bytes("library", bytes_lent.at);
    show_bytes("reference", bytes_lent.twin);
    show_fields("library", fields_lent.at);
    show_fields("reference", fields_lent.twin);
    fflush(stdout);
}

#ifdef __SANITIZE_ADDRESS__
/* A touch of a forbidden page ends the program too; the call is shown even so. */
static void show_death(void)
{
    show_call("ended by the sanitizer or by a touch outside of an area");
}
#endif

void check_prepare(void)
{
    prepare(&bytes_lent, MOST_BYTES);
    prepare(&fields_lent, MOST_PLACES);
#ifdef __SANITIZE_ADDRESS__
    __sanitizer_set_death_callback(show_death);
#endif
}

void check_that(bool holds, const char *what)
{
    if (holds)
        return;
    show_call(what);
    exit(1);
}

/* What must hold after any call: in was only to be read, out had no content but noise. */
static void check_areas(const struct lent *in, const void *given, const struct lent *out)
{
    check_that(answer == expected, "the answers differ");
    check_that(answer <= 1, "the answer is neither 0 nor 1");
    check_that(guards_whole(in) && guards_whole(out), "bytes outside of an area were changed");
    check_that(memcmp(in->at, given, in->size) == 0, "an area that is only read was changed");
    check_that(same(out), "the areas differ");
    check_that(answer == 0 || untouched(out, 0), "refused, and yet the area was changed");
}

static void count_call(int call, uint64_t kind)
{
    const uint64_t *message = (const void *)fields_lent.at;
    unsigned size = 0;

    counts[call][kind > KINDS ? 0 : kind][answer]++;
    if (answer != 0 || message[NH_VIEW_SET] == 0)
        return;
    for (uint64_t set = message[NH_VIEW_SET]; set; set &= set - 1)
        size++;
    views[message[NH_VIEW_ID] == 0 ? 0 : size]++;
}

uint8_t check_read(const uint8_t *bytes, size_t length, size_t places, uint64_t *message)
{
    lend(&bytes_lent, bytes, length);
    lend(&fields_lent, NULL, places);
    call_name = "read";
    answer = NO_ANSWER;
    expected = ref_read(bytes_lent.twin, length, fields_lent.twin, places);
    answer = nh_read(bytes_lent.at, length, (void *)fields_lent.at, places);
    check_areas(&bytes_lent, bytes, &fields_lent);
    count_call(READ, length > 0 ? bytes[0] : 0);
    if (answer == 0)
        memcpy(message, fields_lent.at, fields_lent.size);
    return answer;
}

uint8_t check_write(const uint64_t *fields, size_t places, size_t room, uint8_t *after)
{
    lend(&bytes_lent, NULL, room);
    lend(&fields_lent, fields, places);
    call_name = "write";
    answer = NO_ANSWER;
    expected = ref_write(fields_lent.twin, places, bytes_lent.twin, room);
    answer = nh_write((void *)fields_lent.at, places, bytes_lent.at, room);
    check_areas(&fields_lent, fields, &bytes_lent);
    check_that(answer != 0 || (fields[NH_KIND] <= KINDS && room >= lengths[fields[NH_KIND]]
                               && untouched(&bytes_lent, lengths[fields[NH_KIND]])),
               "bytes after the written ones were changed");
    count_call(WRITE, places > 0 ? fields[NH_KIND] : 0);
    memcpy(after, bytes_lent.at, bytes_lent.size);
    return answer;
}

uint8_t check_read_both_ways(const uint8_t *bytes, size_t length)
{
    uint64_t message[NH_FIELDS];
    uint8_t after[MOST_BYTES];

    if (check_read(bytes, length, NH_FIELDS, message) != 0)
        return 1;
    if (dice_below(4) != 0)
        return 0;
    check_that(check_write(message, NH_FIELDS, length, after) == 0, "read, but cannot be written");
    check_that(memcmp(after, bytes, length) == 0, "written as other bytes than were read");
    return 0;
}

uint8_t check_write_both_ways(const uint64_t *message)
{
    uint64_t back[NH_FIELDS];
    uint8_t after[MOST_BYTES];
    size_t room = dice_below(4) ? MOST_BYTES : dice_below(MOST_BYTES + 1);

    if (check_write(message, NH_FIELDS, room, after) != 0)
        return 1;
    check_that(check_read(after, lengths[message[NH_KIND]], NH_FIELDS, back) == 0,
               "written, but cannot be read");
    check_that(memcmp(back, message, sizeof back) == 0, "read as other fields than were written");
    return 0;
}

void check_fresh(uint8_t kind, uint64_t *message, uint8_t *bytes)
{
    make_message(kind, message);
    check_that(check_write(message, NH_FIELDS, MOST_BYTES, bytes) == 0, "well formed, but refused");
}

static bool enough(uint64_t count, uint64_t least, const char *what, unsigned which)
{
    if (count < least)
        printf("too few compared: %" PRIu64 " %s %u\n", count, what, which);
    return count >= least;
}

bool check_counts(void)
{
    static const char *const names[2][2] = {
        { "accepted reads of kind", "refused reads of kind" },
        { "accepted writes of kind", "refused writes of kind" }
    };
    uint64_t sums[2][2] = { { 0 } };
    bool fine = true;

    for (int call = READ; call <= WRITE; call++)
        for (int refused = 0; refused < 2; refused++)
            for (unsigned kind = 0; kind <= KINDS; kind++) {
                uint64_t count = counts[call][kind][refused];

                sums[call][refused] += count;
                /* No other kind is ever accepted. */
                if (kind > 0 || refused)
                    fine &= enough(count, LEAST, names[call][refused], kind);
            }
    for (unsigned size = 0; size <= 8; size++)
        fine &= enough(views[size], LEAST, "views with a set of size (0: of id 0)", size);
    printf("compared %" PRIu64 " reads (%" PRIu64 " accepted, %" PRIu64 " refused) and %" PRIu64
           " writes (%" PRIu64 " accepted, %" PRIu64 " refused)\n",
           sums[READ][0] + sums[READ][1], sums[READ][0], sums[READ][1],
           sums[WRITE][0] + sums[WRITE][1], sums[WRITE][0], sums[WRITE][1]);
    return fine & enough(sums[READ][0] + sums[READ][1], LEAST_READS, "reads of kinds 0 to", KINDS)
        & enough(sums[WRITE][0] + sums[WRITE][1], LEAST_WRITES, "writes of kinds 0 to", KINDS);
}
