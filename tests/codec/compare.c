/*
 * The test: feeds the library and the reference with well-formed, damaged and
 * random messages and compares what they do, call by call.
 * The first argument, if any, is the seed of the dice.
 * Assumes that check.c ends the program at the first difference.
 */
#include "check.h"
#include "make.h"
#include "reference.h"

#include <inttypes.h>
#include <stdio.h>
#include <stdlib.h>
#include <string.h>

/* How often each part is run: at least ten million reads, a million writes. */
enum {
    ROOMS = 1500, CUT_OFF = 6000, DAMAGED_BYTES = 60, DAMAGED_BITS = 1200,
    DAMAGED_FIELDS = 150, ODD_PLACES = 300, ROUGH = 150000, RANDOM = 2000000
};

/* Where the view body begins in a message of each kind, 0 for none. */
static const size_t bodies[KINDS + 1] = { 0, 1, 0, 5, 3, 0, 1 };

static void compare_lengths(void)
{
    for (unsigned kind = 0; kind < 256; kind++) {
        unsigned known = kind <= KINDS ? lengths[kind] : 0;
        unsigned length = nh_length((uint8_t)kind), reference = ref_length((uint8_t)kind);

        if (length != known || reference != known) {
            printf("length of kind %u: %u, of the reference: %u\n", kind, length, reference);
            exit(1);
        }
    }
}

/* Room for every count of bytes. */
static void compare_rooms(uint8_t kind)
{
    uint64_t message[NH_FIELDS];
    uint8_t after[MOST_BYTES];

    make_message(kind, message);
    for (size_t room = 0; room <= MOST_BYTES; room++) {
        uint8_t answer = check_write(message, NH_FIELDS, room, after);

        check_that(answer == (room < lengths[kind]), "the room decides, and did not");
    }
}

/* Cut off at every length, and lengthened to it by noise. */
static void compare_cut_off(uint8_t kind)
{
    uint64_t message[NH_FIELDS], back[NH_FIELDS];
    uint8_t bytes[MOST_BYTES];

    check_fresh(kind, message, bytes);
    for (size_t length = 0; length <= MOST_BYTES; length++) {
        uint8_t answer = check_read(bytes, length, NH_FIELDS, back);

        check_that(answer == (length != lengths[kind]), "the length decides, and did not");
        check_that(answer || memcmp(back, message, sizeof back) == 0, "other fields came back");
    }
}

/* Every other value of every byte. */
static void compare_damaged_bytes(uint8_t kind)
{
    uint64_t message[NH_FIELDS];
    uint8_t bytes[MOST_BYTES];

    check_fresh(kind, message, bytes);
    for (size_t i = 0; i < lengths[kind]; i++)
        for (unsigned change = 1; change < 256; change++) {
            bytes[i] ^= (uint8_t)change;
            check_read_both_ways(bytes, lengths[kind]);
            bytes[i] ^= (uint8_t)change;
        }
}

static void compare_damaged_bits(uint8_t kind)
{
    uint64_t message[NH_FIELDS];
    uint8_t bytes[MOST_BYTES];

    check_fresh(kind, message, bytes);
    for (unsigned bit = 0; bit < 8u * lengths[kind]; bit++) {
        bytes[bit / 8] ^= (uint8_t)(1u << bit % 8);
        check_read_both_ways(bytes, lengths[kind]);
        bytes[bit / 8] ^= (uint8_t)(1u << bit % 8);
    }
}

/* Every field in turn: each edge number, a random one, each bit changed. */
static void compare_damaged_fields(uint8_t kind)
{
    uint64_t message[NH_FIELDS];

    make_message(kind, message);
    for (unsigned place = 0; place < NH_FIELDS; place++) {
        uint64_t kept = message[place];

        for (unsigned edge = 0; edge < EDGES; edge++) {
            message[place] = edges[edge];
            check_write_both_ways(message);
        }
        message[place] = dice();
        check_write_both_ways(message);
        for (unsigned bit = 0; bit < 64; bit++) {
            message[place] = kept ^ UINT64_C(1) << bit;
            check_write_both_ways(message);
        }
        message[place] = kept;
    }
}

/* Field areas of every size; a longer one is the message and noughts. */
static void compare_places(uint8_t kind)
{
    uint64_t message[MOST_PLACES] = { 0 }, back[MOST_PLACES];
    uint8_t bytes[MOST_BYTES], after[MOST_BYTES];

    check_fresh(kind, message, bytes);
    for (size_t places = 0; places <= MOST_PLACES; places++) {
        bool refused = places != NH_FIELDS;

        check_that(check_read(bytes, lengths[kind], places, back) == refused,
                   "the count of places decides, and did not");
        check_that(check_write(message, places, MOST_BYTES, after) == refused,
                   "the count of places decides, and did not");
    }
}

/* Several things wrong at once, or by chance none. */
static void compare_rough(uint8_t kind)
{
    uint64_t message[NH_FIELDS];
    uint8_t bytes[MOST_BYTES];

    check_fresh(kind, message, bytes);
    for (unsigned n = 1 + dice_below(4); n > 0; n--) {
        uint64_t edge = edges[dice_below(EDGES)];

        bytes[dice_below(lengths[kind])] = (uint8_t)edge;
        message[dice_below(NH_FIELDS)] = edge;
    }
    check_read_both_ways(bytes, lengths[kind]);
    check_write_both_ways(message);
}

static void compare_random(void)
{
    uint8_t bytes[MOST_BYTES];
    size_t length = dice_below(MOST_BYTES + 1);

    for (size_t i = 0; i < MOST_BYTES; i += 8) {
        uint64_t roll = dice();

        memcpy(bytes + i, &roll, 8);
    }
    if (dice_below(4) != 0)
        bytes[0] = (uint8_t)(1 + dice_below(KINDS));
    if (dice_below(4) != 0 && bytes[0] <= KINDS)
        length = lengths[bytes[0]];
    check_read_both_ways(bytes, length);
}

/* Eight numbers as fields and as bytes, so wide each: not 0 where the mask has a bit. */
static void set_eight(unsigned mask, uint64_t *fields, uint8_t *bytes, unsigned width)
{
    memset(bytes, 0, 8 * width);
    for (unsigned n = 0; n < 8; n++) {
        unsigned byte = dice_below(width);

        bytes[width * n + byte] = (uint8_t)((mask >> n & 1) << dice_below(8));
        fields[n] = (uint64_t)bytes[width * n + byte] << 8 * byte;
    }
}

/* The message with another view and cut: which start numbers and counts are not 0. */
static void compare_shape(uint64_t *message, uint8_t *bytes, uint8_t id, unsigned set,
                          unsigned starts, unsigned cut)
{
    uint8_t kind = bytes[0], *body = bytes + bodies[kind], after[MOST_BYTES], answer;

    message[NH_VIEW_ID] = id;
    memcpy(body, (const uint8_t[4]){ id }, 4);
    message[NH_VIEW_SET] = body[4] = (uint8_t)set;
    set_eight(starts, message + NH_STARTS, body + 5, 4);
    if (kind == NH_SYNC)
        set_eight(cut, message + NH_CUT, body + 37, 1);
    answer = check_read_both_ways(bytes, lengths[kind]);
    check_that(check_write(message, NH_FIELDS, MOST_BYTES, after) == answer,
               "the same message was read with another answer");
}

/* Every set with every choice of start numbers, and of counts, that are not 0. */
static void compare_shapes(uint8_t kind)
{
    uint64_t message[NH_FIELDS];
    uint8_t bytes[MOST_BYTES];

    if (bodies[kind] == 0)
        return;
    check_fresh(kind, message, bytes);
    for (unsigned shape = 0; shape < 0x10000; shape++)
        for (uint8_t id = 0; id < 2; id++) {
            unsigned set = shape & 0xff, chosen = shape >> 8;

            compare_shape(message, bytes, id, set, chosen, 0);
            if (kind == NH_SYNC)
                compare_shape(message, bytes, id, set, id ? set : 0, chosen);
        }
}

static void compare_each_kind(unsigned rounds, void (*compare)(uint8_t kind))
{
    for (unsigned round = 0; round < rounds; round++)
        for (uint8_t kind = 1; kind <= KINDS; kind++)
            compare(kind);
}

int main(int argc, char **argv)
{
    uint64_t seed = argc > 1 ? strtoull(argv[1], NULL, 0) : 1;

    printf("seed %" PRIu64 "\n", seed);
    fflush(stdout);
    dice_seed(seed);
    check_prepare();
    compare_lengths();
    compare_each_kind(ROOMS, compare_rooms);
    compare_each_kind(CUT_OFF, compare_cut_off);
    compare_each_kind(DAMAGED_BYTES, compare_damaged_bytes);
    compare_each_kind(DAMAGED_BITS, compare_damaged_bits);
    compare_each_kind(DAMAGED_FIELDS, compare_damaged_fields);
    compare_each_kind(ODD_PLACES, compare_places);
    compare_each_kind(ROUGH, compare_rough);
    compare_each_kind(1, compare_shapes);
    for (unsigned round = 0; round < RANDOM; round++)
        compare_random();
    return check_counts() ? 0 : 1;
}
