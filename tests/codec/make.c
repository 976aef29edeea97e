/*
 * Dice, edge numbers and random well-formed messages.
 * Assumes nothing of the library or the reference: what is well formed is
 * worked out here once more, by making it so rather than by checking it.
 */
#include "make.h"

#include <string.h>

const uint64_t edges[EDGES] = {
    0, 1, 7, 8, 127, 128, 129, 255, 256, UINT32_MAX, UINT64_C(1) << 32, UINT64_MAX
};

const uint8_t lengths[KINDS + 1] = { 0, 38, 9, 50, 48, 6, 38 };

static uint64_t state;

void dice_seed(uint64_t seed)
{
    state = seed;
}

/* The step known as splitmix64. */
uint64_t dice(void)
{
    uint64_t z = state += UINT64_C(0x9e3779b97f4a7c15);

    z = (z ^ z >> 30) * UINT64_C(0xbf58476d1ce4e5b9);
    z = (z ^ z >> 27) * UINT64_C(0x94d049bb133111eb);
    return z ^ z >> 31;
}

unsigned dice_below(unsigned n)
{
    return (unsigned)((dice() >> 32) * n >> 32);
}

/* From least to most, both included: at an edge half of the time. */
static uint64_t number(uint64_t least, uint64_t most)
{
    unsigned shift = dice_below(64);
    uint64_t roll = dice() >> shift;

    if (dice_below(2) == 0)
        roll = edges[dice_below(EDGES)];
    if (roll > most)
        return most;
    return roll < least ? least : roll;
}

static uint64_t set_of(unsigned size)
{
    uint64_t set = 0;

    while (size > 0) {
        uint64_t member = UINT64_C(1) << dice_below(8);

        if (!(set & member)) {
            set |= member;
            size--;
        }
    }
    return set;
}

static void make_view(uint64_t *fields)
{
    if (dice_below(4) == 0) {
        fields[NH_VIEW_SET] = set_of(1);
        return;
    }
    fields[NH_VIEW_ID] = number(1, UINT32_MAX);
    fields[NH_VIEW_SET] = set_of(1 + dice_below(8));
    for (int n = 0; n < 8; n++)
        if (fields[NH_VIEW_SET] >> n & 1)
            fields[NH_STARTS + n] = number(1, UINT32_MAX);
}

void make_message(uint8_t kind, uint64_t *fields)
{
    memset(fields, 0, NH_FIELDS * sizeof *fields);
    fields[NH_KIND] = kind;
    if (kind != NH_WORD && kind != NH_START_CHANGE)
        make_view(fields);
    if (kind == NH_SYNC || kind == NH_START_CHANGE)
        fields[NH_NUMBER] = number(0, UINT32_MAX);
    if (kind == NH_START_CHANGE)
        fields[NH_SET] = dice_below(256);
    if (kind == NH_WORD || kind == NH_FORWARD)
        fields[NH_THE_WORD] = number(0, UINT64_MAX);
    if (kind == NH_FORWARD) {
        fields[NH_SENDER] = dice_below(8);
        fields[NH_INDEX] = number(1, 128);
    }
    if (kind == NH_SYNC)
        for (int n = 0; n < 8; n++)
            if (fields[NH_VIEW_SET] >> n & 1)
                fields[NH_CUT + n] = number(0, 128);
}
