/*
 * The reference: reads and writes messages, written from the scope and the
 * public header alone. It shares no code with the library, so that the test can
 * compare the two and the benchmark can measure one beside the other.
 * Assumes what the header says of pointers and counts; any byte order will do.
 */
#include "reference.h"

#include <stdbool.h>
#include <string.h>

/* A view body in bytes: id, set, start numbers. */
enum { BODY_SET = 4, BODY_STARTS = 5, BODY = 37 };

/* The high bit, and all lower bits, of each of the eight counts of a cut. */
#define HIGH UINT64_C(0x8080808080808080)
#define LOW UINT64_C(0x7f7f7f7f7f7f7f7f)

static uint32_t load32(const uint8_t *p)
{
    return (uint32_t)p[0] | (uint32_t)p[1] << 8 | (uint32_t)p[2] << 16 | (uint32_t)p[3] << 24;
}

static uint64_t load64(const uint8_t *p)
{
    return load32(p) | (uint64_t)load32(p + 4) << 32;
}

static void store32(uint8_t *p, uint64_t number)
{
    p[0] = (uint8_t)number;
    p[1] = (uint8_t)(number >> 8);
    p[2] = (uint8_t)(number >> 16);
    p[3] = (uint8_t)(number >> 24);
}

static void store64(uint8_t *p, uint64_t word)
{
    store32(p, word);
    store32(p + 4, word >> 32);
}

/* Live has bit n where start number n is not 0. */
static bool view_fine(uint64_t id, unsigned set, unsigned live)
{
    if (id == 0)
        return live == 0 && set != 0 && (set & (set - 1)) == 0;
    return set != 0 && live == set;
}

/* All eight counts at once: none above 128, none but 0 outside the set. */
static bool cut_fine(uint64_t cut, unsigned set)
{
    uint64_t low = (cut & LOW) + LOW;          /* high bit where a low bit is set */
    uint64_t live = ((low | cut) & HIGH) >> 7; /* bit 8n where count n is not 0   */

    if (cut & low & HIGH)
        return false;
    /* The product gathers those bits in its highest byte, bit n for count n. */
    return ((live * UINT64_C(0x0102040810204080) >> 56) & ~set) == 0;
}

uint8_t ref_length(uint8_t kind)
{
    static const uint8_t lengths[] = { 0, 38, 9, 50, 48, 6, 38 };

    return kind < sizeof lengths ? lengths[kind] : 0;
}

/* Reading: every check before the first field is set. */

/* Inline, since gcc will not do so unasked, and a call costs a sixth of a read. */
static inline bool body_fine(const uint8_t *body)
{
    unsigned live = 0;

    for (int n = 0; n < 8; n++)
        live |= (unsigned)(load32(body + BODY_STARTS + 4 * n) != 0) << n;
    return view_fine(load32(body), body[BODY_SET], live);
}

/* Called for short stretches only: gcc clears a long one by slower means. */
static void clear(uint64_t *fields, size_t from, size_t to)
{
    memset(fields + from, 0, (to - from) * sizeof *fields);
}

static void read_body(const uint8_t *body, uint64_t *fields)
{
    fields[NH_VIEW_ID] = load32(body);
    fields[NH_VIEW_SET] = body[BODY_SET];
    for (int n = 0; n < 8; n++)
        fields[NH_STARTS + n] = load32(body + BODY_STARTS + 4 * n);
}

static uint8_t read_view(const uint8_t *bytes, uint64_t *fields)
{
    if (!body_fine(bytes + 1))
        return 1;
    fields[NH_KIND] = bytes[0];
    clear(fields, NH_NUMBER, NH_VIEW_ID);
    read_body(bytes + 1, fields);
    clear(fields, NH_CUT, NH_FIELDS);
    return 0;
}

static uint8_t read_word(const uint8_t *bytes, uint64_t *fields)
{
    fields[NH_KIND] = NH_WORD;
    clear(fields, NH_NUMBER, NH_THE_WORD);
    fields[NH_THE_WORD] = load64(bytes + 1);
    clear(fields, NH_VIEW_ID, NH_CUT);
    clear(fields, NH_CUT, NH_FIELDS);
    return 0;
}

static uint8_t read_sync(const uint8_t *bytes, uint64_t *fields)
{
    const uint8_t *body = bytes + 5, *cut = body + BODY;

    if (!body_fine(body) || !cut_fine(load64(cut), body[BODY_SET]))
        return 1;
    fields[NH_KIND] = NH_SYNC;
    fields[NH_NUMBER] = load32(bytes + 1);
    clear(fields, NH_SET, NH_VIEW_ID);
    read_body(body, fields);
    for (int n = 0; n < 8; n++)
        fields[NH_CUT + n] = cut[n];
    return 0;
}

static uint8_t read_forward(const uint8_t *bytes, uint64_t *fields)
{
    const uint8_t *body = bytes + 3;

    if (bytes[1] > 7 || bytes[2] == 0 || bytes[2] > 128 || !body_fine(body))
        return 1;
    fields[NH_KIND] = NH_FORWARD;
    clear(fields, NH_NUMBER, NH_SENDER);
    fields[NH_SENDER] = bytes[1];
    fields[NH_INDEX] = bytes[2];
    fields[NH_THE_WORD] = load64(body + BODY);
    read_body(body, fields);
    clear(fields, NH_CUT, NH_FIELDS);
    return 0;
}

static uint8_t read_start_change(const uint8_t *bytes, uint64_t *fields)
{
    fields[NH_KIND] = NH_START_CHANGE;
    fields[NH_NUMBER] = load32(bytes + 1);
    fields[NH_SET] = bytes[5];
    clear(fields, NH_SENDER, NH_VIEW_ID);
    clear(fields, NH_VIEW_ID, NH_CUT);
    clear(fields, NH_CUT, NH_FIELDS);
    return 0;
}

uint8_t ref_read(const uint8_t *restrict bytes, size_t length, uint64_t *restrict fields,
                 size_t places)
{
    if (places != NH_FIELDS || length == 0 || length != ref_length(bytes[0]))
        return 1;
    switch (bytes[0]) {
    case NH_WORD:
        return read_word(bytes, fields);
    case NH_SYNC:
        return read_sync(bytes, fields);
    case NH_FORWARD:
        return read_forward(bytes, fields);
    case NH_START_CHANGE:
        return read_start_change(bytes, fields);
    default:
        return read_view(bytes, fields);
    }
}

/* Writing: every check before the first byte is set. */

static bool all_zero(const uint64_t *fields, size_t from, size_t to)
{
    uint64_t any = 0;

    for (size_t place = from; place < to; place++)
        any |= fields[place];
    return any == 0;
}

static bool view_fields_fine(const uint64_t *fields)
{
    uint64_t any = fields[NH_VIEW_ID];
    unsigned live = 0;

    for (int n = 0; n < 8; n++) {
        any |= fields[NH_STARTS + n];
        live |= (unsigned)(fields[NH_STARTS + n] != 0) << n;
    }
    return any <= UINT32_MAX && fields[NH_VIEW_SET] <= UINT8_MAX
        && view_fine(fields[NH_VIEW_ID], (unsigned)fields[NH_VIEW_SET], live);
}

/* Packs the cut as it will stand in the bytes. */
static bool cut_fields_fine(const uint64_t *fields, uint64_t *cut)
{
    uint64_t any = 0, packed = 0;

    for (int n = 0; n < 8; n++) {
        any |= fields[NH_CUT + n];
        packed |= fields[NH_CUT + n] << 8 * n;
    }
    *cut = packed;
    return any <= UINT8_MAX && cut_fine(packed, (unsigned)fields[NH_VIEW_SET]);
}

static void write_body(const uint64_t *fields, uint8_t *body)
{
    store32(body, fields[NH_VIEW_ID]);
    body[BODY_SET] = (uint8_t)fields[NH_VIEW_SET];
    for (int n = 0; n < 8; n++)
        store32(body + BODY_STARTS + 4 * n, fields[NH_STARTS + n]);
}

static uint8_t write_view(const uint64_t *fields, uint8_t *area, size_t room)
{
    if (room < 38 || !view_fields_fine(fields) || !all_zero(fields, NH_NUMBER, NH_VIEW_ID)
        || !all_zero(fields, NH_CUT, NH_FIELDS))
        return 1;
    area[0] = (uint8_t)fields[NH_KIND];
    write_body(fields, area + 1);
    return 0;
}

static uint8_t write_word(const uint64_t *fields, uint8_t *area, size_t room)
{
    if (room < 9 || !all_zero(fields, NH_NUMBER, NH_THE_WORD)
        || !all_zero(fields, NH_VIEW_ID, NH_FIELDS))
        return 1;
    area[0] = NH_WORD;
    store64(area + 1, fields[NH_THE_WORD]);
    return 0;
}

static uint8_t write_sync(const uint64_t *fields, uint8_t *area, size_t room)
{
    uint64_t cut;

    if (room < 50 || fields[NH_NUMBER] > UINT32_MAX || !view_fields_fine(fields)
        || !cut_fields_fine(fields, &cut) || !all_zero(fields, NH_SET, NH_VIEW_ID))
        return 1;
    area[0] = NH_SYNC;
    store32(area + 1, fields[NH_NUMBER]);
    write_body(fields, area + 5);
    store64(area + 5 + BODY, cut);
    return 0;
}

static uint8_t write_forward(const uint64_t *fields, uint8_t *area, size_t room)
{
    if (room < 48 || fields[NH_SENDER] > 7 || fields[NH_INDEX] == 0 || fields[NH_INDEX] > 128
        || !view_fields_fine(fields) || !all_zero(fields, NH_NUMBER, NH_SENDER)
        || !all_zero(fields, NH_CUT, NH_FIELDS))
        return 1;
    area[0] = NH_FORWARD;
    area[1] = (uint8_t)fields[NH_SENDER];
    area[2] = (uint8_t)fields[NH_INDEX];
    write_body(fields, area + 3);
    store64(area + 3 + BODY, fields[NH_THE_WORD]);
    return 0;
}

static uint8_t write_start_change(const uint64_t *fields, uint8_t *area, size_t room)
{
    if (room < 6 || fields[NH_NUMBER] > UINT32_MAX || fields[NH_SET] > UINT8_MAX
        || !all_zero(fields, NH_SENDER, NH_FIELDS))
        return 1;
    area[0] = NH_START_CHANGE;
    store32(area + 1, fields[NH_NUMBER]);
    area[5] = (uint8_t)fields[NH_SET];
    return 0;
}

uint8_t ref_write(const uint64_t *restrict fields, size_t places, uint8_t *restrict area,
                  size_t room)
{
    if (places != NH_FIELDS)
        return 1;
    switch (fields[NH_KIND]) {
    case NH_VIEW:
    case NH_MEMBERSHIP_VIEW:
        return write_view(fields, area, room);
    case NH_WORD:
        return write_word(fields, area, room);
    case NH_SYNC:
        return write_sync(fields, area, room);
    case NH_FORWARD:
        return write_forward(fields, area, room);
    case NH_START_CHANGE:
        return write_start_change(fields, area, room);
    default:
        return 1;
    }
}
