/*
 * Nhuoseng: one end-point of a group of up to eight, and its messages in bytes.
 *
 * Every call takes any values: nothing has to be checked first. One that can
 * refuse answers with a number: 0 is accepted, any other is a refusal, and a
 * refused call has changed nothing. A pointer points to as many bytes, numbers or
 * words as the count after it says, is not NULL even where the count is 0, and
 * what a call writes overlaps nothing else that it is lent.
 *
 * A set is a byte, bit n for member n. A view is an id, a set of members and
 * eight start numbers. It is well formed with id 0, exactly one member and all
 * start numbers 0, which is that member's initial view; or with an id of 1 or
 * more, at least one member, and a start number of 1 or more for each member.
 * The start number of one who is no member is 0. Two views are the same only if
 * id, set and start numbers are. A cut is well formed for its view where each
 * member's count is 0 to 128 and any other's is 0.
 *
 * In order: messages in bytes; what an end-point is; the numbers; the calls.
 * Link with libnhuoseng.a.
 */
#ifndef NHUOSENG_H
#define NHUOSENG_H

#include <stddef.h>
#include <stdint.h>

#ifdef __cplusplus
extern "C" {
#endif

/*
 * Messages in bytes.
 *
 * A message is read from a byte area, or written into one, by way of a field
 * area: NH_FIELDS numbers of 64 bits, each at the place that enum nh_field
 * names. A field that a message's kind does not have is 0. Start with
 *
 *     uint64_t m[NH_FIELDS] = { [NH_KIND] = NH_WORD, [NH_THE_WORD] = 7 };
 *
 * The end-point's calls take and give a message as a struct, nh_message:
 * nh_read_message and nh_write_message, further below, go between that struct
 * and bytes.
 */

/* The six kinds: the first byte of a message, and its length in all. */
enum nh_kind {
    NH_VIEW = 1,             /* 38 bytes: view                                  */
    NH_WORD = 2,             /*  9 bytes: word                                  */
    NH_SYNC = 3,             /* 50 bytes: number, view, cut                     */
    NH_FORWARD = 4,          /* 48 bytes: sender, index, view, word             */
    NH_START_CHANGE = 5,     /*  6 bytes: number, set                           */
    NH_MEMBERSHIP_VIEW = 6   /* 38 bytes: view                                  */
};

/* The places of the field area. */
enum nh_field {
    NH_KIND = 0,       /* 1 to 6                                                */
    NH_NUMBER = 1,     /* 32 bits: of a sync, of a start change                 */
    NH_SET = 2,        /* 8 bits, bit n for member n: of a start change         */
    NH_SENDER = 3,     /* 0 to 7: of a forward                                  */
    NH_INDEX = 4,      /* 1 to 128: of a forward                                */
    NH_THE_WORD = 5,   /* 64 bits: of a word, of a forward                      */
    NH_VIEW_ID = 6,    /* 32 bits: of the view                                  */
    NH_VIEW_SET = 7,   /* 8 bits, bit n for member n: of the view               */
    NH_STARTS = 8,     /* eight places, 32 bits each: the view's start numbers  */
    NH_CUT = 16,       /* eight places, 0 to 128 each: of a sync                */
    NH_FIELDS = 24     /* how many places there are                             */
};

/* The longest message, a sync: an area of so many bytes has room for any. */
enum { NH_LONGEST = 50 };

/*
 * How many bytes a message of this kind has.
 * Gives 38, 9, 50, 48, 6 or 38 for the kinds 1 to 6, and 0 for any other number.
 */
uint8_t nh_length(uint8_t kind);

/*
 * Reads the message that the bytes are.
 * Gives 0, and the message in the field area.
 * Gives 1, and leaves the field area as it was, where
 *   - the bytes are no message: an unknown kind, another length than the kind's,
 *     a malformed view or cut, a sender above 7, an index of 0 or above 128;
 *   - the field area has not exactly NH_FIELDS places.
 */
uint8_t nh_read(const uint8_t *bytes, size_t length, uint64_t *fields, size_t places);

/*
 * Writes the message that the fields are, at the start of the area.
 * Gives 0, and leaves the area's bytes after the message as they were.
 * Gives 1, and leaves the whole area as it was, where
 *   - the fields are no message: an unknown kind, a number too large for its
 *     field, a malformed view or cut, a sender above 7, an index of 0 or above
 *     128, or a field that is not 0 and that the kind does not have;
 *   - the field area has not exactly NH_FIELDS places;
 *   - the area has less room than nh_length of the kind.
 */
uint8_t nh_write(const uint64_t *fields, size_t places, uint8_t *area, size_t room);

/*
 * What an end-point is.
 *
 * An end-point is handed over by value and handed back after the step: the
 * driver keeps it, with a word area of its own, and changes nothing in either.
 * Any bytes are an end-point; one that no step could have left is unsound, and
 * every call refuses it with 1. Bytes between the fields mean nothing.
 */

enum {
    NH_MEMBERS = 8,     /* at most so many in a group, numbered 0 to 7            */
    NH_MOST = 128,      /* at most so many words of one sender in one view        */
    NH_SLOTS = 4,       /* views whose words an end-point keeps                   */
    NH_HELD = 4,        /* sync records of one sender that it keeps               */
    NH_AREA = 4096      /* words of the word area: NH_SLOTS, NH_MEMBERS, NH_MOST  */
};

/* The block state of a change. */
enum nh_block { NH_FREE = 0, NH_ASKED = 1, NH_BLOCKED = 2 };

typedef struct nh_view {
    uint32_t starts[8];
    uint32_t id;
    uint8_t set;
} nh_view;

/* Of each sender, how many of its words from the first on. */
typedef struct nh_cut {
    uint8_t counts[8];
} nh_cut;

/* What the kind does not have is 0. */
typedef struct nh_message {
    nh_view view;
    uint64_t word;
    uint32_t number;
    nh_cut cut;
    uint8_t kind;       /* enum nh_kind; 0 where a call gives no message          */
    uint8_t set;
    uint8_t sender;
    uint8_t index;
} nh_message;

typedef struct nh_record {
    nh_view view;
    nh_cut cut;
    uint32_t number;
} nh_record;

/* Record k of sender r, oldest first, stands at r * 4 + k; counts says how many are held. */
typedef struct nh_records {
    nh_record held[32];
    uint8_t counts[8];
} nh_records;

/* Words 1 to 64 by low's bits, from bit 0 on, words 65 to 128 by high's. */
typedef struct nh_held {
    uint64_t low;
    uint64_t high;
} nh_held;

/* By sender. */
typedef struct nh_marks {
    nh_held rows[8];
} nh_marks;

/* used is 1 where a slot is for this view, 0 where it is free. */
typedef struct nh_tag {
    nh_view view;
    uint8_t used;
} nh_tag;

/* Word i, from 1 on, of sender r in slot s stands at s * 1024 + r * 128 + i - 1 of the area. */
typedef struct nh_slots {
    nh_tag tags[4];
    nh_marks marks[4];
} nh_slots;

/* The forward marks of one destination, by sender. */
typedef struct nh_row {
    uint8_t marks[8];
} nh_row;

typedef struct nh_change {
    uint32_t number;    /* the latest start number                                */
    uint8_t set;        /* and its set                                            */
    uint8_t opened;     /* 1: start seen, its view not yet                        */
    uint8_t pending;    /* 1: start seen, nothing installed since                 */
    uint8_t block;      /* enum nh_block                                          */
} nh_change;

/* The end-point's own entries of heard and received mean nothing. */
typedef struct nh_endpoint {
    nh_view current;
    nh_view membership;     /* the latest of the membership service               */
    nh_view heard[8];       /* by sender: the view that it announced              */
    nh_records records;
    uint8_t received[8];    /* by sender: words in the view that it announced     */
    nh_slots slots;
    uint8_t given[8];       /* by sender: words given out in the current view     */
    nh_row forwarded[8];    /* by destination                                     */
    nh_change change;
    uint8_t me;             /* its own number                                     */
    uint8_t declared;       /* the declared set                                   */
    uint8_t told;           /* 1: the current view is announced                   */
    uint8_t passed;         /* own words passed out                               */
} nh_endpoint;

/*
 * What a call answers. A refusal has its number, the end-point as it was, and
 * all else 0. An accepted call has number 0, the end-point after the step, what
 * its comment says that it gives, and all else 0.
 */
typedef struct nh_answer {
    nh_endpoint ep;
    nh_message message;
    nh_view view;
    uint64_t word;
    uint8_t number;
    uint8_t set;
} nh_answer;

/* What a batch answers: count words were given out; 0 where refused. */
typedef struct nh_batch {
    nh_endpoint ep;
    uint64_t count;
    uint8_t number;
} nh_batch;

/* The layouts that the archive was built with. */
#ifdef __cplusplus
#define NH_LAYOUT(holds) static_assert(holds, "another layout than the archive's")
#else
#define NH_LAYOUT(holds) _Static_assert(holds, "another layout than the archive's")
#endif
NH_LAYOUT(sizeof(nh_view) == 40);
NH_LAYOUT(offsetof(nh_view, starts) == 0);
NH_LAYOUT(offsetof(nh_view, id) == 32);
NH_LAYOUT(offsetof(nh_view, set) == 36);
NH_LAYOUT(sizeof(nh_cut) == 8);
NH_LAYOUT(offsetof(nh_cut, counts) == 0);
NH_LAYOUT(sizeof(nh_message) == 64);
NH_LAYOUT(offsetof(nh_message, view) == 0);
NH_LAYOUT(offsetof(nh_message, word) == 40);
NH_LAYOUT(offsetof(nh_message, number) == 48);
NH_LAYOUT(offsetof(nh_message, cut) == 52);
NH_LAYOUT(offsetof(nh_message, kind) == 60);
NH_LAYOUT(offsetof(nh_message, set) == 61);
NH_LAYOUT(offsetof(nh_message, sender) == 62);
NH_LAYOUT(offsetof(nh_message, index) == 63);
NH_LAYOUT(sizeof(nh_record) == 52);
NH_LAYOUT(offsetof(nh_record, view) == 0);
NH_LAYOUT(offsetof(nh_record, cut) == 40);
NH_LAYOUT(offsetof(nh_record, number) == 48);
NH_LAYOUT(sizeof(nh_records) == 1672);
NH_LAYOUT(offsetof(nh_records, held) == 0);
NH_LAYOUT(offsetof(nh_records, counts) == 1664);
NH_LAYOUT(sizeof(nh_held) == 16);
NH_LAYOUT(offsetof(nh_held, low) == 0);
NH_LAYOUT(offsetof(nh_held, high) == 8);
NH_LAYOUT(sizeof(nh_marks) == 128);
NH_LAYOUT(offsetof(nh_marks, rows) == 0);
NH_LAYOUT(sizeof(nh_tag) == 44);
NH_LAYOUT(offsetof(nh_tag, view) == 0);
NH_LAYOUT(offsetof(nh_tag, used) == 40);
NH_LAYOUT(sizeof(nh_slots) == 688);
NH_LAYOUT(offsetof(nh_slots, tags) == 0);
NH_LAYOUT(offsetof(nh_slots, marks) == 176);
NH_LAYOUT(sizeof(nh_row) == 8);
NH_LAYOUT(offsetof(nh_row, marks) == 0);
NH_LAYOUT(sizeof(nh_change) == 8);
NH_LAYOUT(offsetof(nh_change, number) == 0);
NH_LAYOUT(offsetof(nh_change, set) == 4);
NH_LAYOUT(offsetof(nh_change, opened) == 5);
NH_LAYOUT(offsetof(nh_change, pending) == 6);
NH_LAYOUT(offsetof(nh_change, block) == 7);
NH_LAYOUT(sizeof(nh_endpoint) == 2856);
NH_LAYOUT(offsetof(nh_endpoint, current) == 0);
NH_LAYOUT(offsetof(nh_endpoint, membership) == 40);
NH_LAYOUT(offsetof(nh_endpoint, heard) == 80);
NH_LAYOUT(offsetof(nh_endpoint, records) == 400);
NH_LAYOUT(offsetof(nh_endpoint, received) == 2072);
NH_LAYOUT(offsetof(nh_endpoint, slots) == 2080);
NH_LAYOUT(offsetof(nh_endpoint, given) == 2768);
NH_LAYOUT(offsetof(nh_endpoint, forwarded) == 2776);
NH_LAYOUT(offsetof(nh_endpoint, change) == 2840);
NH_LAYOUT(offsetof(nh_endpoint, me) == 2848);
NH_LAYOUT(offsetof(nh_endpoint, declared) == 2849);
NH_LAYOUT(offsetof(nh_endpoint, told) == 2850);
NH_LAYOUT(offsetof(nh_endpoint, passed) == 2851);
NH_LAYOUT(sizeof(nh_answer) == 2976);
NH_LAYOUT(offsetof(nh_answer, ep) == 0);
NH_LAYOUT(offsetof(nh_answer, message) == 2856);
NH_LAYOUT(offsetof(nh_answer, view) == 2920);
NH_LAYOUT(offsetof(nh_answer, word) == 2960);
NH_LAYOUT(offsetof(nh_answer, number) == 2968);
NH_LAYOUT(offsetof(nh_answer, set) == 2969);
NH_LAYOUT(sizeof(nh_batch) == 2872);
NH_LAYOUT(offsetof(nh_batch, ep) == 0);
NH_LAYOUT(offsetof(nh_batch, count) == 2856);
NH_LAYOUT(offsetof(nh_batch, number) == 2864);
#undef NH_LAYOUT

/*
 * The numbers. The lowest that applies is given.
 *
 *      1  an unsound end-point, a member number above 7, a malformed view, message
 *         or cut, a word area of another length, or a message from oneself
 *      2  a needed member is absent from a set
 *      3  a start number or id is not newer
 *      4  out of turn
 *      5  application send while blocked
 *      6  128 words are already there
 *      7  four slots in use and a fifth needed
 *      8  the declared set lacks a needed member
 *      9  a named record of a member of both views is not held
 *     10  nothing to do
 *     11  beyond the cut
 *     12  a due word has not been forwarded
 *     13  for some member of the current view, fewer words given out than agreed
 *     14  another word is held at that place
 *     15  for some member of the current view, more words given out than agreed
 */
enum nh_number {
    NH_ACCEPTED = 0,
    NH_MALFORMED = 1,
    NH_ABSENT = 2,
    NH_NOT_NEWER = 3,
    NH_OUT_OF_TURN = 4,
    NH_IS_BLOCKED = 5,
    NH_FULL = 6,
    NH_NO_SLOT = 7,
    NH_NOT_DECLARED = 8,
    NH_NO_RECORD = 9,
    NH_NOTHING_TO_DO = 10,
    NH_BEYOND_CUT = 11,
    NH_NOT_FORWARDED = 12,
    NH_TOO_FEW_GIVEN = 13,
    NH_OTHER_WORD = 14,
    NH_TOO_MANY_GIVEN = 15
};

/*
 * The calls. p is the end-point's own number. Every step and the batch give 1
 * where the end-point is unsound, and where a word area is lent and has not
 * exactly NH_AREA words; what else gives 1 is said with the call.
 *
 * The word area is the driver's, one for each end-point, with any content at
 * first. Only nh_send and nh_receive write in it, one word at most.
 */

/*
 * The fresh end-point p, alone in its initial view.
 * 1 where p is above 7: the end-point handed back is unsound, and of no use.
 */
nh_answer nh_fresh(uint8_t p);

/* 1 where the end-point is sound, 0 where it is not: every step then gives 1. */
uint8_t nh_sound(nh_endpoint e);

/*
 * 1 where a view is ready, 0 where none is: a change is pending, the latest
 * membership view's id is above the current one's and its start number for p is
 * the latest. On a sound end-point nh_forward and nh_install give 4 where none is.
 */
uint8_t nh_ready(nh_endpoint e);

/*
 * The application sends a word: it is appended to p's own in the current view.
 * 5 while blocked; 6 where 128 are there.
 */
nh_answer nh_send(nh_endpoint e, uint64_t *area, size_t length, uint64_t word);

/* The application agrees to be blocked. 4 unless asked. */
nh_answer nh_block_ok(nh_endpoint e);

/*
 * The membership service starts a change, to be open and pending.
 * 2 where p is not in the set; 3 unless the number is above the latest.
 */
nh_answer nh_start_change(nh_endpoint e, uint32_t number, uint8_t set);

/*
 * The membership service has a view: the change is no longer open, and all
 * forward marks are 0. 1 where the view is malformed; 2 where p is not in it; 3
 * unless its id is above that of the latest; 4 unless a change is open, the
 * view's start number for p is the latest and its set is within the start set.
 */
nh_answer nh_membership_view(nh_endpoint e, nh_view view);

/*
 * A message from another member, the first of its channel; a refused one stays
 * there. 1 where from is above 7 or p, the message is malformed, or its kind is
 * not one of the four here.
 *   - NH_VIEW: from's announced view. 2 unless p and from are in it; 3 unless its
 *     id is above that of from's latest; 7 where it needs a slot and none is free.
 *   - NH_WORD: from's next word in its announced view. 4 where that is initial;
 *     accepted with no change where it is spent; else 6 where 128 are received; 14.
 *   - NH_SYNC: a record of from. 2 unless from is in its view; 3 unless its number
 *     is above that of from's newest. With four held, the oldest goes.
 *   - NH_FORWARD: another's word. 2 unless p, from and the sender are in its view
 *     and the sender is not p; accepted with no change where the view is not the
 *     current one; else 14.
 */
nh_answer nh_receive(nh_endpoint e, uint64_t *area, size_t length, uint8_t from,
                     nh_message message);

/* The application is to be asked to block. 4 unless a change is pending and p is free. */
nh_answer nh_ask_to_block(nh_endpoint e);

/*
 * Gives set, the members to which the channels must be reliable from now on: the
 * current set, joined with the start set if a change is pending.
 */
nh_answer nh_declare(nh_endpoint e);

/*
 * Gives message, the current view, to be sent to the members in set.
 * 8 unless the current set is within the declared one; 10 where it is announced.
 */
nh_answer nh_announce(nh_endpoint e);

/*
 * Gives message, p's next word, to be sent to the members in set.
 * 4 unless the current view is announced; 10 where no word is left.
 */
nh_answer nh_pass_out(nh_endpoint e, const uint64_t *area, size_t length);

/*
 * Gives message, p's record for the change, to be sent to the members in set.
 * 4 unless a change is pending, p is blocked and has no record for it yet; 8
 * unless the start set is within the declared one.
 */
nh_answer nh_sync(nh_endpoint e);

/*
 * Gives message, the next word of member of that is due to member to, to be sent
 * to the one member in set. 1 where either is above 7; 4 unless a view is ready;
 * 9; 10 where no such word is held.
 */
nh_answer nh_forward(nh_endpoint e, const uint64_t *area, size_t length, uint8_t to, uint8_t of);

/*
 * Gives word, the next of this member's for the application. 1 where from is
 * above 7; 2 where it is not in the current view; 10 where the next word is not
 * held, or is p's own and not passed out; 11 where it is beyond the cut.
 */
nh_answer nh_give_out(nh_endpoint e, const uint64_t *area, size_t length, uint8_t from);

/*
 * Installs the membership view: gives it as view, and in set the members that
 * come along from the current one. 4 unless a view is ready; 9; 12; 13; 15.
 */
nh_answer nh_install(nh_endpoint e);

/*
 * As many nh_give_out as there are words and room for: the words stand at the
 * start of out, and the rest of out is as it was. 1 and 2 as nh_give_out; 10 and
 * 11 merely end it.
 */
nh_batch nh_give_batch(nh_endpoint e, const uint64_t *area, size_t length, uint8_t from,
                       uint64_t *out, size_t room);

/* A message as a struct, from bytes: as nh_read; refused with 1, *message is as it was. */
static inline uint8_t nh_read_message(const uint8_t *bytes, size_t length, nh_message *message)
{
    uint64_t fields[NH_FIELDS] = { 0 };
    uint8_t number = nh_read(bytes, length, fields, NH_FIELDS);
    int n;

    if (number != 0)
        return number;
    message->kind = (uint8_t)fields[NH_KIND];
    message->number = (uint32_t)fields[NH_NUMBER];
    message->set = (uint8_t)fields[NH_SET];
    message->sender = (uint8_t)fields[NH_SENDER];
    message->index = (uint8_t)fields[NH_INDEX];
    message->word = fields[NH_THE_WORD];
    message->view.id = (uint32_t)fields[NH_VIEW_ID];
    message->view.set = (uint8_t)fields[NH_VIEW_SET];
    for (n = 0; n < NH_MEMBERS; n++) {
        message->view.starts[n] = (uint32_t)fields[NH_STARTS + n];
        message->cut.counts[n] = (uint8_t)fields[NH_CUT + n];
    }
    return 0;
}

/* A message as a struct, into bytes, nh_length of its kind so many: as nh_write. */
static inline uint8_t nh_write_message(const nh_message *message, uint8_t *area, size_t room)
{
    uint64_t fields[NH_FIELDS];
    int n;

    fields[NH_KIND] = message->kind;
    fields[NH_NUMBER] = message->number;
    fields[NH_SET] = message->set;
    fields[NH_SENDER] = message->sender;
    fields[NH_INDEX] = message->index;
    fields[NH_THE_WORD] = message->word;
    fields[NH_VIEW_ID] = message->view.id;
    fields[NH_VIEW_SET] = message->view.set;
    for (n = 0; n < NH_MEMBERS; n++) {
        fields[NH_STARTS + n] = message->view.starts[n];
        fields[NH_CUT + n] = message->cut.counts[n];
    }
    return nh_write(fields, NH_FIELDS, area, room);
}

#ifdef __cplusplus
}
#endif

#endif
