/*
 * An end-point of the scope: what it remembers, its thirteen steps, the batch.
 *
 * A step changes the end-point in place. It gives the scope's number: 0 is
 * accepted; any other is a refusal, and then the end-point, the word area and
 * every answer are as they were. Each step takes any bytes as an end-point: one
 * that is not sound is refused with 1. Built with MODEL_TRUSTING, a step leaves
 * the test of soundness out, and only sound end-points may be given to it.
 *
 * Assumes that a lent area has the length given beside it, and that the areas
 * and answers lent to one call do not overlap.
 */
#ifndef MODEL_ENDPOINT_H
#define MODEL_ENDPOINT_H

#include "marks.h"
#include "messages.h"

enum {
    SLOTS = 4,                        /* views whose words are kept */
    RECORDS = 4,                      /* sync records of one sender */
    AREA = SLOTS * MEMBERS * WORDS    /* words of the lent area */
};

enum model_number {
    ACCEPTED = 0,
    NO1_MALFORMED,
    NO2_ABSENT,
    NO3_NOT_NEWER,
    NO4_OUT_OF_TURN,
    NO5_BLOCKED,
    NO6_FULL,
    NO7_NO_SLOT,
    NO8_NOT_DECLARED,
    NO9_NO_RECORD,
    NO10_NOTHING_TO_DO,
    NO11_BEYOND_CUT,
    NO12_NOT_FORWARDED,
    NO13_TOO_FEW_GIVEN,
    NO14_OTHER_WORD,
    NO15_TOO_MANY_GIVEN
};

enum model_block { FREE = 0, ASKED = 1, BLOCKED = 2 };

struct model_record {
    struct model_view view;
    uint32_t number;
    uint8_t cut[MEMBERS];
};

/*
 * Flags are bytes, 0 or 1. The entries of announced_view and received at p's
 * own number, records from record_count on, and the view and marks of a free
 * slot are no part of what is remembered: no step reads them.
 */
struct model_endpoint {
    struct model_marks marks[SLOTS][MEMBERS];
    struct model_view slot_view[SLOTS];
    struct model_view current;
    struct model_view membership;
    struct model_view announced_view[MEMBERS];
    struct model_record records[MEMBERS][RECORDS];  /* oldest first */
    uint8_t forwarded[MEMBERS][MEMBERS];            /* destination by sender */
    uint8_t received[MEMBERS];
    uint8_t given[MEMBERS];
    uint8_t record_count[MEMBERS];
    uint8_t slot_used[SLOTS];
    uint32_t start_number;
    uint8_t start_set;
    uint8_t declared;
    uint8_t p;
    uint8_t open;
    uint8_t pending;
    uint8_t block;
    uint8_t announced;
    uint8_t passed;
};

/* What a step sends, and to whom. */
struct model_sending {
    struct model_message message;
    uint8_t to;
};

/* What install answers: the new view, and T. */
struct model_installed {
    struct model_view view;
    uint8_t t;
};

enum model_number model_fresh(struct model_endpoint *e, uint8_t p);
bool model_sound(const struct model_endpoint *e);

/* From the application and to it. */
enum model_number model_send(struct model_endpoint *e, uint64_t *area, size_t length, uint64_t word);
enum model_number model_block_ok(struct model_endpoint *e);
enum model_number model_give_out(struct model_endpoint *e, const uint64_t *area, size_t length,
                                 uint8_t q, uint64_t *word);
enum model_number model_batch(struct model_endpoint *e, const uint64_t *area, size_t length,
                              uint8_t q, uint64_t *out, size_t room, size_t *count);

/* From the membership service. */
enum model_number model_start_change(struct model_endpoint *e, uint32_t number, uint8_t set);
enum model_number model_membership_view(struct model_endpoint *e, const struct model_view *view);

/* From another end-point. */
enum model_number model_receive(struct model_endpoint *e, uint64_t *area, size_t length,
                                uint8_t q, const struct model_message *m);

/* To other end-points. */
enum model_number model_announce(struct model_endpoint *e, struct model_sending *sending);
enum model_number model_pass_out(struct model_endpoint *e, const uint64_t *area, size_t length,
                                 struct model_sending *sending);
enum model_number model_sync(struct model_endpoint *e, struct model_sending *sending);
enum model_number model_forward(struct model_endpoint *e, const uint64_t *area, size_t length,
                                uint8_t q, uint8_t r, struct model_sending *sending);

/* The change itself. */
enum model_number model_ask_to_block(struct model_endpoint *e);
enum model_number model_declare(struct model_endpoint *e, uint8_t *declared);
enum model_number model_install(struct model_endpoint *e, struct model_installed *installed);

#endif
