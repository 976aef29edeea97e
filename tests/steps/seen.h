/*
 * What the test has seen: each step with each number, and the cases that a step
 * has under one number. A test that has missed one of them has failed.
 */
#ifndef SEEN_H
#define SEEN_H

#include <stdbool.h>

/* The thirteen steps, receive by kind; fresh and the batch besides. */
enum step {
    STEP_FRESH, STEP_SEND, STEP_BLOCK_OK, STEP_START_CHANGE, STEP_MEMBERSHIP_VIEW,
    STEP_RECEIVE_VIEW, STEP_RECEIVE_WORD, STEP_RECEIVE_SYNC, STEP_RECEIVE_FORWARD,
    STEP_RECEIVE_OTHER, STEP_ASK, STEP_DECLARE, STEP_ANNOUNCE, STEP_PASS_OUT, STEP_SYNC,
    STEP_FORWARD, STEP_GIVE_OUT, STEP_INSTALL, STEP_BATCH, STEPS
};

#define CASES(X) \
    X(ONE_UNSOUND, "1: an unsound end-point") \
    X(ONE_LENGTH_0, "1: an area of no words") \
    X(ONE_LENGTH_1, "1: an area of one word") \
    X(ONE_LENGTH_4095, "1: an area of 4095 words") \
    X(ONE_LENGTH_4097, "1: an area of 4097 words") \
    X(ONE_MEMBER, "1: a member above 7") \
    X(ONE_VIEW, "1: a malformed membership view") \
    X(ONE_MESSAGE, "1: a malformed message") \
    X(ONE_OTHER_FIELD, "1: a message with a field that its kind does not have") \
    X(ONE_KIND_5, "1: a start change given to receive") \
    X(ONE_KIND_6, "1: a membership view given to receive") \
    X(ONE_ONESELF, "1: a message from oneself") \
    X(SEND_ASKED, "send while asked") \
    X(SEND_SLOT_3, "send, the current view in the last slot") \
    X(SEND_128, "send of word 128") \
    X(LAST_PLACE, "a word stored at the last place of the area") \
    X(START_FREES, "start change that frees a slot") \
    X(START_KEEPS_BLOCK, "start change while asked or blocked") \
    X(MEMBERSHIP_CLEARS, "membership view that clears forward marks") \
    X(MEMBERSHIP_4_CLOSED, "membership view, 4: not open") \
    X(MEMBERSHIP_4_PENDING, "membership view, 4: pending but not open") \
    X(MEMBERSHIP_4_NUMBER, "membership view, 4: another number") \
    X(MEMBERSHIP_4_SET, "membership view, 4: not within the start set") \
    X(VIEW_TAKES_SLOT, "received view that takes a slot") \
    X(VIEW_TAKES_STALE, "received view that takes a slot with old marks") \
    X(VIEW_HAS_SLOT, "received view that has a slot, not current") \
    X(VIEW_CURRENT, "received view that is current") \
    X(VIEW_SPENT, "received view that is spent") \
    X(VIEW_FULL_NOT_NEEDED, "received view that needs no slot, none being free") \
    X(WORD_SPENT, "received word of a spent view") \
    X(WORD_SPENT_128, "received word of a spent view, 128 received") \
    X(WORD_AHEAD, "received word of a view ahead") \
    X(WORD_HELD, "received word that is held already") \
    X(WORD_128, "received word 128") \
    X(WORD_SLOT_3, "received word in the last slot") \
    X(WORD_GAP, "received word beyond the run") \
    X(SYNC_FIFTH, "received sync with four held") \
    X(FORWARD_STORED, "received forward that is stored") \
    X(FORWARD_HELD, "received forward that is held already") \
    X(FORWARD_NOT_CURRENT, "received forward of another view") \
    X(FORWARD_SAME_ID, "received forward of another view with the current id") \
    X(FORWARD_OWN, "received forward of p's own word") \
    X(ASK_4_FREE, "ask to block, 4: nothing pending") \
    X(ASK_4_ASKED, "ask to block, 4: pending, not free") \
    X(DECLARE_PENDING, "declare while pending") \
    X(DECLARE_CLOSED, "declare while pending and not open") \
    X(DECLARE_PLAIN, "declare with nothing pending") \
    X(SYNC_4_PENDING, "sync, 4: blocked, nothing pending") \
    X(SYNC_4_BLOCKED, "sync, 4: pending, not blocked") \
    X(SYNC_4_RECORD, "sync, 4: the record is there") \
    X(OWN_FIFTH, "sync with four held") \
    X(DUE_SKIPS, "forward that skips a due word that is not held") \
    X(DUE_SECOND, "forward above a mark") \
    X(DUE_NOT_HELD, "forward, 10: due, and not held") \
    X(DUE_LOWER_HOLDER, "forward, 10: a lower member of T has it") \
    X(GIVE_OWN_10, "give out, 10: own and not passed out") \
    X(GIVE_11_CUT, "give out, 11: own cut") \
    X(GIVE_11_AGREED, "give out, 11: agreed count") \
    X(GIVE_SLOT_3, "give out, the current view in the last slot") \
    X(GIVE_AGREED, "give out above the own cut") \
    X(INSTALL_OWN_SLOT, "install into the view's slot") \
    X(INSTALL_NEW_SLOT, "install into a new slot") \
    X(INSTALL_WHILE_OPEN, "install while open") \
    X(T_LACKS, "install, a member of both views not in T") \
    X(T_SAME_ID, "install, a named record with another view of the current id") \
    X(NAMED_NOT_NEWEST, "install, a named record that is not the newest") \
    X(TWELVE_NOT_HELD, "install, 12: due words, and none is held") \
    X(BATCH_ROOM, "batch ended by its room") \
    X(BATCH_10, "batch ended by 10") \
    X(BATCH_11, "batch ended by 11") \
    X(BATCH_NONE, "batch with no room, and words there") \
    X(BATCH_128, "batch of 128 words") \
    X(FRESH_ABOVE_8, "fresh above 8") \
    X(STALE_SOUND, "noise in what no step reads, and still sound") \
    X(ASKED_UNSOUND, "sound, 0") \
    X(ASKED_READY, "ready, 1") \
    X(ASKED_PENDING, "ready, 0: pending, no view of the latest start number")

#define CASE_NAME(name, text) CASE_ ## name,
enum seen_case { CASES(CASE_NAME) CASE_COUNT };
#undef CASE_NAME

void seen_step(enum step step, unsigned number);
void seen_if(bool holds, enum seen_case which);

const char *step_name(enum step step);

/* How many calls were compared. */
unsigned long seen_calls(void);

/* Prints what was seen; false where something was missed, or where a step gave a number not its own. */
bool seen_all(void);

#endif
