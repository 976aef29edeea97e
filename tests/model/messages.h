/*
 * The six kinds of message, as a struct and in bytes.
 *
 * Only the fields that a message's kind has are part of the message: a reader
 * sets the others to 0, everyone else passes them over.
 */
#ifndef MODEL_MESSAGES_H
#define MODEL_MESSAGES_H

#include <stddef.h>

#include "views.h"

enum model_kind {
    KIND_VIEW = 1,            /* view                        38 bytes */
    KIND_WORD = 2,            /* word                         9 bytes */
    KIND_SYNC = 3,            /* number, view, cut           50 bytes */
    KIND_FORWARD = 4,         /* sender, index, view, word   48 bytes */
    KIND_START_CHANGE = 5,    /* number, set                  6 bytes */
    KIND_MEMBERSHIP_VIEW = 6  /* view                        38 bytes */
};

enum { LONGEST_MESSAGE = 50 };

struct model_message {
    uint64_t word;
    struct model_view view;
    uint32_t number;
    uint8_t cut[MEMBERS];
    uint8_t kind;
    uint8_t set;
    uint8_t sender;
    uint8_t index;
};

/* How many bytes a message of this kind has; 0 for a number that is no kind. */
size_t model_message_length(unsigned kind);

bool model_message_well_formed(const struct model_message *m);

/* Gives 0 and the message, or 1 with the message left as it was. */
int model_read(const uint8_t *bytes, size_t length, struct model_message *m);

/*
 * Gives 0 with the message at the start of the area and its length, or 1 with
 * both left as they were. Bytes after the message are never changed.
 */
int model_write(const struct model_message *m, uint8_t *area, size_t room, size_t *length);

#endif
