/*
 * Desks that meet in a view, and what each of them holds there: the states that
 * steps are measured on.
 */
#ifndef DESKS_H
#define DESKS_H

#include "side.h"

/* Fresh desks 0 to count - 1 after a few view changes, with words in each: all records are held. */
void desks_meet(struct desk *desks, unsigned count);

/* All desks go over to the next view. Every step is expected to be accepted. */
void desks_change(const struct side *side, struct desk *desks, unsigned count);

/* Each desk sends so many words, and each gives out all of them. */
void desks_speak(struct desk *desks, unsigned count, unsigned words);

/* The library's state as the model's too. */
void desks_convert(struct desk *desks, unsigned count);

/* A step that is refused measures something else. */
void demand(unsigned number, const char *step);

#endif
