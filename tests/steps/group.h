/*
 * A run: two to eight desks, the channels between them and a membership service.
 * Each step of each desk is taken by both and compared.
 */
#ifndef GROUP_H
#define GROUP_H

#include "both.h"

/* To be called once, before any other. */
void group_prepare(void);

/* A run of so many turns for each desk, from fresh end-points, half of them with slots swapped. */
void group_run(unsigned turns);

#endif
