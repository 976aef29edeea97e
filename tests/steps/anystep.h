/*
 * Any step with forged arguments, taken by both.
 */
#ifndef ANYSTEP_H
#define ANYSTEP_H

#include "both.h"

/* A random one. */
void anystep(struct desk *d);

/* Each at least once. */
void anystep_each(struct desk *d);

#endif
