/*
 * Damage: an end-point with one thing changed, or a few, or all of it. Some are
 * unsound then; some are sound, and such as no run would come to.
 */
#ifndef DAMAGE_H
#define DAMAGE_H

#include "nhuoseng.h"

void damage(nh_endpoint *e);

/* No damage at all: which slot a view has is left open, but for a fresh one's. */
void swap_slots(nh_endpoint *e, unsigned s, unsigned t);

#endif
