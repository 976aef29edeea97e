/*
 * What the test and the benchmark are fed with: dice, edge numbers and random
 * well-formed messages as fields.
 */
#ifndef MAKE_H
#define MAKE_H

#include "nhuoseng.h"

/* The same seed gives the same rolls, so no expression may hold two of them. */
void dice_seed(uint64_t seed);
uint64_t dice(void);

/* A number below n; n is at least 1. */
unsigned dice_below(unsigned n);

/* The numbers at which a check is likely to be wrong by one. */
enum { EDGES = 12 };
extern const uint64_t edges[EDGES];

/* The lengths of the kinds 1 to 6, as the scope gives them; 0 for kind 0. */
enum { KINDS = 6 };
extern const uint8_t lengths[KINDS + 1];

/* Fills the NH_FIELDS places with a random well-formed message of this kind. */
void make_message(uint8_t kind, uint64_t *fields);

#endif
