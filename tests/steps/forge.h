/*
 * Random numbers, sets, views and messages for an end-point in the state that it
 * is in: most of them almost right, so that each check decides now and then.
 */
#ifndef FORGE_H
#define FORGE_H

#include "both.h"

/* True once in n. */
bool chance(unsigned n);

/* A start number or id: near this one, at an edge, or random. */
uint32_t forge_number(uint32_t near);

/* A count of words: near this one, at an edge, or random. */
uint8_t forge_count(unsigned near);

/* A member's number: seldom one above 7. */
uint8_t forge_member(void);

uint8_t forge_set(void);

/* The end-point's own number, or another below 8 where it has none. */
uint8_t me_of(const nh_endpoint *e);

/* The slot of this view, the last where it has none; the run of r in a slot. */
unsigned slot_for(const nh_endpoint *e, const nh_view *v);
unsigned run_of(const nh_endpoint *e, unsigned slot, unsigned r);

/* A view that this end-point may hear of from q: any, or one that it has not heard of. */
nh_view forge_view(const nh_endpoint *e, unsigned q);
nh_view new_view(const nh_endpoint *e, unsigned q);

/* A membership view that it may be told, mostly one that it takes. */
nh_view forge_membership(const nh_endpoint *e);

/* Start numbers for exactly the members: small ones, so that two views often share some. */
void number_members(nh_view *v);

/* Another view, well formed if it was; one that mostly is not. */
void alter_view(nh_view *v);
void spoil_view(nh_view *v);

/* A message that it may receive from q, with the words of its area at hand. */
nh_message forge_message(const nh_endpoint *e, unsigned q, const uint64_t *area);

/* A cut for the message's view: near what is held. */
void forge_cut(const nh_endpoint *e, nh_message *m);

#endif
