/*
 * The fields of an end-point, each by where it stands: to compare two end-points,
 * to show where they differ, to damage one. What stands between fields is not
 * looked at.
 */
#ifndef FIELDS_H
#define FIELDS_H

#include "nhuoseng.h"

#include <stdbool.h>

/* To be called once, before any other. */
void fields_prepare(void);

bool fields_same(const nh_endpoint *a, const nh_endpoint *b);

/* Prints each field in which the library's end-point is not as it should be. */
void fields_show_difference(const nh_endpoint *library, const nh_endpoint *expected);

unsigned fields_count(void);
uint64_t field_get(const nh_endpoint *e, unsigned k);
void field_set(nh_endpoint *e, unsigned k, uint64_t value);

bool same_nh_view(const nh_view *a, const nh_view *b);
bool same_nh_message(const nh_message *a, const nh_message *b);

#endif
