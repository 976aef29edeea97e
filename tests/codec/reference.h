/*
 * The reference: the library's three calls written a second time, in C.
 * The same arguments, answers and refusals as in include/nhuoseng.h.
 */
#ifndef REFERENCE_H
#define REFERENCE_H

#include "nhuoseng.h"

uint8_t ref_length(uint8_t kind);
uint8_t ref_read(const uint8_t *bytes, size_t length, uint64_t *fields, size_t places);
uint8_t ref_write(const uint64_t *fields, size_t places, uint8_t *area, size_t room);

#endif
