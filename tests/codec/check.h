/*
 * One call at a time, made to the library and to the reference and compared.
 * A difference is printed and ends the program with exit status 1.
 */
#ifndef CHECK_H
#define CHECK_H

#include "nhuoseng.h"

#include <stdbool.h>

/* The most bytes and the most places that an area may have. */
enum { MOST_BYTES = 64, MOST_PLACES = 30 };

/* To be called once, before any other: makes the areas that are lent. */
void check_prepare(void);

/* Gives the answer of both; if that is 0, message has the NH_FIELDS fields that were read. */
uint8_t check_read(const uint8_t *bytes, size_t length, size_t places, uint64_t *message);

/* Gives the answer of both; after has the whole area as the call left it. */
uint8_t check_write(const uint64_t *fields, size_t places, size_t room, uint8_t *after);

/* Reads; one accepted read in four must also be undone by a write. Gives the answer. */
uint8_t check_read_both_ways(const uint8_t *bytes, size_t length);

/* Writes into mostly enough room; an accepted write must be undone by a read. Gives the answer. */
uint8_t check_write_both_ways(const uint64_t *message);

/* A random well-formed message as fields and as bytes, with noise after its end. */
void check_fresh(uint8_t kind, uint64_t *message, uint8_t *bytes);

/* Ends the program, showing the last call, unless this holds. */
void check_that(bool holds, const char *what);

/* Prints how many calls were compared; false if too few for the test to mean anything. */
bool check_counts(void);

#endif
