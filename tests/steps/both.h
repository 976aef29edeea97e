/*
 * One step at a time, taken by the library and by the model and compared: number,
 * message, view, word, set, every field of the end-point and every word of the
 * areas. A difference is printed and ends the program with exit status 1.
 */
#ifndef BOTH_H
#define BOTH_H

#include "convert.h"
#include "words.h"

/* A desk twice over: the library's end-point and the model's, and the area of each. */
struct desk {
    nh_endpoint e;
    struct model_endpoint m;
    struct words *words;
};

/* What both have given. */
struct given {
    nh_message message;
    nh_view view;
    uint64_t word;
    unsigned number;
    uint8_t set;
};

/* To be called once, before any other. */
void both_prepare(uint64_t seed);

/* The model's end-point becomes what the library's is: for one that was damaged. */
void both_agree(struct desk *d);

/* The fresh one is the desk's afterwards only if p is 0 to 7. */
struct given both_fresh(struct desk *d, uint8_t p);
struct given both_send(struct desk *d, uint64_t word);
struct given both_block_ok(struct desk *d);
struct given both_start_change(struct desk *d, uint32_t number, uint8_t set);
struct given both_membership_view(struct desk *d, const nh_view *view);
struct given both_receive(struct desk *d, uint8_t from, const nh_message *message);
struct given both_ask_to_block(struct desk *d);
struct given both_declare(struct desk *d);
struct given both_announce(struct desk *d);
struct given both_pass_out(struct desk *d);
struct given both_sync(struct desk *d);
struct given both_forward(struct desk *d, uint8_t to, uint8_t of);
struct given both_give_out(struct desk *d, uint8_t from);
struct given both_install(struct desk *d);

/* With room for 0 to MOST_ROOM words. */
enum { MOST_ROOM = 200 };
unsigned both_batch(struct desk *d, uint8_t from, size_t room);

/* The message in bytes, written by both, and read back. */
size_t both_write(const nh_message *message, uint8_t bytes[NH_LONGEST]);
nh_message both_read(const uint8_t *bytes, size_t length);

#endif
