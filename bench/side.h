/*
 * An implementation of the end-point, behind calls of one shape: a desk changes
 * in place, and a step gives its number. Each side uses its own fields of a desk
 * and of what is sent, and no other.
 */
#ifndef SIDE_H
#define SIDE_H

#include "nhuoseng.h"
#include "endpoint.h"

/* What a driver keeps of a desk. */
struct desk {
    nh_endpoint e;
    struct model_endpoint m;
    uint64_t area[NH_AREA];
    uint64_t out[NH_MOST];
};

struct sent {
    nh_message message;
    struct model_sending sending;
};

struct side {
    size_t size; /* of the state, in bytes */
    unsigned (*send)(struct desk *d, uint64_t word);
    unsigned (*block_ok)(struct desk *d);
    unsigned (*start_change)(struct desk *d, uint32_t number, uint8_t set);
    unsigned (*membership_view)(struct desk *d, const nh_view *view);
    unsigned (*receive)(struct desk *d, uint8_t from, const struct sent *sent);
    unsigned (*ask_to_block)(struct desk *d);
    unsigned (*declare)(struct desk *d);
    unsigned (*announce)(struct desk *d, struct sent *sent);
    unsigned (*pass_out)(struct desk *d, struct sent *sent);
    unsigned (*sync)(struct desk *d, struct sent *sent);
    unsigned (*give_out)(struct desk *d, uint8_t from);
    unsigned (*install)(struct desk *d);
    unsigned (*give_batch)(struct desk *d, uint8_t from);
    void (*rewind)(struct desk *d, const struct desk *before);
};

extern const struct side archive, checking, trusting;

#endif
