/*
 * Makes the areas that are lent and tells what was done to them.
 * Assumes mmap as Linux has it.
 */
#define _DEFAULT_SOURCE

#include "areas.h"
#include "make.h"

#include <stdio.h>
#include <stdlib.h>
#include <string.h>
#include <sys/mman.h>
#include <unistd.h>

enum { GUARD = 32, NOISE = 4096 };

static uint8_t noise[NOISE];
static size_t page_size;

static void *or_exit(void *memory)
{
    if (memory && memory != MAP_FAILED)
        return memory;
    perror("no memory for the areas");
    exit(1);
}

void prepare(struct lent *l, size_t most)
{
    int flags = MAP_PRIVATE | MAP_ANONYMOUS;

    page_size = (size_t)sysconf(_SC_PAGESIZE);
    l->page = (uint8_t *)or_exit(mmap(NULL, 3 * page_size, PROT_NONE, flags, -1, 0)) + page_size;
    or_exit(mprotect(l->page, page_size, PROT_READ | PROT_WRITE) == 0 ? l->page : NULL);
    for (size_t count = 0; count <= most; count++)
        l->blocks[count] = or_exit(malloc(count * l->unit));
    for (size_t i = 0; i < NOISE; i++)
        noise[i] = (uint8_t)dice_below(256);
}

void lend(struct lent *l, const void *content, size_t count)
{
    unsigned where = dice_below(3);

    l->size = count * l->unit;
    l->twin = l->blocks[count];
    l->before = where == 0 ? 0 : GUARD;
    l->after = where == 1 ? 0 : GUARD;
    l->at = l->page;
    if (where == 1)
        l->at += page_size - l->size;
    if (where == 2)
        l->at += GUARD + l->unit * dice_below(64);
    l->filling = noise + dice_below(NOISE / 2);
    memcpy(l->at - l->before, l->filling, l->before + l->size + l->after);
    if (content)
        memcpy(l->at, content, l->size);
    memcpy(l->twin, l->at, l->size);
}

bool guards_whole(const struct lent *l)
{
    const uint8_t *after = l->filling + l->before + l->size;

    return memcmp(l->at - l->before, l->filling, l->before) == 0
        && memcmp(l->at + l->size, after, l->after) == 0;
}

bool same(const struct lent *l)
{
    return memcmp(l->at, l->twin, l->size) == 0;
}

bool untouched(const struct lent *l, size_t from)
{
    return memcmp(l->at + from, l->filling + l->before + from, l->size - from) == 0;
}
