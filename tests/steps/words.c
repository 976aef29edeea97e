/*
 * Makes the areas of words that are lent and tells what was done to them.
 * Assumes mmap as Linux has it.
 */
#define _DEFAULT_SOURCE

#include "words.h"
#include "make.h"

#include <stdio.h>
#include <stdlib.h>
#include <string.h>
#include <sys/mman.h>
#include <unistd.h>

enum { GUARD_BYTE = 0xa5, STRETCH = 64 };

static void *or_exit(void *memory)
{
    if (memory && memory != MAP_FAILED)
        return memory;
    perror("no memory for the areas");
    exit(1);
}

void words_make(struct words *w, size_t length)
{
    size_t page = (size_t)sysconf(_SC_PAGESIZE), size = length * sizeof *w->lent;
    size_t pages = (size + page - 1) / page * page;
    uint8_t *at;

    at = or_exit(mmap(NULL, pages + 2 * page, PROT_NONE, MAP_PRIVATE | MAP_ANONYMOUS, -1, 0));
    w->guard = at + page;
    if (pages > 0)
        or_exit(mprotect(w->guard, pages, PROT_READ | PROT_WRITE) == 0 ? w->guard : NULL);
    w->end = (uint64_t *)(void *)(w->guard + pages);
    w->twin = NULL;
    w->kept = or_exit(malloc(size));
    words_resize(w, length);
}

void words_resize(struct words *w, size_t length)
{
    w->length = length;
    w->lent = w->end - length;
    free(w->twin);
    w->twin = or_exit(malloc(length * sizeof *w->twin));
    memset(w->guard, GUARD_BYTE, (size_t)((uint8_t *)w->lent - w->guard));
    for (size_t k = 0; k < length; k++)
        w->lent[k] = w->twin[k] = w->kept[k] = dice();
}

void words_copy(struct words *to, const struct words *from)
{
    memcpy(to->lent, from->kept, from->length * sizeof *from->kept);
    memcpy(to->twin, from->kept, from->length * sizeof *from->kept);
    memcpy(to->kept, from->kept, from->length * sizeof *from->kept);
}

bool words_guard_whole(const struct words *w)
{
    for (const uint8_t *at = w->guard; at < (const uint8_t *)w->lent; at++)
        if (*at != GUARD_BYTE)
            return false;
    return true;
}

bool words_unchanged(const struct words *w)
{
    size_t size = w->length * sizeof *w->lent;

    return memcmp(w->lent, w->kept, size) == 0 && memcmp(w->twin, w->kept, size) == 0;
}

/* A stretch at a time: most have not changed. */
bool words_one_stored(struct words *w)
{
    size_t changed = 0;

    if (memcmp(w->lent, w->twin, w->length * sizeof *w->lent) != 0)
        return false;
    for (size_t from = 0; from < w->length; from += STRETCH) {
        size_t to = from + STRETCH < w->length ? from + STRETCH : w->length;

        if (memcmp(w->kept + from, w->twin + from, (to - from) * sizeof *w->kept) == 0)
            continue;
        for (size_t k = from; k < to; k++)
            if (w->kept[k] != w->twin[k]) {
                w->kept[k] = w->twin[k];
                changed++;
            }
    }
    return changed <= 1;
}
