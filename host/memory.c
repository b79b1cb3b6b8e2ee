#define _GNU_SOURCE
#include "memory.h"

#include <stdint.h>
#include <stdlib.h>
#include <sys/mman.h>

/* A year is some 8,700 small pages, and the system takes longer to hand them out than to fill them. It may take large ones for what
 * lies wholly within the memory asked for; where it does not, nothing else changes. */
static void prefer_large_pages(void *room, size_t size)
{
    const uintptr_t large = (uintptr_t)2 << 20;
    uintptr_t from = ((uintptr_t)room + large - 1) / large * large;
    uintptr_t to = ((uintptr_t)room + size) / large * large;

    if (from < to)
        madvise((void *)from, to - from, MADV_HUGEPAGE);
}

void *memory(void *old, size_t size)
{
    void *room = realloc(old, size);

    if (room)
        prefer_large_pages(room, size);
    return room;
}
