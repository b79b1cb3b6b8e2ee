#include "rows.h"

#include <errno.h>
#include <stdlib.h>
#include <string.h>

#include "lines.h"
#include "memory.h"
#include "say.h"

uint64_t record_read(const struct text *t, struct record *r, struct rows *w, uint64_t line[1])
{
    size_t n = w->entries;

    return cmm_read_record(t->bytes, t->length, r->quantity, r->factor, r->kinds, r->counts, r->positions, r->drifts, w->flow, n,
                           w->content, n, w->temp, n, w->press, n, w->status, n, r->head, line);
}

/* Intervals times devices, or 0. The library is asked first, with rows of no entry: 13 says that the first two lines are right. */
static size_t entries_of(const struct text *t)
{
    uint32_t none;
    struct rows nothing = { .entries = 0, .press = &none };
    struct record r;
    uint64_t line[1];
    struct walk w;
    size_t intervals;

    nothing.flow = nothing.content = (uint16_t *)(void *)&none; /* a pointer that is not null, which nothing is read or written by */
    nothing.temp = (int16_t *)(void *)&none;
    nothing.status = (uint8_t *)&none;
    if (record_read(t, &r, &nothing, line) != 13)
        return 0;
    walk_start(&w, t->bytes, t->length);
    intervals = (size_t)line_value(&w);
    walk_on(&w);
    return intervals * (size_t)line_value(&w);
}

int rows_lend(const struct text *t, struct rows *r)
{
    size_t n = entries_of(t), room = n > 0 ? n : 1;
    /* One block, the widest entries first; pages that nothing is written to are never there. */
    uint8_t *block = memory(NULL, room * (4 + 5 * 2 + 2));

    if (!block)
        return trouble("memory", strerror(ENOMEM));
    r->entries = n;
    r->press = (uint32_t *)(void *)block;
    r->flow = (uint16_t *)(r->press + room);
    r->content = r->flow + room;
    r->temp = (int16_t *)(r->content + room);
    r->flow_used = (uint16_t *)(r->temp + room);
    r->content_used = r->flow_used + room;
    r->status = (uint8_t *)(r->content_used + room);
    r->outcome = r->status + room;
    return YES;
}

void rows_free(struct rows *r)
{
    free(r->press);
}
