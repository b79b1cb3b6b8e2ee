#define _GNU_SOURCE
#include "input.h"

#include <errno.h>
#include <fcntl.h>
#include <stdlib.h>
#include <string.h>
#include <sys/stat.h>
#include <unistd.h>

#include "memory.h"
#include "say.h"

/* What is asked for at first where a size is not known: a pipe's, a terminal's. */
enum { UNKNOWN = 65536 };

static size_t lesser(size_t a, size_t b)
{
    return a < b ? a : b;
}

/* What the system says of an open file. (struct statx is the same on every processor, whosever headers the compiler has.) */
static int ask(int file, struct statx *s)
{
    return statx(file, "", AT_EMPTY_PATH, STATX_TYPE | STATX_SIZE | STATX_MTIME, s);
}

/* A regular file's own length and one byte, so that one read takes it all and the next one finds its end. */
static size_t wanted(const struct statx *s, size_t most)
{
    if (!S_ISREG(s->stx_mode) || s->stx_size == 0)
        return lesser(UNKNOWN, most);
    return s->stx_size < most ? (size_t)s->stx_size + 1 : most;
}

static int changed(const struct statx *a, const struct statx *b)
{
    return a->stx_size != b->stx_size || a->stx_mtime.tv_sec != b->stx_mtime.tv_sec || a->stx_mtime.tv_nsec != b->stx_mtime.tv_nsec;
}

/* Room for `size` bytes, those read so far among them. */
static int grow(struct text *t, size_t size)
{
    uint8_t *bytes = memory(t->bytes, size);

    if (!bytes)
        return trouble("memory", strerror(ENOMEM));
    t->bytes = bytes;
    return YES;
}

static int read_all(int file, size_t size, size_t most, struct text *t)
{
    for (;;) {
        ssize_t n = read(file, t->bytes + t->length, size - t->length);
        if (n < 0 && errno == EINTR)
            continue;
        if (n < 0)
            return trouble(t->name, strerror(errno));
        t->length += (size_t)n;
        if (n == 0 || t->length == most)
            return YES;
        if (t->length == size) {
            size = lesser(2 * size, most);
            if (grow(t, size) != YES)
                return TROUBLE;
        }
    }
}

static int read_open(int file, size_t most, struct text *t)
{
    struct statx before, after;
    size_t size;

    if (ask(file, &before) != 0)
        return trouble(t->name, strerror(errno));
    size = wanted(&before, most);
    if (grow(t, size) != YES || read_all(file, size, most, t) != YES)
        return TROUBLE;
    if (ask(file, &after) != 0)
        return trouble(t->name, strerror(errno));
    if (S_ISREG(before.stx_mode) && changed(&before, &after))
        return trouble(t->name, "changed while it was read");
    return YES;
}

int input_read(const char *name, size_t most, struct text *t)
{
    int standard = strcmp(name, "-") == 0;
    int file = standard ? STDIN_FILENO : open(name, O_RDONLY | O_CLOEXEC);
    int status;

    t->name = standard ? "standard input" : name;
    t->bytes = NULL;
    t->length = 0;
    if (file < 0)
        return trouble(t->name, strerror(errno));
    status = read_open(file, most, t);
    if (!standard)
        close(file);
    if (status != YES)
        input_free(t);
    return status;
}

void input_free(struct text *t)
{
    free(t->bytes);
    t->bytes = NULL;
}
