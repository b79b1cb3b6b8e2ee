#include "say.h"

#include <errno.h>
#include <stdio.h>
#include <string.h>
#include <unistd.h>

int trouble(const char *name, const char *reason)
{
    fprintf(stderr, "cmm: %s: %s\n", name, reason);
    return TROUBLE;
}

int misused(const char *command)
{
    fprintf(stderr, "Try '%s --help'.\n", command);
    return TROUBLE;
}

int put(const void *bytes, size_t length)
{
    const char *at = bytes;

    while (length > 0) {
        ssize_t n = write(STDOUT_FILENO, at, length);
        if (n < 0 && errno == EINTR)
            continue;
        if (n < 0)
            return trouble("standard output", strerror(errno));
        at += n;
        length -= (size_t)n;
    }
    return YES;
}

int put_text(const char *text)
{
    return put(text, strlen(text));
}
