/* faults: the system's calls that the command makes, with one of them going wrong as CMM_FAULT says; memory-2 is the second request for
 * memory, and so for read and statx. Linked with -Wl,--wrap=CALL for each of them (tests/check_command). CMM_FAULT_FILE is the file
 * that changes while it is read. */
#define _GNU_SOURCE
#include <errno.h>
#include <fcntl.h>
#include <stdio.h>
#include <stdlib.h>
#include <string.h>
#include <sys/stat.h>
#include <unistd.h>

void *__real_realloc(void *old, size_t size);
ssize_t __real_read(int file, void *to, size_t size);
ssize_t __real_write(int file, const void *from, size_t size);
int __real_statx(int at, const char *path, int flags, unsigned mask, struct statx *s);
int __real_close(int file);

static int is(const char *fault)
{
    const char *set = getenv("CMM_FAULT");

    return set && strcmp(set, fault) == 0;
}

static int is_number(const char *what, int call)
{
    char fault[32];

    snprintf(fault, sizeof fault, "%s-%d", what, call);
    return is(fault);
}

static int fail(int reason)
{
    errno = reason;
    return -1;
}

static void change_file(const char *words)
{
    FILE *file = fopen(getenv("CMM_FAULT_FILE"), words);

    if (!file || fputs("status=1\n", file) < 0 || fclose(file) != 0)
        abort();
}

static size_t asked;

/* How much memory was asked for, and how much the process has had at most, as the system counts it. */
static void tell_memory(void)
{
    FILE *status = fopen("/proc/self/status", "r");
    char line[128];

    fprintf(stderr, "asked=%zu\n", asked);
    while (status && fgets(line, sizeof line, status))
        if (strncmp(line, "VmHWM:", 6) == 0)
            fputs(line, stderr);
}

void *__wrap_realloc(void *old, size_t size)
{
    static int call;

    if (call++ == 0 && is("count-memory"))
        atexit(tell_memory);
    asked += size;
    return is_number("memory", call) ? NULL : __real_realloc(old, size);
}

ssize_t __wrap_read(int file, void *to, size_t size)
{
    static int call;

    ++call;
    if (is_number("read", call))
        return fail(EIO);
    if (is("read-slow") && call % 2 == 0)
        return fail(EINTR);
    if (call == 1 && is("file-grows"))
        change_file("ab");
    if (call == 1 && is("file-shrinks") && truncate(getenv("CMM_FAULT_FILE"), 10) != 0)
        abort();
    if (call == 2 && is("file-rewritten"))
        change_file("r+b");
    return __real_read(file, to, is("read-slow") && size > 1000 ? 1000 : size);
}

ssize_t __wrap_write(int file, const void *from, size_t size)
{
    static int call;

    if (is("write-slow") && ++call % 2 == 0)
        return fail(EINTR);
    return __real_write(file, from, is("write-slow") && size > 7 ? 7 : size);
}

int __wrap_statx(int at, const char *path, int flags, unsigned mask, struct statx *s)
{
    static int call;

    return is_number("statx", ++call) ? fail(EIO) : __real_statx(at, path, flags, mask, s);
}

int __wrap_close(int file)
{
    return file == STDOUT_FILENO && is("close-fails") ? fail(EDQUOT) : __real_close(file);
}
