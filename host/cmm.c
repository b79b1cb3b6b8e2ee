/* cmm: the operator's command, over the proved library. docs/COMMAND.md says what it does and prints.
 *
 * All that is quantified, read and written is the library's (include/cmm.h); what is here is files, memory, options and words. */
#define _GNU_SOURCE
#include <errno.h>
#include <fcntl.h>
#include <getopt.h>
#include <signal.h>
#include <stdio.h>
#include <string.h>
#include <unistd.h>

#include "../include/cmm.h"
#include "commands.h"
#include "say.h"

static const struct {
    const char *name;
    int (*run)(int argc, char **argv);
} commands[] = {
    { "sheet", sheet_command },
};

static const char help[] =
    "Usage: cmm COMMAND [OPTIONS] [FILE..]\n"
    "\n"
    "Quantifies destroyed coal-mine methane by Quebec Protocol 4.\n"
    "\n"
    "  cmm sheet [RECORD]    the sheet of a record file of drainage gas\n"
    "  cmm COMMAND --help    what a command does, with its options\n"
    "  cmm --help            this text\n"
    "  cmm --version         the version: one number for command, library and header\n"
    "\n"
    "FILE - , or none where one is wanted, is standard input. Standard output has the\n"
    "answer only, standard error has words.\n"
    "\n"
    "Exit status: 0 yes (a sheet), 1 no (a refusal), 2 trouble (usage, a file that cannot\n"
    "be read or written, memory).\n";

/* A file that is opened must not get the number of a closed standard output: something that can be neither read nor written stands
 * in for each standard file that is closed. */
static int hold_standard_files(void)
{
    int file;

    for (file = 0; file <= 2; ++file)
        if (fcntl(file, F_GETFD) == -1 && open("/", O_PATH) != file)
            return 0;
    return 1;
}

static int run(const char *name, int argc, char **argv)
{
    char whole[64];
    size_t i;

    for (i = 0; i < sizeof commands / sizeof *commands; ++i)
        if (strcmp(name, commands[i].name) == 0) {
            snprintf(whole, sizeof whole, "cmm %s", name);
            argv[0] = whole;
            optind = 0; /* another list of options begins */
            return commands[i].run(argc, argv);
        }
    fprintf(stderr, "cmm: there is no command '%s'\n", name);
    return misused("cmm");
}

static int version(void)
{
    char text[32];

    snprintf(text, sizeof text, "cmm %d\n", CMM_VERSION);
    return put_text(text);
}

static int start(int argc, char **argv)
{
    static const struct option options[] = {
        { "help", no_argument, NULL, 'h' },
        { "version", no_argument, NULL, 'v' },
        { NULL, 0, NULL, 0 },
    };
    static char name[] = "cmm";

    if (argc > 0)
        argv[0] = name;
    switch (getopt_long(argc, argv, "+h", options, NULL)) {
    case 'h': return put_text(help);
    case 'v': return version();
    case -1: break;
    default: return misused(name);
    }
    if (optind >= argc) {
        fputs("cmm: a command is wanted\n", stderr);
        return misused(name);
    }
    return run(argv[optind], argc - optind, argv + optind);
}

/* Some systems say only now that what was written cannot be kept. */
static int finish(int status)
{
    return close(STDOUT_FILENO) == 0 ? status : trouble("standard output", strerror(errno));
}

int main(int argc, char **argv)
{
    setvbuf(stderr, NULL, _IOLBF, BUFSIZ); /* a sentence is one write */
    signal(SIGPIPE, SIG_IGN);              /* a reader that has gone is trouble with standard output */
    if (!hold_standard_files())
        return TROUBLE;
    if (cmm_version() != CMM_VERSION) {
        fprintf(stderr, "cmm: the library has version %u, and this command is of version %d\n", (unsigned)cmm_version(), CMM_VERSION);
        return TROUBLE;
    }
    return finish(start(argc, argv));
}
