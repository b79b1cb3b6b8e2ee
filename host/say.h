/* say.h: what a command says, and how it ends. The answer goes to standard output, words go to standard error. */
#ifndef SAY_H
#define SAY_H

#include <stddef.h>

/* Exit status: a sheet or an agreement; a refusal or a difference; usage, a file that cannot be read or written, memory. */
enum { YES, NO, TROUBLE };

/* Says `cmm: NAME: REASON` and gives TROUBLE. */
int trouble(const char *name, const char *reason);

/* After a sentence about wrong usage: where to find the right one. `command` is "cmm" or "cmm COMMAND". Gives TROUBLE. */
int misused(const char *command);

/* Writes all of it to standard output. Gives YES, or says what is the matter and gives TROUBLE. */
int put(const void *bytes, size_t length);
int put_text(const char *text);

#endif
