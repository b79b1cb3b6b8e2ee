/* words.h: a refusal as one sentence: what is wrong, where, and what would be right (docs/COMMAND.md). */
#ifndef WORDS_H
#define WORDS_H

#include "input.h"
#include "when.h"

struct refusal {
    unsigned long number, device, place;
};

/* Prints a refusal's three lines. Gives NO, or says what is the matter and gives TROUBLE. */
int put_refusal(const struct refusal *r);

/* Says on standard error what a record file was refused for. `start` is when its first interval begins, or null. */
void say_refusal(const struct text *record, const struct refusal *r, const struct moment *start);

/* Says what a device's export was refused for (14 to 16), for a record of so many intervals. */
void say_export(const struct text *export, const struct refusal *r, unsigned long device, size_t intervals, const struct moment *start);

/* Says that the record has flow of a device whose flow is in an export as well. */
void say_flow_twice(const struct text *record, unsigned long device, const char *export, const struct moment *start);

#endif
