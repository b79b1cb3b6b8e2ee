/* lines.h: the lines of a record file: their keys, the numbers that are right, and which one is due where (docs/RULES.md, section 12).
 * The library decides what is refused; this finds the line that the refusal speaks of. */
#ifndef LINES_H
#define LINES_H

#include <stddef.h>
#include <stdint.h>

enum key {
    INTERVALS,
    DEVICES,
    MINE,
    FUELS,
    QUANTITY,
    FACTOR,
    KIND,
    FLOW_CHECKS,
    CH4_CHECKS,
    AT,
    DRIFT,
    FLOW,
    CH4,
    TEMP,
    PRESS,
    STATUS,
    KEYS /* and where no line is due: the record has ended */
};

struct field {
    const char *key;
    long long least, most; /* of a check's position, `most` is the number of intervals and not here */
    const char *note;      /* the unit, or what the numbers stand for */
    int optional;          /* an empty value means missing */
};

extern const struct field fields[KEYS];

/* A line of a text, and what is due there if all lines before it are right. */
struct walk {
    enum key due;
    size_t number;               /* of the line, from 1 */
    const uint8_t *bytes, *end;  /* from where the line begins, and the text's end */
    unsigned long device, entry; /* of which device it is; its fuel line, check or interval */
    int content;                 /* a check is the CH4 instrument's */
    unsigned long intervals, devices, fuels, checks; /* as earlier lines say; checks of the instrument that is met */
    long long position, before;  /* of the check that is met, as its `at` line says, and of the check before it (-1 if none) */
};

/* The first line, and the next one; the line that is left must be right. */
void walk_start(struct walk *w, const uint8_t *text, size_t length);
void walk_on(struct walk *w);

/* The line's bytes without its byte 10, and whether that follows. */
size_t line_length(const struct walk *w);
int line_ended(const struct walk *w);

/* The number of a right line; whether its value is empty; whether it is in the range that is right there. */
long long line_value(const struct walk *w);
int line_empty(const struct walk *w);
long long line_least(const struct walk *w);
long long line_most(const struct walk *w);
int line_in_range(const struct walk *w);

#endif
