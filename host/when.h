/* when.h: the date and time at which an interval begins. */
#ifndef WHEN_H
#define WHEN_H

/* In the Gregorian calendar, by a clock that is never put forward or back. */
struct moment {
    int year, month, day, minute; /* minute of the day */
};

enum { MOMENT_TEXT = 32 }; /* bytes of a moment's text, its end included */

/* Reads YYYY-MM-DDTHH:MM, years from 0001. Gives 1, or 0 where there is no such date or time. */
int moment_read(const char *text, struct moment *m);

/* The beginning of an interval, by its number, of a period that begins at `start`, as YYYY-MM-DDTHH:MM. */
void moment_write(const struct moment *start, unsigned long interval, char text[MOMENT_TEXT]);

#endif
