#include "when.h"

#include <stdio.h>
#include <string.h>

enum { QUARTER = 15, DAY = 24 * 60 };

static int days_of(int year, int month)
{
    static const int days[] = { 31, 28, 31, 30, 31, 30, 31, 31, 30, 31, 30, 31 };
    int leap = year % 4 == 0 && (year % 100 != 0 || year % 400 == 0);

    return days[month - 1] + (month == 2 && leap);
}

static void next_day(struct moment *m)
{
    if (++m->day <= days_of(m->year, m->month))
        return;
    m->day = 1;
    if (++m->month <= 12)
        return;
    m->month = 1;
    ++m->year;
}

int moment_read(const char *text, struct moment *m)
{
    static const char shape[] = "dddd-dd-ddTdd:dd";
    int hour, minute;
    size_t i;

    if (strlen(text) != strlen(shape))
        return 0;
    for (i = 0; shape[i]; ++i)
        if (shape[i] == 'd' ? text[i] < '0' || text[i] > '9' : text[i] != shape[i])
            return 0;
    sscanf(text, "%4d-%2d-%2dT%2d:%2d", &m->year, &m->month, &m->day, &hour, &minute);
    m->minute = 60 * hour + minute;
    return m->year >= 1 && m->month >= 1 && m->month <= 12 && m->day >= 1 && m->day <= days_of(m->year, m->month) &&
           hour < 24 && minute < 60;
}

void moment_write(const struct moment *start, unsigned long interval, char text[MOMENT_TEXT])
{
    struct moment m = *start;
    unsigned long minutes = (unsigned long)m.minute + QUARTER * interval;

    for (; minutes >= DAY; minutes -= DAY)
        next_day(&m);
    snprintf(text, MOMENT_TEXT, "%04d-%02d-%02dT%02lu:%02lu", m.year, m.month, m.day, minutes / 60, minutes % 60);
}
