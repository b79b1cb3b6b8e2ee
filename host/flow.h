/* flow.h: a device's flow from a historian's export (cmm sheet --flow DEVICE=FILE). */
#ifndef FLOW_H
#define FLOW_H

#include "../include/cmm.h"
#include "rows.h"
#include "when.h"

/* The file that has each device's flow, or null where the record has it. */
struct flows {
    const char *file[CMM_DEVICES_MOST];
};

/* Takes an option's value, DEVICE=FILE. Gives YES, or says what is the matter with it and gives TROUBLE. */
int flow_take(struct flows *f, const char *command, const char *option);

/* How many files there are, and how many of them are standard input. */
int flow_files(const struct flows *f);
int flow_inputs(const struct flows *f);

/* Reads the exports into the rows of a record that was read, in the order of devices. Gives YES; or NO, with the refusal printed and
 * said; or says what is the matter and gives TROUBLE. */
int flow_read(const struct flows *f, const struct text *text, const struct record *record, struct rows *rows, const struct moment *start);

#endif
