/* input.h: a file, or standard input, read whole into memory. */
#ifndef INPUT_H
#define INPUT_H

#include <stddef.h>
#include <stdint.h>

struct text {
    const char *name; /* for messages */
    uint8_t *bytes;
    size_t length;
};

/* Reads the file of this name; "-" is standard input. No more than `most` bytes are read. Gives YES, or says what is the matter and
 * gives TROUBLE: a file that changes meanwhile is trouble too. What was read is freed with input_free. */
int input_read(const char *name, size_t most, struct text *t);
void input_free(struct text *t);

#endif
