/* memory.h: memory from the system, as much as is asked for and no more. */
#ifndef MEMORY_H
#define MEMORY_H

#include <stddef.h>

/* Room for `size` bytes in place of `old`, which may be null, with what `old` holds. Gives null where there is none, and `old` stays.
 * It is given back with free. */
void *memory(void *old, size_t size);

#endif
