/* agree.h: whether the proved library and the hand-written code answer alike. */
#ifndef AGREE_H
#define AGREE_H

/* Asks both about so many small records, sound and damaged, and about as many ventilation records, small record files
 * and exports. Gives how many were answered differently and names each on standard error; says on standard output how
 * often each refusal was met. */
unsigned disagreements(unsigned records);

#endif
