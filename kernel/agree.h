/* What look-up says of an address of the process, against what the machine does there. */
#ifndef AGREE_H
#define AGREE_H

#include "foresee.h"
#include "traps.h"

/* All accesses, in both rings: each succeeds, in the frame that look-up names, or faults with the error code that its answer means.
 * Where the frame is not of the buffers, only reads, and what must fault, are tried. The frame's words are put back.
 * when: for the words of a failure. */
void agree(const char *when, uint64_t va);

/* One of them. */
void agree_on(const char *when, uint64_t va, unsigned ring, enum access kind);

/* How many accesses were compared so far, by what had to come of them. */
uint64_t compared(enum cause cause);

#endif
