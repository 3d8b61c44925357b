/* What must come of an access, by the manual's rules of access rights, from what look-up says. */
#ifndef FORESEE_H
#define FORESEE_H

#include "tablepath.h"
#include "traps.h"

/* bits of a page fault's error code */
enum { FAULT_PRESENT = 1, FAULT_WRITE = 2, FAULT_RING_3 = 4, FAULT_RESERVED = 8, FAULT_FETCH = 16 };

/* why it must fault, if it must */
enum cause { GOES, NOT_PRESENT, RESERVED, READ_ONLY, NO_EXECUTE, RING_0_ONLY, GUARDED, NO_ADDRESS, CAUSES };

struct foreseen {
    enum cause cause;
    uint64_t error;
};

/* reserved: where look-up says nothing, whether that is for a reserved bit and not for an entry that is not present. */
struct foreseen foresee(struct tp_found found, int reserved, unsigned ring, enum access kind);

/* Whether the access came out so, at that address. What is no address is a general protection fault, which says no address; all else that
 * faults is a page fault. */
int came(struct outcome outcome, struct foreseen foreseen, uint64_t va);

/* Finds out which guards of ring 0 there are, and their bits in CR4: no execution, and no access, of pages of ring 3. */
uint64_t guards(void);

const char *access_name(enum access kind);

#endif
