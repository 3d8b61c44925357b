/* What the kernel and the process of ring 3 share: a mailbox in the process's data. */
#ifndef PROCESS_H
#define PROCESS_H

#include "traps.h"
#include <stdint.h>

enum job_kind { FILL, SUM, ACCESS };

/* FILL: every step bytes from the first address on, up to the end, the word mixed(seed, offset from the base).
 * SUM: reads the same words and adds them up. ACCESS: one access that may fault, at base, with the seed as the word to write. */
struct job {
    uint64_t kind, base, first, end, step, seed;
    uint64_t access;
    uint64_t sum;
    struct outcome outcome;
};

struct mailbox {
    uint32_t posted, done; /* how many jobs */
    struct job job;
};

extern struct mailbox mailbox;
void process(void);

#endif
