/* Accesses that may fault, and the interrupts that the second processor takes. */
#ifndef TRAPS_H
#define TRAPS_H

#include <stdint.h>

enum access { READ, WRITE, EXECUTE, ACCESSES };

/* vectors */
enum { GENERAL_PROTECTION = 13, PAGE_FAULT = 14 };

/* What came of one access. */
struct outcome {
    uint64_t value; /* what was read, written, or said by what was executed */
    uint64_t faulted;
    uint64_t error;   /* the error code of the fault */
    uint64_t address; /* CR2 */
    uint64_t vector;
};

/* One access in ring 0, on this processor and in the tables that it lives in. */
struct outcome access_here(enum access kind, uint64_t va, uint64_t word);

/* Segments, task and traps of processor 0 or 1. */
void prepare_traps(unsigned processor);

_Noreturn void enter_ring_3(uint64_t instruction, uint64_t stack);

#endif
