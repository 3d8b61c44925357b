/* The tables that the kernel lives in, and those of the process: both made by the library. */
#ifndef OWN_H
#define OWN_H

#include "space.h"

/* The process's tables, which the kernel edits. They map the kernel too, for traps, but not their own pool: the library maps no page
 * of the pool that it edits, and so the kernel edits them while it lives in other tables. */
extern struct tp_space process_space;

/* In the boot tables: makes the kernel's own tables, asks look-up what they allow, loads CR3, and tries all that. */
void live_in_own_tables(void);

void make_process_space(void);

/* Goes back to the boot tables to read the marks in the kernel's own, and returns. */
void test_own_marks(void);

#endif
