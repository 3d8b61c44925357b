/* The parts of the account, in their order. Each leaves the process's tables as it found them. */
#ifndef TESTS_H
#define TESTS_H

#include <stdint.h>

void test_kernel_pages(void);
void test_rights(void);
void test_halves(void);
void test_marks(void);
void test_bits(void);
void test_stale(void);
void test_overlapping(void);
void test_dry(void);
void test_night(uint64_t rounds);

#endif
