/* Words that tell where they are: what is planted in a frame before an access, and what a beam fills a buffer with. */
#ifndef PLANT_H
#define PLANT_H

#include <stdint.h>

/* A number that hardly any other pair has. */
static inline uint64_t mixed(uint64_t a, uint64_t b) {
    uint64_t x = a * 0x9e3779b97f4a7c15ull ^ (b + 0x7f4a7c15ull) * 0xbf58476d1ce4e5b9ull;
    return (x ^ x >> 29) * 0x94d049bb133111ebull ^ x >> 32;
}

/* mov $number, %eax; jmp *%r9: a word that can be read, and executed, and says the same both times */
static inline uint64_t planted(uint32_t number) { return 0xe1ff41ull << 40 | (uint64_t)number << 8 | 0xb8; }
static inline uint32_t number_of(uint64_t word) { return (uint32_t)(word >> 8); }

#endif
