/* Spaces whose window is the pool; and the words of their tables, read without the library. */
#ifndef SPACE_H
#define SPACE_H

#include "tablepath.h"

/* Makes the pool and the root; gives up where that is refused. */
struct tp_space create(uint8_t *mem, uint64_t origin, uint64_t pages);

enum { PRESENT = 1, WRITES = 2, ACCESSED = 0x20, DIRTY = 0x40, LARGE = 0x80 };

/* The words on the way of an address, from the root's down, as the manual says where they are. */
struct way {
    unsigned words;
    volatile uint64_t *word[4]; /* word[0] is of the root */
};
struct way way_of(const struct tp_space *s, uint64_t va);

/* The last of them. */
uint64_t leaf_word(const struct tp_space *s, uint64_t va);

/* How many pages of these tables can be written and executed, by all the words on their ways. */
uint64_t pages_of_both(const struct tp_space *s);

/* How many words of this page of the pool are not 0. */
unsigned filled(const volatile uint64_t *word_in_table);

#endif
