/* Shootdowns that overlap. Each tells the second processor of the pages that were unmapped or protected since the one before began, by
 * invlpg of each page and nothing else. Its interrupt is slow: the tests say when it comes, in any order. */
#ifndef SHOOTDOWNS_H
#define SHOOTDOWNS_H

#include <stdint.h>

enum { MOST_UNDER_WAY = 3, MOST_PAGES = 8 };

struct shootdown {
    uint64_t page[MOST_PAGES], used[MOST_PAGES]; /* the base, and an address in it that the process has used */
    unsigned pages;
    uint32_t done;
    uint64_t ticket, tables; /* the last ticket when it began, and how many tables had been set aside */
};

/* Unmaps or protects a page of the process, which has used this address in it; the next shootdown tells of it. The answer is the number
 * of that one. */
unsigned unmap_later_told(uint64_t base, uint64_t frame, uint64_t size, uint64_t used);
unsigned protect_later_told(uint64_t base, uint64_t rights, uint64_t used);

/* Begins one, with all such pages and the ticket of this moment. */
void begin_shootdown(void);

/* How many are under way; the interrupt comes of the one of this number, or of any that is under way. */
unsigned under_way(void);
void interrupt_comes(unsigned number);
void some_interrupt_comes(uint64_t chance);

/* Reports those that are done, up to the first that is not, by the ticket of the last of them. From then on no page of theirs may be
 * reached, which is tried at the addresses that were used. The answer is how many were reported. */
unsigned report_done(void);

/* All that is left is told and reported. */
void tell_all(void);

/* So many were begun, and reported. */
unsigned shootdowns_begun(void);
unsigned shootdowns_reported(void);

/* How often three were under way, one was done before an older one, and several were reported at once. */
uint64_t times_three(void);
uint64_t times_overtaken(void);
uint64_t times_several(void);

#endif
