/* What the tests share: a page of each size, and operations on the process's tables that must succeed, or be refused. */
#ifndef MUST_H
#define MUST_H

#include "space.h"

enum { SIZES = 3 };
uint64_t size_of(unsigned n); /* 4 KiB, 2 MiB, 1 GiB */
const char *size_name(uint64_t size);
uint64_t place_of(unsigned n);                  /* a base for a page of that size, with nothing near; of 2 MiB in the upper half */
uint64_t frame_for(unsigned n, unsigned which); /* one of two frames of that size */

/* Look-up must say that this address is mapped to this physical one, with these rights; or to nothing, where it is ABSENT; or that it is no
 * address, where it is NO_ADDRESS_THERE. */
#define ABSENT (~0ull)
#define NO_ADDRESS_THERE (~1ull)
struct place {
    const char *name;
    uint64_t va, at, rights;
};
void must_be(const struct tp_space *s, const struct place *place);

/* Each is checked to be done, to answer rightly, and to be what look-up then says. */
void must_map(uint64_t base, uint64_t frame, uint64_t size, uint64_t rights);
void must_protect(uint64_t base, uint64_t rights);

/* Writable, and executable: no page gets such rights. */
int is_both(uint64_t rights);

/* Each is checked to be refused for this reason, and to change no byte of the pool. */
void must_refuse_map(uint64_t reason, uint64_t base, uint64_t frame, uint64_t size, uint64_t rights);
void must_refuse_protect(uint64_t reason, uint64_t base, uint64_t rights);

/* The process's pool as it is now; and whether it still is. */
void remember_pool(void);
int is_pool_unchanged(void);

/* Unmaps, and tells nobody yet; the answer is the ticket. Or tells the second processor at once. */
uint64_t must_unmap_untold(uint64_t base, uint64_t frame, uint64_t size);
uint64_t must_unmap(uint64_t base, uint64_t frame, uint64_t size);

/* Reports, with a ticket that all before it were told: all tables set aside must be free again; or so many of those of the whole run. */
void must_report(uint64_t ticket);
void must_report_of(uint64_t ticket, uint64_t tables);

/* Both at once. */
void must_unmap_and_report(uint64_t base, uint64_t frame, uint64_t size);

/* The last ticket that was answered. */
uint64_t last_ticket(void);

/* How many tables were made, set aside, and released after that, so far. */
uint64_t tables_made(void);
uint64_t tables_set_aside(void);
uint64_t tables_released(void);

#endif
