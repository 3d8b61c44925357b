/* Expected numbers of tables come from the words themselves, not from the library. */
#include "must.h"
#include "account.h"
#include "frames.h"
#include "machine.h"
#include "own.h"
#include "second.h"

enum { MOST = 40, WORDS = MOST * ENTRIES };
static uint64_t before[WORDS];
static uint64_t made, aside, released, ticket_answered;

uint64_t size_of(unsigned n) { return n == 0 ? PAGE : n == 1 ? MIB2 : GIB1; }

const char *size_name(uint64_t size) { return size == PAGE ? "4 KiB" : size == MIB2 ? "2 MiB" : "1 GiB"; }

uint64_t place_of(unsigned n) {
    uint64_t half = n == 1 ? UPPER : (uint64_t)(n + 1) << 39;
    return half | 5 * GIB1 | (n < 2 ? 3 * MIB2 : 0) | (n < 1 ? 7 * PAGE : 0);
}

uint64_t frame_for(unsigned n, unsigned which) {
    if (n == 2) return gib(1 + which);
    return gib(0) + (uint64_t)(n + 2) * 0x2000000 + which * 5 * size_of(n);
}

/* How many tables a map must make: those that are missing on the way. */
static uint64_t missing(uint64_t base, uint64_t size) {
    unsigned needed = size == PAGE ? 4 : size == MIB2 ? 3 : 2;
    return needed - way_of(&process_space, base).words;
}

/* How many tables an unmap must set aside: those that hold nothing else, from below. */
static uint64_t alone(uint64_t base) {
    struct way way = way_of(&process_space, base);
    uint64_t n = 0;
    while (n + 1 < way.words && filled(way.word[way.words - 1 - n]) == 1) n++;
    return n;
}

void must_be(const struct tp_space *s, const struct place *place) {
    struct tp_found f = tp_look_up(s, place->va);
    uint64_t at = f.kind == TP_PAGE ? f.frame + (place->va - f.base) : f.kind == TP_NO_ADDRESS ? NO_ADDRESS_THERE : ABSENT;
    check(at == place->at && f.rights == place->rights, "%s at %x: look-up says %x with rights %u, not %x with %u", place->name, place->va,
          at, f.rights, place->at, place->rights);
}

void must_map(uint64_t base, uint64_t frame, uint64_t size, uint64_t rights) {
    uint64_t tables = missing(base, size);
    struct tp_mapped m = tp_map(&process_space, base, frame, size, rights);
    check(m.reason == TP_DONE && m.tables == tables, "map %s at %x: reason %u, %u tables made, not %u", size_name(size), base, m.reason,
          m.tables, tables);
    made += m.tables;
    struct tp_found f = tp_look_up(&process_space, base + size - 1);
    check(f.kind == TP_PAGE && f.base == base && f.size == size && f.frame == frame && f.rights == rights,
          "mapped %s at %x to %x with rights %u: look-up says kind %u, frame %x, rights %u", size_name(size), base, frame, rights, f.kind,
          f.frame, f.rights);
}

void must_protect(uint64_t base, uint64_t rights) {
    struct tp_found before = tp_look_up(&process_space, base);
    struct tp_protected p = tp_protect(&process_space, base, rights);
    struct tp_found after = tp_look_up(&process_space, base);
    check(p.reason == TP_DONE && p.frame == before.frame && p.size == before.size && after.frame == p.frame && after.rights == rights,
          "protect at %x: reason %u, frame %x, and look-up says frame %x, rights %u, not %u", base, p.reason, p.frame, after.frame,
          after.rights, rights);
}

int is_both(uint64_t rights) { return rights & TP_WRITABLE && !(rights & TP_NO_EXECUTE); }

static volatile uint64_t *pool_words(void) { return (volatile uint64_t *)process_space.mem; }

void remember_pool(void) {
    if (process_space.pages > MOST) give_up("the pool is larger than what can be remembered");
    for (uint64_t i = 0; i < process_space.pages * ENTRIES; i++) before[i] = pool_words()[i];
}

int is_pool_unchanged(void) {
    for (uint64_t i = 0; i < process_space.pages * ENTRIES; i++)
        if (before[i] != pool_words()[i]) return 0;
    return 1;
}

static void must_be_refused(const char *what, uint64_t base, uint64_t rights, uint64_t reason, uint64_t said) {
    check(said == reason && is_pool_unchanged(), "a %s at %x with rights %u that must be refused for reason %u: reason %u, bytes %s", what, base,
          rights, reason, said, is_pool_unchanged() ? "unchanged" : "changed");
}

void must_refuse_map(uint64_t reason, uint64_t base, uint64_t frame, uint64_t size, uint64_t rights) {
    remember_pool();
    must_be_refused("map", base, rights, reason, tp_map(&process_space, base, frame, size, rights).reason);
}

void must_refuse_protect(uint64_t reason, uint64_t base, uint64_t rights) {
    remember_pool();
    must_be_refused("protect", base, rights, reason, tp_protect(&process_space, base, rights).reason);
}

uint64_t must_unmap_untold(uint64_t base, uint64_t frame, uint64_t size) {
    uint64_t tables = alone(base);
    struct tp_unmapped u = tp_unmap(&process_space, base);
    check(u.reason == TP_DONE && u.frame == frame && u.size == size && u.aside == tables,
          "unmap %s at %x: reason %u, frame %x, not %x, %u tables set aside, not %u", size_name(size), base, u.reason, u.frame, frame,
          u.aside, tables);
    check(tp_look_up(&process_space, base).kind == TP_NOTHING, "unmapped %s at %x: look-up still says something", size_name(size), base);
    aside += u.aside;
    if (u.ticket) ticket_answered = u.ticket;
    return u.ticket;
}

uint64_t must_unmap(uint64_t base, uint64_t frame, uint64_t size) {
    uint64_t ticket = must_unmap_untold(base, frame, size);
    shoot_down(base);
    return ticket;
}

void must_report(uint64_t ticket) {
    struct tp_report r = tp_told(&process_space, ticket);
    check(r.reason == TP_DONE && r.released == aside, "told: reason %u, %u tables released, not %u", r.reason, r.released, aside);
    released += r.released;
    aside = 0;
}

void must_report_of(uint64_t ticket, uint64_t tables) {
    uint64_t later = aside - (tables - released);
    aside = tables - released;
    must_report(ticket);
    aside = later;
}

void must_unmap_and_report(uint64_t base, uint64_t frame, uint64_t size) {
    uint64_t ticket = must_unmap(base, frame, size);
    if (ticket) must_report(ticket);
}

uint64_t last_ticket(void) { return ticket_answered; }
uint64_t tables_made(void) { return made; }
uint64_t tables_set_aside(void) { return released + aside; }
uint64_t tables_released(void) { return released; }
