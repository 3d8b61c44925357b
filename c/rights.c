/* No page becomes writable and executable: every rights by map and protect, what is refused before that and what after it, and a page of older
 * tables that is both. */
#include "check.h"

enum { PAGES = 10, SIZES = 3, RIGHTS = 8 };
#define ORIGIN 0x100000u
#define FRAME 0x4000000000ull
#define TOP_BIT (1ull << 63)

static _Alignas(4096) uint8_t mem[PAGES * 4096];
static uint8_t before[sizeof mem];
static struct tp_space space = {mem, sizeof mem, ORIGIN, ORIGIN, PAGES, 0};

static const uint64_t sizes[SIZES] = {0x1000, 0x200000, 0x40000000};
static const uint64_t bases[] = {0, 0x40000000, 0xffff800000000000, 0xffffffffc0000000};
enum { BASES = sizeof bases / sizeof bases[0] };

/* what is asked, and the reason: bit 0 without bit 2 is refused, and so is a bit above the third */
static const struct {
    uint64_t rights, reason;
} asked[] = {
    {0, TP_DONE},
    {1, TP_WRITE_EXECUTE},
    {2, TP_DONE},
    {3, TP_WRITE_EXECUTE},
    {4, TP_DONE},
    {5, TP_DONE},
    {6, TP_DONE},
    {7, TP_DONE},
    {8, TP_RIGHTS},
    {9, TP_RIGHTS},
    {11, TP_RIGHTS},
    {TOP_BIT, TP_RIGHTS},
    {TOP_BIT + 1, TP_RIGHTS},
    {~0ull, TP_RIGHTS},
};
enum { ASKED = sizeof asked / sizeof asked[0] };

static void remember(void) { copy_bytes(before, mem, sizeof mem); }

static int unchanged(void) { return same_bytes(before, mem, sizeof mem); }

static int is_found(uint64_t base, uint64_t size, uint64_t rights) {
    struct tp_found f = tp_look_up(&space, base + (size - 1));
    return f.kind == TP_PAGE && f.base == base && f.size == size && f.frame == FRAME && f.rights == rights;
}

static void unmap(uint64_t base) {
    struct tp_unmapped u = tp_unmap(&space, base);
    check("unmap", u.reason == TP_DONE && u.frame == FRAME && tp_told(&space, u.ticket).released == u.aside);
}

/* by protect from these rights to each */
static void check_protect(uint64_t base, uint64_t size, uint64_t from) {
    for (unsigned n = 0; n < ASKED; n++) {
        remember();
        struct tp_protected p = tp_protect(&space, base, asked[n].rights);
        check("protect", p.reason == asked[n].reason);
        if (p.reason == TP_DONE) {
            check("protected", p.frame == FRAME && p.size == size && is_found(base, size, asked[n].rights));
            check("protect back", tp_protect(&space, base, from).reason == TP_DONE && unchanged());
        } else {
            check("a refusal of protect changes nothing", unchanged() && !p.frame && !p.size && !p.ticket && is_found(base, size, from));
        }
    }
}

static void check_map(uint64_t base, uint64_t size) {
    for (unsigned n = 0; n < ASKED; n++) {
        remember();
        struct tp_mapped m = tp_map(&space, base, FRAME, size, asked[n].rights);
        check("map", m.reason == asked[n].reason);
        if (m.reason == TP_DONE) {
            check("mapped", is_found(base, size, asked[n].rights));
            check_protect(base, size, asked[n].rights);
            unmap(base);
        } else {
            check("a refusal of map changes nothing", unchanged() && !m.tables && tp_look_up(&space, base).kind == TP_NOTHING);
        }
    }
}

/* refused for this reason where the rights are allowed, and for that one where they are both */
static void check_order(const struct tp_space *s, uint64_t base, uint64_t frame, uint64_t size, uint64_t reason, uint64_t both) {
    for (uint64_t rights = 0; rights < RIGHTS; rights++)
        check("the order of map", tp_map(s, base, frame, size, rights).reason == (rights == 1 || rights == 3 ? both : reason));
    check("the order of map: rights first", tp_map(s, base, frame, size, 9).reason == TP_RIGHTS);
}

static void check_protect_order(const struct tp_space *s, uint64_t base, uint64_t reason) {
    for (uint64_t rights = 0; rights < RIGHTS; rights++)
        check("the order of protect", tp_protect(s, base, rights).reason == (rights == 1 || rights == 3 ? TP_WRITE_EXECUTE : reason));
    check("the order of protect: rights first", tp_protect(s, base, 9).reason == TP_RIGHTS);
}

static void check_handle(struct tp_space wrong, uint64_t reason) {
    check_order(&wrong, 0x1000, FRAME, 4096, reason, TP_WRITE_EXECUTE);
    check_order(&wrong, 0, ORIGIN, 8192, TP_SIZE, TP_SIZE);
    check_protect_order(&wrong, 0, reason);
}

/* each field of the handle wrong, in turn; a pool that has no book, and a pointer, of which the header asks before all */
static void check_handles(void) {
    struct tp_space wrong = space;
    wrong.pool += 8;
    check_handle(wrong, TP_POOL_UNALIGNED);
    wrong = space, wrong.root += 8;
    check_handle(wrong, TP_ROOT_UNALIGNED);
    wrong = space, wrong.pages = ~0ull;
    check_handle(wrong, TP_POOL_LARGE);
    wrong = space, wrong.pages = 2;
    check_handle(wrong, TP_POOL_SMALL);
    wrong = space, wrong.pages = PAGES + 1;
    check_handle(wrong, TP_POOL_OUTSIDE);
    wrong = space, wrong.pages = PAGES - 1;
    check_handle(wrong, TP_OTHER_BOOK);
    wrong = space, wrong.root += 4096;
    check_handle(wrong, TP_BAD_ROOT);
    wrong = space, wrong.pool += 4096, wrong.pages = PAGES - 1;
    check_handle(wrong, TP_NO_BOOK);
    wrong = space, wrong.mem += 8, wrong.len -= 4096;
    check("the pointer before the rights", tp_map(&wrong, 0, FRAME, 4096, TP_WRITABLE).reason == TP_POINTER_UNALIGNED &&
                                               tp_protect(&wrong, 0, TP_WRITABLE).reason == TP_POINTER_UNALIGNED);
}

/* a page at 0; two free pages are too few for a page that is alone */
static void check_orders(void) {
    for (uint64_t n = 0; n < 2; n++) check("map", tp_map(&space, n << 39, FRAME, 4096, 0).reason == TP_DONE);
    check("two pages are free", tp_state(&space).free == 2);
    remember();
    check_order(&space, 1, 1, 8192, TP_SIZE, TP_SIZE);
    check_order(&space, 4096, 4096, 0x200000, TP_BASE_UNALIGNED, TP_BASE_UNALIGNED);
    check_order(&space, 1ull << 47, 4096, 0x200000, TP_FRAME_UNALIGNED, TP_FRAME_UNALIGNED);
    check_order(&space, 1ull << 47, 1ull << 52, 4096, TP_BASE_RANGE, TP_BASE_RANGE);
    check_order(&space, 0, 1ull << 52, 4096, TP_FRAME_RANGE, TP_FRAME_RANGE);
    check_order(&space, 0, ORIGIN, 4096, TP_FRAME_IN_POOL, TP_WRITE_EXECUTE);
    check_order(&space, 0, FRAME, 4096, TP_OVERLAP, TP_WRITE_EXECUTE);
    check_order(&space, 7ull << 39, FRAME, 4096, TP_NO_ROOM, TP_WRITE_EXECUTE);
    check_protect_order(&space, 0x1000, TP_NOTHING_STARTS);
    check_protect_order(&space, 1ull << 47, TP_BASE_RANGE);
    check_handles();
    check("no refusal changes anything", unchanged());
    for (uint64_t n = 0; n < 2; n++) unmap(n << 39);
}

/* the entry of the page at this base, the one that is mapped */
static uint8_t *entry_at(uint64_t base, uint64_t size) {
    uint64_t table = space.root, level = 3;
    for (; 0x1000ull << 9 * level > size; level--) table = tp_entry(&space, table, level, base >> (12 + 9 * level) & 511).address;
    return mem + (table - ORIGIN) + 8 * (base >> (12 + 9 * level) & 511);
}

/* a page whose entry became both, by hand or before it was refused: found, kept by a refusal, protected, unmapped */
static void check_old(uint64_t base, uint64_t size) {
    for (uint64_t to = 0; to < RIGHTS; to++) {
        uint64_t is_both = to == 1 || to == 3;
        check("map an old page", tp_map(&space, base, FRAME, size, TP_USER).reason == TP_DONE);
        entry_at(base, size)[0] |= 2;
        check("an old page is found", is_found(base, size, TP_WRITABLE | TP_USER));
        remember();
        check("protect an old page", tp_protect(&space, base, to).reason == (is_both ? TP_WRITE_EXECUTE : TP_DONE));
        check("an old page, protected or kept", is_both ? unchanged() : is_found(base, size, to));
        unmap(base);
    }
    check("map an old page", tp_map(&space, base, FRAME, size, TP_USER).reason == TP_DONE);
    entry_at(base, size)[0] |= 2;
    unmap(base);
}

void run(void) {
    check("create", tp_create(&space) == TP_DONE);
    for (unsigned n = 0; n < SIZES; n++)
        for (unsigned k = 0; k < BASES; k++) {
            check_map(bases[k], sizes[n]);
            check_old(bases[k], sizes[n]);
        }
    check_orders();
    check("all is free again", tp_state(&space).free == PAGES - 2);
    end();
}
