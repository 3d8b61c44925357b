/* The edges of the two halves of the addresses: every operation and every size at them, and in the hole between. */
#include "check.h"

enum { PAGES = 16, SIZES = 3 };
#define ORIGIN 0x100000u
#define FRAME 0x4000000000ull
#define LOWER_ENDS 0x0000800000000000ull
#define UPPER 0xffff800000000000ull

static _Alignas(4096) uint8_t mem[PAGES * 4096];
static uint8_t before[sizeof mem];
static struct tp_space space = {mem, sizeof mem, ORIGIN, ORIGIN, PAGES, 0};

/* the three sizes; and for each the first and the last page of each half, written out */
static const uint64_t sizes[SIZES] = {0x1000, 0x200000, 0x40000000};
static const uint64_t ends[SIZES][4] = {
    {0, 0x00007ffffffff000, 0xffff800000000000, 0xfffffffffffff000},
    {0, 0x00007fffffe00000, 0xffff800000000000, 0xffffffffffe00000},
    {0, 0x00007fffc0000000, 0xffff800000000000, 0xffffffffc0000000},
};

/* both sides of each edge; and whether it is an address */
static const struct {
    uint64_t va;
    int is_address;
} edges[] = {
    {0, 1},
    {LOWER_ENDS - 1, 1},
    {LOWER_ENDS, 0},
    {0x0000ffffffffffff, 0},
    {0x0001000000000000, 0},
    {0x7fffffffffffffff, 0},
    {0x8000000000000000, 0},
    {UPPER - 1, 0},
    {UPPER, 1},
    {0xffffffffffffffff, 1},
};
enum { EDGES = sizeof edges / sizeof edges[0] };

static int is_bare(struct tp_found f, uint64_t kind) { return f.kind == kind && !f.base && !f.size && !f.frame && !f.rights; }

/* what look-up says of every edge, where this is all that is mapped; size 0: nothing is */
static void check_edges(uint64_t base, uint64_t size, uint64_t rights) {
    for (unsigned n = 0; n < EDGES; n++) {
        uint64_t va = edges[n].va;
        struct tp_found f = tp_look_up(&space, va);
        if (!edges[n].is_address) check("an edge that is no address", is_bare(f, TP_NO_ADDRESS));
        else if (va - base >= size) check("an edge where nothing is mapped", is_bare(f, TP_NOTHING));
        else check("an edge in a page", f.kind == TP_PAGE && f.base == base && f.size == size && f.frame == FRAME && f.rights == rights);
    }
}

static void remember(void) { copy_bytes(before, mem, sizeof mem); }

static int unchanged(void) { return same_bytes(before, mem, sizeof mem); }

/* no address: look-up says so, and no operation takes it as a base, of whatever size */
static void check_none(uint64_t base) {
    check("look up no address", is_bare(tp_look_up(&space, base), TP_NO_ADDRESS));
    for (unsigned n = 0; n < SIZES; n++)
        check("map at no address",
              tp_map(&space, base, FRAME, sizes[n], 0).reason == (base % sizes[n] ? TP_BASE_UNALIGNED : TP_BASE_RANGE));
    check("unmap at no address", tp_unmap(&space, base).reason == TP_BASE_RANGE);
    check("protect at no address", tp_protect(&space, base, 0).reason == TP_BASE_RANGE);
}

/* a page at an end of a half: mapped, looked up, protected, unmapped; and the same base with each of the high bits turned over */
static void check_end(uint64_t base, unsigned n) {
    uint64_t size = sizes[n], last = base + (size - 1);
    struct tp_mapped m = tp_map(&space, base, FRAME, size, TP_NO_EXECUTE);
    check("map at an end", m.reason == TP_DONE && m.tables == 3 - n);
    check_edges(base, size, TP_NO_EXECUTE);
    check("the last address of the page", tp_look_up(&space, last).base == base);
    check("overlap at an end", tp_map(&space, last & ~0xfffull, FRAME, 4096, 0).reason == TP_OVERLAP);
    struct tp_protected p = tp_protect(&space, base, TP_USER);
    check("protect at an end", p.reason == TP_DONE && p.frame == FRAME && p.size == size);
    check_edges(base, size, TP_USER);
    remember();
    for (unsigned bit = 47; bit < 64; bit++) check_none(base ^ 1ull << bit);
    if (n > 0) check("unmap inside", tp_unmap(&space, last & ~0xfffull).reason == TP_NOTHING_STARTS);
    check("a refusal changes nothing", unchanged());
    struct tp_unmapped u = tp_unmap(&space, base);
    check("unmap at an end", u.reason == TP_DONE && u.frame == FRAME && u.size == size && u.aside == 3 - n);
    check("told", tp_told(&space, u.ticket).released == 3 - n);
    check_edges(0, 0, 0);
    check("nothing is left", tp_unmap(&space, base).reason == TP_NOTHING_STARTS && tp_protect(&space, base, 0).reason == TP_NOTHING_STARTS);
}

/* each edge as a base: map asks for its alignment first, unmap and protect for an address */
static void check_bases(void) {
    for (unsigned n = 0; n < EDGES; n++) {
        uint64_t base = edges[n].va, reason = edges[n].is_address ? TP_NOTHING_STARTS : TP_BASE_RANGE;
        check("unmap at an edge", tp_unmap(&space, base).reason == reason);
        check("protect at an edge", tp_protect(&space, base, 0).reason == reason);
        for (unsigned k = 0; k < SIZES; k++)
            if (base % 4096) check("map at an edge", tp_map(&space, base, FRAME, sizes[k], 0).reason == TP_BASE_UNALIGNED);
            else if (!edges[n].is_address) check("map at an edge", tp_map(&space, base, FRAME, sizes[k], 0).reason == TP_BASE_RANGE);
    }
    check("the frame's alignment before", tp_map(&space, LOWER_ENDS, 4096, 0x200000, 0).reason == TP_FRAME_UNALIGNED);
    check("the frame's range behind", tp_map(&space, LOWER_ENDS, 1ull << 52, 4096, 0).reason == TP_BASE_RANGE);
    check("the rights before", tp_protect(&space, LOWER_ENDS, 8).reason == TP_RIGHTS);
}

void run(void) {
    check("create", tp_create(&space) == TP_DONE);
    check_edges(0, 0, 0);
    check_bases();
    for (unsigned n = 0; n < SIZES; n++)
        for (unsigned k = 0; k < 4; k++) check_end(ends[n][k], n);
    end();
}
