/* A night in small, in C, with no C library: uses every function of the header and counts what was as it should be. */
#include "check.h"

enum { PAGES = 8, SLACK = 1 };
#define ORIGIN 0x100000u
#define MIB2 0x200000u
#define GIB1 0x40000000u

/* the window: the pool, and a page that belongs to nobody */
static _Alignas(4096) uint8_t mem[(PAGES + SLACK) * 4096];
static uint8_t before[sizeof mem];

static struct tp_space space = {mem, sizeof mem, ORIGIN, ORIGIN, PAGES, 0};

static void remember(void) { copy_bytes(before, mem, sizeof mem); }

static int unchanged(void) { return same_bytes(before, mem, sizeof mem); }

static void check_found(const char *what, struct tp_found f, uint64_t base, uint64_t size, uint64_t frame, uint64_t rights) {
    check(what, f.kind == TP_PAGE && f.base == base && f.size == size && f.frame == frame && f.rights == rights);
}

static void check_entry(const char *what, uint64_t table, uint64_t level, uint64_t index, struct tp_said should) {
    struct tp_said s = tp_entry(&space, table, level, index);
    check(what, s.kind == should.kind && s.address == should.address && s.rights == should.rights && s.marks == should.marks);
}

/* the way to the page at 2 GiB, entry by entry; the machine has walked it and written to the page, and then a reserved bit is set */
static void check_way(void) {
    uint64_t upper = tp_entry(&space, space.root, 3, 0).address;
    uint64_t lower = tp_entry(&space, upper, 2, 2).address;
    check_entry("a table", space.root, 3, 0, (struct tp_said){TP_TABLE, upper, TP_WRITABLE | TP_USER, 0});
    check_entry("a page of 1 GiB", upper, 2, 1, (struct tp_said){TP_PAGE, 2ull * GIB1, TP_WRITABLE | TP_USER | TP_NO_EXECUTE, 0});
    uint8_t *entry = mem + (lower - ORIGIN);
    entry[0] |= 0x60;
    check_entry("marks", lower, 1, 0, (struct tp_said){TP_PAGE, 5ull * MIB2, TP_WRITABLE | TP_NO_EXECUTE, TP_ACCESSED | TP_DIRTY});
    entry[1] |= 0x20;
    check_entry("a reserved bit", lower, 1, 0, (struct tp_said){TP_RESERVED, 0, 0, 0});
    entry[1] &= (uint8_t)~0x20;
    entry[0] &= (uint8_t)~0x60;
    check_entry("not present", lower, 1, 1, (struct tp_said){TP_NOTHING, 0, 0, 0});
    check_entry("no such index", lower, 1, 512, (struct tp_said){TP_OUTSIDE, 0, 0, 0});
    check_entry("no such table", ORIGIN - 4096, 1, 0, (struct tp_said){TP_OUTSIDE, 0, 0, 0});
}

static void check_refusals(void) {
    remember();
    check("size", tp_map(&space, 0, 0, 8192, 0).reason == TP_SIZE);
    check("base unaligned", tp_map(&space, 4096, 0, MIB2, 0).reason == TP_BASE_UNALIGNED);
    check("frame unaligned", tp_map(&space, 0, 4096, MIB2, 0).reason == TP_FRAME_UNALIGNED);
    check("base range", tp_map(&space, 1ull << 47, 0, 4096, 0).reason == TP_BASE_RANGE);
    check("base range of unmap", tp_unmap(&space, 1ull << 47).reason == TP_BASE_RANGE);
    check("base range of protect", tp_protect(&space, 1ull << 47, 0).reason == TP_BASE_RANGE);
    check("frame range", tp_map(&space, 0, 1ull << 52, 4096, 0).reason == TP_FRAME_RANGE);
    check("frame in pool", tp_map(&space, 0, ORIGIN + 4096, 4096, 0).reason == TP_FRAME_IN_POOL);
    check("overlap", tp_map(&space, GIB1 + MIB2, 0, 4096, 0).reason == TP_OVERLAP);
    check("nothing starts", tp_unmap(&space, GIB1 + 4096).reason == TP_NOTHING_STARTS);
    check("rights of map", tp_map(&space, 0, 0, 8192, 8).reason == TP_RIGHTS);
    check("rights of protect", tp_protect(&space, 0, ~0ull).reason == TP_RIGHTS);
    check("writable and executable of map", tp_map(&space, 0, 0, 4096, TP_WRITABLE).reason == TP_WRITE_EXECUTE);
    check("writable and executable of protect", tp_protect(&space, GIB1, TP_WRITABLE | TP_USER).reason == TP_WRITE_EXECUTE);
    check("unknown", tp_told(&space, 99).reason == TP_UNKNOWN);
    check("a refusal changes nothing", unchanged());
}

/* a window that begins elsewhere in a page than its origin says: every call that writes, and both that look at the book */
static void check_pointer(void) {
    struct tp_space odd = space;
    odd.mem += 8;
    odd.len -= 4096;
    remember();
    check("pointer of map", tp_map(&odd, 0, 0, 4096, 0).reason == TP_POINTER_UNALIGNED);
    check("pointer of unmap", tp_unmap(&odd, GIB1).reason == TP_POINTER_UNALIGNED);
    check("pointer of protect", tp_protect(&odd, GIB1, 0).reason == TP_POINTER_UNALIGNED);
    check("pointer of told", tp_told(&odd, 0).reason == TP_POINTER_UNALIGNED);
    check("pointer of state", tp_state(&odd).reason == TP_POINTER_UNALIGNED);
    check("pointer of open", tp_open(&odd) == TP_POINTER_UNALIGNED);
    check("pointer of create", tp_create(&odd) == TP_POINTER_UNALIGNED && odd.root == 0);
    check("a pointer that is refused changes nothing", unchanged());
}

static int same_text(const char *a, const char *b) {
    while (*a && *a == *b) a++, b++;
    return *a == *b;
}

static void check_texts(void) {
    check("text of done", same_text(tp_reason_text(TP_DONE), "done"));
    check("text of a reason", same_text(tp_reason_text(TP_NO_ROOM), "fewer free pages than tables that are missing"));
    check("text of the last reason", !same_text(tp_reason_text(TP_WRITE_EXECUTE), tp_reason_text(TP_WRITE_EXECUTE + 1)));
    for (uint64_t reason = 0; reason < TP_WRITE_EXECUTE; reason++)
        for (uint64_t other = reason + 1; other <= TP_WRITE_EXECUTE + 1; other++)
            if (same_text(tp_reason_text(reason), tp_reason_text(other))) check("two reasons in the same words", 0);
}

static void check_state(const char *what, uint64_t free, uint64_t aside, uint64_t tables, uint64_t ticket) {
    struct tp_counts s = tp_state(&space);
    check(what, s.reason == TP_DONE && s.pages == PAGES && s.free == free && s.aside == aside && s.tables == tables && s.ticket == ticket);
}

static void night(void) {
    struct tp_mapped m = tp_map(&space, GIB1, 2ull * GIB1, GIB1, TP_WRITABLE | TP_USER | TP_NO_EXECUTE);
    check("map 1 GiB", m.reason == TP_DONE && m.tables == 1);
    check_found("look up 1 GiB", tp_look_up(&space, GIB1 + 12345), GIB1, GIB1, 2ull * GIB1, TP_WRITABLE | TP_USER | TP_NO_EXECUTE);
    m = tp_map(&space, 2ull * GIB1, 5ull * MIB2, MIB2, TP_WRITABLE | TP_NO_EXECUTE);
    check("map 2 MiB", m.reason == TP_DONE && m.tables == 1);
    check_way();
    check_refusals();
    check_pointer();
    check_state("two tables", PAGES - 4, 0, 2, 0);
    struct tp_protected p = tp_protect(&space, 2ull * GIB1, TP_USER);
    check("protect", p.reason == TP_DONE && p.frame == 5ull * MIB2 && p.size == MIB2 && p.ticket == 0);
    check_found("look up after protect", tp_look_up(&space, 2ull * GIB1 + MIB2 - 1), 2ull * GIB1, MIB2, 5ull * MIB2, TP_USER);
    struct tp_unmapped u = tp_unmap(&space, 2ull * GIB1);
    check("unmap 2 MiB", u.reason == TP_DONE && u.frame == 5ull * MIB2 && u.size == MIB2 && u.aside == 1 && u.ticket == 1);
    check("nothing there", tp_look_up(&space, 2ull * GIB1).kind == TP_NOTHING);
    check_state("a table set aside", PAGES - 4, 1, 1, 1);
    struct tp_report r = tp_told(&space, u.ticket);
    check("told", r.reason == TP_DONE && r.released == 1);
    check_state("told", PAGES - 3, 0, 1, 1);
    u = tp_unmap(&space, GIB1);
    check("unmap 1 GiB", u.reason == TP_DONE && u.frame == 2ull * GIB1 && u.size == GIB1 && u.aside == 1);
}

/* until no page is free; what was set aside and not reported is not free */
static void dry(void) {
    uint64_t n = 0, reason;
    for (;;) {
        remember();
        reason = tp_map(&space, n << 39, 0, 4096, 0).reason;
        if (reason != TP_DONE) break;
        n++;
    }
    check("the pool runs dry", reason == TP_NO_ROOM && n == 1 && unchanged());
    struct tp_space small = space;
    small.len = 4096;
    check("outside", tp_look_up(&small, 0).kind == TP_OUTSIDE);
}

void run(void) {
    check("nothing is opened before it is made", tp_open(&space) != TP_DONE);
    check("create", tp_create(&space) == TP_DONE && space.root > ORIGIN && space.root < ORIGIN + PAGES * 4096);
    check("open", tp_open(&space) == TP_DONE);
    check("empty", tp_look_up(&space, 0).kind == TP_NOTHING);
    check("no address", tp_look_up(&space, 1ull << 47).kind == TP_NO_ADDRESS);
    check_texts();
    night();
    dry();
    int clean = 1;
    for (size_t i = PAGES * 4096; i < sizeof mem; i++) clean &= mem[i] == 0;
    check("nothing outside the pool", clean);
    end();
}
