/* Accidents with a handle: a wrong root, a wrong number of pages, another pool. Each call that such a handle is given must be refused, and
 * change nothing. */
#include "check.h"

enum { PAGES = 64, SLACK = 2, BUFFERS = 12, VARIABLES = TP_WRITABLE | TP_NO_EXECUTE };
#define ORIGIN 0x100000u
#define BUFFER 0x8000000u
#define MIB2 0x200000u

/* the window: a page, the pool, and a page */
static _Alignas(4096) uint8_t mem[(PAGES + SLACK) * 4096];
static uint8_t before[sizeof mem];
static struct tp_space space = {mem, sizeof mem, ORIGIN, ORIGIN + 4096, PAGES, 0};

static uint64_t base_of(uint64_t n) { return n << 39 | n << 30; }

/* the handle is refused by every call that looks at a space, whatever it is asked, and no byte changes */
static int is_refused(const struct tp_space *wrong) {
    for (size_t i = 0; i < sizeof mem; i++) before[i] = mem[i];
    int refused = tp_open(wrong) != TP_DONE && tp_state(wrong).reason != TP_DONE && tp_told(wrong, 0).reason != TP_DONE;
    for (uint64_t n = 0; n < BUFFERS; n++) {
        refused &= tp_unmap(wrong, base_of(n)).reason != TP_DONE && tp_protect(wrong, base_of(n), TP_USER).reason != TP_DONE;
        refused &= tp_map(wrong, base_of(n) + MIB2, BUFFER, MIB2, VARIABLES).reason != TP_DONE;
        refused &= tp_map(wrong, n << 39 | 1ull << 38, BUFFER, 4096, VARIABLES | TP_USER).reason != TP_DONE;
    }
    for (size_t i = 0; i < sizeof mem; i++) refused &= before[i] == mem[i];
    return refused;
}

static void test_roots(void) {
    for (uint64_t page = 0; page < PAGES; page++) {
        struct tp_space wrong = space;
        wrong.root = space.pool + page * 4096;
        if (wrong.root != space.root) check("another page of the pool as the root", is_refused(&wrong));
    }
}

static void test_sizes(void) {
    for (uint64_t pages = 0; pages <= PAGES + SLACK; pages++) {
        struct tp_space wrong = space;
        wrong.pages = pages;
        if (pages != PAGES) check("another number of pages", is_refused(&wrong));
    }
}

/* With five pages the frame of a real table seemed to lie outside the pool: it was mapped, for user mode to write. */
static void test_five_pages(void) {
    struct tp_space wrong = space;
    wrong.pages = 5;
    for (uint64_t page = 0; page < PAGES; page++) {
        struct tp_mapped m = tp_map(&wrong, base_of(40), space.pool + page * 4096, 4096, VARIABLES | TP_USER);
        check("a page of the real pool by a handle of five pages", m.reason != TP_DONE && tp_look_up(&space, base_of(40)).kind == TP_NOTHING);
    }
}

static void test_pools(void) {
    for (uint64_t page = 0; page <= PAGES; page++) {
        struct tp_space wrong = space;
        wrong.pool = ORIGIN + page * 4096;
        if (wrong.pool == space.pool) continue;
        check("another pool", is_refused(&wrong));
        wrong.pages = PAGES + SLACK - page;
        check("another pool, up to the window's end", is_refused(&wrong));
    }
}

void run(void) {
    check("create", tp_create(&space) == TP_DONE);
    for (uint64_t n = 0; n < BUFFERS; n++)
        check("map", tp_map(&space, base_of(n), BUFFER + n * MIB2, MIB2, VARIABLES | TP_USER).reason == TP_DONE);
    check("unmap", tp_unmap(&space, base_of(3)).reason == TP_DONE); /* its tables are set aside */
    test_roots();
    test_sizes();
    test_five_pages();
    test_pools();
    check("the handle itself", tp_open(&space) == TP_DONE && tp_unmap(&space, base_of(5)).frame == BUFFER + 5 * MIB2);
    end();
}
