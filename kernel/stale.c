/* What the second processor still holds before it is told, and that it holds nothing of it afterwards. */
#include "account.h"
#include "agree.h"
#include "machine.h"
#include "must.h"
#include "own.h"
#include "plant.h"
#include "second.h"
#include "tests.h"

enum { TIMES = 20 };
static const uint64_t all = TP_WRITABLE | TP_USER | TP_NO_EXECUTE;
static uint64_t stale, asked;

/* An access that the new tables forbid, before the processor was told: it may go through or not. */
static void ask_before_told(enum access kind, uint64_t va) {
    asked++;
    if (!access_in_ring_3(kind, va, planted(0)).faulted) stale++;
}

/* unmapped and mapped to another frame: after the report only the other one is reached */
static void test_moved(unsigned n, uint64_t offset) {
    uint64_t base = place_of(n), size = size_of(n);
    must_map(base, frame_for(n, 0), size, all);
    agree("mapped", base + offset);
    agree_on("mapped", base + offset, 3, READ);
    struct tp_unmapped u = tp_unmap(&process_space, base);
    ask_before_told(READ, base + offset);
    shoot_down(base);
    agree("unmapped and told", base + offset);
    check(tp_told(&process_space, u.ticket).released == u.aside, "told: not what was set aside is released");
    must_map(base, frame_for(n, 1), size, all);
    agree("mapped to another frame", base + offset);
    must_unmap_and_report(base, frame_for(n, 1), size);
}

/* written, and then to be executed: after the report it is not written any more */
static void test_turned_to_code(unsigned n, uint64_t offset) {
    uint64_t base = place_of(n), size = size_of(n);
    must_map(base, frame_for(n, 0), size, all);
    agree("mapped", base + offset);
    agree_on("mapped", base + offset, 3, WRITE);
    must_protect(base, TP_USER);
    ask_before_told(WRITE, base + offset);
    shoot_down(base);
    agree("made code, and told", base + offset);
    must_unmap_and_report(base, frame_for(n, 0), size);
}

void test_stale(void) {
    for (unsigned n = 0; n < SIZES; n++)
        for (unsigned i = 0; i < TIMES; i++) {
            uint64_t offset = mixed(n, i) % size_of(n) & ~7ull;
            test_moved(n, offset);
            test_turned_to_code(n, offset);
        }
    end_part("invlpg: before it, what was unmapped or made read-only still went through %u of %u times; after it, it must not", stale,
             asked);
}
