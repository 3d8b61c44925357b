/* The pool runs dry: what does not fit is refused, no byte changes, and what was mapped stays. Reports make room again. */
#include "account.h"
#include "agree.h"
#include "machine.h"
#include "must.h"
#include "own.h"
#include "second.h"
#include "tests.h"

static const uint64_t rights = TP_WRITABLE | TP_USER | TP_NO_EXECUTE;

/* Each in a part of the address space that has no table yet. */
static uint64_t base_of(uint64_t n) { return (n + 20) << 39; }
static uint64_t frame_of(uint64_t n) { return frame_for(0, 0) + n * PAGE; }

/* for this reason; and where that is about the pool or the tables, for its rights before that, with others */
static void refused(uint64_t reason, uint64_t base, uint64_t frame, uint64_t size) {
    must_refuse_map(reason, base, frame, size, rights);
    must_refuse_map(reason == TP_BASE_RANGE ? reason : TP_WRITE_EXECUTE, base, frame, size, TP_WRITABLE);
}

/* the kernel's own pages in these tables, the pool, and what is there already */
static void test_refusals(uint64_t taken) {
    refused(TP_OVERLAP, KERNEL, frame_for(2, 0), GIB1);
    refused(TP_OVERLAP, APIC, frame_of(0), PAGE);
    refused(TP_OVERLAP, taken, frame_of(1), PAGE);
    refused(TP_FRAME_IN_POOL, 1ull << 39, process_space.root, PAGE);
    refused(TP_FRAME_IN_POOL, 1ull << 39, 0, GIB1);
    refused(TP_BASE_RANGE, LOWER_ENDS, frame_of(0), PAGE);
    refused(TP_BASE_RANGE, UPPER - GIB1, frame_for(2, 0), GIB1);
}

static uint64_t fill_pool(void) {
    uint64_t n = 0;
    for (;; n++) {
        remember_pool();
        uint64_t reason = tp_map(&process_space, base_of(n), frame_of(n), PAGE, rights).reason;
        if (reason == TP_DONE) continue;
        check(reason == TP_NO_ROOM && is_pool_unchanged(), "the pool ran dry: reason %u, bytes %s", reason,
              is_pool_unchanged() ? "unchanged" : "changed");
        return n;
    }
}

/* Two unmaps, reported together by the later ticket; the older one then releases nothing more. */
static void test_two_reports(void) {
    struct tp_unmapped first = tp_unmap(&process_space, base_of(0)), second = tp_unmap(&process_space, base_of(1));
    check(tp_map(&process_space, base_of(0), frame_of(0), PAGE, rights).reason == TP_NO_ROOM, "tables set aside are free before the report");
    shoot_down(base_of(0));
    shoot_down(base_of(1));
    check(tp_told(&process_space, second.ticket).released == first.aside + second.aside, "the later ticket releases both");
    check(tp_told(&process_space, first.ticket).released == 0, "the older ticket releases nothing more");
    must_map(base_of(0), frame_of(0), PAGE, rights);
    must_map(base_of(1), frame_of(1), PAGE, rights);
}

void test_dry(void) {
    uint64_t n = fill_pool();
    check(n >= 2, "the pool holds only %u pages of 4 KiB", n);
    test_refusals(base_of(0));
    for (uint64_t i = 0; i < n; i++) agree("the pool is dry", base_of(i) + 8 * i);
    agree("the pool is dry", base_of(n));
    test_two_reports();
    for (uint64_t i = 0; i < n; i++) agree("the pool is dry again", base_of(i) + 8 * i);
    for (uint64_t i = 0; i < n; i++) must_unmap_and_report(base_of(i), frame_of(i), PAGE);
    for (uint64_t i = 0; i <= n; i++) agree("all unmapped", base_of(i));
    end_part("the pool of %u pages is dry after %u buffers of 4 KiB far apart: refused, and no byte changed; reports make room",
             process_space.pages, n);
}
