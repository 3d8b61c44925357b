/* Three shootdowns under way at once, done in another order than they began, and reported by tickets, two in one report. What invlpg of
 * single pages makes true is enough; of the other pages the processor may go on with what it holds. */
#include "account.h"
#include "agree.h"
#include "machine.h"
#include "must.h"
#include "plant.h"
#include "second.h"
#include "shootdowns.h"
#include "tests.h"

enum { TIMES = 20 };
static const uint64_t rights = TP_WRITABLE | TP_USER | TP_NO_EXECUTE;

/* Of one size: how often an access went through that the tables forbid, before its page was told, and after another was; of so many. */
static uint64_t stale[SIZES], kept[SIZES], asked[SIZES];

static int goes(enum access kind, uint64_t va) { return !access_in_ring_3(kind, va, planted(0)).faulted; }

/* The first two are neighbours and have the same frame; the last has tables and a frame of its own. */
struct three {
    uint64_t first, second, other, size, frame, other_frame;
};

static struct three three_of(unsigned n) {
    uint64_t base = place_of(n), size = size_of(n);
    return (struct three){ base, base + size, base + (8ull << 39), size, frame_for(n, 0), frame_for(n, 1) };
}

/* Three shootdowns begin: of the first page, which is unmapped or only made read-only; of the other; of the second. That of the other is
 * done first, and is reported with that of the first. */
static void test_three(unsigned n, uint64_t offset, int narrowed) {
    struct three t = three_of(n);
    must_map(t.first, t.frame, t.size, rights);
    must_map(t.second, t.frame, t.size, rights);
    must_map(t.other, t.other_frame, t.size, rights);
    agree_on("mapped", t.first + offset, 3, WRITE);
    agree_on("mapped", t.second + offset, 3, WRITE);
    agree_on("mapped", t.other + offset, 3, WRITE);

    uint64_t used = t.first + offset;
    unsigned first = narrowed ? protect_later_told(t.first, TP_USER, used) : unmap_later_told(t.first, t.frame, t.size, used);
    begin_shootdown();
    unsigned other = unmap_later_told(t.other, t.other_frame, t.size, t.other + offset);
    begin_shootdown();
    unsigned second = unmap_later_told(t.second, t.frame, t.size, t.second + offset);
    begin_shootdown();
    check(under_way() == MOST_UNDER_WAY, "%u shootdowns are under way, not three", (uint64_t)under_way());
    stale[n] += (uint64_t)(goes(WRITE, used) + goes(WRITE, t.second + offset) + goes(WRITE, t.other + offset));
    asked[n] += 3;

    interrupt_comes(other);
    kept[n] += (uint64_t)(goes(WRITE, used) + goes(WRITE, t.second + offset));
    agree_on("told before an older one", t.other + offset, 3, WRITE);
    check(report_done() == 0, "a shootdown is reported before an older one is done");
    interrupt_comes(first);
    agree_on("told", used, 3, WRITE);
    check(report_done() == 2, "two shootdowns are done, and not both reported");

    /* the other's frame is free; while the third is under way it is mapped again, also beside the page that one is of */
    uint64_t again = narrowed ? t.other : t.first;
    must_map(again, t.other_frame, t.size, rights);
    agree_on("mapped again", again + offset, 3, WRITE);
    interrupt_comes(second);
    agree("told late", t.second + offset);
    check(report_done() == 1, "the third shootdown is not reported");
    agree("mapped again", again + offset);
    unmap_later_told(again, t.other_frame, t.size, again + offset);
    if (narrowed) unmap_later_told(t.first, t.frame, t.size, used);
    tell_all();
    agree("all told", used);
}

void test_overlapping(void) {
    for (unsigned n = 0; n < SIZES; n++)
        for (unsigned i = 0; i < TIMES; i++) test_three(n, mixed(n, i) % size_of(n) & ~7ull, i & 1);
    say("three shootdowns under way, by invlpg of single pages alone, done in another order, reported by tickets and two at once\n");
    for (unsigned n = 0; n < SIZES; n++)
        say("  pages of %s: untold, %u of %u still went through; of those %u of %u after invlpg of another page\n", size_name(size_of(n)),
            stale[n], asked[n], kept[n], asked[n] / 3 * 2);
    end_part("  told, done and reported, none does");
}
