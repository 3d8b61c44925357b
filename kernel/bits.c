/* Every bit of every word on the way of a page, turned over by hand: what look-up then says is what the machine does.
 * Only the bits that name a table are left alone: the machine would set its marks in memory that is no table. */
#include "account.h"
#include "agree.h"
#include "machine.h"
#include "must.h"
#include "own.h"
#include "second.h"
#include "tests.h"

static uint64_t reserved, nothing, pages;

static int is_address(unsigned bit) { return bit >= 12 && bit < 52; }

/* A frame that was moved may be no memory of ours: then it is read, and no more. */
static void agree_turned(uint64_t va, uint64_t frame) {
    struct tp_found found = tp_look_up(&process_space, va);
    if (found.kind == TP_OUTSIDE) return; /* a page of a buffer as a table: look-up says no more */
    if (found.kind == TP_PAGE) pages++;
    else if (leaf_word(&process_space, va) & PRESENT) reserved++;
    else nothing++;
    if (found.kind == TP_PAGE && found.frame != frame) agree_on("a bit turned over", va, 3, READ);
    else agree("a bit turned over", va);
}

static void test_word(unsigned n, unsigned level) {
    uint64_t base = place_of(n), va = base + size_of(n) / 2;
    struct way way = way_of(&process_space, base);
    volatile uint64_t *word = way.word[level];
    int names_table = level + 1 < way.words;
    for (unsigned bit = 0; bit < 64; bit++) {
        if (names_table && is_address(bit)) continue;
        uint64_t right = *word;
        *word = right ^ 1ull << bit;
        shoot_down(base);
        agree_turned(va, frame_for(n, 0));
        *word = right;
        shoot_down(base);
    }
    agree("the bits turned back", va);
}

static void test_page(unsigned n, uint64_t rights) {
    must_map(place_of(n), frame_for(n, 0), size_of(n), rights);
    for (unsigned level = 0; level < 4 - n; level++) test_word(n, level);
    must_unmap_and_report(place_of(n), frame_for(n, 0), size_of(n));
}

void test_bits(void) {
    for (unsigned n = 0; n < SIZES; n++) {
        test_page(n, TP_WRITABLE | TP_USER | TP_NO_EXECUTE);
        test_page(n, TP_USER);
    }
    check(pages > 0 && reserved > 0 && nothing > 0, "bits: some kind never came");
    end_part("bits turned over by hand in each word on the way (%u leave a page, %u are reserved, %u take it away)", pages, reserved,
             nothing);
}
