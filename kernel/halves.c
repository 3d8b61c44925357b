/* The two halves of the addresses, and the hole between them: what look-up calls no address is a general protection fault on the machine,
 * and no page fault; the first and last pages of each half can be mapped, protected and unmapped with every size. */
#include "account.h"
#include "agree.h"
#include "image.h"
#include "machine.h"
#include "must.h"
#include "own.h"
#include "second.h"
#include "tests.h"

enum { FIRST_HIGH = 47 };
static const uint64_t all = TP_WRITABLE | TP_USER | TP_NO_EXECUTE;
static uint64_t none;

/* Look-up says that it is none, as the machine does; and it is no base. */
static void is_none(uint64_t va) {
    none++;
    struct tp_found f = tp_look_up(&process_space, va);
    check(f.kind == TP_NO_ADDRESS, "no address: look-up of %x says kind %u", va, f.kind);
    agree("no address", va);
    uint64_t base = va & ~(uint64_t)(PAGE - 1);
    uint64_t map = tp_map(&process_space, base, frame_for(0, 0), PAGE, all).reason, unmap = tp_unmap(&process_space, base).reason,
             protect = tp_protect(&process_space, base, all).reason;
    check(map == TP_BASE_RANGE && unmap == TP_BASE_RANGE && protect == TP_BASE_RANGE,
          "no address: %x as a base: map is refused for reason %u, unmap for %u, protect for %u", base, map, unmap, protect);
}

/* an address, with each bit turned over that must be as the one beside it */
static void are_none_beside(uint64_t va) {
    for (unsigned bit = FIRST_HIGH; bit < 64; bit++) is_none(va ^ 1ull << bit);
}

static void test_hole(void) {
    const uint64_t mapped[] = { (uint64_t)text_word, (uint64_t)data_word, (uint64_t)process_text, (uint64_t)process_ends - 8 };
    for (unsigned n = 0; n < sizeof mapped / sizeof mapped[0]; n++) are_none_beside(mapped[n]);
    is_none(LOWER_ENDS);
    is_none(LOWER_ENDS + PAGE);
    is_none((uint64_t)text_word & 0xffffffffffffull);
    is_none(1ull << 48);
    is_none((1ull << 63) - 8);
    is_none(1ull << 63);
    is_none(UPPER - PAGE);
    is_none(UPPER - 8);
}

/* A page at an end of a half, and what lies on both sides of it: nothing, or no address. */
static void test_end(uint64_t base, unsigned n) {
    uint64_t size = size_of(n), frame = frame_for(n, 0);
    must_map(base, frame, size, all);
    agree("at an end", base);
    agree("at an end", base + size - 8);
    agree("before an end", base - 8);
    agree("behind an end", base + size);
    are_none_beside(base);
    for (uint64_t rights = 0; rights < 8; rights++) {
        if (is_both(rights)) {
            must_refuse_protect(TP_WRITE_EXECUTE, base, rights);
        } else {
            must_protect(base, rights);
            shoot_down(base);
        }
        agree("at an end, protected", base + size - 8);
    }
    must_unmap_and_report(base, frame, size);
    agree("at an end, unmapped", base);
    agree("at an end, unmapped", base + size - 8);
}

void test_halves(void) {
    test_hole();
    for (unsigned n = 0; n < SIZES; n++) {
        test_end(LOWER_ENDS - size_of(n), n);
        test_end(UPPER, n);
        test_end(-size_of(n), n);
    }
    end_part("halves: first and last pages of 3 sizes, up to 2^64; and %u numbers that are no address", none);
}
