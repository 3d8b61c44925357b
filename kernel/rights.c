/* Every page size with every rights, and from every rights to every other: the machine does what look-up says, and no page becomes writable and
 * executable. A page that is so by hand, as older tables may have it, can be given other rights. */
#include "account.h"
#include "agree.h"
#include "frames.h"
#include "image.h"
#include "machine.h"
#include "must.h"
#include "own.h"
#include "second.h"
#include "tests.h"

enum { RIGHTS = 8 };

/* None of the kernel's pages is for ring 3; and ring 0 may not touch or execute what is the process's. */
void test_kernel_pages(void) {
    const uint64_t code = (uint64_t)text_word, constants = (uint64_t)rodata_word, variables = (uint64_t)data_word,
                   stack = (uint64_t)second_stack_top - 8, first = (uint64_t)process_text, second = (uint64_t)process_rodata,
                   last = (uint64_t)process_ends - 8;
    const struct place places[] = {
        { "the kernel's code", code, code - KERNEL, 0 },
        { "the kernel's constants", constants, constants - KERNEL, TP_NO_EXECUTE },
        { "the kernel's data", variables, variables - KERNEL, TP_WRITABLE | TP_NO_EXECUTE },
        { "the second stack", stack, stack - KERNEL, TP_WRITABLE | TP_NO_EXECUTE },
        { "the device page", APIC + 0x20, APIC_FRAME + 0x20, TP_WRITABLE | TP_NO_EXECUTE },
        { "the process's code", first, frame_of_process(first), TP_USER },
        { "the process's constants", second, frame_of_process(second), TP_USER | TP_NO_EXECUTE },
        { "the process's data", last, frame_of_process(last), TP_USER | TP_WRITABLE | TP_NO_EXECUTE },
        { "the kernel's pool", (uint64_t)own_pool, ABSENT, 0 },
        { "its own pool", (uint64_t)process_pool, ABSENT, 0 },
        { "the first stack", (uint64_t)first_stack, ABSENT, 0 },
        { "the kernel's view of buffers", DIRECT + gib(0), ABSENT, 0 },
    };
    for (unsigned n = 0; n < sizeof places / sizeof places[0]; n++) {
        must_be(&process_space, &places[n]);
        agree(places[n].name, places[n].va);
    }
    end_part("  its pages and the kernel's there, from ring 3 and ring 0");
}

/* the first word, one in the middle, the last; and the words on both sides, where nothing is mapped */
static void agree_around(const char *when, uint64_t base, uint64_t size) {
    agree(when, base);
    agree(when, base + size / 2 + 0x7f8 % size);
    agree(when, base + size - 8);
    agree_on(when, base - 8, 3, READ);
    agree_on(when, base + size, 3, WRITE);
}

/* The page that is there becomes writable, by hand. */
static void make_writable(uint64_t base) {
    struct way way = way_of(&process_space, base);
    *way.word[way.words - 1] |= WRITES;
}

static void must_have(uint64_t base, uint64_t rights) {
    struct tp_found f = tp_look_up(&process_space, base);
    check(f.kind == TP_PAGE && f.rights == rights, "a page at %x that must have rights %u: look-up says kind %u, rights %u", base, rights,
          f.kind, f.rights);
}

/* a page with these rights: by map; or, where map refuses them, by hand */
static void begin(uint64_t base, uint64_t frame, uint64_t size, uint64_t rights) {
    if (is_both(rights)) {
        must_refuse_map(TP_WRITE_EXECUTE, base, frame, size, rights);
        agree_around("refused", base, size);
        must_map(base, frame, size, rights & ~(uint64_t)TP_WRITABLE);
        make_writable(base);
    } else {
        must_map(base, frame, size, rights);
    }
    must_have(base, rights);
    agree_around("mapped", base, size);
}

static void back(uint64_t base, uint64_t rights) {
    must_protect(base, is_both(rights) ? rights & ~(uint64_t)TP_WRITABLE : rights);
    if (is_both(rights)) make_writable(base);
    shoot_down(base);
}

static void test_rights_of(unsigned n) {
    uint64_t base = place_of(n), size = size_of(n), frame = frame_for(n, 0);
    for (uint64_t rights = 0; rights < RIGHTS; rights++) {
        begin(base, frame, size, rights);
        for (uint64_t other = 0; other < RIGHTS; other++) {
            if (is_both(other)) {
                must_refuse_protect(TP_WRITE_EXECUTE, base, other);
                must_have(base, rights);
                agree("protect refused", base + size / 2);
                continue;
            }
            must_protect(base, other);
            shoot_down(base);
            agree("protected", base + size / 2);
            back(base, rights);
            agree("protected back", base + size - 8);
        }
        must_unmap_and_report(base, frame, size);
        agree_around("unmapped", base, size);
    }
}

void test_rights(void) {
    for (unsigned n = 0; n < SIZES; n++) test_rights_of(n);
    check(pages_of_both(&process_space) == 0, "the process's tables have pages that can be written and executed");
    end_part("rights: 3 sizes, from each of 8 to each by protect, and none that is writable and executable; read, write, execute; ring 3 and 0");
}
