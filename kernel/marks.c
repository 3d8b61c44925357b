/* Accessed and dirty: the machine sets them as the manual says, and protect keeps them. The words are read directly. */
#include "account.h"
#include "machine.h"
#include "must.h"
#include "own.h"
#include "plant.h"
#include "second.h"
#include "tests.h"

enum { MARKS = ACCESSED | DIRTY };
static const uint64_t all = TP_WRITABLE | TP_USER | TP_NO_EXECUTE;

/* the page's word, from the manual's table: present, rights, frame, large */
static uint64_t word_for(uint64_t frame, uint64_t size, uint64_t rights) {
    return frame | PRESENT | (rights & TP_WRITABLE) << 1 | (rights & TP_USER) << 1 | (rights & TP_NO_EXECUTE) << 61 |
           (size > PAGE ? (uint64_t)LARGE : 0);
}

static void check_masked(const char *when, unsigned n, uint64_t rights, uint64_t marks, uint64_t ignored) {
    uint64_t word = leaf_word(&process_space, place_of(n)), right = word_for(frame_for(n, 0), size_of(n), rights) | marks;
    check((word & ~ignored) == right, "%s, %s: the word is %x, not %x", size_name(size_of(n)), when, word, right);
}

static void check_word(const char *when, unsigned n, uint64_t rights, uint64_t marks) { check_masked(when, n, rights, marks, 0); }

static void access_it(unsigned n, enum access kind, int faults) {
    uint64_t word = planted(0x51e5);
    if (kind != WRITE) write_word(DIRECT + frame_for(n, 0), word);
    struct outcome o = access_in_ring_3(kind, place_of(n), word);
    check(o.faulted == (uint64_t)faults, "marks: an access at %x: faulted %u", place_of(n), o.faulted);
}

/* to every rights and back: the marks stay */
static void check_kept(unsigned n, uint64_t rights, uint64_t marks) {
    for (uint64_t other = 0; other < 8; other++) {
        if (is_both(other)) {
            must_refuse_protect(TP_WRITE_EXECUTE, place_of(n), other);
            continue;
        }
        must_protect(place_of(n), other);
        check_word("protected", n, other, marks);
        shoot_down(place_of(n));
    }
    must_protect(place_of(n), rights);
    shoot_down(place_of(n));
    check_word("protected back", n, rights, marks);
}

/* the words above were walked through, and so are marked; no dirty mark is theirs */
static void check_upper(unsigned n) {
    struct way way = way_of(&process_space, place_of(n));
    for (unsigned i = 0; i + 1 < way.words; i++)
        check((*way.word[i] & MARKS) == ACCESSED, "%s: upper word %u is %x", size_name(size_of(n)), (uint64_t)i, *way.word[i]);
}

static void test_marks_of(unsigned n) {
    must_map(place_of(n), frame_for(n, 0), size_of(n), all);
    check_word("mapped", n, all, 0);
    access_it(n, EXECUTE, 1);
    check_masked("execution refused", n, all, 0, ACCESSED); /* the manual leaves open whether a refused access marks */
    access_it(n, READ, 0);
    check_word("read", n, all, ACCESSED);
    check_upper(n);
    check_kept(n, all, ACCESSED);
    must_protect(place_of(n), TP_USER);
    shoot_down(place_of(n));
    access_it(n, WRITE, 1);
    check_word("write refused", n, TP_USER, ACCESSED);
    access_it(n, EXECUTE, 0);
    check_word("executed", n, TP_USER, ACCESSED);
    must_protect(place_of(n), all);
    shoot_down(place_of(n));
    access_it(n, WRITE, 0);
    check_word("written", n, all, MARKS);
    check_kept(n, all, MARKS);
}

/* The kernel takes the marks away by hand, as one that looks for idle pages does, and the machine sets them anew. */
static void test_cleared(unsigned n) {
    struct way way = way_of(&process_space, place_of(n));
    *way.word[way.words - 1] &= ~(uint64_t)MARKS;
    shoot_down(place_of(n));
    check_word("marks taken away", n, all, 0);
    access_it(n, WRITE, 0);
    check_word("written again", n, all, MARKS);
    must_unmap_and_report(place_of(n), frame_for(n, 0), size_of(n));
}

void test_marks(void) {
    for (unsigned n = 0; n < SIZES; n++) {
        test_marks_of(n);
        test_cleared(n);
    }
    end_part("marks: accessed after a read, dirty after a write, both kept by protect");
}
