/* The kernel, doctored: one of these stands in place of a function (the linker's --wrap), and the account must find it out. */
#include "foresee.h"
#include "machine.h"
#include "must.h"
#include "own.h"
#include "second.h"
#include "shootdowns.h"
#include "tablepath.h"

#define SPACE uint8_t *mem, size_t len, uint64_t origin, uint64_t pool, uint64_t pages, uint64_t root
#define SAME mem, len, origin, pool, pages, root

#if defined WRONG_FRAME || defined MORE_RIGHTS || defined NO_CODE || defined BOTH_MAPPED || defined REFUSED_YET_WRITTEN
struct tp_mapped __real_tp_raw_map(SPACE, uint64_t base, uint64_t frame, uint64_t size, uint64_t rights);
struct tp_mapped __wrap_tp_raw_map(SPACE, uint64_t base, uint64_t frame, uint64_t size, uint64_t rights);
struct tp_mapped __wrap_tp_raw_map(SPACE, uint64_t base, uint64_t frame, uint64_t size, uint64_t rights) {
#if defined WRONG_FRAME /* the neighbour's, and look-up below says that all is well */
    if (size == MIB2) frame ^= MIB2;
#elif defined MORE_RIGHTS /* what is only read can be executed */
    if (!(rights & TP_WRITABLE)) rights &= ~(uint64_t)TP_NO_EXECUTE;
#elif defined NO_CODE /* of the kernel's code too: the first instruction in these tables is the last */
    rights |= TP_NO_EXECUTE;
#endif
    struct tp_mapped m = __real_tp_raw_map(SAME, base, frame, size, rights);
#if defined BOTH_MAPPED /* what is writable and executable is mapped */
    if (m.reason == TP_WRITE_EXECUTE) {
        m = __real_tp_raw_map(SAME, base, frame, size, rights | TP_NO_EXECUTE);
        struct way way = way_of(&process_space, base);
        if (m.reason == TP_DONE) *way.word[way.words - 1] &= ~(1ull << 63);
    }
#elif defined REFUSED_YET_WRITTEN
    if (m.reason != TP_DONE) mem[len - 1] ^= 1;
#endif
    return m;
}
#endif

#if defined KEPT_PAGE /* answers, and does nothing */
struct tp_unmapped __wrap_tp_raw_unmap(SPACE, uint64_t base);
struct tp_unmapped __wrap_tp_raw_unmap(SPACE, uint64_t base) {
    (void)pool, (void)pages;
    struct tp_found f = tp_raw_look_up(mem, len, origin, root, base);
    return (struct tp_unmapped){ f.kind == TP_PAGE ? TP_DONE : TP_NOTHING_STARTS, f.frame, f.size, 0, 0 };
}
#endif

#if defined DROPPED_MARK || defined BOTH_PROTECTED
struct tp_protected __real_tp_raw_protect(SPACE, uint64_t base, uint64_t rights);
struct tp_protected __wrap_tp_raw_protect(SPACE, uint64_t base, uint64_t rights);
struct tp_protected __wrap_tp_raw_protect(SPACE, uint64_t base, uint64_t rights) {
    struct tp_protected p = __real_tp_raw_protect(SAME, base, rights);
    struct way way = way_of(&process_space, base);
#if defined DROPPED_MARK
    *way.word[way.words - 1] &= ~(uint64_t)DIRTY;
#else /* what is writable and executable is refused, and given */
    if (p.reason == TP_WRITE_EXECUTE) *way.word[way.words - 1] = (*way.word[way.words - 1] | WRITES) & ~(1ull << 63);
#endif
    return p;
}
#endif

#if defined LOST_TABLES /* no table that was set aside is ever free again */
struct tp_report __wrap_tp_raw_told(SPACE, uint64_t ticket);
struct tp_report __wrap_tp_raw_told(SPACE, uint64_t ticket) {
    (void)mem, (void)len, (void)origin, (void)pool, (void)pages, (void)root;
    static uint64_t last;
    struct tp_report r = { TP_DONE, ticket - last };
    last = ticket;
    return r;
}
#endif

#if defined WRONG_FRAME || defined LAST_WORD_ONLY || defined RESERVED_IGNORED || defined HOLE_IS_NOTHING || defined HIGH_BITS_IGNORED
struct tp_found __real_tp_raw_look_up(const uint8_t *mem, size_t len, uint64_t origin, uint64_t root, uint64_t va);
struct tp_found __wrap_tp_raw_look_up(const uint8_t *mem, size_t len, uint64_t origin, uint64_t root, uint64_t va);
struct tp_found __wrap_tp_raw_look_up(const uint8_t *mem, size_t len, uint64_t origin, uint64_t root, uint64_t va) {
    struct tp_found f = __real_tp_raw_look_up(mem, len, origin, root, va);
    if (root != process_space.root) return f;
#if defined WRONG_FRAME
    if (f.size == MIB2) f.frame ^= MIB2;
#elif defined HOLE_IS_NOTHING /* no address is said to have nothing mapped */
    if (f.kind == TP_NO_ADDRESS) f.kind = TP_NOTHING;
#elif defined HIGH_BITS_IGNORED /* no address is looked up by its low bits */
    if (f.kind == TP_NO_ADDRESS) f = __real_tp_raw_look_up(mem, len, origin, root, (uint64_t)((int64_t)(va << 16) >> 16));
#else
    struct way way = way_of(&process_space, va);
    uint64_t word = *way.word[way.words - 1], rights = (word >> 1 & 3) | word >> 63 << 2;
#if defined LAST_WORD_ONLY /* the rights of the words above count for nothing */
    if (f.kind == TP_PAGE) f.rights = rights;
#else /* the low address bits of a large page count for nothing */
    uint64_t size = way.words == 2 ? GIB1 : MIB2;
    if (f.kind == TP_NOTHING && way.words > 1 && word & PRESENT)
        f = (struct tp_found){ TP_PAGE, va & -size, size, word & 0xfffffffffffffull & -size, rights };
#endif
#endif
    return f;
}
#endif

#if defined WRONG_EXPECTATION /* faults of ring 3 are expected as if they were of ring 0 */
struct foreseen __real_foresee(struct tp_found found, int reserved, unsigned ring, enum access kind);
struct foreseen __wrap_foresee(struct tp_found found, int reserved, unsigned ring, enum access kind);
struct foreseen __wrap_foresee(struct tp_found found, int reserved, unsigned ring, enum access kind) {
    struct foreseen f = __real_foresee(found, reserved, ring, kind);
    f.error &= ~(uint64_t)FAULT_RING_3;
    return f;
}
#endif

#if defined UNMAP_UNTOLD || defined PROTECT_UNTOLD || defined HANG /* the second processor is not told; or never answers */
void __real_shoot_down(uint64_t va);
void __wrap_shoot_down(uint64_t va);
void __wrap_shoot_down(uint64_t va) {
#if defined HANG
    while (1) pause();
#elif defined UNMAP_UNTOLD
    if (tp_look_up(&process_space, va).kind == TP_NOTHING) return;
#else
    if (tp_look_up(&process_space, va).kind == TP_PAGE) return;
#endif
    __real_shoot_down(va);
}
#endif

#if defined EARLY_REPORT /* every shootdown counts as done when it has begun */
int __wrap_is_done(const struct shootdown *s);
int __wrap_is_done(const struct shootdown *s) {
    (void)s;
    return 1;
}
#endif

#if defined PAGE_TOO_FEW /* of several pages of a shootdown the last is left out */
void __real_do_shootdown(struct shootdown *s);
void __wrap_do_shootdown(struct shootdown *s);
void __wrap_do_shootdown(struct shootdown *s) {
    unsigned pages = s->pages;
    if (pages > 1) s->pages--;
    __real_do_shootdown(s);
    s->pages = pages;
}
#endif

#if defined LATER_TICKET /* reported with the last ticket, though it was answered after the shootdown began */
void __real_must_report_of(uint64_t ticket, uint64_t tables);
void __wrap_must_report_of(uint64_t ticket, uint64_t tables);
void __wrap_must_report_of(uint64_t ticket, uint64_t tables) {
    (void)ticket;
    __real_must_report_of(last_ticket(), tables);
}
#endif
