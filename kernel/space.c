/* The way of an address, read without the library. */
#include "space.h"
#include "account.h"
#include "machine.h"

struct tp_space create(uint8_t *mem, uint64_t origin, uint64_t pages) {
    struct tp_space s = { mem, pages * PAGE, origin, origin, pages, 0 };
    uint64_t reason = tp_create(&s);
    if (reason != TP_DONE) give_up("create is refused: %s", tp_reason_text(reason));
    return s;
}

struct way way_of(const struct tp_space *s, uint64_t va) {
    struct way way = { 0, { 0, 0, 0, 0 } };
    uint64_t table = s->root;
    for (unsigned shift = 39; shift >= 12; shift -= 9) {
        if (table < s->origin || table >= s->origin + s->pages * PAGE) break;
        volatile uint64_t *word = (volatile uint64_t *)(s->mem + (table - s->origin)) + (va >> shift) % ENTRIES;
        way.word[way.words++] = word;
        if (!(*word & PRESENT) || *word & LARGE) break;
        table = *word & 0xffffffffff000ull;
    }
    return way;
}

uint64_t leaf_word(const struct tp_space *s, uint64_t va) {
    struct way way = way_of(s, va);
    return *way.word[way.words - 1];
}

static uint64_t both_below(const struct tp_space *s, uint64_t table, unsigned shift, int writes, int executes) {
    const volatile uint64_t *words = (const volatile uint64_t *)(s->mem + (table - s->origin));
    uint64_t n = 0;
    for (unsigned i = 0; i < ENTRIES; i++) {
        uint64_t word = words[i];
        if (!(word & PRESENT)) continue;
        int may_write = writes && word & WRITES, may_execute = executes && !(word >> 63);
        if (shift == 12 || word & LARGE) n += may_write && may_execute;
        else n += both_below(s, word & 0xffffffffff000ull, shift - 9, may_write, may_execute);
    }
    return n;
}

uint64_t pages_of_both(const struct tp_space *s) { return both_below(s, s->root, 39, 1, 1); }

unsigned filled(const volatile uint64_t *word_in_table) {
    const volatile uint64_t *word = (const volatile uint64_t *)((uint64_t)word_in_table & ~(uint64_t)(PAGE - 1));
    unsigned n = 0;
    for (unsigned i = 0; i < ENTRIES; i++) n += word[i] != 0;
    return n;
}
