/* They are kept by their numbers, from the first that is not reported on. */
#include "shootdowns.h"
#include "account.h"
#include "agree.h"
#include "must.h"
#include "second.h"

enum { SLOTS = 16 };
static struct shootdown slots[SLOTS], next;
static unsigned begun, reported;
static uint64_t three, overtaken, several;

unsigned shootdowns_begun(void) { return begun; }
unsigned shootdowns_reported(void) { return reported; }
uint64_t times_three(void) { return three; }
uint64_t times_overtaken(void) { return overtaken; }
uint64_t times_several(void) { return several; }

static struct shootdown *slot(unsigned number) { return &slots[number % SLOTS]; }

static unsigned to_be_told(uint64_t base, uint64_t used) {
    if (next.pages == MOST_PAGES) give_up("too many pages for one shootdown");
    next.used[next.pages] = used;
    next.page[next.pages++] = base;
    return begun;
}

unsigned unmap_later_told(uint64_t base, uint64_t frame, uint64_t size, uint64_t used) {
    must_unmap_untold(base, frame, size);
    return to_be_told(base, used);
}

unsigned protect_later_told(uint64_t base, uint64_t rights, uint64_t used) {
    must_protect(base, rights);
    return to_be_told(base, used);
}

unsigned under_way(void) {
    unsigned n = 0;
    for (unsigned number = reported; number < begun; number++) n += !is_done(slot(number));
    return n;
}

void begin_shootdown(void) {
    if (under_way() == MOST_UNDER_WAY || begun - reported == SLOTS) give_up("too many shootdowns under way");
    next.ticket = last_ticket();
    next.tables = tables_set_aside();
    *slot(begun++) = next;
    next.pages = 0;
    three += under_way() == MOST_UNDER_WAY;
}

void interrupt_comes(unsigned number) {
    do_shootdown(slot(number));
    for (unsigned older = reported; older < number; older++)
        if (!is_done(slot(older))) {
            overtaken++;
            return;
        }
}

void some_interrupt_comes(uint64_t chance) {
    unsigned n = under_way();
    if (n == 0) return;
    n = (unsigned)(chance % n);
    for (unsigned number = reported; number < begun; number++)
        if (!is_done(slot(number)) && n-- == 0) {
            interrupt_comes(number);
            return;
        }
}

static void check_told(const struct shootdown *s) {
    for (unsigned n = 0; n < s->pages; n++) agree_on("told and reported", s->used[n], 3, WRITE);
}

unsigned report_done(void) {
    unsigned count = 0;
    while (reported + count < begun && is_done(slot(reported + count))) count++;
    if (count == 0) return 0;
    const struct shootdown *last = slot(reported + count - 1);
    if (last->ticket) must_report_of(last->ticket, last->tables);
    for (unsigned n = 0; n < count; n++) check_told(slot(reported + n));
    reported += count;
    several += count > 1;
    return count;
}

void tell_all(void) {
    while (under_way()) some_interrupt_comes(0);
    begin_shootdown();
    some_interrupt_comes(0);
    report_done();
}
