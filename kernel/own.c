/* The kernel's own tables and the process's: what is mapped in them, and the step from the boot tables into the first. */
#include "own.h"
#include "account.h"
#include "foresee.h"
#include "frames.h"
#include "image.h"
#include "must.h"

enum { CODE = 0, CONSTANTS = TP_NO_EXECUTE, VARIABLES = TP_WRITABLE | TP_NO_EXECUTE, MOST_TRIED = 48 };

struct tp_space process_space;
static struct tp_space own; /* its pool can be read in the boot tables only */

/* An access, and what look-up said of its address while the tables could still be read. */
struct tried {
    struct place place;
    enum access kind;
    struct tp_found found;
};
static struct tried tries[MOST_TRIED];
static unsigned tried;

/* Maps pages of 4 KiB from this virtual address on. */
static void map_pages(const struct tp_space *s, uint64_t from, uint64_t to, uint64_t frame, uint64_t rights) {
    for (uint64_t va = from; va < to; va += PAGE) {
        uint64_t reason = tp_map(s, va, frame + (va - from), PAGE, rights).reason;
        if (reason != TP_DONE) give_up("mapping %x is refused for reason %u", va, reason);
    }
}

/* a stretch of the image, where it was linked */
static void map_image(const struct tp_space *s, const char *from, const char *to, uint64_t rights) {
    map_pages(s, (uint64_t)from, (uint64_t)to, (uint64_t)from - KERNEL, rights);
}

/* what both processors need in ring 0 */
static void map_kernel(const struct tp_space *s) {
    map_image(s, text, rodata, CODE);
    map_image(s, rodata, data, CONSTANTS);
    map_image(s, data, data_ends, VARIABLES);
    map_pages(s, APIC, APIC + PAGE, APIC_FRAME, VARIABLES);
}

static void make_own_space(void) {
    own = create((uint8_t *)own_pool, (uint64_t)own_pool - KERNEL, (uint64_t)(own_pool_ends - own_pool) / PAGE);
    map_kernel(&own);
    map_image(&own, first_stack, first_stack_top, VARIABLES);
    map_image(&own, process_pool, process_pool_ends, VARIABLES);
    map_pages(&own, view_of_process((uint64_t)process_text), view_of_process((uint64_t)process_ends),
              frame_of_process((uint64_t)process_text), VARIABLES);
    for (unsigned n = 0; n < GIBS; n++) {
        uint64_t reason = tp_map(&own, DIRECT + gib(n), gib(n), GIB1, VARIABLES).reason;
        if (reason != TP_DONE) give_up("mapping the GiB at %x is refused for reason %u", gib(n), reason);
    }
}

/* look-up must say what was asked for, and the processor will have to do as it says */
static void foretell(struct place place) {
    must_be(&own, &place);
    for (enum access kind = READ; kind < ACCESSES; kind++) {
        if (tried == MOST_TRIED) give_up("too many accesses to try");
        tries[tried++] = (struct tried){ place, kind, tp_look_up(&own, place.va) };
    }
}

static void foretell_image(const char *name, const char *at, uint64_t rights) {
    foretell((struct place){ name, (uint64_t)at, (uint64_t)at - KERNEL, rights });
}

static void foretell_all(void) {
    foretell_image("code", text_word, CODE);
    foretell_image("read-only data", rodata_word, CONSTANTS);
    foretell_image("data", data_word, VARIABLES);
    foretell_image("the stack", first_stack, VARIABLES);
    foretell_image("the process's pool", process_pool_ends - 8, VARIABLES);
    foretell((struct place){ "the device page", APIC + 0x20, APIC_FRAME + 0x20, VARIABLES });
    for (unsigned n = 0; n < GIBS; n++)
        foretell((struct place){ "memory for buffers", DIRECT + gib(n) + GIB1 - 8, gib(n) + GIB1 - 8, VARIABLES });
    foretell((struct place){ "the page below the stack", (uint64_t)first_guard, ABSENT, 0 });
    foretell((struct place){ "its own pool", (uint64_t)own_pool, ABSENT, 0 });
    foretell((struct place){ "what the boot tables had", 0x100000, ABSENT, 0 });
    foretell((struct place){ "before the memory for buffers", DIRECT, ABSENT, 0 });
    foretell((struct place){ "code without its high bits", (uint64_t)text_word & 0xffffffffffffull, NO_ADDRESS_THERE, 0 });
    foretell((struct place){ "right below the upper half", UPPER - 8, NO_ADDRESS_THERE, 0 });
}

/* A write puts back what was read, and so does no harm. */
static void try_all(void) {
    for (unsigned n = 0; n < tried; n++) {
        const struct tried *t = &tries[n];
        uint64_t va = t->place.va;
        struct foreseen foreseen = foresee(t->found, 0, 0, t->kind);
        uint64_t word = t->kind == WRITE && foreseen.cause == GOES ? read_word(va) : 0;
        struct outcome o = access_here(t->kind, va, word);
        check(came(o, foreseen, va), "own tables: %s, %s at %x: faulted %u, vector %u, error code %x, CR2 %x", t->place.name,
              access_name(t->kind), va, o.faulted, o.vector, o.error, o.address);
    }
}

void live_in_own_tables(void) {
    make_own_space();
    foretell_all();
    load_cr4(cr4() | guards());
    load_cr3(own.root);
    check(cr3() == own.root, "own tables: CR3 is %x, not %x", cr3(), own.root);
    say("the kernel lives in its own tables: CR3 %x, code at %x, device page at %x, %u GiB for buffers at %x\n", own.root, (uint64_t)text,
        APIC, (uint64_t)GIBS, DIRECT);
    try_all();
    end_part("  %u accesses, as look-up had said in the boot tables", (uint64_t)tried);
}

static void check_marks(const char *name, uint64_t va, uint64_t marks) {
    uint64_t word = leaf_word(&own, va);
    check((word & (ACCESSED | DIRTY)) == marks, "own tables: %s at %x: the word is %x", name, va, word);
}

void test_own_marks(void) {
    load_cr3((uint64_t)boot_root);
    check_marks("code", (uint64_t)text_word, ACCESSED);
    check_marks("read-only data", (uint64_t)rodata_word, ACCESSED);
    check_marks("data", (uint64_t)data_word, ACCESSED | DIRTY);
    check_marks("the stack", (uint64_t)first_stack, ACCESSED | DIRTY);
    check_marks("the process's pool", (uint64_t)process_pool, ACCESSED | DIRTY);
    check_marks("the device page", APIC, ACCESSED | DIRTY);
    for (unsigned n = 0; n < GIBS; n++) check_marks("memory for buffers", DIRECT + gib(n), ACCESSED | DIRTY);
    uint64_t both = pages_of_both(&own);
    load_cr3(own.root);
    check(both == 0, "own tables: %u pages can be written and executed", both);
    both = pages_of_both(&process_space);
    check(both == 0, "the process's tables: %u pages can be written and executed", both);
    end_part("marks in the kernel's own tables: what it ran and read is accessed, what it wrote is dirty; no page is writable and executable");
}

void make_process_space(void) {
    struct tp_space *s = &process_space;
    *s = create((uint8_t *)process_pool, (uint64_t)process_pool - KERNEL, (uint64_t)(process_pool_ends - process_pool) / PAGE);
    map_kernel(s);
    map_image(s, second_stack, second_stack_top, VARIABLES);
    uint64_t code = (uint64_t)process_text, constants = (uint64_t)process_rodata, variables = (uint64_t)process_data;
    map_pages(s, code, constants, frame_of_process(code), TP_USER | CODE);
    map_pages(s, constants, variables, frame_of_process(constants), TP_USER | CONSTANTS);
    map_pages(s, variables, (uint64_t)process_ends, frame_of_process(variables), TP_USER | VARIABLES);
}
