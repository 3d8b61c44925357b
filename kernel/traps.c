/* Traps: page faults, and general protection faults, of accesses that may fault are noted; interrupts are orders to the second processor; any other trap is the end. */
#include "traps.h"
#include "account.h"
#include "machine.h"
#include "second.h"

enum { VECTORS = 66, TASK = 0x28 };

struct frame {
    uint64_t r15, r14, r13, r12, r11, r10, r9, r8, rdi, rsi, rbp, rbx, rdx, rcx, rax;
    uint64_t vector, error, rip, cs, flags, rsp, ss;
};

struct gate {
    uint16_t low, selector, kind, middle;
    uint32_t high, zero;
};

struct __attribute__((packed)) pointer {
    uint16_t limit;
    uint64_t base;
};

/* of the task only the stack of ring 0 counts */
struct __attribute__((packed)) task {
    uint32_t zero;
    uint64_t ring_0_stack;
    uint64_t rest[11];
    uint32_t ports;
};

extern char trap_stubs[], first_stack_top[], second_stack_top[];
typedef void probe(uint64_t va, uint64_t word, struct outcome *outcome);
extern probe kernel_read, kernel_write, kernel_execute;
extern probe process_read, process_write, process_execute;
extern char kernel_jump[], kernel_fine[], kernel_faulted[], process_jump[], process_fine[], process_faulted[];

static struct gate gates[VECTORS];
static struct task tasks[2];
static uint64_t segments[2][7];

void load_segments(const struct pointer *table, uint64_t task);
void trap(struct frame *f);

struct outcome access_here(enum access kind, uint64_t va, uint64_t word) {
    static probe *const probes[ACCESSES] = { kernel_read, kernel_write, kernel_execute };
    struct outcome outcome = { 0, 0, 0, 0, 0 };
    probes[kind](va, word, &outcome);
    return outcome;
}

/* Whether the fault is at an access that may fault, in that ring; then it goes on behind it. A jump to what is no address faults there, or
 * is itself what faults. */
static int noted(struct frame *f, probe *read, probe *write, const char *jump, const char *fine, const char *faulted) {
    int at_execute = f->r9 == (uint64_t)fine && (f->rip == f->rdi || (f->vector == GENERAL_PROTECTION && f->rip == (uint64_t)jump));
    if (f->rip != (uint64_t)read && f->rip != (uint64_t)write && !at_execute) return 0;
    f->rax = f->error;
    f->rcx = cr2();
    f->r8 = f->vector;
    f->r9 = 0;
    f->rip = (uint64_t)faulted;
    return 1;
}

void trap(struct frame *f) {
    int ring_3 = (f->cs & 3) == 3, fault = f->vector == PAGE_FAULT || f->vector == GENERAL_PROTECTION;
    if (fault && ring_3 && noted(f, process_read, process_write, process_jump, process_fine, process_faulted)) return;
    if (fault && !ring_3 && noted(f, kernel_read, kernel_write, kernel_jump, kernel_fine, kernel_faulted)) return;
    if (f->vector == ORDER) {
        second_ordered();
        return;
    }
    give_up("trap %u with error code %x at %x in ring %u, address %x", f->vector, f->error, f->rip, f->cs & 3, cr2());
}

static void make_gates(void) {
    for (unsigned n = 0; n < VECTORS; n++) {
        uint64_t at = (uint64_t)trap_stubs + 16 * n;
        gates[n] = (struct gate){ (uint16_t)at, 0x08, 0x8e00, (uint16_t)(at >> 16), (uint32_t)(at >> 32), 0 };
    }
}

static void make_segments(unsigned processor) {
    uint64_t *s = segments[processor], at = (uint64_t)&tasks[processor], limit = sizeof tasks[0] - 1;
    tasks[processor].ring_0_stack = (uint64_t)(processor ? second_stack_top : first_stack_top);
    tasks[processor].ports = (uint32_t)sizeof tasks[0] << 16;
    s[1] = 0x00af9b000000ffff; /* 0x08: code of ring 0 */
    s[2] = 0x00cf93000000ffff; /* 0x10: data of ring 0 */
    s[3] = 0x00cff3000000ffff; /* 0x1b: data of ring 3 */
    s[4] = 0x00affb000000ffff; /* 0x23: code of ring 3 */
    s[5] = limit | (at & 0xffffff) << 16 | 0x89ull << 40 | (at >> 24 & 0xff) << 56;
    s[6] = at >> 32;
}

void prepare_traps(unsigned processor) {
    if (processor == 0) make_gates();
    make_segments(processor);
    struct pointer table = { sizeof segments[0] - 1, (uint64_t)segments[processor] };
    load_segments(&table, TASK);
    struct pointer interrupts = { sizeof gates - 1, (uint64_t)gates };
    __asm__ volatile("lidt %0" : : "m"(interrupts));
}
