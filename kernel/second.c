/* The second processor is told by an interrupt (its local APIC), and its process by a mailbox. */
#include "second.h"
#include "foresee.h"
#include "image.h"
#include "machine.h"
#include "shootdowns.h"

enum { APIC_END = 0xb0, APIC_ENABLE = 0xf0, APIC_COMMAND = 0x300, TO_THE_OTHER = 0xc4000, INIT = 0x500, START_AT_8000 = 0x608 };

static struct {
    uint32_t posted, done;
    int access; /* else a shootdown; else one invlpg */
    struct shootdown *shootdown;
    enum access kind;
    uint64_t va, word;
    struct outcome outcome;
} order;
static uint64_t second_root, last_shot;

void second_processor(void);

static volatile uint32_t *apic(uint64_t at) { return (volatile uint32_t *)(APIC + at); }

/* the process's data, as the kernel sees it */
static struct mailbox *box(void) { return (struct mailbox *)view_of_process((uint64_t)&mailbox); }

void start_second(uint64_t root) {
    second_root = root;
    *apic(APIC_ENABLE) = 0x1ff;
    *apic(APIC_COMMAND) = TO_THE_OTHER | INIT;
    for (int n = 0; n < 10000; n++) pause();
    *apic(APIC_COMMAND) = TO_THE_OTHER | START_AT_8000;
    post((struct job){ .kind = SUM });
    wait_for_process();
}

void second_processor(void) {
    prepare_traps(1);
    load_cr4(cr4() | guards());
    load_cr3(second_root);
    *apic(APIC_ENABLE) = 0x1ff;
    enter_ring_3((uint64_t)process, (uint64_t)process_stack + sizeof process_stack - 8);
}

void second_ordered(void) {
    if (order.access) order.outcome = access_here(order.kind, order.va, order.word);
    else if (order.shootdown) {
        for (unsigned n = 0; n < order.shootdown->pages; n++) invlpg(order.shootdown->page[n]);
        __atomic_store_n(&order.shootdown->done, 1, __ATOMIC_RELEASE);
    } else invlpg(order.va);
    *apic(APIC_END) = 0;
    __atomic_store_n(&order.done, order.posted, __ATOMIC_RELEASE);
}

static void interrupt_second(void) {
    __atomic_store_n(&order.posted, order.posted + 1, __ATOMIC_RELEASE);
    *apic(APIC_COMMAND) = TO_THE_OTHER | ORDER;
    while (__atomic_load_n(&order.done, __ATOMIC_ACQUIRE) != order.posted) pause();
}

static void order_invlpg(uint64_t va) {
    order.access = 0;
    order.shootdown = 0;
    order.va = va;
    interrupt_second();
}

void do_shootdown(struct shootdown *s) {
    order.access = 0;
    order.shootdown = s;
    interrupt_second();
}

int is_done(const struct shootdown *s) { return (int)__atomic_load_n(&s->done, __ATOMIC_ACQUIRE); }

void shoot_down(uint64_t va) {
    last_shot = va;
    order_invlpg(va);
}

void forget_code(uint64_t va) {
    if (va / PAGE != last_shot / PAGE) order_invlpg(va);
}

struct outcome access_in_ring_0(enum access kind, uint64_t va, uint64_t word) {
    order.access = 1;
    order.kind = kind;
    order.va = va;
    order.word = word;
    interrupt_second();
    return order.outcome;
}

void post(struct job job) {
    struct mailbox *m = box();
    m->job = job;
    __atomic_store_n(&m->posted, m->posted + 1, __ATOMIC_RELEASE);
}

struct job *wait_for_process(void) {
    struct mailbox *m = box();
    while (__atomic_load_n(&m->done, __ATOMIC_ACQUIRE) != m->posted) pause();
    return &m->job;
}

struct outcome access_in_ring_3(enum access kind, uint64_t va, uint64_t word) {
    post((struct job){ .kind = ACCESS, .access = kind, .base = va, .seed = word });
    return wait_for_process()->outcome;
}
