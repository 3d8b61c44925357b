/* The first processor, from boot.S on: in the boot tables, and then in its own. */
#include "account.h"
#include "agree.h"
#include "foresee.h"
#include "frames.h"
#include "image.h"
#include "own.h"
#include "second.h"
#include "tests.h"
#include "traps.h"

enum { ROUNDS = 10000 };

void first_processor(uint64_t start_info);

static void say_machine(void) {
    uint64_t bits = cpuid(0x80000008).a & 0xff, features = cpuid(0x80000001).d, guard = guards();
    check(bits == 52, "physical addresses have %u bits here, and 52 in the definitions", bits);
    check(features >> 26 & 1, "the processor has no pages of 1 GiB");
    check(features >> 20 & 1, "the processor has no no-execute");
    say("machine: %u bits of physical address, pages of 1 GiB, no-execute%s%s\n", bits, guard >> 20 & 1 ? ", SMEP" : "",
        guard >> 21 & 1 ? ", SMAP" : "");
}

/* where the second processor starts, in 16-bit mode */
static void copy_low_start(void) {
    for (char *from = low_start, *to = (char *)0x8000; from < low_start_ends; from++, to++) *(volatile char *)to = *from;
}

/* Every kind of fault came; any other than these, or one outside an access that was asked for, ends the run. */
static void say_faults(void) {
    static const char *const names[CAUSES] = { [NOT_PRESENT] = "not present", [RESERVED] = "reserved bit", [READ_ONLY] = "read-only",
                                               [NO_EXECUTE] = "no-execute",   [RING_0_ONLY] = "the kernel's, in ring 3",
                                               [GUARDED] = "the process's, in ring 0 (SMEP, SMAP)",
                                               [NO_ADDRESS] = "no address: general protection faults, and not page faults" };
    say("faults that had to come, with error code, and page faults with CR2:\n");
    for (enum cause cause = NOT_PRESENT; cause < CAUSES; cause++) {
        say("  %u %s\n", compared(cause), names[cause]);
        check(compared(cause) > 0 || (cause == GUARDED && !guards()), "no access was to fault so: %s", names[cause]);
    }
    end_part("accesses that had to go through, to the right bytes: %u", compared(GOES));
}

void first_processor(uint64_t start_info) {
    open_serial();
    prepare_traps(0);
    say_machine();
    read_start_info(start_info);
    copy_low_start();
    live_in_own_tables();
    make_process_space();
    start_second(process_space.root);
    say("the process lives in its tables: CR3 %x, on the second processor, in ring 3\n", process_space.root);
    test_kernel_pages();
    test_rights();
    test_halves();
    test_marks();
    test_bits();
    test_stale();
    test_overlapping();
    test_dry();
    test_night(rounds_asked(ROUNDS));
    test_own_marks();
    say_faults();
    finish();
}
