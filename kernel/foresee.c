/* The manual's section on access rights, and its table of error codes. */
#include "foresee.h"
#include "machine.h"

enum { CR4_SMEP = 1 << 20, CR4_SMAP = 1 << 21 };

uint64_t guards(void) {
    uint32_t has = cpuid(7).b;
    return (has >> 7 & 1 ? CR4_SMEP : 0) | (has >> 20 & 1 ? CR4_SMAP : 0);
}

/* of a page with these rights */
static enum cause cause_of(uint64_t rights, unsigned ring, enum access kind) {
    if (ring == 3 && !(rights & TP_USER)) return RING_0_ONLY;
    if (kind == WRITE && !(rights & TP_WRITABLE)) return READ_ONLY;
    if (kind == EXECUTE && rights & TP_NO_EXECUTE) return NO_EXECUTE;
    if (ring == 0 && rights & TP_USER && cr4() & (kind == EXECUTE ? CR4_SMEP : CR4_SMAP)) return GUARDED;
    return GOES;
}

struct foreseen foresee(struct tp_found found, int reserved, unsigned ring, enum access kind) {
    uint64_t error = (ring == 3 ? FAULT_RING_3 : 0) | (kind == WRITE ? FAULT_WRITE : 0) | (kind == EXECUTE ? FAULT_FETCH : 0);
    if (found.kind == TP_NO_ADDRESS) return (struct foreseen){ NO_ADDRESS, 0 };
    if (found.kind != TP_PAGE && reserved) return (struct foreseen){ RESERVED, error | FAULT_RESERVED | FAULT_PRESENT };
    if (found.kind != TP_PAGE) return (struct foreseen){ NOT_PRESENT, error };
    return (struct foreseen){ cause_of(found.rights, ring, kind), error | FAULT_PRESENT };
}

int came(struct outcome outcome, struct foreseen foreseen, uint64_t va) {
    if (foreseen.cause == GOES) return !outcome.faulted;
    if (foreseen.cause == NO_ADDRESS) return outcome.faulted && outcome.vector == GENERAL_PROTECTION && outcome.error == foreseen.error;
    /* where bit 3 is 1 the manual has bit 0 at 1 too; QEMU 7.2 leaves it 0, and later ones do not */
    uint64_t open = foreseen.error & FAULT_RESERVED ? FAULT_PRESENT : 0;
    return outcome.faulted && outcome.vector == PAGE_FAULT && (outcome.error | open) == foreseen.error && outcome.address == va;
}

const char *access_name(enum access kind) { return kind == READ ? "read" : kind == WRITE ? "write" : "execute"; }
