/* Each access is made with a word planted in the frame, and what is in the frame afterwards is read through the kernel's view. */
#include "agree.h"
#include "account.h"
#include "frames.h"
#include "image.h"
#include "machine.h"
#include "own.h"
#include "plant.h"
#include "second.h"

static uint64_t counts[CAUSES];

uint64_t compared(enum cause cause) { return counts[cause]; }

/* look-up says nothing though the last word on the way is present: a reserved bit */
static int is_reserved(struct tp_found found, uint64_t va) { return found.kind == TP_NOTHING && leaf_word(&process_space, va) & PRESENT; }

/* A word that was never planted or written before. */
static uint64_t fresh(uint64_t at) {
    static uint64_t plants;
    return planted((uint32_t)mixed(at, ++plants));
}

/* An access at a place of a frame that the kernel sees: what is in the frame now, and what came of the access, fit what had to come. */
static int in_frame(struct outcome o, enum cause cause, enum access kind, uint64_t now, uint64_t before, uint64_t written) {
    if (cause != GOES) return now == before;
    if (kind == READ) return o.value == before && now == before;
    if (kind == WRITE) return now == written;
    return o.value == number_of(before) && now == before;
}

/* Where the kernel sees this physical address as well: in the buffers, or in the image; 0 where it does not. */
static uint64_t view_of(uint64_t at) {
    if (is_buffer(at)) return DIRECT + at;
    return at >= (uint64_t)process_load && at < (uint64_t)data_ends - KERNEL ? KERNEL + at : 0;
}

static struct outcome access_by_process(enum access kind, uint64_t va, unsigned ring, uint64_t word) {
    if (kind == EXECUTE) forget_code(va);
    return ring ? access_in_ring_3(kind, va, word) : access_in_ring_0(kind, va, word);
}

void agree_on(const char *when, uint64_t va, unsigned ring, enum access kind) {
    struct tp_found found = tp_look_up(&process_space, va);
    struct foreseen foreseen = foresee(found, is_reserved(found, va), ring, kind);
    uint64_t at = found.frame + (va - found.base), before = fresh(at), written = fresh(at);
    int seen = found.kind == TP_PAGE && is_buffer(at);
    if (!seen && foreseen.cause == GOES && kind != READ) return;
    uint64_t original = seen ? read_word(DIRECT + at) : 0;
    if (seen) write_word(DIRECT + at, before);
    struct outcome o = access_by_process(kind, va, ring, written);
    counts[foreseen.cause]++;
    int holds = came(o, foreseen, va);
    if (seen) holds = holds && in_frame(o, foreseen.cause, kind, read_word(DIRECT + at), before, written);
    if (seen) write_word(DIRECT + at, original);
    if (!seen && foreseen.cause == GOES && view_of(at)) holds = holds && o.value == read_word(view_of(at));
    check(holds, "%s: %s in ring %u at %x: faulted %u, vector %u, error code %x, CR2 %x, value %x; look-up says kind %u, frame %x, rights %u",
          when, access_name(kind), (uint64_t)ring, va, o.faulted, o.vector, o.error, o.address, o.value, found.kind, found.frame,
          found.rights);
}

void agree(const char *when, uint64_t va) {
    for (enum access kind = READ; kind < ACCESSES; kind++) {
        agree_on(when, va, 3, kind);
        agree_on(when, va, 0, kind);
    }
}
