/* The correlator's night: buffers are mapped into the process, filled by it, handed on and unmapped, round after round. While the
 * process fills one, the kernel takes the oldest: it reads through its own view, which is another mapping, that the right frame was
 * filled by the right beam; then it unmaps. The second processor is told by shootdowns that overlap, and that is reported late and in
 * batches; only then is the frame used again. */
#include "account.h"
#include "agree.h"
#include "frames.h"
#include "machine.h"
#include "must.h"
#include "own.h"
#include "plant.h"
#include "second.h"
#include "shootdowns.h"
#include "tests.h"

enum { LIVE = 3, LEAVING = 5, REGIONS = 3, SMALL_FRAMES = 24 };

struct buffer {
    uint64_t base, frame, size, seed;
    uint64_t first, step; /* which words are filled: the first one's offset, and how far apart they are */
    unsigned told_by;     /* once it is unmapped: the number of the shootdown */
};
static struct buffer live[LIVE], leaving[LEAVING];
static uint64_t state = 0x7e1e5c09e, words, mapped[SIZES], stale, asked;

static uint64_t any(uint64_t below) {
    state = mixed(state, below);
    return state % below;
}

static int meets(const struct buffer *b, uint64_t base, uint64_t frame, uint64_t size) {
    return (b->frame < frame + size && frame < b->frame + b->size) || (b->base < base + size && base < b->base + b->size);
}

/* mapped, or unmapped and not yet reported */
static int is_taken(uint64_t base, uint64_t frame, uint64_t size) {
    for (unsigned n = 0; n < LIVE; n++)
        if (meets(&live[n], base, frame, size)) return 1;
    for (unsigned n = 0; n < LEAVING; n++)
        if (leaving[n].size && meets(&leaving[n], base, frame, size)) return 1;
    return 0;
}

static uint64_t any_frame(uint64_t size) {
    if (size == GIB1) return gib(1 + (unsigned)any(2));
    return gib(0) + (size == MIB2 ? 0 : SMALL_FRAMES * MIB2) + any(SMALL_FRAMES) * size;
}

/* Few regions of 512 GiB, few GiB in each, so that buffers share tables now and then: the last of the lower half and the first of the upper
 * one are among them. */
static uint64_t any_base(uint64_t size) {
    static const uint64_t regions[REGIONS] = { 1ull << 39, LOWER_ENDS - (1ull << 39), UPPER };
    uint64_t base = regions[any(REGIONS)] + any(2) * 511 * GIB1;
    if (size == GIB1) return base;
    base += any(2) * 511 * MIB2;
    return size == MIB2 ? base : base + any(ENTRIES) * PAGE;
}

/* Every page of 4 KiB of a buffer of 2 MiB is touched somewhere; of one of 1 GiB, 64 places in 64 different stretches. */
static struct buffer any_buffer(uint64_t seed) {
    struct buffer b = { .seed = seed };
    do {
        uint64_t kind = any(8);
        b.size = kind == 0 ? GIB1 : kind < 3 ? PAGE : MIB2;
        b.frame = any_frame(b.size);
        b.base = any_base(b.size);
    } while (is_taken(b.base, b.frame, b.size));
    b.step = b.size == GIB1 ? GIB1 / 64 : b.size == MIB2 ? PAGE : 64;
    b.first = any(b.size == GIB1 ? MIB2 / 8 : b.step / 8) * 8;
    return b;
}

static struct job job_of(const struct buffer *b, enum job_kind kind) {
    return (struct job){
        .kind = kind, .base = b->base, .first = b->base + b->first, .end = b->base + b->size, .step = b->step, .seed = b->seed
    };
}

/* Each word lies in the frame that was mapped, and says beam and place. */
static void check_filled(const struct buffer *b) {
    uint64_t wrong = 0;
    for (uint64_t at = b->first; at < b->size; at += b->step, words++)
        wrong += read_word(DIRECT + b->frame + at) != mixed(b->seed, at);
    check(wrong == 0, "round %u: %u words of the buffer in frame %x are not what the beam filled in", b->seed, wrong, b->frame);
}

/* What is reported has left; there is room for one more. */
static struct buffer *next_leaving(void) {
    struct buffer *room = 0;
    for (unsigned n = 0; n < LEAVING; n++) {
        if (leaving[n].told_by < shootdowns_reported()) leaving[n].size = 0;
        if (leaving[n].size == 0) room = &leaving[n];
    }
    return room;
}

static void hand_on(struct buffer *b) {
    if (b->size == 0) return;
    check_filled(b);
    b->told_by = unmap_later_told(b->base, b->frame, b->size, b->base + b->first);
    *next_leaving() = *b;
    b->size = 0;
}

/* Shootdowns begin, their interrupts come in any order, and they are reported late, now and then several at once. */
static void tell_some(void) {
    if (under_way() < MOST_UNDER_WAY && any(4)) begin_shootdown();
    if (any(2)) some_interrupt_comes(any(MOST_UNDER_WAY));
    if (any(4) == 0) report_done();
    if (!next_leaving()) {
        while (under_way()) some_interrupt_comes(any(MOST_UNDER_WAY));
        report_done();
    }
    if (!next_leaving()) tell_all();
}

/* A buffer that was handed on: before it is told, a read may still go through, to the frame that nobody else has yet. */
static void ask_untold(uint64_t gone) {
    asked++;
    stale += !access_in_ring_3(READ, gone, 0).faulted;
}

/* what the kernel changes through its own view, the process reads */
static void check_read_back(const struct buffer *b) {
    uint64_t sum = 0;
    for (uint64_t at = b->first; at < b->size; at += b->step) {
        write_word(DIRECT + b->frame + at, mixed(~b->seed, at));
        sum += mixed(~b->seed, at);
    }
    post(job_of(b, SUM));
    check(wait_for_process()->sum == sum, "round %u: the process reads other words at %x than the kernel wrote", b->seed, b->base);
    post(job_of(b, FILL));
    wait_for_process();
}

/* An address in the buffer, or in what follows or precedes it. */
static uint64_t nearby(const struct buffer *b) {
    uint64_t offset = any(b->size / b->step) * b->step + any(b->size == GIB1 ? MIB2 / 8 : b->step / 8) * 8;
    return b->base + offset + (any(4) ? 0 : any(2) ? b->size : -b->size);
}

/* Some access there, unless it is in a buffer that the processor may still hold. */
static void agree_nearby(const char *when, const struct buffer *b) {
    uint64_t va = nearby(b);
    unsigned ring = any(2) ? 3 : 0;
    enum access kind = (enum access)any(ACCESSES);
    for (unsigned n = 0; n < LEAVING; n++)
        if (va - leaving[n].base < leaving[n].size) return;
    agree_on(when, va, ring, kind);
}

static void do_round(uint64_t round) {
    struct buffer *next = &live[round % LIVE], *oldest = &live[(round + 1) % LIVE];
    *next = any_buffer(round + 1);
    mapped[next->size == PAGE ? 0 : next->size == MIB2 ? 1 : 2]++;
    must_map(next->base, next->frame, next->size, TP_WRITABLE | TP_USER | TP_NO_EXECUTE);
    agree_nearby("mapped for a beam", next);
    post(job_of(next, FILL));
    uint64_t gone = oldest->base + oldest->first;
    hand_on(oldest);
    wait_for_process();
    if (gone) ask_untold(gone);
    tell_some();
    agree_nearby("filled", next);
    if (round % 8 == 0) check_read_back(next);
}

void test_night(uint64_t rounds) {
    uint64_t made = tables_made(), released = tables_released();
    uint64_t begun = shootdowns_begun(), three = times_three(), overtaken = times_overtaken(), several = times_several();
    for (uint64_t round = 0; round < rounds; round++) do_round(round);
    for (unsigned n = 0; n < LIVE; n++) {
        hand_on(&live[n]);
        tell_all();
    }
    made = tables_made() - made;
    released = tables_released() - released;
    check(made == released, "the night made %u tables, and %u were released", made, released);
    say("the night: %u rounds; %u buffers of 4 KiB, %u of 2 MiB, %u of 1 GiB, filled, handed on and unmapped\n", rounds, mapped[0],
        mapped[1], mapped[2]);
    say("  untold, %u of %u could still be read; %u shootdowns, %u times three under way, %u done before an older one\n", stale, asked,
        shootdowns_begun() - begun, times_three() - three, times_overtaken() - overtaken);
    say("  reported late, %u times several at once; no frame is used again before, and then none is reached by its old address\n",
        times_several() - several);
    end_part("  %u words, each in its frame and of its beam; %u tables made and released, in a pool of %u pages", words, made,
             process_space.pages);
}
