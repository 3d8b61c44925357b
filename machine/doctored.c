/* The library, doctored: the real operation works on a copy, and what it changed is stored into the window in a way that it may not be.
 * SPLIT: each word by two stores. BACKWARDS: the last word first. HALVES: each word is loaded by two loads. TWICE: and loaded again. VECTOR,
 * RED_ZONE: what a kernel's code must not use. LOOKS_TWICE: look-up reads the way twice. The test must find each. */
#include "tablepath.h"

#ifndef LOOKS_TWICE
static uint8_t copy[64 * 4096], was[64 * 4096];

#ifdef VECTOR
typedef uint64_t pair __attribute__((vector_size(16), aligned(8)));
#endif

#ifdef RED_ZONE
__attribute__((noinline)) static size_t put_below(size_t len) {
    volatile size_t below = len;
    return below;
}
#endif

static void store(uint8_t *mem, size_t at) {
#ifdef SPLIT
    *(volatile uint32_t *)(mem + at) = *(uint32_t *)(copy + at);
    *(volatile uint32_t *)(mem + at + 4) = *(uint32_t *)(copy + at + 4);
#else
    *(volatile uint64_t *)(mem + at) = *(uint64_t *)(copy + at);
#endif
}

static uint64_t load(const uint8_t *mem, size_t at) {
#ifdef HALVES
    uint64_t low = *(volatile const uint32_t *)(mem + at);
    return low | (uint64_t) * (volatile const uint32_t *)(mem + at + 4) << 32;
#else
    return *(volatile const uint64_t *)(mem + at);
#endif
}

static void take(const uint8_t *mem, size_t len) {
    for (size_t at = 0; at < len; at += 8) *(uint64_t *)(copy + at) = *(uint64_t *)(was + at) = load(mem, at);
}

static void give(uint8_t *mem, size_t len) {
#ifdef VECTOR
    *(volatile pair *)copy = *(volatile pair *)was;
#endif
#ifdef RED_ZONE
    len = put_below(len);
#endif
    for (size_t n = len; n; n -= 8) {
#ifdef SPLIT
        size_t at = len - n;
#else
        size_t at = n - 8;
#endif
        if (*(uint64_t *)(was + at) != *(uint64_t *)(copy + at)) store(mem, at);
#ifdef TWICE
        load(mem, at);
#endif
    }
}

struct tp_mapped odd_tp_raw_map(uint8_t *mem, size_t len, uint64_t origin, uint64_t pool, uint64_t pages, uint64_t root, uint64_t base,
                            uint64_t frame, uint64_t size, uint64_t rights);
struct tp_mapped odd_tp_raw_map(uint8_t *mem, size_t len, uint64_t origin, uint64_t pool, uint64_t pages, uint64_t root, uint64_t base,
                            uint64_t frame, uint64_t size, uint64_t rights) {
    take(mem, len);
    struct tp_mapped answer = tp_raw_map(copy, len, origin, pool, pages, root, base, frame, size, rights);
    give(mem, len);
    return answer;
}
#else
struct tp_found odd_tp_raw_look_up(const uint8_t *mem, size_t len, uint64_t origin, uint64_t root, uint64_t va);
struct tp_found odd_tp_raw_look_up(const uint8_t *mem, size_t len, uint64_t origin, uint64_t root, uint64_t va) {
    struct tp_found first = tp_raw_look_up(mem, len, origin, root, va);
    return first.kind == TP_PAGE ? tp_raw_look_up(mem, len, origin, root, va) : first;
}
#endif
