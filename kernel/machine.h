/* What the processor is told and asked directly, and where things are. */
#ifndef MACHINE_H
#define MACHINE_H

#include <stdint.h>

enum { PAGE = 4096, ENTRIES = 512 };
#define MIB2 0x200000ull
#define GIB1 0x40000000ull

/* The two halves of the addresses, and the hole between them. */
#define LOWER_ENDS 0x0000800000000000ull
#define UPPER 0xffff800000000000ull

/* Virtual addresses of the kernel's half. KERNEL: the image, from physical address 0 on. DIRECT: the kernel's own view of the memory
 * that buffers are made of, likewise. APIC: the device page. */
#define KERNEL 0xffffffff80000000ull
#define DIRECT UPPER
#define APIC 0xffffffff40000000ull
#define APIC_FRAME 0xfee00000ull

static inline void out8(uint16_t port, uint8_t byte) { __asm__ volatile("outb %0, %1" : : "a"(byte), "Nd"(port)); }

static inline uint8_t in8(uint16_t port) {
    uint8_t byte;
    __asm__ volatile("inb %1, %0" : "=a"(byte) : "Nd"(port));
    return byte;
}

static inline void pause(void) { __asm__ volatile("pause" : : : "memory"); }

static inline void invlpg(uint64_t va) { __asm__ volatile("invlpg (%0)" : : "r"(va) : "memory"); }

static inline void load_cr3(uint64_t root) { __asm__ volatile("mov %0, %%cr3" : : "r"(root) : "memory"); }

static inline uint64_t cr3(void) {
    uint64_t root;
    __asm__ volatile("mov %%cr3, %0" : "=r"(root));
    return root;
}

static inline uint64_t cr4(void) {
    uint64_t flags;
    __asm__ volatile("mov %%cr4, %0" : "=r"(flags));
    return flags;
}

static inline void load_cr4(uint64_t flags) { __asm__ volatile("mov %0, %%cr4" : : "r"(flags)); }

static inline uint64_t cr2(void) {
    uint64_t va;
    __asm__ volatile("mov %%cr2, %0" : "=r"(va));
    return va;
}

struct cpuid {
    uint32_t a, b, c, d;
};

static inline struct cpuid cpuid(uint32_t leaf) {
    struct cpuid r;
    __asm__ volatile("cpuid" : "=a"(r.a), "=b"(r.b), "=c"(r.c), "=d"(r.d) : "a"(leaf), "c"(0));
    return r;
}

static inline uint64_t read_word(uint64_t va) { return *(volatile uint64_t *)va; }
static inline void write_word(uint64_t va, uint64_t word) { *(volatile uint64_t *)va = word; }

#endif
