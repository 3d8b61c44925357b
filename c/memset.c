/* The one function that the library calls; a kernel has its own. Pages are cleared by it, word by word. */
#include <stddef.h>
#include <stdint.h>

void *memset(void *to, int byte, size_t n);
void *memset(void *to, int byte, size_t n) {
    uint8_t *at = to;
    uint64_t word = (uint8_t)byte * 0x0101010101010101u;
    for (; n >= 8; n -= 8, at += 8) *(volatile uint64_t *)at = word;
    for (; n; n--, at++) *(volatile uint8_t *)at = (uint8_t)byte;
    return to;
}
