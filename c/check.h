/* What a test in C says and counts by, with no C library. Its run() is where it starts; the last line counts. */
#ifndef CHECK_H
#define CHECK_H

#include "tablepath.h"

static unsigned passed, failed;

static long system_call(long number, long a, long b, long c) {
    long answer;
    __asm__ volatile("syscall" : "=a"(answer) : "a"(number), "D"(a), "S"(b), "d"(c) : "rcx", "r11", "memory");
    return answer;
}

static void say(const char *text) {
    size_t n = 0;
    while (text[n]) n++;
    system_call(1, 1, (long)text, (long)n);
}

static void say_number(unsigned n) {
    char digits[11];
    char *at = digits + 10;
    *at = 0;
    do *--at = (char)('0' + n % 10);
    while (n /= 10);
    say(at);
}

static inline void copy_bytes(uint8_t *to, const uint8_t *from, size_t size) {
    for (size_t i = 0; i < size; i++) to[i] = from[i];
}

static inline int same_bytes(const uint8_t *a, const uint8_t *b, size_t size) {
    for (size_t i = 0; i < size; i++)
        if (a[i] != b[i]) return 0;
    return 1;
}

static void check(const char *what, int holds) {
    if (holds) {
        passed++;
    } else {
        failed++;
        say("wrong: ");
        say(what);
        say("\n");
    }
}

static void end(void) {
    say_number(passed);
    say(" passed, ");
    say_number(failed);
    say(" failed\n");
    system_call(60, failed != 0, 0, 0);
    for (;;) {}
}

__asm__(".globl _start\n_start: and $-16, %rsp\n call run\n");
void run(void);

#endif
