/* The serial port COM1, and the device by which QEMU is left (isa-debug-exit). */
#include "account.h"
#include "machine.h"
#include <stdarg.h>

enum { COM1 = 0x3f8, EXIT = 0xf4, ALL_PASSED = 0x10, SOME_FAILED = 0x11, KINDS = 32, SHOWN = 2 };

static uint64_t passed, failed;

void open_serial(void) {
    out8(COM1 + 1, 0);    /* no interrupts */
    out8(COM1 + 3, 0x80); /* 115200 baud */
    out8(COM1 + 0, 1);
    out8(COM1 + 1, 0);
    out8(COM1 + 3, 3); /* 8 bits, no parity */
    out8(COM1 + 2, 7); /* queues on */
}

static void say_char(char c) {
    while (!(in8(COM1 + 5) & 0x20)) pause();
    out8(COM1, (uint8_t)c);
}

static void say_number(uint64_t n, unsigned base) {
    char digits[21];
    char *at = digits + 20;
    *at = 0;
    do *--at = "0123456789abcdef"[n % base];
    while (n /= base);
    while (*at) say_char(*at++);
}

static void say_text(const char *text) {
    while (*text) say_char(*text++);
}

static void say_list(const char *format, va_list list) {
    for (; *format; format++) {
        if (*format != '%') {
            say_char(*format);
            continue;
        }
        format++;
        if (*format == 'x') say_text("0x");
        if (*format == 's') say_text(va_arg(list, const char *));
        else say_number(va_arg(list, uint64_t), *format == 'x' ? 16 : 10);
    }
}

void say(const char *format, ...) {
    va_list list;
    va_start(list, format);
    say_list(format, list);
    va_end(list);
}

/* Of each kind of failure the first ones are shown; what has the same words is of one kind. */
static int is_shown(const char *format) {
    static struct {
        const char *format;
        unsigned shown;
    } kinds[KINDS];
    for (unsigned n = 0; n < KINDS; n++) {
        if (!kinds[n].format) kinds[n].format = format;
        if (kinds[n].format == format) return kinds[n].shown++ < SHOWN;
    }
    return 0;
}

void check(int holds, const char *format, ...) {
    if (holds) {
        passed++;
        return;
    }
    failed++;
    if (!is_shown(format)) return;
    va_list list;
    va_start(list, format);
    say_text("wrong: ");
    say_list(format, list);
    say_char('\n');
    va_end(list);
}

void end_part(const char *format, ...) {
    static uint64_t passed_before, failed_before;
    va_list list;
    va_start(list, format);
    say_list(format, list);
    va_end(list);
    say(": %u checks passed", passed - passed_before);
    if (failed > failed_before) say(", %u FAILED", failed - failed_before);
    say_char('\n');
    passed_before = passed;
    failed_before = failed;
}

void finish(void) {
    say("%u passed, %u failed\n", passed, failed);
    out8(EXIT, failed ? SOME_FAILED : ALL_PASSED);
    for (;;) __asm__ volatile("cli; hlt");
}

void give_up(const char *format, ...) {
    va_list list;
    va_start(list, format);
    say_text("given up: ");
    say_list(format, list);
    say_char('\n');
    va_end(list);
    failed++;
    finish();
}
