/* What is said over the serial port, and what is counted. */
#ifndef ACCOUNT_H
#define ACCOUNT_H

#include <stdint.h>

void open_serial(void);

/* %s text, %u number, %x number in base 16; numbers are 64 bits wide. */
void say(const char *format, ...);

/* One check, counted. Where it does not hold, these words say what was wrong. */
void check(int holds, const char *format, ...);

/* These words, and how many checks of the part that ends here passed, and failed. */
void end_part(const char *format, ...);

/* The last line, and out of QEMU: the exit status says whether all passed. */
_Noreturn void finish(void);

/* A failure with which nothing can go on. */
_Noreturn void give_up(const char *format, ...);

#endif
