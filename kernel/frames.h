/* The memory that buffers are made of: whole GiB of it, as the machine lists them. The first GiB is the kernel's. */
#ifndef FRAMES_H
#define FRAMES_H

#include <stdint.h>

enum { GIBS = 3 };

/* From QEMU's account of the machine, while it can be read: the memory, and the number of rounds that was asked for, or so many. */
void read_start_info(uint64_t at);
uint64_t gib(unsigned n);
uint64_t rounds_asked(uint64_t otherwise);

/* Whether this physical address is of that memory, and the kernel sees it at DIRECT. */
int is_buffer(uint64_t frame);

#endif
