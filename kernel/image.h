/* Names of the image: the linker's (link.ld), and what several files know. */
#ifndef IMAGE_H
#define IMAGE_H

#include "machine.h"

extern char text[], rodata[], data[], data_ends[];
extern char process_load[], process_text[], process_rodata[], process_data[], process_ends[];
extern char low_start[], low_start_ends[], boot_root[];
extern char first_guard[], first_stack[], first_stack_top[], second_stack[], second_stack_top[];
extern char own_pool[], own_pool_ends[], process_pool[], process_pool_ends[];
extern char text_word[], rodata_word[], data_word[]; /* words that can be executed, of pages of each kind */
extern uint8_t process_stack[2 * PAGE];

/* The process's pages, at their addresses in ring 3, as physical addresses and as the kernel sees them. */
static inline uint64_t frame_of_process(uint64_t va) { return va - (uint64_t)process_text + (uint64_t)process_load; }
static inline uint64_t view_of_process(uint64_t va) { return KERNEL + frame_of_process(va); }

#endif
