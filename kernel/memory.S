/* Stacks, each below a page that is mapped nowhere; the two pools; and words that can be executed, in pages of each kind. */

        .section .stacks, "aw", @nobits
        .balign 4096
        .globl first_guard, first_stack, first_stack_top, second_stack, second_stack_top
first_guard:
        .skip 4096
first_stack:
        .skip 65536
first_stack_top:
        .skip 4096
second_stack:
        .skip 16384
second_stack_top:

        .section .pools, "aw", @nobits
        .balign 4096
        .globl own_pool, own_pool_ends, process_pool, process_pool_ends
own_pool:
        .skip 16 * 4096
own_pool_ends:
process_pool:
        .skip 40 * 4096
process_pool_ends:

.macro word_in name
        .globl \name
        .balign 8
\name:
        mov $0x7ab1e, %eax
        jmp *%r9
.endm
        .text
        word_in text_word
        .section .rodata
        word_in rodata_word
        .data
        word_in data_word
