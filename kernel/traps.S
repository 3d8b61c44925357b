/* Where the processor comes on a trap: every register is saved, and trap() in traps.c decides. */

        .text
        .globl trap_stubs
        .balign 16
        .set n, 0
trap_stubs:
        .rept 66
        .if (n == 8) || ((n >= 10) && (n <= 14)) || (n == 17) || (n == 21) || (n == 29) || (n == 30)
        .byte 0x66, 0x90                /* the processor pushed an error code */
        .else
        .byte 0x6a, 0                   /* push 0 in its place */
        .endif
        .byte 0x6a, n                   /* push the vector */
        jmp trap_common
        .balign 16
        .set n, n + 1
        .endr

trap_common:
        .irp r, rax, rcx, rdx, rbx, rbp, rsi, rdi, r8, r9, r10, r11, r12, r13, r14, r15
        push %\r
        .endr
        mov %rsp, %rdi
        cld
        call trap
        .irp r, r15, r14, r13, r12, r11, r10, r9, r8, rdi, rsi, rbp, rbx, rdx, rcx, rax
        pop %\r
        .endr
        add $16, %rsp
        iretq

/* load_segments(pointer to the table, selector of the task) */
        .globl load_segments
load_segments:
        lgdt (%rdi)
        ltr %si
        mov $0x10, %eax
        mov %eax, %ds
        mov %eax, %es
        mov %eax, %ss
        pop %rax
        push $0x08
        push %rax
        lretq

/* enter_ring_3(instruction, stack): with interrupts on, and never back */
        .globl enter_ring_3
enter_ring_3:
        push $0x1b
        push %rsi
        push $0x202
        push $0x23
        push %rdi
        iretq
