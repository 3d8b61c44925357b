/* One access that may fault, in ring 0 and in ring 3: NAME_read(va, word, outcome), NAME_write, NAME_execute.
 * traps.c knows these instructions by their names; on a fault it puts the error code into rax, CR2 into rcx and the vector into r8, and goes
 * on at NAME_faulted. What is executed is a planted word (plant.h), which loads its number and jumps to r9. */

.macro probes name
        .globl \name\()_read, \name\()_write, \name\()_execute, \name\()_jump, \name\()_fine, \name\()_faulted
        .balign 16
\name\()_read:
        mov (%rdi), %rax
        jmp \name\()_fine
\name\()_write:
        mov %rsi, (%rdi)
        mov %rsi, %rax
        jmp \name\()_fine
\name\()_execute:
        lea \name\()_fine(%rip), %r9
\name\()_jump:
        jmp *%rdi
\name\()_fine:
        mov %rax, (%rdx)                /* value */
        movq $0, 8(%rdx)                /* faulted */
        ret
\name\()_faulted:
        movq $1, 8(%rdx)
        mov %rax, 16(%rdx)              /* error code */
        mov %rcx, 24(%rdx)              /* address */
        mov %r8, 32(%rdx)               /* vector */
        ret
.endm

        .text
        probes kernel

        .section .process.text, "ax"
        probes process
