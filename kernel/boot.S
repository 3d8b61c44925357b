/* From the machine's start to C: 32-bit code, minimal tables that map the first GiB twice (at 0 and at KERNEL), long mode.
 * The first processor comes by QEMU's PVH entry, the second by a page in low memory, in 16-bit mode. */

        .section .note.pvh, "a", @note
        .balign 4
        .long 4, 8, 18                  /* name, descriptor, XEN_ELFNOTE_PHYS32_ENTRY */
        .asciz "Xen"
        .quad first_processor_32

        .section .boot, "awx"
        .code32
        .globl first_processor_32
first_processor_32:
        cli
        cld
        lgdt boot_gdt_pointer
        ljmp $0x18, $1f
1:      mov $0x10, %eax
        mov %eax, %ds
        mov %eax, %ss
        xor %esi, %esi
        mov %ebx, %edi                  /* where QEMU left its account of the machine */
        jmp to_long_mode

second_processor_32:
        mov $0x10, %eax
        mov %eax, %ds
        mov %eax, %ss
        mov $1, %esi

to_long_mode:
        mov %cr4, %eax
        or $0x20, %eax                  /* PAE; without OSFXSR any use of the registers of SSE faults */
        mov %eax, %cr4
        mov $boot_root, %eax
        mov %eax, %cr3
        mov $0xc0000080, %ecx           /* EFER: long mode, no-execute */
        rdmsr
        or $0x900, %eax
        wrmsr
        mov %cr0, %eax
        or $0x80010001, %eax            /* paging, write protection also in ring 0, protected mode */
        mov %eax, %cr0
        ljmp $0x08, $in_long_mode

        .code64
in_long_mode:
        mov $0x10, %eax
        mov %eax, %ds
        mov %eax, %es
        mov %eax, %ss
        xor %eax, %eax
        mov %eax, %fs
        mov %eax, %gs
        test %esi, %esi
        jnz 1f
        movabs $first_stack_top, %rsp
        movabs $first_processor, %rax
        jmp 2f
1:      movabs $second_stack_top, %rsp
        movabs $second_processor, %rax
2:      xor %ebp, %ebp
        mov %edi, %edi
        call *%rax
3:      hlt
        jmp 3b

        .code16
        .globl low_start, low_start_ends
low_start:
        cli
        mov %cs, %ax
        mov %ax, %ds
        lgdtl low_gdt_pointer - low_start
        mov %cr0, %eax
        or $1, %eax
        mov %eax, %cr0
        ljmpl $0x18, $second_processor_32
low_gdt_pointer:
        .word boot_gdt_ends - boot_gdt - 1
        .long boot_gdt
low_start_ends:

        .balign 8
boot_gdt:
        .quad 0
        .quad 0x00af9b000000ffff        /* 0x08: code of 64 bits */
        .quad 0x00cf93000000ffff        /* 0x10: data */
        .quad 0x00cf9b000000ffff        /* 0x18: code of 32 bits */
boot_gdt_ends:
boot_gdt_pointer:
        .word boot_gdt_ends - boot_gdt - 1
        .long boot_gdt

        .balign 4096
        .globl boot_root
boot_root:
        .quad boot_low + 3
        .fill 510, 8, 0
        .quad boot_high + 3
boot_low:
        .quad boot_gib + 3
        .fill 511, 8, 0
boot_high:
        .fill 510, 8, 0
        .quad boot_gib + 3
        .quad 0
boot_gib:
        .set frame, 0
        .rept 512
        .quad frame + 0x83
        .set frame, frame + 0x200000
        .endr
