/* The image from 1 MiB on: the entry, at its physical address; the process of ring 3; the kernel, at KERNEL; and the two pools. */
KERNEL = 0xffffffff80000000;
PROCESS = 0x400000;
ENTRY(first_processor_32)

PHDRS {
    boot PT_LOAD FLAGS(7);
    note PT_NOTE FLAGS(4);
    process PT_LOAD FLAGS(7);
    kernel PT_LOAD FLAGS(7);
}

SECTIONS {
    . = 0x100000;
    .boot : { *(.boot) } :boot
    .note.pvh : { KEEP(*(.note.pvh)) } :boot :note
    process_load = ALIGN(4096);

    . = PROCESS;
    process_text = .;
    .process.text : AT(process_load) { *process.o(.text .text.*) *(.process.text) } :process
    . = ALIGN(4096);
    process_rodata = .;
    .process.rodata : AT(process_load + process_rodata - PROCESS) { *process.o(.rodata .rodata.*) QUAD(0) } :process
    . = ALIGN(4096);
    process_data = .;
    .process.data : AT(process_load + process_data - PROCESS) { *process.o(.data .data.* .bss .bss.*) } :process
    . = ALIGN(4096);
    process_ends = .;
    kernel_load = process_load + process_ends - PROCESS;

    . = KERNEL + kernel_load;
    text = .;
    .text : AT(text - KERNEL) { *(.text .text.*) } :kernel
    . = ALIGN(4096);
    rodata = .;
    .rodata : AT(rodata - KERNEL) { *(.rodata .rodata.*) } :kernel
    . = ALIGN(4096);
    data = .;
    .data : AT(data - KERNEL) { *(.data .data.*) *(.bss .bss.* COMMON) } :kernel
    . = ALIGN(4096);
    data_ends = .;
    .stacks : AT(data_ends - KERNEL) { *(.stacks) } :kernel
    . = ALIGN(4096);
    pools = .;
    .pools : AT(pools - KERNEL) { *(.pools) } :kernel
    . = ALIGN(4096);
    image_ends = .;

    /DISCARD/ : { *(.comment) *(.eh_frame) *(.note .note.*) *(.llvm_addrsig) }
}
