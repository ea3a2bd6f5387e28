/* A guest of 2 MiB of RAM: code and data from its begin, then the heap, then the stack. */
ENTRY(_start)
SECTIONS
{
    . = 0x80000000;
    .text : { *(.text.start) *(.text .text.*) }
    .rodata : { *(.rodata .rodata.* .srodata .srodata.*) }
    . = ALIGN(0x1000);
    .data : { *(.data .data.* .sdata .sdata.*) }
    . = ALIGN(16);
    thread_data = .;
    .tdata : { *(.tdata .tdata.*) }
    .tbss (NOLOAD) : { *(.tbss .tbss.*) . += 64; }
    . = ALIGN(16) + 0x100;
    .bss : { *(.bss .bss.* .sbss .sbss.* COMMON) }
    . = ALIGN(16);
    heap_begin = .;
    heap_end = 0x801e0000;
    stack_end = 0x80200000;
    /DISCARD/ : { *(.eh_frame) *(.note.*) *(.comment) *(.riscv.attributes) }
}
