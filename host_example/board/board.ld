/* Where a program's parts lie on the mps2-an386, a board with a Cortex-M4 that qemu-system-arm has too. The free
 * stretches are for programs that place buffers themselves. */
ENTRY(reset)

MEMORY
{
    code (rx) : ORIGIN = 0x00000000, LENGTH = 1M   /* of 4 MB; the rest is free */
    stack (rw) : ORIGIN = 0x20000000, LENGTH = 64K /* of 4 MB; the rest is free */
    data (rw) : ORIGIN = 0x21000000, LENGTH = 16M
}

SECTIONS
{
    .text : { KEEP(*(.vectors)) *(.text .text.* .rodata .rodata.*) } >code
    .ARM.exidx : { *(.ARM.exidx*) } >code
    .data : ALIGN(8) { data_from = .; *(.data .data.*) . = ALIGN(8); data_to = .; } >data AT>code
    data_stored = LOADADDR(.data);
    code_to = ORIGIN(code) + LENGTH(code);
    .bss (NOLOAD) : ALIGN(8) { zeros_from = .; *(.bss .bss.* COMMON) . = ALIGN(8); zeros_to = .; } >data AT>data
    heap_from = .;
    heap_to = ORIGIN(data) + LENGTH(data);

    /* At the lowest address of the memory: a stack that grows too large runs into nothing, and that is a fault. */
    stack_from = ORIGIN(stack);
    stack_to = ORIGIN(stack) + LENGTH(stack);
}
