/* A guest in RAM from 80000000 on: code, then constants and data, then what has no bytes in the file, then the stack. */
ENTRY(_start)

PHDRS
{
    code PT_LOAD FLAGS(5);      /* read and execute: what the coverage analysis knows as code */
    data PT_LOAD FLAGS(6);      /* read and write */
}

SECTIONS
{
    . = 0x80000000;

    .text : {
        KEEP(*(.text.start))
        *(.text .text.*)
        . = ALIGN(16);
    } :code

    .data : {
        *(.rodata .rodata.* .srodata .srodata.*)
        . = ALIGN(4);
        __init_array_start = .;
        KEEP(*(SORT_BY_INIT_PRIORITY(.init_array.*)))
        KEEP(*(.init_array))
        __init_array_end = .;
        *(.data .data.* .sdata .sdata.*)
        . = ALIGN(8);
    } :data

    /* what a C library keeps for each thread, for the one that there is: tp points to it */
    __tls_base = .;
    .tdata : { *(.tdata .tdata.*) . = ALIGN(8); } :data
    .tbss (NOLOAD) : { *(.tbss .tbss.*) } :data

    .bss (NOLOAD) : {
        __bss_start = .;
        . += SIZEOF(.tbss); /* which takes up no addresses of its own */
        *(.sbss .sbss.* .bss .bss.* COMMON)
        . = ALIGN(16);
        __bss_end = .;
    } :data

    /* not cleared at the start */
    .noinit (NOLOAD) : { *(.noinit .noinit.*) . = ALIGN(16); } :data

    .stack (NOLOAD) : {
        __stack_bottom = .;
        . += DEFINED(__stack_size) ? __stack_size : 16K;
        __stack_top = .;
    } :data

    /DISCARD/ : { *(.comment .note .note.* .riscv.attributes .eh_frame .eh_frame_hdr) }
}
