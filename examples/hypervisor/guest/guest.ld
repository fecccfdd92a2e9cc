ENTRY(_start)
SECTIONS {
    . = 0x40200000;
    .text : { *(.text.start) *(.text .text.*) }
    .rodata : { *(.rodata .rodata.*) }
    .data : { *(.data .data.*) *(.bss .bss.*) } /* in the file: nobody makes them zero */
    /DISCARD/ : { *(.comment) *(.note*) *(.eh_frame*) }
}
