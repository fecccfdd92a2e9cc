/* The image lies after the guest's RAM. */
ENTRY(_start)
SECTIONS {
    . = 0x78000000;
    .text : { *(.text.start) *(.text .text.*) }
    .rodata : { *(.rodata .rodata.*) }
    .data : { *(.data .data.*) *(.got .got.*) }
    .bss : { . = ALIGN(16); bss_start = .; *(.bss .bss.*) *(COMMON) . = ALIGN(16); bss_end = .; }
    .stacks (NOLOAD) : { *(.stacks) }
    /DISCARD/ : { *(.comment) *(.note*) *(.eh_frame*) }
}
