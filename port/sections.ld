/* What goes where. The stack lies lowest in RAM, just above the code: that it grew too far is seen. */
ENTRY(_start)
SECTIONS {
    .text : {
        KEEP(*(.start))
        *(.text .text.*)
    } >code
    .rodata : {
        *(.rodata .rodata.* .srodata .srodata.*)
        *(.data.rel.ro .data.rel.ro.*)
        *(.got .got.*)
    } >code
    .stack (NOLOAD) : {
        stack_low = .;
        . += stack_size;
        stack_high = .;
    } >ram
    .data : { *(.data .data.* .sdata .sdata.*) } >ram
    .bss (NOLOAD) : {
        bss_low = .;
        *(.bss .bss.* .sbss .sbss.* COMMON)
        . = ALIGN(16);
        bss_high = .;
    } >ram
    ASSERT(SIZEOF(.data) == 0, "data that are not zero would have to be copied into RAM")
    /DISCARD/ : { *(.eh_frame*) *(.ARM.exidx*) *(.comment) *(.note*) *(.ARM.attributes) *(.riscv.attributes) }
}
