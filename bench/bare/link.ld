/* The board mps2-an386: code from address 0, data from 0x20000000. The library's code stands by itself, so that its size can be told. */
ENTRY(start)

MEMORY
{
    code (rx) : ORIGIN = 0x00000000, LENGTH = 4M
    data (rwx) : ORIGIN = 0x20000000, LENGTH = 4M
}

SECTIONS
{
    .vectors : { KEEP(*(.vectors)) } > code
    .library : { library_start = .; *library.o(.text .text.* .rodata .rodata.*) library_end = .; } > code
    .text : { *(.text .text.* .rodata .rodata.*) } > code
    .ARM.exidx : { *(.ARM.exidx*) } > code
    .data : { *(.data .data.*) } > data
    .bss (NOLOAD) : { *(.bss .bss.* COMMON) } > data
    .stack (NOLOAD) : ALIGN(8) { stack_low = .; . += 256K; stack_high = .; } > data
}
