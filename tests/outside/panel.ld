/* An image: code from 0x1000 on; constants and variables after the program's block, which is the first 4096 bytes of the input block. */
ENTRY(_start)
SECTIONS
{
    .text 0x1000 : { *(.text.start) *(.text .text.*) }
    . = 0x101000;
    .data : { *(.rodata .rodata.*) *(.srodata .srodata.*) *(.data .data.*) *(.sdata .sdata.*) }
    .bss : { *(.sbss .sbss.*) *(.bss .bss.*) *(COMMON) }
}
