/* Where the kernel lies: in the 2 MiB from 2 MiB on, which is all the memory that it maps. The multiboot header comes first. */
OUTPUT_FORMAT(elf64-x86-64)
ENTRY(start)
SECTIONS
{
    . = 2M;
    .text : { KEEP(*(.multiboot)) *(.text .text.*) }
    . = ALIGN(4K);
    .rodata : { *(.rodata .rodata.*) }
    . = ALIGN(4K);
    .data : { *(.data .data.*) }
    .bss : { *(.bss .bss.*) *(COMMON) }
    kernel_end = .;
    /DISCARD/ : { *(.comment) *(.note .note.*) *(.eh_frame) }
}
ASSERT(kernel_end <= 4M, "the kernel is larger than the memory that it maps")
