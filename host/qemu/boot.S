/* From the boot loader's 32-bit mode to C in 64-bit mode, with SSE off; and the entries of exceptions and of the timer interrupt. */
#include "machine.h"

#define MULTIBOOT_MAGIC 0x1BADB002

#define PRESENT_AND_WRITABLE 0x03
#define LARGE_PAGE 0x80
#define UNCACHED 0x18

#define CR0_PAGING_AND_NO_FPU 0x80000004 /* PG, and EM: an SSE instruction is an exception */
#define CR4_PAE_ALONE 0x20               /* not OSFXSR */
#define EFER 0xC0000080
#define EFER_LONG_MODE 0x100

#define WITH_ERROR_CODE 0x60227D00 /* a bit for each vector: 8, 10 to 14, 17, 21, 29, 30 */

    .section .multiboot, "a"
    .balign 4
    .long MULTIBOOT_MAGIC, 0, -MULTIBOOT_MAGIC

    .text
    .code32
    .globl start
start:
    cli
    cld
    movl $stack + STACK_BYTES, %esp
    movl $CR4_PAE_ALONE, %eax
    movl %eax, %cr4
    movl $page_map, %eax
    movl %eax, %cr3
    movl $EFER, %ecx
    rdmsr
    orl $EFER_LONG_MODE, %eax
    wrmsr
    movl %cr0, %eax
    orl $CR0_PAGING_AND_NO_FPU, %eax
    movl %eax, %cr0
    lgdt descriptors_limit
    ljmp $CODE_SELECTOR, $start64

    .code64
start64:
    movl $DATA_SELECTOR, %eax
    movl %eax, %ds
    movl %eax, %es
    movl %eax, %ss
    call kernel_main
    ud2

/* Exceptions, an entry every 16 bytes: each leaves on the stack the address where it happened, its error code or 0, and its vector. */
    .balign 16
    .globl exception_entries
exception_entries:
    .irp vector, 0, 1, 2, 3, 4, 5, 6, 7, 8, 9, 10, 11, 12, 13, 14, 15, 16, 17, 18, 19, 20, 21, 22, 23, 24, 25, 26, 27, 28, 29, 30, 31
    .balign 16
    .if ((WITH_ERROR_CODE >> \vector) & 1) == 0
    pushq $0
    .endif
    pushq $\vector
    jmp exception_entry
    .endr

    .balign 16
exception_entry:
    popq %rdi
    popq %rsi
    movq (%rsp), %rdx
    andq $-16, %rsp
    cld
    call machine_exception
    ud2

/* The timer interrupt, on the stack of what it interrupts: general registers are all that there is to save. */
    .globl timer_entry
timer_entry:
    pushq %rax
    pushq %rcx
    pushq %rdx
    pushq %rsi
    pushq %rdi
    pushq %r8
    pushq %r9
    pushq %r10
    pushq %r11
    cld
    call guest_timer
    popq %r11
    popq %r10
    popq %r9
    popq %r8
    popq %rdi
    popq %rsi
    popq %rdx
    popq %rcx
    popq %rax
    iretq

/* The local APIC's spurious interrupt asks for nothing. */
    .globl spurious_entry
spurious_entry:
    iretq

    .section .rodata
    .balign 8
descriptors:
    .quad 0, 0x00AF9A000000FFFF, 0x00CF92000000FFFF
descriptors_end:
descriptors_limit:
    .word descriptors_end - descriptors - 1
    .long descriptors

/* Each address is mapped to itself: the kernel's own 2 MiB, and the local APIC's page. Any other access is an exception. */
    .data
    .balign 4096
page_map:
    .quad directories + PRESENT_AND_WRITABLE
    .fill 511, 8, 0
directories:
    .quad low_directory + PRESENT_AND_WRITABLE, 0, 0, high_directory + PRESENT_AND_WRITABLE
    .fill 508, 8, 0
low_directory:
    .quad 0, 0x200000 + PRESENT_AND_WRITABLE + LARGE_PAGE
    .fill 510, 8, 0
high_directory:
    .fill 503, 8, 0
    .quad 0xFEE00000 + PRESENT_AND_WRITABLE + LARGE_PAGE + UNCACHED
    .fill 8, 8, 0

    .section .note.GNU-stack, "", @progbits
