/* The machine by its ports and registers: the UART at 0x3F8, the local APIC's timer, the table of interrupts, QEMU's exit device. */
#include "machine.h"

#include <stddef.h>

#define SERIAL 0x3F8u
#define EXIT_DEVICE 0xF4u
#define PIC_MASKS_1 0x21u
#define PIC_MASKS_2 0xA1u

/* The emulator's exit status is twice this and 1. */
#define EXIT_HOLDS 16u
#define EXIT_FAILS 17u

/* registers of the local APIC, as indices of words */
#define APIC_END_OF_INTERRUPT (0xB0 / 4)
#define APIC_SPURIOUS (0xF0 / 4)
#define APIC_TIMER (0x320 / 4)
#define APIC_TIMER_COUNT (0x380 / 4)
#define APIC_TIMER_DIVISOR (0x3E0 / 4)
#define APIC_ENABLED 0x100u
#define APIC_DIVIDE_BY_1 0xBu

#define EXCEPTIONS 32u
#define TIMER_VECTOR 0x40u
#define SPURIOUS_VECTOR 0xFFu
#define INTERRUPT_GATE 0x8Eu

typedef struct gate {
    uint16_t low, selector, type, middle;
    uint32_t high, reserved;
} gate;

typedef struct __attribute__((packed)) table_limit {
    uint16_t limit;
    const gate *table;
} table_limit;

extern const uint8_t exception_entries[EXCEPTIONS][16], timer_entry[], spurious_entry[];

/* Zeros at first, so that what is not zero was used. */
uint64_t stack[STACK_BYTES / 8] __attribute__((aligned(16)));

static volatile uint32_t *const apic = (volatile uint32_t *)0xFEE00000u;
static gate gates[256];

static void out_byte(uint16_t port, uint8_t byte) { __asm__ volatile("outb %0, %1" : : "a"(byte), "Nd"(port)); }

static uint8_t in_byte(uint16_t port)
{
    uint8_t byte;
    __asm__ volatile("inb %1, %0" : "=a"(byte) : "Nd"(port));
    return byte;
}

/* ---- the serial line ---- */

/* 115,200 baud, 8 bits, no parity, no interrupts. */
static void serial_begin(void)
{
    out_byte(SERIAL + 1, 0);
    out_byte(SERIAL + 3, 0x80);
    out_byte(SERIAL, 1);
    out_byte(SERIAL + 1, 0);
    out_byte(SERIAL + 3, 3);
}

static void print_byte(char byte)
{
    while (!(in_byte(SERIAL + 5) & 0x20)) {
    }
    out_byte(SERIAL, (uint8_t)byte);
}

void print_text(const char *text)
{
    for (; *text != 0; text++)
        print_byte(*text);
}

void print_number(uint64_t number)
{
    char text[32], *at = text + sizeof text;
    uint32_t digits = 0;
    *--at = 0;
    do {
        if (digits > 0 && digits % 3 == 0)
            *--at = ',';
        *--at = (char)('0' + number % 10);
        number /= 10;
        digits++;
    } while (number > 0);
    print_text(at);
}

static void print_hexadecimal(uint64_t number)
{
    int shift;
    for (shift = 60; shift >= 0; shift -= 4)
        print_byte("0123456789abcdef"[number >> shift & 15]);
}

/* ---- interrupts ---- */

static void set_gate(uint32_t vector, const uint8_t *entry)
{
    uint64_t address = (uint64_t)entry;
    gate *g = &gates[vector];
    g->low = (uint16_t)address;
    g->selector = CODE_SELECTOR;
    g->type = INTERRUPT_GATE << 8;
    g->middle = (uint16_t)(address >> 16);
    g->high = (uint32_t)(address >> 32);
}

static void gates_begin(void)
{
    const table_limit limit = {sizeof gates - 1, gates};
    uint32_t vector;
    for (vector = 0; vector < EXCEPTIONS; vector++)
        set_gate(vector, exception_entries[vector]);
    set_gate(TIMER_VECTOR, timer_entry);
    set_gate(SPURIOUS_VECTOR, spurious_entry);
    __asm__ volatile("lidt %0" : : "m"(limit), "m"(gates));
}

void machine_begin(void)
{
    serial_begin();
    gates_begin();
    out_byte(PIC_MASKS_1, 0xFF);
    out_byte(PIC_MASKS_2, 0xFF);
    apic[APIC_SPURIOUS] = APIC_ENABLED | SPURIOUS_VECTOR;
    apic[APIC_TIMER_DIVISOR] = APIC_DIVIDE_BY_1;
    apic[APIC_TIMER] = TIMER_VECTOR; /* once for each count */
}

void timer_begin(uint32_t ticks)
{
    apic[APIC_TIMER_COUNT] = ticks;
    __asm__ volatile("sti" : : : "memory");
}

void timer_end(void) { __asm__ volatile("cli" : : : "memory"); }

void timer_next(uint32_t ticks)
{
    apic[APIC_END_OF_INTERRUPT] = 0;
    apic[APIC_TIMER_COUNT] = ticks;
}

_Noreturn void machine_end(bool holds)
{
    out_byte(EXIT_DEVICE, holds ? EXIT_HOLDS : EXIT_FAILS);
    for (;;)
        __asm__ volatile("cli; hlt");
}

/* No exception is expected of this kernel. */
_Noreturn void machine_exception(uint64_t vector, uint64_t code, uint64_t address)
{
    print_text("exception ");
    print_number(vector);
    print_text(", error code ");
    print_number(code);
    print_text(", at ");
    print_hexadecimal(address);
    print_text("\n");
    machine_end(false);
}

/* A compiler may call these also where there is no C library. */
void *memset(void *to, int byte, size_t count)
{
    void *at = to;
    __asm__ volatile("rep stosb" : "+D"(at), "+c"(count) : "a"(byte) : "memory");
    return to;
}

void *memcpy(void *to, const void *from, size_t count)
{
    void *at = to;
    __asm__ volatile("rep movsb" : "+D"(at), "+S"(from), "+c"(count) : : "memory");
    return to;
}

uint64_t stack_used(void)
{
    uint64_t k = 0;
    while (k < STACK_BYTES / 8 && stack[k] == 0)
        k++;
    return STACK_BYTES - 8 * k;
}
