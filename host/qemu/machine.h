/* The machine below the kernel: its serial line, its timer, its interrupts, and its end. */
#ifndef QEMU_MACHINE_H
#define QEMU_MACHINE_H

#define CODE_SELECTOR 8
#define DATA_SELECTOR 16
#define STACK_BYTES 16384

#ifndef __ASSEMBLER__

#include <stdbool.h>
#include <stdint.h>

/* The serial line and the interrupts' table; interrupts are off. */
void machine_begin(void);

/* Ends the emulator, with a status that says whether all holds. */
_Noreturn void machine_end(bool holds);

/* Interrupts on, the first after so many ticks; and off again. */
void timer_begin(uint32_t ticks);
void timer_end(void);

/* At the end of the timer interrupt: the next one comes after so many ticks, of which the emulator counts one for each instruction. */
void timer_next(uint32_t ticks);

/* The most bytes of the stack that were in use so far. */
uint64_t stack_used(void);

void print_text(const char *text);
void print_number(uint64_t number); /* with a comma before each group of three digits */

/* The guest's side, which the timer interrupt enters. */
void guest_timer(void);

#endif
#endif
