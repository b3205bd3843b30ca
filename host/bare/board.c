/* All that a program needs on Arm's MPS2 board with a Cortex-M4, without operating system and without C library: the
 * start, a UART, and memmove and its kin. The end is the one thing asked of the emulator. */
#include "console.h"

#include <stddef.h>

int main(void);
void reset(void);
static void fault(void);

/* The processor's table: where the stack begins, where a start begins, and its faults. */
extern uint32_t stack_top, data_start, data_end, data_kept, bss_start, bss_end;
__attribute__((section(".vectors"), used)) static const struct {
    uint32_t *stack;
    void (*starts[6])(void);
} vectors = {&stack_top, {reset, fault, fault, fault, fault, fault}};

/* UART 0: a register for data, its state (bit 0: sending is full; bit 1: something came), its control, its divider. */
static volatile uint32_t *const uart = (uint32_t *)0x40004000;
enum { DATA, STATE, CONTROL, DIVIDER = 4 };

/* The end of the input: the character EOT. */
#define END_OF_TRANSMISSION 4

int read_char(void) {
    while ((uart[STATE] & 2) == 0) {
    }
    int c = (int)(uart[DATA] & 0xFF);
    return c == END_OF_TRANSMISSION ? -1 : c;
}

void write_char(char c) {
    while ((uart[STATE] & 1) != 0) {
    }
    uart[DATA] = (uint8_t)c;
}

/* Ends the emulator with a status (semihosting: the call SYS_EXIT_EXTENDED, the reason ADP_Stopped_ApplicationExit). */
static _Noreturn void end(uint32_t status) {
    uint32_t reason[2] = {0x20026, status};
    register uint32_t call __asm__("r0") = 0x20;
    register uint32_t *with __asm__("r1") = reason;
    for (;;) {
        __asm__ volatile("bkpt 0xAB" : : "r"(call), "r"(with) : "memory");
    }
}

static void fault(void) {
    say("FAULT\n");
    end(2);
}

void reset(void) {
    const uint32_t *from = &data_kept;
    for (uint32_t *to = &data_start; to < &data_end; to += 1) {
        *to = *from;
        from += 1;
    }
    for (uint32_t *to = &bss_start; to < &bss_end; to += 1) {
        *to = 0;
    }
    uart[DIVIDER] = 16;
    uart[CONTROL] = 3;
    end((uint32_t)main());
}

/* What compiled code asks for, under C's names and those of Arm's convention, which look at no result. */

void *memmove(void *to, const void *from, size_t length) {
    uint8_t *put = to;
    const uint8_t *get = from;
    if (put <= get) {
        for (size_t k = 0; k < length; k += 1) {
            put[k] = get[k];
        }
    } else {
        for (size_t k = length; k > 0; k -= 1) {
            put[k - 1] = get[k - 1];
        }
    }
    return to;
}

void *memset(void *to, int byte, size_t length) {
    uint8_t *put = to;
    for (size_t k = 0; k < length; k += 1) {
        put[k] = (uint8_t)byte;
    }
    return to;
}

#define ALSO(name) void *name(void *, const void *, size_t) __attribute__((alias("memmove")))
ALSO(memcpy);
ALSO(__aeabi_memcpy);
ALSO(__aeabi_memmove);
ALSO(__aeabi_memmove4);

#define CLEARS(name)                                                                     \
    void name(void *to, size_t length) {                                                 \
        memset(to, 0, length);                                                           \
    }
CLEARS(__aeabi_memclr)
CLEARS(__aeabi_memclr4)
CLEARS(__aeabi_memclr8)
