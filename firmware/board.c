/* A Cortex-M board: the start, the vectors, the clock; and printing for the trial, by semihosting. A drive has its own. */
#include "board.h"

#define REGISTER(address) (*(volatile uint32_t *)(address))
enum { CLOCK_HZ = 25000000 };

/* ---- The start ---- */

extern char bss_from[], bss_end[], stack_top[];

/* The floating-point unit stays off, as it is at the start. With CCR.UNALIGN_TRP every access to a number across its size is a fault. */
void reset(void)
{
    REGISTER(0xE000ED14) |= 1u << 3;
    for (char *byte = bss_from; byte < bss_end; byte++) *byte = 0;
    run();
}

/* A fault tells its cause, register CFSR, on a new stack: the old one may be what was too short. */
__attribute__((used)) static void tell_fault(void) { end_run("FAULT", (uint64_t[]){REGISTER(0xE000ED28)}, 1); }
__attribute__((naked)) static void fault(void) { __asm__("ldr sp, =stack_top\nb tell_fault"); }

__attribute__((section(".vectors"), used)) static void *const vectors[16] = {stack_top, reset, fault, fault, fault, fault, fault, [15] = tick};

/* SysTick: its period, its count, on with its interrupt by the processor's clock. */
void start_clock(void)
{
    REGISTER(0xE000E014) = CLOCK_HZ / 1000 - 1;
    REGISTER(0xE000E018) = 0;
    REGISTER(0xE000E010) = 7;
}

/* ---- Semihosting: the emulator, or a debugger, does what a breakpoint with this number asks for ---- */

static void ask(uint32_t what, const void *with)
{
    register uint32_t operation __asm__("r0") = what;
    register const void *argument __asm__("r1") = with;
    __asm__ volatile("bkpt 0xab" : "+r"(operation) : "r"(argument) : "memory");
}

static void print(const char *text) { ask(4, text); }

void print_line(const char *word, const uint64_t *numbers, int count)
{
    print(word);
    for (int i = 0; i < count; i++) {
        char digits[21];
        char *digit = digits + 20;
        uint64_t rest = numbers[i];
        *digit = 0;
        do *--digit = (char)('0' + rest % 10); while (rest /= 10);
        if (i > 0 || *word) print(" ");
        print(digit);
    }
    print("\n");
}

_Noreturn void end_run(const char *word, const uint64_t *numbers, int count)
{
    if (word) print_line(word, numbers, count);
    ask(0x18, (const void *)(word ? 0x20024 : 0x20026)); /* exit, after an error or not */
    for (;;) ;
}
