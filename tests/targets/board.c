/* Starts a bare machine for tests/targets/cases.c: a Cortex-M of the MPS2 boards (board.ld), or the AArch64 of the board virt. A read or a write of a number at an
 * address that is not a multiple of its size is a fault during the whole program: UNALIGN_TRP on a Cortex-M; on AArch64 SCTLR_EL1.A, which stands for what a
 * machine with its MMU off does, and any use of a floating-point register as well. A fault says FAULT and ends the program with status 1. */
#include "io.h"

#include <stdint.h>

extern char stack_top[], bss_from[], bss_to[];

__attribute__((used)) static void fault(void)
{
#ifdef __aarch64__
    register uintptr_t operation __asm__("x0") = 4;
    register const char *text __asm__("x1") = "FAULT\n";
    __asm__ volatile("hlt #0xf000" : "+r"(operation) : "r"(text) : "memory");
#else
    register uintptr_t operation __asm__("r0") = 4;
    register const char *text __asm__("r1") = "FAULT\n";
    __asm__ volatile("bkpt 0xab" : "+r"(operation) : "r"(text) : "memory");
#endif
    end_program(1);
}

#ifdef __aarch64__

static char stack[65536] __attribute__((used, aligned(16)));

__asm__(".balign 2048\nvectors: .rept 16\nb fault\n.balign 128\n.endr\n"
        ".globl _start\n_start: adrp x0, stack\nadd x0, x0, :lo12:stack\nadd sp, x0, #65536\n"
        "adrp x0, vectors\nadd x0, x0, :lo12:vectors\nmsr vbar_el1, x0\nmrs x0, sctlr_el1\norr x0, x0, #2\nmsr sctlr_el1, x0\nisb\nbl begin_program\n");

#else

void reset(void);

void reset(void)
{
    *(volatile uint32_t *)0xE000ED88 |= 0xFu << 20; /* CPACR: the floating-point registers */
    *(volatile uint32_t *)0xE000ED14 |= 1u << 3;    /* CCR: UNALIGN_TRP */
    __asm__ volatile("dsb\nisb" ::: "memory");
    for (uint32_t *at = (uint32_t *)bss_from; at < (uint32_t *)bss_to; at++)
        *at = 0;
    begin_program();
}

__attribute__((section(".vectors"), used)) static void *const vectors[16] = {stack_top, reset, fault, fault, fault, fault, fault};

#endif
