/* What the plugin calls.c counts: over the images of HV_IMAGES, each with the cycles that are wanted in one byte and its length in three before it, one call of
 * hv_begin and then, as a series of its own, hv_go_on over so many cycles, every job reporting start + C. Of the cycles ONCE stands for one call, REFUSED for a cycle
 * and then calls that are refused. Without a C library, as a program for Linux or, with HV_BOARD, on a bare Cortex-M board of the emulator. It ends with 0, with 1
 * where a call returned another number, and prints nothing. The memory functions are here, a byte at a time, so that the bytes can be counted. */
#include "hervantyu.h"

#include <stddef.h>

enum { REFUSED = 254, ONCE = 255 };

__asm__(".section .rodata\n.globl images\nimages: .incbin \"" HV_IMAGES "\"\n.byte 0, 0, 0, 0\n.text\n");
extern const uint8_t images[];

/* ---- Places that the plugin knows ---- */

__attribute__((noinline)) void call_begins(void) { __asm__ volatile("nop" ::: "memory"); }
__attribute__((noinline)) void series_ends(void) { __asm__ volatile("nop\nnop" ::: "memory"); }
__attribute__((noinline)) void byte_moved(void) { __asm__ volatile("nop\nnop\nnop" ::: "memory"); }

/* ---- The memory functions ---- */

void *memcpy(void *restrict to, const void *restrict from, size_t n)
{
    unsigned char *t = to;
    const unsigned char *f = from;
    for (; n; n--, byte_moved())
        *t++ = *f++;
    return to;
}

void *memmove(void *to, const void *from, size_t n)
{
    unsigned char *t = to;
    const unsigned char *f = from;
    for (size_t i = 0; i < n; i++, byte_moved()) {
        size_t k = (uintptr_t)t < (uintptr_t)f ? i : n - 1 - i;
        t[k] = f[k];
    }
    return to;
}

void *memset(void *to, int c, size_t n)
{
    unsigned char *t = to;
    for (; n; n--, byte_moved())
        *t++ = (unsigned char)c;
    return to;
}

#ifdef __arm__
#define ALSO(name, as) __asm__(".globl " name "\n.thumb_set " name ", " as "\n");
__attribute__((noinline, used)) void clear_memory(void *to, size_t n)
{
    unsigned char *t = to;
    for (; n; n--, byte_moved())
        *t++ = 0;
}
ALSO("__aeabi_memcpy", "memcpy") ALSO("__aeabi_memcpy4", "memcpy") ALSO("__aeabi_memcpy8", "memcpy")
ALSO("__aeabi_memmove", "memmove") ALSO("__aeabi_memmove4", "memmove") ALSO("__aeabi_memmove8", "memmove")
ALSO("__aeabi_memclr", "clear_memory") ALSO("__aeabi_memclr4", "clear_memory") ALSO("__aeabi_memclr8", "clear_memory")
#endif

/* ---- The calls ---- */

static struct hv_dispatcher d;
static uint64_t start[4], where[2];

static uint32_t go_on(const uint8_t *image, uint64_t length, uint64_t end)
{
    call_begins();
    return hv_go_on(&d, image, length, end, start);
}

/* From the begin of cycle 1: through the last cycle, in which each end is reported too early first (21), to its end (24); then an end that is too late (22), and a
 * stopped record (23). */
static int refused(const uint8_t *image, uint64_t length)
{
    uint64_t hyperperiod = start[3] - d.running_start;
    for (d.cycle = UINT32_MAX;;) {
        uint64_t began = d.cycle * hyperperiod + d.running_start, end = began + d.tasks[d.running_task][1];
        if (go_on(image, length, began - 1) != 21)
            return 0;
        uint32_t number = go_on(image, length, end);
        if (number)
            return number == 24 && go_on(image, length, end + 1) == 22 && go_on(image, length, end) == 23;
    }
}

static int run(void)
{
    const uint8_t *p = images;
    for (;;) {
        uint64_t cycles = p[0], length = (uint64_t)p[1] << 16 | (uint64_t)p[2] << 8 | p[3];
        p += 4;
        if (!length)
            return 0;
        call_begins();
        if (hv_begin(&d, p, length, start, where))
            return 1;
        series_ends();
        for (uint64_t calls = 0; cycles == ONCE ? calls < 1 : start[2] < (cycles == REFUSED ? 1 : cycles); calls++)
            if (go_on(p, length, start[3] + d.tasks[start[0]][1]))
                return 1;
        if (cycles == REFUSED && !refused(p, length))
            return 1;
        series_ends();
        p += length;
    }
}

/* ---- Start and end ---- */

#if defined HV_BOARD
extern char stack_top[];
static void semihosting(uintptr_t what, uintptr_t with)
{
    register uintptr_t op __asm__("r0") = what;
    register uintptr_t arg __asm__("r1") = with;
    __asm__ volatile("bkpt 0xab" : "+r"(op) : "r"(arg) : "memory");
}
static void fault(void)
{
    for (;;)
        semihosting(0x18, 0x20024);
}
static void reset(void)
{
    *(volatile uint32_t *)0xE000ED88 |= 0xFu << 20; /* the floating-point unit, which the archive's calling convention presumes */
    __asm__ volatile("dsb\nisb");
    for (;;)
        semihosting(0x18, run() ? 0x20024 : 0x20026);
}
__attribute__((section(".vectors"), used)) void *const vectors[16] = {stack_top, reset, fault, fault, fault, fault, fault};
#elif defined __arm__
__attribute__((used)) static void end(int status)
{
    __asm__ volatile("movs r7, #1\nmov r0, %0\nsvc 0" ::"r"(status) : "r0", "r7");
    for (;;)
        ;
}
__attribute__((used)) void _start(void) { end(run()); }
#elif defined __aarch64__
__attribute__((used)) void _start(void)
{
    register long x0 __asm__("x0") = run();
    register long x8 __asm__("x8") = 93;
    __asm__ volatile("svc 0" : "+r"(x0) : "r"(x8) : "memory");
    for (;;)
        ;
}
#elif defined __x86_64__
__attribute__((force_align_arg_pointer, used)) void _start(void)
{
    long status = run();
    __asm__ volatile("syscall" ::"a"(60L), "D"(status) : "rcx", "r11", "memory");
    for (;;)
        ;
}
#endif
