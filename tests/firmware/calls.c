/* Stands around the firmware's calls of hv_begin and hv_go_on (linked with --wrap): paints the stack below each call and tells afterwards how much of the paint is
 * gone. With UNALIGNED or FLOATING it makes one access across a number's size, or uses one floating-point register, which has to be a fault. */
#include "hervantyu.h"
#include "board.h"

extern uint32_t stack_bottom[];
uint32_t __real_hv_begin(struct hv_dispatcher *, const uint8_t *, uint64_t, uint64_t *, uint64_t *);
uint32_t __real_hv_go_on(struct hv_dispatcher *, const uint8_t *, uint64_t, uint64_t, uint64_t *);

enum { PAINT = 0x5AC3A53C };

/* From the bottom of the stack up to a little below the caller's frame, which holds no more than these functions' own. */
__attribute__((noinline)) static void paint(volatile uint32_t *top)
{
    for (volatile uint32_t *word = stack_bottom; word < top - 16; word++) *word = PAINT;
}

__attribute__((noinline)) static void tell(const char *call, const volatile uint32_t *top)
{
    const volatile uint32_t *word = stack_bottom;
    while (*word == PAINT) word++;
    print_line(call, (uint64_t[]){(uint64_t)((const char *)top - (const char *)word)}, 1);
}

static inline uint32_t *stack_pointer(void)
{
    uint32_t *pointer;
    __asm__ volatile("mov %0, sp" : "=r"(pointer));
    return pointer;
}

uint32_t __wrap_hv_begin(struct hv_dispatcher *d, const uint8_t *image, uint64_t len, uint64_t *start, uint64_t *where)
{
#ifdef UNALIGNED
    __asm__ volatile("ldr r3, [%0]" :: "r"((uintptr_t)start + 1) : "r3");
#endif
#ifdef FLOATING
    __asm__ volatile("vmov.f32 s0, s1" ::: "s0");
#endif
    paint(stack_pointer());
    uint32_t number = __real_hv_begin(d, image, len, start, where);
    tell("stack of hv_begin", stack_pointer());
    return number;
}

/* Without the clock's interrupt, whose frame would be counted. */
uint32_t __wrap_hv_go_on(struct hv_dispatcher *d, const uint8_t *image, uint64_t len, uint64_t end, uint64_t *start)
{
    __asm__ volatile("cpsid i" ::: "memory");
    paint(stack_pointer());
    uint32_t number = __real_hv_go_on(d, image, len, end, start);
    tell("stack of hv_go_on", stack_pointer());
    __asm__ volatile("cpsie i" ::: "memory");
    return number;
}
