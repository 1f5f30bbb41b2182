/* What an archive asks of a program without a C library: the memory functions of Arm's run-time ABI, and C's, which compilers ask for too. The 4 and 8 in a name
 * promise pointers that are multiples of that, so these move words. To be compiled with -ffreestanding -fno-tree-loop-distribute-patterns: else a loop here can
 * become a call of the function that it stands in. */
#include <stddef.h>
#include <stdint.h>

void *memcpy(void *restrict to, const void *restrict from, size_t count)
{
    for (size_t i = 0; i < count; i++) ((uint8_t *)to)[i] = ((const uint8_t *)from)[i];
    return to;
}

void *memset(void *to, int value, size_t count)
{
    for (size_t i = 0; i < count; i++) ((uint8_t *)to)[i] = (uint8_t)value;
    return to;
}

#ifdef __arm__
typedef uint32_t __attribute__((may_alias)) word;

void __aeabi_memcpy(void *to, const void *from, size_t count) { memcpy(to, from, count); }

void __aeabi_memcpy4(word *restrict to, const word *restrict from, size_t count)
{
    for (; count >= 16; count -= 16, to += 4, from += 4) to[0] = from[0], to[1] = from[1], to[2] = from[2], to[3] = from[3];
    for (; count >= 4; count -= 4) *to++ = *from++;
    memcpy(to, from, count);
}

void __aeabi_memclr(void *to, size_t count) { memset(to, 0, count); }

void __aeabi_memclr4(word *to, size_t count)
{
    for (; count >= 32; count -= 32, to += 8) to[0] = 0, to[1] = 0, to[2] = 0, to[3] = 0, to[4] = 0, to[5] = 0, to[6] = 0, to[7] = 0;
    for (; count >= 4; count -= 4) *to++ = 0;
    memset(to, 0, count);
}

void __aeabi_memcpy8(word *restrict, const word *restrict, size_t) __attribute__((alias("__aeabi_memcpy4")));
void __aeabi_memclr8(word *, size_t) __attribute__((alias("__aeabi_memclr4")));
#endif
