/* Input, output and the end of a program without a C library. On Linux (x86-64, AArch64, 32-bit Arm of either byte order): three system calls, standard input and
 * standard output. With HV_BOARD, on a bare machine: semihosting, the files named cases and answers in the emulator's folder; tests/targets/board.c starts it. */
#include "io.h"

#include <stdint.h>

#ifdef HV_BOARD

enum { OPEN = 1, WRITE = 5, READ = 6, EXIT = 0x20, READ_BINARY = 1, WRITE_BINARY = 5 };

static uintptr_t semihosting(uintptr_t operation, const void *block)
{
#ifdef __aarch64__
    register uintptr_t result __asm__("x0") = operation;
    register const void *with __asm__("x1") = block;
    __asm__ volatile("hlt #0xf000" : "+r"(result) : "r"(with) : "memory");
#else
    register uintptr_t result __asm__("r0") = operation;
    register const void *with __asm__("r1") = block;
    __asm__ volatile("bkpt 0xab" : "+r"(result) : "r"(with) : "memory");
#endif
    return result;
}

/* The handle of an open file, opened when it is first wanted. */
static uintptr_t opened(uintptr_t *handle, const char *name, uintptr_t length, uintptr_t mode)
{
    const uintptr_t block[3] = {(uintptr_t)name, mode, length};
    if (*handle == 0)
        *handle = semihosting(OPEN, block);
    if (*handle == UINTPTR_MAX)
        end_program(2);
    return *handle;
}

size_t read_input(void *to, size_t most)
{
    static uintptr_t handle;
    const uintptr_t block[3] = {opened(&handle, "cases", 5, READ_BINARY), (uintptr_t)to, most};
    return most - semihosting(READ, block);
}

void write_output(const void *from, size_t length)
{
    static uintptr_t handle;
    const uintptr_t block[3] = {opened(&handle, "answers", 7, WRITE_BINARY), (uintptr_t)from, length};
    if (semihosting(WRITE, block) != 0)
        end_program(2);
}

_Noreturn void end_program(int status)
{
    const uintptr_t block[2] = {0x20026, (uintptr_t)status};
    semihosting(EXIT, block);
    for (;;)
        ;
}

#else

#if defined __x86_64__
enum { READ = 0, WRITE = 1, EXIT = 60 };
__asm__(".globl _start\n_start: xor %ebp, %ebp\nand $-16, %rsp\ncall begin_program\n");
#elif defined __aarch64__
enum { READ = 63, WRITE = 64, EXIT = 93 };
__asm__(".globl _start\n_start: bl begin_program\n");
#else
enum { READ = 3, WRITE = 4, EXIT = 1 };
__asm__(".globl _start\n.thumb_func\n_start: bl begin_program\n");
#endif

static long system_call(long number, long first, const void *second, size_t third)
{
#if defined __x86_64__
    long result;
    __asm__ volatile("syscall" : "=a"(result) : "a"(number), "D"(first), "S"(second), "d"(third) : "rcx", "r11", "memory");
#elif defined __aarch64__
    register long with __asm__("x8") = number, result __asm__("x0") = first;
    register const void *bytes __asm__("x1") = second;
    register size_t length __asm__("x2") = third;
    __asm__ volatile("svc 0" : "+r"(result) : "r"(with), "r"(bytes), "r"(length) : "memory");
#else
    register long with __asm__("r7") = number, result __asm__("r0") = first;
    register const void *bytes __asm__("r1") = second;
    register size_t length __asm__("r2") = third;
    __asm__ volatile("svc 0" : "+r"(result) : "r"(with), "r"(bytes), "r"(length) : "memory");
#endif
    return result;
}

size_t read_input(void *to, size_t most)
{
    long length = system_call(READ, 0, to, most);
    if (length < 0)
        end_program(2);
    return (size_t)length;
}

void write_output(const void *from, size_t length)
{
    const char *bytes = from;
    while (length > 0) {
        long written = system_call(WRITE, 1, bytes, length);
        if (written <= 0)
            end_program(2);
        bytes += written;
        length -= (size_t)written;
    }
}

_Noreturn void end_program(int status)
{
    for (;;)
        system_call(EXIT, status, NULL, 0);
}

#endif
