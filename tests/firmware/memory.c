/* In place of the drive (linked with --wrap=run): firmware/memory.c on the board, over every length up to 40 and every address that a function's name allows, with
 * every byte of what is around looked at afterwards. */
#include "board.h"

typedef void copying(void *to, const void *from, size_t count);
typedef void clearing(void *to, size_t count);
copying __aeabi_memcpy, __aeabi_memcpy4, __aeabi_memcpy8;
clearing __aeabi_memclr, __aeabi_memclr4, __aeabi_memclr8;
void *memcpy(void *restrict, const void *restrict, size_t);
void *memset(void *, int, size_t);
void __wrap_run(void);

static void c_copy(void *to, const void *from, size_t count) { if (memcpy(to, from, count) != to) end_run("memcpy gives back", NULL, 0); }
static void c_clear(void *to, size_t count) { if (memset(to, 0, count) != to) end_run("memset gives back", NULL, 0); }
static void c_set(void *to, size_t count) { memset(to, 0x1C3, count); }

static const struct { const char *name; size_t unit; copying *copy; clearing *clear; uint8_t value; } functions[] = {
    {"__aeabi_memcpy", 1, __aeabi_memcpy, NULL, 0}, {"__aeabi_memcpy4", 4, __aeabi_memcpy4, NULL, 0}, {"__aeabi_memcpy8", 8, __aeabi_memcpy8, NULL, 0},
    {"memcpy", 1, c_copy, NULL, 0}, {"__aeabi_memclr", 1, NULL, __aeabi_memclr, 0}, {"__aeabi_memclr4", 4, NULL, __aeabi_memclr4, 0},
    {"__aeabi_memclr8", 8, NULL, __aeabi_memclr8, 0}, {"memset", 1, NULL, c_clear, 0}, {"memset", 1, NULL, c_set, 0xC3}};

static uint64_t lent[2][8];

static void try(size_t f, size_t at, size_t from, size_t count)
{
    uint8_t *to = (uint8_t *)lent[0], *source = (uint8_t *)lent[1];
    for (size_t i = 0; i < 64; i++) to[i] = (uint8_t)(i + 1), source[i] = (uint8_t)(i + 101);
    if (functions[f].copy) functions[f].copy(to + at, source + from, count);
    else functions[f].clear(to + at, count);
    for (size_t i = 0; i < 64; i++) {
        uint8_t inside = functions[f].copy ? (uint8_t)(i - at + from + 101) : functions[f].value;
        if (to[i] != (i >= at && i < at + count ? inside : (uint8_t)(i + 1)) || source[i] != (uint8_t)(i + 101))
            end_run(functions[f].name, (uint64_t[]){at, from, count, i}, 4);
    }
}

void __wrap_run(void)
{
    uint64_t calls = 0;
    for (size_t f = 0; f < sizeof functions / sizeof *functions; f++)
        for (size_t at = 8; at < 16; at += functions[f].unit)
            for (size_t from = 8; from < 16; from += functions[f].unit)
                for (size_t count = 0; count <= 40; count++, calls++) try(f, at, from, count);
    print_line("calls of memory functions", &calls, 1);
    end_run(NULL, NULL, 0);
}
