/* What main.c is given by the board, and gives it. */
#include <stddef.h>
#include <stdint.h>

/* In main.c: called at the start, and at every tick of the clock. */
void run(void);
void tick(void);

/* Switches the clock on, a tick a millisecond; the first one comes after a millisecond. */
void start_clock(void);

/* A line for the trial on the emulator: the word, then the numbers. */
void print_line(const char *word, const uint64_t *numbers, int count);

/* Ends the trial: with a last line and status 1, or where there is no word with status 0. */
_Noreturn void end_run(const char *word, const uint64_t *numbers, int count);
