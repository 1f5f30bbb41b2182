/* What tests/targets/cases.c asks of the machine that it runs on; tests/targets/io.c has it for Linux without a C library, and for a bare board. */
#include <stddef.h>

/* Reads at most so many bytes of the input; 0 at its end. */
size_t read_input(void *to, size_t most);

/* Writes all of these bytes. */
void write_output(const void *from, size_t length);

/* Ends the program: 0 where all went well. */
_Noreturn void end_program(int status);

/* Begins the program; what starts the machine calls it. */
void begin_program(void);
