/* An MPS2 board: 4 MiB of code memory at the address code, and 16 MiB at the address more (--defsym), for all that is written and the stack. */
MEMORY { CODE (rx) : ORIGIN = code, LENGTH = 4M  MORE (rw) : ORIGIN = more, LENGTH = 16M }
ENTRY(reset)
SECTIONS {
  .text : { KEEP(*(.vectors)) *(.text*) *(.rodata*) } > CODE
  .ARM.exidx : { *(.ARM.exidx*) } > CODE
  .data : { *(.data*) } > CODE
  ASSERT(SIZEOF(.data) == 0, "nothing is copied at the start")
  .bss (NOLOAD) : { . = ALIGN(8); bss_from = .; *(.bss*) *(COMMON) . = ALIGN(8); bss_to = .; } > MORE
  stack_top = ORIGIN(MORE) + LENGTH(MORE);
}
