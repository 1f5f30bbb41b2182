/* The boards mps2-an386 and mps2-an500 of the emulator: 4 MiB of code memory at 0, 4 MiB at 0x20000000. */
MEMORY { CODE (rx) : ORIGIN = 0, LENGTH = 4M  RAM (rw) : ORIGIN = 0x20000000, LENGTH = 4M }
ENTRY(vectors)
SECTIONS {
  .text : { KEEP(*(.vectors)) *(.text*) *(.rodata*) } > CODE
  .bss (NOLOAD) : { *(.bss*) *(COMMON) } > RAM
  .ARM.exidx : { *(.ARM.exidx*) } > CODE
  stack_top = ORIGIN(RAM) + LENGTH(RAM);
}
