/* Where the firmware lies. A board has its own two lines here; these are a small part of what qemu's mps2-an386 has. */
MEMORY
{
    FLASH (rx) : ORIGIN = 0x00000000, LENGTH = 64K
    RAM (rw) : ORIGIN = 0x20000000, LENGTH = 8K
}

/* Of what a drive calls hv_begin takes the most stack (docs/INTEGRATION.md, "Figures"); the caller's frames and the interrupts' come on top. The stack lies at the
 * very bottom of the RAM: one that is too short runs out of the RAM, and not into other data. Another size: -Wl,--defsym=stack_size=N. */
stack_size = DEFINED(stack_size) ? stack_size : 4K;

ENTRY(reset)
SECTIONS
{
    .text : { KEEP(*(.vectors)) *(.text*) *(.rodata*) } > FLASH
    .ARM.exidx : { *(.ARM.exidx*) } > FLASH
    .stack (NOLOAD) : { stack_bottom = .; . += stack_size; . = ALIGN(8); stack_top = .; } > RAM
    .bss (NOLOAD) : { bss_from = .; *(.bss*) *(COMMON) bss_end = .; } > RAM
    .data : { *(.data*) } > RAM
    ASSERT(SIZEOF(.data) == 0, "reset copies no initialised data: there is to be none")
}
