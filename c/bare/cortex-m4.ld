/* The memory of qemu's mps2-an386, a Cortex-M4; a board has its own. */
MEMORY
{
  code (rx) : ORIGIN = 0x00000000, LENGTH = 4M
  data (rw) : ORIGIN = 0x20000000, LENGTH = 4M
}
ENTRY(reset)
SECTIONS
{
  .text : { KEEP(*(.vectors)) *(.text*) *(.rodata*) } > code
  .ARM.exidx : { *(.ARM.exidx*) } > code
  data_from = LOADADDR(.data);
  .data : { data_start = .; *(.data*) . = ALIGN(4); data_end = .; } > data AT > code
  .bss (NOLOAD) : { bss_start = .; *(.bss*) *(COMMON) . = ALIGN(4); bss_end = .; } > data
  stack_top = ORIGIN(data) + LENGTH(data);
}
