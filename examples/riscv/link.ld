/* One segment at RAM's base: the file's headers, and the program behind them. */
ENTRY(_start)
PHDRS { program PT_LOAD FILEHDR PHDRS FLAGS(7); }
SECTIONS {
  . = 0x80000000 + SIZEOF_HEADERS;
  .text : { *(.start) *(.text*) } :program
  .rodata : { *(.rodata*) *(.srodata*) }
  .data : { *(.data*) *(.sdata*) }
  .bss : { *(.sbss*) *(.bss*) *(COMMON) }
  /DISCARD/ : { *(.comment) *(.riscv.attributes) *(.eh_frame*) }
}
