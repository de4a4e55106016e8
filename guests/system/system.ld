/* Pebble: at 200 in memory, at 80000200 when it runs. */
ENTRY(start)
SECTIONS
{
  . = 0x80000200;
  .text : { *(.start) *(.text .text.*) *(.rodata .rodata.*) . = ALIGN(512); }
  text_end_page = (. - 0x80000000) / 512;
  supervisor_page = (. - 0x80000000) / 512;
  .supervisor : { *(.supervisor) . = ALIGN(512); }
  supervisor_end_page = (. - 0x80000000) / 512;
  .data : { *(.data .data.*) . = ALIGN(4); }
  .bss (NOLOAD) : { *(.bss .bss.*) *(COMMON) . = ALIGN(512); }
  memory_begin = .;
  /DISCARD/ : { *(.comment) *(.note*) *(.eh_frame*) *(.ident) }
}
