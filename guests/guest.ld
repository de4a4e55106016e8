/* The places of a guest in C: the image begins at 200 with the start file, and is entered at its first byte. */
ENTRY(start)
SECTIONS
{
  . = 0x200;
  .text : { *(.start) *(.text .text.*) . = ALIGN(4); }
  .data : { *(.rodata .rodata.*) *(.data .data.*) . = ALIGN(4); }
  .bss (NOLOAD) : { *(.bss .bss.*) *(COMMON) . = ALIGN(4); }
  memory_begin = .;
  /DISCARD/ : { *(.comment) *(.note*) *(.eh_frame*) *(.ident) }
}
