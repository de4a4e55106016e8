/* A user's program: a header of 16 bytes at 200 of P0, then the text, then data on pages of their own. */
ENTRY(start)
SECTIONS
{
  . = 0x200;
  .text : { *(.start) *(.text .text.*) *(.rodata .rodata.*) . = ALIGN(512); }
  text_pages = (. - 0x200) / 512;
  .data : { *(.data .data.*) . = ALIGN(512); }
  file_pages = (. - 0x200) / 512;
  .bss (NOLOAD) : { *(.bss .bss.*) *(COMMON) . = ALIGN(512); }
  zero_pages = (. - 0x200) / 512 - file_pages;
  /DISCARD/ : { *(.comment) *(.note*) *(.eh_frame*) *(.ident) }
}
