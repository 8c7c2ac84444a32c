/* Places sum.c: code and table from 0x1000, the name at 0xF00035, the variable in RAM, which is not loaded. */
SECTIONS
{
  .text 0x001000 : { *(.text .text.*) *(.rodata .rodata.*) }
  .eeprom 0xF00035 : { *(.eeprom) }
  .bss 0x20000000 (NOLOAD) : { *(.bss .bss.*) *(COMMON) }
  /DISCARD/ : { *(.ARM.*) *(.note*) *(.comment) *(.eh_frame*) }
}
