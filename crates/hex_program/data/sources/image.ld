/* Places image.c: FLASH from 0x1000, the own numbers at 0xF00026, the description at 0xF00030. */
SECTIONS
{
  .flash 0x001000 : { *(.flash) }
  .eeprom 0xF00026 : { *(.eeprom) }
  .name 0xF00030 : { *(.name) }
  /DISCARD/ : { *(.ARM.*) *(.note*) *(.comment) *(.eh_frame*) }
}
