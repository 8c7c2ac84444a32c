/* Places image.c above the first 64 KiB: from 0x1F000. */
SECTIONS
{
  .flash 0x01F000 : { *(.flash) }
  /DISCARD/ : { *(.ARM.*) *(.note*) *(.comment) *(.eh_frame*) }
}
