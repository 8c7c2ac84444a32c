/* An image of plain bytes: a text in FLASH, and numbers and a name in EEPROM. The same on every processor. */
#define IN(name) __attribute__((section(name), used, aligned(1)))

IN(".flash") const unsigned char text[] =
    "A dimmer that nobody turns still wears its relay out: it clicks once a day to see whether it can. "
    "Block after block this text stands in FLASH from 0x1000 on, and no cell of it is given twice.";

#ifdef EEPROM
IN(".eeprom") const unsigned char numbers[] = {0x05, 0x0A};
IN(".name") const unsigned char name[] = {'D', 'i', 'm', 'm', 'e', 'r', ' ', 'i', 'n', ' ', 't', 'h', 'e', ' ', 'h', 'a'};
#endif
