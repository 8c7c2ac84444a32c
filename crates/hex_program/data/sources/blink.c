/* For avr-gcc: a port is turned over for ever; EEMEM is what the start values in EEPROM are called there. */
#include <avr/eeprom.h>
#include <avr/io.h>

const unsigned char EEMEM name[16] = "Blink in the ha";

int main(void)
{
    DDRB = 0xFF;
    for (;;) {
        PORTB ^= 0x20;
        for (volatile unsigned int i = 0; i < 50000; i++) {
        }
    }
}
