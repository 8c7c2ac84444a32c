/* A loop with a table: real code from 0x1000 on, and a name in EEPROM. */
static const unsigned char table[16] = {3, 1, 4, 1, 5, 9, 2, 6, 5, 3, 5, 8, 9, 7, 9, 3};
volatile unsigned char out;

__attribute__((section(".eeprom"), used, aligned(1))) const unsigned char name[] = {'S', 'u', 'm'};

void start(void)
{
    unsigned char sum = 0;
    for (unsigned char i = 0; i < 16; i++) {
        sum += table[i];
        out = sum;
    }
    for (;;) {
    }
}
