/* For sdcc: 8051 and Z80. Constants and code stand apart, so the linker writes more than one piece. */
static const char text[] = "Constants stand behind the code.";
static volatile char seen;

void main(void)
{
    unsigned char i;
    for (i = 0; text[i] != 0; i++)
        seen = text[i];
    for (;;)
        ;
}
