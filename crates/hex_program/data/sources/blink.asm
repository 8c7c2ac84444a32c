; For avra: an assembler that begins with a record of type 02 and ends lines with CR LF.
.device ATmega328P
.org 0x0800
        ldi r16, 0x20
loop:   in r17, 0x05
        eor r17, r16
        out 0x05, r17
        rjmp loop
