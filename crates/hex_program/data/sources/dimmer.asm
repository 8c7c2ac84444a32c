; For gpasm and the chip family of the real nodes: PIC18F26K80. Sum and marks as the node has them, code, a table, EEPROM.
; -D CONFIG=1 adds two configuration bytes, as most projects for this chip have them.
        list p=18f26k80
        include "p18f26k80.inc"
    ifdef CONFIG
        config XINST = OFF
    endif

        org 0x001000
        db 0x00, 0x12, 0x34, 0xFF       ; stored sum, not the right one
        org 0x001010
        db 0x30, 0x00, 0x03, 0x06, 0x01, 0x02 ; 30 00 03, ATYPE, AVERS, FVERS
        org 0x001020
start   clrf    TRISB, 0
loop    btg     LATB, 5, 0
        movlw   0xFA
wait    decfsz  WREG, 0, 0
        bra     wait
        goto    loop
        org 0x002FFE
        dw 0x1234                       ; the last word of a block
        org 0x00FFF0
table   db "the last cells.\n"

        org 0xF00026
        de 0x05, 0x0A
        org 0xF00030
        de "Dimmer in gpasm "
        end
