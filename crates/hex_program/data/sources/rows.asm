; For nasm -f ith: a text that fills a block, and four cells of the next.
org 0x1000
        db "nasm writes Intel HEX itself, without an object file between."
        times 0x40 - ($ - $$) db 0
        dw 0x1234, 0x5678
