; PUBLIC, the unclassified guest: it takes a line from its console, writes it as block 0 of the volume at its unit 0, has it
; printed, shows both statuses and halts. Mapping is off: addresses are those of the guest's memory. The vectors are at 2000,
; the line is kept at 2600, and the stack ends at 3000, all hexadecimal.

    BRW START
    NOP
; Where the vectors lead to; these places and the packets are multiples of four.
TYPED: BRW BYTE
    NOP
MOVED: BRW DONE
    NOP

; The packets: function (2 write, 3 print), unit, block, buffer, length, status.
WRITE: .long 2
    .long 0
    .long 0
    .long ^X2600
    .long 0
WSTATUS: .long 0
PRINT: .long 3
    .long 0
    .long 0
    .long ^X2600
LENGTH: .long 0
PSTATUS: .long 0

START: MOVL I^#^X3000,SP
    MTPR I^#^X2000,S^#17        ; SCBB
    MOVAB B^TYPED,@#^X20F8      ; the vector of a typed byte
    MOVAB B^MOVED,@#^X2100      ; the vector of moved packets
    MOVAB W^HELLO,R1
    BSBB SHOW
    MOVL I^#^X2600,R6           ; where the next byte goes
    MTPR I^#^X40,S^#32          ; RXCS: an interrupt for each typed byte
    MTPR S^#1,S^#18             ; IPL 1, below the interrupts' 20 and 21
IDLE: WAIT
    BRB IDLE

; Shows the text at R1 up to its zero byte.
SHOW: MOVZBL (R1)+,R0
    BEQL SHOWN
    MTPR R0,S^#35               ; TXDB
    BRB SHOW
SHOWN: RSB

; A byte was typed: it is kept and shown, or ends the line.
BYTE: MFPR S^#33,R0             ; RXDB
    CMPB R0,S^#13
    BEQL LINE
    MOVB R0,(R6)+
    MTPR R0,S^#35
    REI
LINE: MOVAB W^NEWLINE,R1
    BSBB SHOW
    SUBL3 I^#^X2600,R6,W^LENGTH
    MOVAB W^WRITE,R0
    MTPR R0,I^#200              ; KCALL: both packets move at the round's end
    MOVAB W^PRINT,R0
    MTPR R0,I^#200
    REI

; The packets were moved: their statuses.
DONE: MOVAB W^WTEXT,R1
    BSBB SHOW
    ADDL3 S^#48,W^WSTATUS,R0
    MTPR R0,S^#35
    MOVAB W^PTEXT,R1
    BSBB SHOW
    ADDL3 S^#48,W^PSTATUS,R0
    MTPR R0,S^#35
    MOVAB W^NEWLINE,R1
    BSBB SHOW
    HALT

HELLO: .long ^X54495257         ; "WRIT"
    .long ^X20412045            ; "E A "
    .long ^X454E494C            ; "LINE"
    .byte 13
    .byte 10
    .byte 0
WTEXT: .long ^X54495257         ; "WRIT"
    .word ^X2045                ; "E "
    .byte 0
PTEXT: .long ^X5250202C         ; ", PR"
    .long ^X20544E49            ; "INT "
    .byte 0
NEWLINE: .byte 13
    .byte 10
    .byte 0
