; SECRET, the secret guest: it reads block 0 of the volume at its unit 0, shows the text that it finds, adds a mark, tries to
; write the block back and has it printed, shows the three statuses and halts. Mapping is off. The vectors are at 2000, the
; block is kept at 2600, and the stack ends at 3000, all hexadecimal.

    BRW START
    NOP
; Where the vector of moved packets leads to; this place and the packets are multiples of four.
MOVED: BRW NEXT
    NOP

; The packets: function (1 read, 2 write, 3 print), unit, block, buffer, length, status.
READ: .long 1
    .long 0
    .long 0
    .long ^X2600
    .long 0
RSTATUS: .long 0
WRITE: .long 2
    .long 0
    .long 0
    .long ^X2600
    .long 0
WSTATUS: .long 0
PRINT: .long 3
    .long 0
    .long 0
    .long ^X2600
LENGTH: .long 0
PSTATUS: .long 0

START: MOVL I^#^X3000,SP
    MTPR I^#^X2000,S^#17        ; SCBB
    MOVAB B^MOVED,@#^X2100      ; the vector of moved packets
    CLRL R8                     ; nothing was moved yet
    MOVAB B^READ,R0
    MTPR R0,I^#200              ; KCALL: the packet moves at the round's end
    MTPR S^#1,S^#18             ; IPL 1, below the interrupt's 21
IDLE: WAIT
    BRB IDLE

; Shows the text at R1 up to its zero byte.
SHOW: MOVZBL (R1)+,R0
    BEQL SHOWN
    MTPR R0,S^#35               ; TXDB
    BRB SHOW
SHOWN: RSB

; Shows the text at R1 and the status R2 as a digit.
TELL: BSBB SHOW
    ADDL3 S^#48,R2,R0
    MTPR R0,S^#35
    RSB

; Packets were moved: first the one that reads, then the two others.
NEXT: BLBS R8,LAST
    INCL R8
    MOVAB W^RTEXT,R1
    MOVL W^RSTATUS,R2
    BSBB TELL
    MOVAB W^NEWLINE,R1
    BSBB SHOW
    MOVL I^#^X2600,R1
    BSBB SHOW                   ; the block's text; R1 is after its zero byte
    MOVB S^#33,B^^XFF(R1)       ; a mark in place of the zero byte, which is at R1 - 1
    SUBL3 I^#^X2600,R1,W^LENGTH
    MOVAB W^NEWLINE,R1
    BSBB SHOW
    MOVAB W^WRITE,R0
    MTPR R0,I^#200
    MOVAB W^PRINT,R0
    MTPR R0,I^#200
    REI
LAST: MOVAB B^WTEXT,R1
    MOVL W^WSTATUS,R2
    BSBB TELL
    MOVAB B^PTEXT,R1
    MOVL W^PSTATUS,R2
    BSBB TELL
    MOVAB B^NEWLINE,R1
    BSBB SHOW
    HALT

RTEXT: .long ^X44414552         ; "READ"
    .word ^X0020                ; " "
WTEXT: .long ^X54495257         ; "WRIT"
    .word ^X2045                ; "E "
    .byte 0
PTEXT: .long ^X5250202C         ; ", PR"
    .long ^X20544E49            ; "INT "
    .byte 0
NEWLINE: .byte 13
    .byte 10
    .byte 0
