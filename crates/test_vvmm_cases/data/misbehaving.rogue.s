; ROGUE, the secret guest that misbehaves. It counts its starts in its own memory, which a start leaves as it is, and does
; something else at each: the table ACTS leads to it. Mapping is off at a start: addresses are those of the guest's memory. Its
; system table is built at 1000, the P0 table at 1200, its vectors are at 2000, garbage in their place at 2200, and the stack ends
; at 3000, all hexadecimal.

    BRW START
    NOP

; The packet, at a multiple of four: function (2 write), unit, block, buffer, length, status.
WRITE: .long 2
    .long 0
    .long 0
    .long ^X200
    .long 0
STATUS: .long 0

STARTS: .long 0
ACTS: .long NOISE
    .long FLOOD
    .long VECTORS
    .long TABLES
    .long NOWHERE
    .long MEMORY
    .long FOREVER
    .long STILL

; Shows the text at R1 up to its zero byte.
SHOW: MOVZBL (R1)+,R0
    BEQL SHOWN
    MTPR R0,S^#35               ; TXDB
    BRB SHOW
SHOWN: RSB

; Shows the status of the packet as a digit, in a line.
DIGIT: ADDL3 S^#48,W^STATUS,R0
    MTPR R0,S^#35
    MTPR S^#13,S^#35
    MTPR S^#10,S^#35
    RSB

START: MOVL I^#^X3000,SP
    MTPR I^#^X2000,S^#17        ; SCBB
    MOVL W^STARTS,R0
    INCL W^STARTS
    MOVL W^ACTS[R0],R0
    JMP (R0)

; A hundred lines.
NOISE: MOVL I^#100,R2
LINE: MOVAB W^NTEXT,R1
    BSBW SHOW
    SOBGTR R2,LINE
    HALT

; Two hundred packets, which would write this program to the volume. Eight are queued; the others get status 2 at once.
FLOOD: MOVL I^#200,R2
    MOVAB W^WRITE,R0
PACKET: MTPR R0,I^#200          ; KCALL
    SOBGTR R2,PACKET
    MOVAB W^FTEXT,R1
    BSBW SHOW
    BSBW DIGIT
    HALT

; The packets were moved meanwhile: their status. Then garbage in place of vectors, and an exception.
VECTORS: MOVAB W^WTEXT,R1
    BSBW SHOW
    BSBW DIGIT
    MOVL I^#^X2200,R1
    MOVL I^#128,R2
VECTOR: MCOML S^#0,(R1)+        ; FFFFFFFF
    SOBGTR R2,VECTOR
    MTPR I^#^X2200,S^#17        ; SCBB
    XFC

; Page tables, and mapping on; then the system table is cleared from its end, and with it the entries of the stack's page and of
; the P0 table's page.
TABLES: MOVAB W^TTEXT,R1
    BSBW SHOW
    MOVL I^#^X1000,R1
    MOVL I^#64,R2
    MOVL I^#^X94000000,R0       ; valid, for kernel mode to read and write, modified
ENTRY: MOVL R0,(R1)+            ; system page n is page n
    INCL R0
    SOBGTR R2,ENTRY
    MOVL I^#^X94000001,@#^X1204 ; P0 pages 1 and 2 are the image's
    MOVL I^#^X94000002,@#^X1208
    MTPR I^#^X1000,S^#12        ; SBR
    MTPR I^#64,S^#13            ; SLR
    MTPR I^#^X80001200,S^#8     ; P0BR
    MTPR S^#3,S^#9              ; P0LR
    MOVL I^#^X80003000,SP
    MOVL I^#^X80001100,R1       ; the table's end
    MTPR S^#1,S^#56             ; MAPEN: the next instruction is at a P0 address
CLEAR: CLRL -(R1)
    BRB CLEAR

; A jump to where no memory is.
NOWHERE: MOVAB W^JTEXT,R1
    BSBW SHOW
    JMP @#^X7FFFFFFC

; All memory from 4000 on, and what is beyond it.
MEMORY: MOVAB W^MTEXT,R1
    BSBW SHOW
    MOVL I^#^X4000,R1
FILL: MOVQ R2,(R1)+
    BRB FILL

; Never an end, and no interrupt can come.
FOREVER: MOVAB W^LTEXT,R1
    BSBW SHOW
LOOP: BRB LOOP

; Nothing more.
STILL: MOVAB W^STEXT,R1
    BSBW SHOW
    HALT

NTEXT: .long ^X53494F4E         ; "NOIS"
    .byte ^X45                  ; "E"
    .byte 13
    .byte 10
    .byte 0
FTEXT: .long ^X4F4F4C46         ; "FLOO"
    .word ^X2044                ; "D "
    .byte 0
WTEXT: .long ^X54495257         ; "WRIT"
    .word ^X2045                ; "E "
    .byte 0
TTEXT: .long ^X4C424154         ; "TABL"
    .word ^X5345                ; "ES"
    .byte 13
    .byte 10
    .byte 0
JTEXT: .long ^X48574F4E         ; "NOWH"
    .long ^X0D455245            ; "ERE"
    .byte 10
    .byte 0
MTEXT: .long ^X4F4D454D         ; "MEMO"
    .word ^X5952                ; "RY"
    .byte 13
    .byte 10
    .byte 0
LTEXT: .long ^X45524F46         ; "FORE"
    .long ^X0D524556            ; "VER"
    .byte 10
    .byte 0
STEXT: .long ^X4C495453         ; "STIL"
    .byte ^X4C                  ; "L"
    .byte 13
    .byte 10
    .byte 0
