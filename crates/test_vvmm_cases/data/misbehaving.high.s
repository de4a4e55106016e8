; HIGH, the quiet secret guest: in each round it reads the number that stands in block 0 of the volume at its unit 0, and shows
; it with the sum of all that it has read. The packet moves at the round's end, so the number of a round is shown in the next.
; Mapping is off: addresses are those of the guest's memory. The vectors are at 2000, the block is kept at 2600, and the stack
; ends at 3000, all hexadecimal.

    BRW START
    NOP
; The vector of moved packets leads here; this place and the packet are multiples of four.
MOVED: BRW NEXT
    NOP

; The packet: function (1 read), unit, block, buffer, length, status.
READ: .long 1
    .long 0
    .long 0
    .long ^X2600
    .long 0
    .long 0

START: MOVL I^#^X3000,SP
    MTPR I^#^X2000,S^#17        ; SCBB
    MOVAB B^MOVED,@#^X2100      ; the vector of moved packets
    CLRL R7                     ; the sum
    BSBB ASK
    MTPR S^#1,S^#18             ; IPL 1, below the interrupt's 21
IDLE: WAIT
    BRB IDLE

; Has the block read at the round's end.
ASK: MOVAB B^READ,R0
    MTPR R0,I^#200              ; KCALL
    RSB

; The block was read: the number, the sum, and the next packet.
NEXT: ADDL2 @#^X2600,R7
    MOVAB W^RTEXT,R1
    BSBB SHOW
    MOVL @#^X2600,R2
    BSBB NUMBER
    MOVAB W^STEXT,R1
    BSBB SHOW
    MOVL R7,R2
    BSBB NUMBER
    MTPR S^#13,S^#35            ; TXDB
    MTPR S^#10,S^#35
    BSBB ASK
    REI

; Shows the text at R1 up to its zero byte.
SHOW: MOVZBL (R1)+,R0
    BEQL SHOWN
    MTPR R0,S^#35
    BRB SHOW
SHOWN: RSB

; Shows R2 in decimal: its digits are pushed, the last one first, and R3 counts them.
NUMBER: CLRL R3
DIGIT: DIVL3 S^#10,R2,R4
    MULL3 S^#10,R4,R5
    SUBL3 R5,R2,R5              ; what is left of R2 by 10
    PUSHL R5
    INCL R3
    MOVL R4,R2
    BNEQ DIGIT
EACH: ADDL3 S^#48,(SP)+,R0
    MTPR R0,S^#35
    SOBGTR R3,EACH
    RSB

RTEXT: .long ^X44414552         ; "READ"
    .word ^X20                  ; " "
STEXT: .long ^X5553202C         ; ", SU"
    .word ^X204D                ; "M "
    .byte 0
