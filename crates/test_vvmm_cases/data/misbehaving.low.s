; LOW, the unclassified guest: in each round it shows the next number of 1, 1, 2, 3, 5, 8 and on (each is the sum of the two
; before it), and has it written as the first longword of block 0 of the volume at its unit 0. The packet moves at the round's
; end, and its interrupt brings the next number. Mapping is off: addresses are those of the guest's memory. The vectors are at
; 2000, the block is kept at 2600, and the stack ends at 3000, all hexadecimal.

    BRW START
    NOP
; The vector of moved packets leads here; this place and the packet are multiples of four.
MOVED: BRW NEXT
    NOP

; The packet: function (2 write), unit, block, buffer, length, status.
WRITE: .long 2
    .long 0
    .long 0
    .long ^X2600
    .long 0
    .long 0

START: MOVL I^#^X3000,SP
    MTPR I^#^X2000,S^#17        ; SCBB
    MOVAB B^MOVED,@#^X2100      ; the vector of moved packets
    CLRL R6                     ; the number before
    MOVL S^#1,R7                ; the number
    BSBB TELL
    MTPR S^#1,S^#18             ; IPL 1, below the interrupt's 21
IDLE: WAIT
    BRB IDLE

; The block was written: the next number.
NEXT: ADDL3 R6,R7,R0
    MOVL R7,R6
    MOVL R0,R7
    BSBB TELL
    REI

; Shows the number R7 in a line, and has it written.
TELL: MOVL R7,R2
    BSBB NUMBER
    MTPR S^#13,S^#35            ; TXDB
    MTPR S^#10,S^#35
    MOVL R7,@#^X2600
    MOVAB B^WRITE,R0
    MTPR R0,I^#200              ; KCALL: the packet moves at the round's end
    RSB

; Shows R2 in decimal: its digits are pushed, the last one first, and R3 counts them.
NUMBER: CLRL R3
DIGIT: DIVL3 S^#10,R2,R4
    MULL3 S^#10,R4,R5
    SUBL3 R5,R2,R5              ; what is left of R2 by 10
    PUSHL R5
    INCL R3
    MOVL R4,R2
    BNEQ DIGIT
EACH: ADDL3 S^#48,(SP)+,R0
    MTPR R0,S^#35
    SOBGTR R3,EACH
    RSB
