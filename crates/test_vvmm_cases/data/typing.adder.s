; ADDER adds up the numbers of each line that is typed to it. It shows each byte as it comes, and at the line's end the sum. A
; number is a row of digits; all other bytes part numbers. Nothing is kept of a line but R6, the sum of its numbers so far, R7,
; the number that is being read, and R8, which is 1 where a number or the sum was above 2147483647. Mapping is off: addresses are
; those of the guest's memory. The vectors are at 2000, and the stack ends at 3000, both hexadecimal.

    BRW START
    NOP
; The vector of a typed byte leads here: the place, 204, is a multiple of four.
TYPED: MFPR S^#33,R0            ; RXDB: the typed byte
    CMPB R0,S^#13
    BEQL LINE
    MTPR R0,S^#35               ; TXDB: it is shown
    SUBL2 S^#48,R0              ; "0" is 48
    CMPL R0,S^#9
    BGTRU OTHER                 ; a byte below "0" is a large number now
    MULL2 S^#10,R7
    BVS LARGE
    ADDL2 R0,R7
    BVS LARGE
    REI
LARGE: MOVL S^#1,R8
    REI
OTHER: BSBB ADD
    REI

; The line has ended: its sum is shown, and the next line begins with nothing.
LINE: BSBB ADD
    MOVAB W^EQUALS,R1
    BSBB SHOW
    BLBS R8,NOSUM
    BSBB NUMBER
    BRB DONE
NOSUM: MOVAB W^ABOVE,R1
    BSBB SHOW
DONE: MOVAB W^NEWLINE,R1
    BSBB SHOW
    CLRL R6
    CLRL R8
    REI

; Adds the number that was read to the sum.
ADD: ADDL2 R7,R6
    BVC ADDED
    MOVL S^#1,R8
ADDED: CLRL R7
    RSB

; Shows the text at R1 up to its zero byte.
SHOW: MOVZBL (R1)+,R0
    BEQL SHOWN
    MTPR R0,S^#35
    BRB SHOW
SHOWN: RSB

; Shows R6 in decimal: its digits are pushed, the last one first, and R3 counts them.
NUMBER: MOVL R6,R2
    CLRL R3
DIGIT: DIVL3 S^#10,R2,R4
    MULL3 S^#10,R4,R5
    SUBL3 R5,R2,R5              ; what is left of R2 by 10
    PUSHL R5
    INCL R3
    MOVL R4,R2
    BNEQ DIGIT
EACH: ADDL3 S^#48,(SP)+,R0
    MTPR R0,S^#35
    SOBGTR R3,EACH
    RSB

START: MOVL I^#^X3000,SP
    MTPR I^#^X2000,S^#17        ; SCBB
    MOVAB W^TYPED,@#^X20F8      ; the vector of a typed byte
    MOVAB W^HELLO,R1
    BSBB SHOW
    MTPR I^#^X40,S^#32          ; RXCS: an interrupt for each typed byte
    MTPR S^#1,S^#18             ; IPL 1, below the interrupt's 20
IDLE: WAIT
    BRB IDLE

HELLO: .long ^X45505954         ; "TYPE"
    .long ^X4D554E20            ; " NUM"
    .long ^X53524542            ; "BERS"
NEWLINE: .byte 13
    .byte 10
    .byte 0
EQUALS: .word ^X3D20            ; " ="
    .word ^X20                  ; " "
ABOVE: .long ^X204F4F54         ; "TOO "
    .long ^X4752414C            ; "LARG"
    .word ^X45                  ; "E"
