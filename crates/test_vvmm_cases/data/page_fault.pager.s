; A guest that handles its page faults. It builds its tables with mapping off, turns mapping on, and reads and writes four pages
; of which all but one aren't valid and none is marked as modified. Where an address isn't valid (vector 24), or its page must be
; marked before it is written (vector 3C), the handler shows the address and the parameter, and sets the entry's bit; REI begins
; the instruction again. In the end it shows the four entries, and halts.
;
; Memory (hexadecimal): 200 this image; 1000 the system table; 1200 the P0 table; 1800 the vectors; 3000 the end of the kernel
; stack, 3200 of the interrupt stack; 4000 to 47FF the four pages. A system address is 80000000 and the address in memory. A P0
; address is the same as that in memory for the image's pages, and from 1000 on the four pages follow.

    BRW START
    NOP

; Where the vectors lead to; these places are multiples of four.
INVALID: BRW FETCH
    NOP
MODIFY: BRW MARK
    NOP

; Translation not valid: on the stack are the parameter, the address, the PC and the PSL.
FETCH: PUSHR S^#^X3F            ; R0 to R5, six longwords
    MOVAB W^NTEXT,R1
    MOVL I^#^X80000000,R5       ; the entry's valid bit
    BRB TELL
; Modify fault, with the same on the stack.
MARK: PUSHR S^#^X3F
    MOVAB W^MTEXT,R1
    MOVL I^#^X04000000,R5       ; the entry's modify bit
TELL: BSBB SHOW
    MOVL B^28(SP),R2            ; the address
    BSBB HEX
    MTPR S^#32,S^#35
    MOVL B^24(SP),R0            ; the parameter
    BSBB DIGIT
    BSBB LINE
    ASHL I^#^XF7,R2,R2          ; by 9 to the right: the page
    BISL2 R5,@#^X80001200[R2]   ; its entry
    POPR S^#^X3F
    ADDL2 S^#8,SP               ; the parameter and the address
    REI

; Shows the text at R1 up to its zero byte.
SHOW: MOVZBL (R1)+,R0
    BEQL SHOWN
    MTPR R0,S^#35               ; TXDB
    BRB SHOW
SHOWN: RSB

; Ends a line.
LINE: MTPR S^#13,S^#35
    MTPR S^#10,S^#35
    RSB

; Shows R2 in eight digits of base 16.
HEX: MOVL R2,R3
    MOVL S^#8,R4
NEXT: ROTL S^#4,R3,R3
    BICL3 I^#^XFFFFFFF0,R3,R0
    BSBB DIGIT
    SOBGTR R4,NEXT
    RSB

; Shows R0, 0 to 15, as a digit of base 16.
DIGIT: MOVZBL W^DIGITS[R0],R0
    MTPR R0,S^#35
    RSB

START: MOVL I^#^X1000,R1
    MOVL I^#64,R2
    MOVL I^#^X94000000,R0       ; valid, for kernel mode to read and write, modified
TABLE: MOVL R0,(R1)+            ; system page n is page n
    INCL R0
    SOBGTR R2,TABLE
    MOVL I^#^X94000001,@#^X1204 ; P0 pages 1 and 2 are the image's
    MOVL I^#^X94000002,@#^X1208
    MOVL I^#^X10000020,@#^X1220 ; P0 page 8: not valid, not modified
    MOVL I^#^X90000021,@#^X1224 ; P0 page 9: valid, not modified
    MOVL I^#^X10000022,@#^X1228
    MOVL I^#^X10000023,@#^X122C
    MOVAB W^INVALID,R0
    BISL3 I^#^X80000000,R0,@#^X1824
    MOVAB W^MODIFY,R0
    BISL3 I^#^X80000000,R0,@#^X183C
    MTPR I^#^X1000,S^#12        ; SBR
    MTPR I^#64,S^#13            ; SLR
    MTPR I^#^X80001200,S^#8     ; P0BR
    MTPR S^#12,S^#9             ; P0LR
    MTPR I^#^X1800,S^#17        ; SCBB
    MTPR I^#^X80003000,S^#0     ; KSP
    MOVL I^#^X80003200,SP
    MTPR S^#1,S^#56             ; MAPEN: the next instruction is at a P0 address
    PUSHL S^#0                  ; a PSL of kernel mode, on its own stack, at IPL 0
    PUSHAB B^MAIN
    REI

MAIN: MOVL @#^X1010,R6          ; a page that isn't valid is read
    MOVL S^#1,@#^X1014          ; and written
    MOVL S^#2,@#^X1200          ; a valid page is written
    MOVL I^#^X33333333,@#^X13FE ; and again, over its end into one that isn't valid
    ADDL2 @#^X1600,@#^X1018     ; one that isn't valid is read, and one that is marked is written
    MOVL S^#8,R7
ENTRY: MOVL @#^X80001200[R7],R2
    BSBW HEX
    BSBW LINE
    AOBLEQ S^#11,R7,ENTRY
    HALT

NTEXT: .long ^X20544F4E         ; "NOT "
    .long ^X494C4156            ; "VALI"
    .word ^X2044                ; "D "
    .byte 0
MTEXT: .long ^X49444F4D         ; "MODI"
    .word ^X5946                ; "FY"
    .byte ^X20
    .byte 0
DIGITS: .long ^X33323130        ; "0123"
    .long ^X37363534            ; "4567"
    .long ^X42413938            ; "89AB"
    .long ^X46454443            ; "CDEF"
