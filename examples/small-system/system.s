; A small operating system: four modes that call each other, a stack in P1, pages that are made at their first use, and a page that
; is copied when it is written. It builds its tables with mapping off, turns mapping on, and begins its one program in user mode.
;
; Memory (hexadecimal): 200 this image; 1000 the system table; 1200 the P0 table; 1400 the P1 table; 1800 the vectors; 2800, 2A00
; and 2C00 the ends of the stacks of kernel, executive and supervisor mode; 3000 the end of the interrupt stack; 5000 a page that
; the program has twice; from 6000 on free pages. A system address is 80000000 and the address in memory. A P0 address below 800 is
; the address in memory.

    BRW START
    NOP

; The vectors lead here: each door has four bytes, so that each is at a multiple of four.
DOORS: BRW ACCESS               ; access violation
    NOP
    BRW MISSING                 ; translation not valid
    NOP
    BRW KERNEL                  ; CHMK
    NOP
    BRW EXEC                    ; CHME
    NOP
    BRW SUPER                   ; CHMS
    NOP
    BRW SIGNAL                  ; CHMU
    NOP
OTHER: HALT                     ; any other exception

; CHMK, in kernel mode: 1 shows the byte in R1, 2 stops, 3 gives in R1 how many pages were made. The table has for each function how
; far it is from the table; a function that isn't there goes on right after the table.
KERNEL: MOVL (SP)+,R0           ; what stands above PC and PSL
    CASEL R0,S^#1,S^#2          ; 1 to 3
    .word 9
    .word 12
    .word 15
    BRW NONE                    ; 6 from the table
    BRW SHOW                    ; 9
    BRW STOP                    ; 12
    BRW COUNT                   ; 15
NONE: MTPR I^#^X3F,S^#35        ; a question mark
    MTPR S^#13,S^#35
    MTPR S^#10,S^#35
    REI
SHOW: MTPR R1,S^#35             ; TXDB
    REI
STOP: HALT
COUNT: SUBL3 S^#48,W^FREE,R1
    REI

; CHME, in executive mode: shows the text at R1, if the caller may read its first byte.
EXEC: ADDL2 S^#4,SP
    PROBER S^#0,S^#1,(R1)       ; the less privileged of kernel mode and the caller's
    BEQL SHOWN
    MOVL R1,R2
NEXT: MOVZBL (R2)+,R1
    BEQL SHOWN
    CHMK S^#1
    BRB NEXT
SHOWN: REI

; CHMS, in supervisor mode: shows R1 in hexadecimal, and ends the line.
SUPER: ADDL2 S^#4,SP
    MOVL R1,R3
    MOVL S^#8,R4
DIGIT: ROTL S^#4,R3,R3
    BICL3 I^#^XFFFFFFF0,R3,R1
    CMPL R1,S^#9
    BLEQ BELOW
    ADDL2 S^#7,R1               ; from A on
BELOW: ADDL2 S^#48,R1
    CHMK S^#1
    SOBGTR R4,DIGIT
    MOVL S^#13,R1
    CHMK S^#1
    MOVL S^#10,R1
    CHMK S^#1
    REI

; CHMU, in user mode, on the stack in P1: a handler that is the program's own.
SIGNAL: MOVL (SP)+,R5           ; CHMU's operand
    MOVAB W^SIGNED,R1
    CHME S^#0
    MOVL R5,R1
    CHMS S^#0
    REI

; Translation not valid: the page is made of a free one, which is zero.
MISSING: PUSHR S^#63            ; R0 to R5, 24 bytes
    MOVL B^28(SP),R0            ; the address
    BSBW ENTRY
    BSBW PAGE
    BISL2 I^#^X80000000,R2      ; valid
    BISL2 R2,(R1)               ; the entry had the protection code alone
BACK: POPR S^#63
    ADDL2 S^#8,SP               ; the parameter and the address
    REI

; Access violation: a write to a page that is to be copied gives the program a copy.
ACCESS: PUSHR S^#63
    MOVL B^28(SP),R0
    BSBW ENTRY
    BBC S^#21,(R1),WRONG        ; bit 21 of an entry is free: here it marks such a page
    BSBW PAGE
    BICL3 I^#^XFFE00000,(R1),R5 ; the frame that is shared
    ASHL S^#9,R5,R5
    BISL2 I^#^X80000000,R5
    SUBL2 I^#512,R3             ; where the free page begins
    MOVL I^#128,R4
COPY: MOVL (R5)+,(R3)+
    SOBGTR R4,COPY
    BISL3 I^#^XA0000000,R2,(R1) ; valid, any mode may write
    BRB BACK
WRONG: HALT

; R1 becomes the system address of the entry of the page at R0.
ENTRY: BICL3 I^#^XC0000000,R0,R1
    ASHL I^#^XF7,R1,R1          ; by 9 to the right: the page's number
    BBS S^#30,R0,STACK
    MOVAL @#^X80001200[R1],R1   ; P0BR and 4 times the number
    RSB
STACK: MOVAL @#^X7F801408[R1],R1 ; P1BR and 4 times the number
    RSB

; R2 becomes the number of a free page, which is cleared; R3 points after it.
PAGE: MOVL W^FREE,R2
    INCL W^FREE
    ASHL S^#9,R2,R3
    BISL2 I^#^X80000000,R3
    MOVL I^#128,R4
CLEAR: CLRL (R3)+
    SOBGTR R4,CLEAR
    RSB
FREE: .long 48                  ; 6000

; The program, in user mode.
USER: MOVAB W^HELLO,R1
    CHME S^#0                   ; HELLO
    PUSHL I^#^X1234ABCD         ; the stack's page in P1 is made
    MOVL (SP)+,R1
    CHMS S^#0                   ; 1234ABCD
    MOVL @#^XC00,R1             ; page 6 is made: it is zero
    CHMS S^#0                   ; 00000000
    MOVB I^#^X48,@#^XA00        ; page 5 is copied, and begins with H
    MOVL I^#^X800,R1
    CHME S^#0                   ; page 4 is as it was: CAT
    MOVL I^#^XA00,R1
    CHME S^#0                   ; HAT
    MOVL I^#^X80002600,R1
    CHME S^#0                   ; nothing: user mode may not read the kernel's stack
    CHMU S^#7                   ; SIGNAL 00000007
    CHMK S^#3
    CHMS S^#0                   ; 00000003: three pages were made
    CHMK S^#9                   ; ?: there is no such function
    CHMK S^#2

HELLO: .long ^X4C4C4548         ; HELLO
    .word ^X0D4F
    .word ^X000A
SIGNED: .long ^X4E474953        ; SIGNAL and a blank
    .word ^X4C41
    .word ^X0020

; Pages 0 to 3 of the system table are for all modes to read, all others for kernel mode alone.
START: MOVL I^#^X1000,R1
    MOVL I^#^XF4000000,R0       ; valid, URKW, modified
CODE: MOVL R0,(R1)+             ; system page n is page n of memory
    INCL R0
    CMPL R1,I^#^X1010
    BLSS CODE
    BICL2 I^#^X60000000,R0      ; KW
DATA: MOVL R0,(R1)+
    INCL R0
    CMPL R1,I^#^X1100
    BLSS DATA
    MOVL I^#^XAC000014,@#^X1050 ; the executive's stack: EW
    MOVL I^#^XC4000015,@#^X1054 ; the supervisor's: SW
    MOVL I^#^XF4000001,@#^X1204 ; P0 pages 1 to 3: this image
    MOVL I^#^XF4000002,@#^X1208
    MOVL I^#^XF4000003,@#^X120C
    MOVL I^#^XF8000028,@#^X1210 ; page 4: 5000, which any mode may read
    MOVL I^#^XF8200028,@#^X1214 ; page 5: the same, to be copied
    MOVL I^#^X20000000,@#^X1218 ; page 6: not valid, any mode may write
    MOVL I^#^X20000000,@#^X1400 ; the last two pages of P1: likewise
    MOVL I^#^X20000000,@#^X1404
    MOVL I^#^X0D544143,@#^X5000 ; CAT
    MOVL S^#10,@#^X5004
    MOVL I^#^X1800,R1
    MOVAB W^OTHER,R0
    BISL2 I^#^X80000000,R0
VECTOR: MOVL R0,(R1)+
    CMPL R1,I^#^X1904
    BLSS VECTOR
    MOVAB W^DOORS,R0
    BISL2 I^#^X80000000,R0
    MOVL R0,@#^X1820            ; access violation
    ADDL3 S^#4,R0,@#^X1824      ; translation not valid
    ADDL3 S^#8,R0,@#^X1840      ; CHMK
    ADDL3 S^#12,R0,@#^X1844     ; CHME
    ADDL3 S^#16,R0,@#^X1848     ; CHMS
    ADDL3 S^#20,R0,@#^X184C     ; CHMU
    MTPR I^#^X1800,S^#17        ; SCBB
    MTPR I^#^X1000,S^#12        ; SBR
    MTPR I^#64,S^#13            ; SLR
    MTPR I^#^X80001200,S^#8     ; P0BR: the table's system address
    MTPR S^#7,S^#9              ; P0LR
    MTPR I^#^X7F801408,S^#10    ; P1BR: the table's system address minus 4 times P1LR
    MTPR I^#2097150,S^#11       ; P1LR: the first page that P1 has
    MTPR I^#^X80002800,S^#0     ; KSP
    MTPR I^#^X80002A00,S^#1     ; ESP
    MTPR I^#^X80002C00,S^#2     ; SSP
    MTPR I^#^X80000000,S^#3     ; USP: the end of P1
    MOVL I^#^X80003000,SP
    MTPR S^#1,S^#56             ; MAPEN: the next instruction is at a P0 address
    PUSHL I^#^X03C00000         ; a PSL: user mode, which came from user mode, IPL 0
    PUSHAB W^USER
    REI
