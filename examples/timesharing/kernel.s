; A small operating system: two processes in user mode, by turns for 100 steps each. It builds its tables with mapping off, and
; turns mapping on. Each process counts down, counts a letter in a page of its own, and has the letter shown by CHMK. The first
; letter follows from the guest's memory: A with 64 pages, C with 72, E with 80 and so on; the second is the one after it.
;
; Memory (hexadecimal): 200 this image; 1000 the system table; 1200 and 1400 the P0 tables; 1800 the vectors; 2000 and 2100 the
; process control blocks; 2800 and 2A00 the ends of the kernel stacks; 3000 the end of the interrupt stack; 4000 and 4200 the
; processes' own pages. A system address is 80000000 and the address in memory. A P0 address is the same as that in memory for
; the image's pages, and 800 for the process's own page.

    BRW START
    NOP

; The clock's interrupt, at a multiple of four: the other process goes on.
TICK: SVPCTX
    MTPR I^#^XC1,S^#24          ; ICCS: this interrupt is done, the clock runs on
    MFPR S^#16,R0               ; PCBB
    XORL2 I^#^X100,R0
    MTPR R0,S^#16
    LDPCTX
    REI
    NOP

; CHMK, at a multiple of four: the letter in R1 is shown.
CALL: MTPR R1,S^#35             ; TXDB
    ADDL2 S^#4,SP               ; CHMK's operand
    REI
    NOP

; Any other exception or interrupt, at a multiple of four.
OTHER: HALT

; What a process does: R1 is its letter, R3 how far it counts down.
USER: MOVL R3,R2
DOWN: SOBGTR R2,DOWN
    INCL @#^X800
    CHMK S^#1
    BRB USER

; Makes a process. R3 is its P0 table, R4 its own page, R5 its control block, R6 its letter, R7 how far it counts down, R8 the
; end of its kernel stack.
MAKE: MOVL I^#^XF8000001,B^4(R3)        ; P0 page 1: page 1, which any mode may read
    MOVL I^#^XF8000002,B^8(R3)          ; P0 page 2: page 2
    BISL3 I^#^XA0000000,R4,B^16(R3)     ; P0 page 4: any mode may write, not modified yet
    MOVL R8,(R5)                        ; KSP
    MOVL R6,B^20(R5)                    ; R1
    MOVL R7,B^28(R5)                    ; R3
    MOVAB B^USER,B^72(R5)               ; PC
    MOVL I^#^X03C00000,B^76(R5)         ; PSL: user mode, IPL 0
    BISL3 I^#^X80000000,R3,B^80(R5)     ; P0BR: the table's system address
    MOVL I^#^X04000005,B^84(R5)         ; P0LR 5, ASTLVL 4
    MOVL I^#^X00200000,B^92(R5)         ; P1LR: no P1 page
    RSB

START: MOVL I^#^X1000,R1
    MOVL I^#64,R2
    MOVL I^#^X94000000,R0       ; valid, for kernel mode to read and write, modified
TABLE: MOVL R0,(R1)+            ; system page n is page n
    INCL R0
    SOBGTR R2,TABLE
    MOVAB W^OTHER,R0
    BISL2 I^#^X80000000,R0
    MOVL I^#^X1800,R1
    MOVL I^#65,R2
VECTOR: MOVL R0,(R1)+
    SOBGTR R2,VECTOR
    MOVAB W^CALL,R0
    BISL3 I^#^X80000000,R0,@#^X1840
    MOVAB W^TICK,R0
    BISL3 I^#^X80000000,R0,@#^X18C0
    MFPR I^#201,R6              ; MEMSIZE
    SUBL2 I^#^X8000,R6
    DIVL2 I^#^X800,R6
    ADDL2 I^#65,R6
    MOVL I^#^X1200,R3
    MOVL S^#32,R4
    MOVL I^#^X2000,R5
    MOVL S^#25,R7
    MOVL I^#^X80002800,R8
    MOVL I^#^X3000,SP
    BSBW MAKE
    INCL R6
    ADDL2 I^#^X200,R3
    INCL R4
    ADDL2 I^#^X100,R5
    MOVL S^#40,R7
    ADDL2 I^#^X200,R8
    BSBW MAKE
    MTPR I^#^X1000,S^#12        ; SBR
    MTPR I^#64,S^#13            ; SLR
    MTPR I^#^X80001200,S^#8     ; P0BR
    MTPR S^#5,S^#9              ; P0LR
    MTPR I^#^X1800,S^#17        ; SCBB
    MTPR I^#^X2000,S^#16        ; PCBB
    MOVL I^#^X80003000,SP
    MTPR S^#1,S^#56             ; MAPEN: the next instruction is at a P0 address
    MTPR I^#^XFFFFFF9C,S^#25    ; NICR: 100 steps
    MTPR I^#^X51,S^#24          ; ICCS: from NICR on, with interrupts
    LDPCTX
    REI
