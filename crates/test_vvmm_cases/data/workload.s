; The program of each guest of a generated workload, here with the period 856. It is loaded and started at 200 with mapping off.

; The system table at 4000 and the P0 table at 4200: page n is frame n, valid, and open for writing to all modes; the system's
; pages have been modified, and those of P0 not yet.
        MOVL I^#^XA4000000,R1
        MOVL I^#^X00004000,R2
ENTRY: MOVL R1,(R2)
        BICL3 I^#^X04000000,R1,W^^X0200(R2)
        ADDL2 S^#4,R2
        INCL R1
        CMPL R1,I^#^XA4000080
        BNEQ ENTRY

; Vectors C0, the clock, and 100, the volumes: both are served by CLOCK, at its system address.
        MOVL I^#^X80000328,@#^X000044C0
        MOVL I^#^X80000328,@#^X00004500

; SBR, SLR, P0BR, P0LR, SCBB and KSP, and mapping on.
        MTPR I^#^X00004000,S^#12
        MTPR I^#^X00000080,S^#13
        MTPR I^#^X80004200,S^#8
        MTPR I^#^X00000080,S^#9
        MTPR I^#^X00004400,S^#17
        MTPR I^#^X80003000,S^#0
        MTPR S^#1,S^#56

; From the interrupt stack's mode to kernel mode at IPL 0.
        MOVL I^#^X80003800,SP
        PUSHL S^#0
        PUSHAB B^LOWER
        REI
LOWER:

; NICR, the period below zero, and ICCS: load it, run, interrupt.
        MTPR I^#^XFFFFFCA8,S^#25
        MTPR I^#^X00000051,S^#24

; A packet at 5000: read block R6 of the volume at unit 0 into 6000.
AGAIN: MOVL S^#1,@#^X00005000
        CLRL @#^X00005004
        MOVL R6,@#^X00005008
        MOVL I^#^X00006000,@#^X0000500C
        MTPR I^#^X00005000,I^#^X000000C8

; The sum of the block at 6000, and what comes of the sums so far into the block at 7000.
        CLRL R0
        MOVL I^#^X00006000,R1
SUM: ADDL2 (R1)+,R0
        XORL2 R0,R7
        MOVL R7,W^^X0FFC(R1)
        CMPL R1,I^#^X00006200
        BNEQ SUM

; A character from 40 to 5F.
        BICL3 I^#^XFFFFFFE0,R0,R8
        ADDL2 I^#^X00000040,R8
        MTPR R8,S^#35

; A packet at 5020: write the block at 7000 to block R6 of the volume at unit 1.
        MOVL S^#2,@#^X00005020
        MOVL S^#1,@#^X00005024
        MOVL R6,@#^X00005028
        MOVL I^#^X00007000,@#^X0000502C
        MTPR I^#^X00005020,I^#^X000000C8

; The next of eight blocks. The P0 entry of page 40 changes between frames 40 and 41, and a longword there is counted up.
        INCL R6
        BICL2 I^#^XFFFFFFF8,R6
        XORL2 S^#1,@#^X00004300
        INCL @#^X00008000
        WAIT
        BRW AGAIN
        NOP
        NOP

; Ends the request of the clock, which runs on.
CLOCK: MTPR I^#^X000000C1,S^#24
        REI
