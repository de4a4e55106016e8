"""The instruction table: opcode, mnemonic and operands (access r, m, w, a, v or b, and width b, w, l or q)."""

SIZE = {"b": 1, "w": 2, "l": 4, "q": 8}


def by_widths(start: dict, rows: str) -> list:
    """Rows that stand for B, W and L; `*` is the width."""
    result = []
    for letter, first in start.items():
        for row in rows.strip().splitlines():
            offset, name, *operands = row.split()
            operands = " ".join(operands).replace("*", letter.lower())
            result.append((first + int(offset, 16), name.replace("*", letter), operands))
    return result


ARITHMETIC = """
0 ADD*2 r* m*
1 ADD*3 r* r* w*
2 SUB*2 r* m*
3 SUB*3 r* r* w*
4 MUL*2 r* m*
5 MUL*3 r* r* w*
6 DIV*2 r* m*
7 DIV*3 r* r* w*
8 BIS*2 r* m*
9 BIS*3 r* r* w*
A BIC*2 r* m*
B BIC*3 r* r* w*
C XOR*2 r* m*
D XOR*3 r* r* w*
E MNEG* r* w*
F CASE* r* r* r*
"""

MOVES = """
0 MOV* r* w*
1 CMP* r* r*
2 MCOM* r* w*
3 BIT* r* r*
4 CLR* w*
5 TST* r*
6 INC* m*
7 DEC* m*
"""

OTHERS = """
00 HALT
01 NOP
02 REI
03 BPT
04 RET
05 RSB
06 LDPCTX
07 SVPCTX
0C PROBER rb rw ab
0D PROBEW rb rw ab
10 BSBB bb
11 BRB bb
12 BNEQ bb
13 BEQL bb
14 BGTR bb
15 BLEQ bb
16 JSB ab
17 JMP ab
18 BGEQ bb
19 BLSS bb
1A BGTRU bb
1B BLEQU bb
1C BVC bb
1D BVS bb
1E BCC bb
1F BCS bb
30 BSBW bw
31 BRW bw
32 CVTWL rw wl
33 CVTWB rw wb
3C MOVZWL rw wl
3D ACBW rw rw mw bw
3E MOVAW aw wl
3F PUSHAW aw
78 ASHL rb rl wl
7C CLRQ wq
7D MOVQ rq wq
7E MOVAQ aq wl
7F PUSHAQ aq
98 CVTBL rb wl
99 CVTBW rb ww
9A MOVZBL rb wl
9B MOVZBW rb ww
9C ROTL rb rl wl
9D ACBB rb rb mb bw
9E MOVAB ab wl
9F PUSHAB ab
B8 BISPSW rw
B9 BICPSW rw
BA POPR rw
BB PUSHR rw
BC CHMK rw
BD CHME rw
BE CHMS rw
BF CHMU rw
D8 ADWC rl ml
D9 SBWC rl ml
DA MTPR rl rl
DB MFPR rl wl
DC MOVPSL wl
DD PUSHL rl
DE MOVAL al wl
DF PUSHAL al
E0 BBS rl vb bb
E1 BBC rl vb bb
E2 BBSS rl vb bb
E3 BBCS rl vb bb
E4 BBSC rl vb bb
E5 BBCC rl vb bb
E6 BBSSI rl vb bb
E7 BBCCI rl vb bb
E8 BLBS rl bb
E9 BLBC rl bb
F1 ACBL rl rl ml bw
F2 AOBLSS rl ml bb
F3 AOBLEQ rl ml bb
F4 SOBGEQ ml bb
F5 SOBGTR ml bb
F6 CVTLB rl wb
F7 CVTLW rl ww
FA CALLG ab ab
FB CALLS rl ab
FC XFC
FD WAIT
"""


def all_rows() -> list:
    rows = by_widths({"B": 0x80, "W": 0xA0, "L": 0xC0}, ARITHMETIC)
    rows += by_widths({"B": 0x90, "W": 0xB0, "L": 0xD0}, MOVES)
    for line in OTHERS.strip().splitlines():
        opcode, name, *operands = line.split()
        rows.append((int(opcode, 16), name, " ".join(operands)))
    return rows


# opcode to (mnemonic, list of (access, size)); FD is the first of WAIT's two bytes, FD 01
TABLE = {
    opcode: (name, [(form[0], SIZE[form[1]]) for form in operands.split()])
    for opcode, name, operands in all_rows()
}
OPCODE_OF = {name: opcode for opcode, (name, _) in TABLE.items()}
WAIT = 0xFD
