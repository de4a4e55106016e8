"""Random instructions: mostly well formed, over registers and addresses that matter."""

from itertools import accumulate

from .table import OPCODE_OF, TABLE, WAIT

WORD = 0xFFFFFFFF
# numbers near which something changes: ends of pages, of memory and of tables, signs
EDGES = [
    0, 1, 2, 3, 4, 7, 8, 31, 32, 63, 0x7F, 0x80, 0xFF, 0x100, 0x1FF, 0x200, 0x7FFF, 0x8000, 0xFFFF, 0x10000,
    0x7FFFFFFF, 0x80000000, 0x80000001, 0xFFFFFF00, 0xFFFFFFFE, 0xFFFFFFFF,
]  # fmt: skip

WEIGHTS = {name: 10 for name, _ in TABLE.values()}
WEIGHTS |= {
    "HALT": 0.05, "WAIT": 2, "REI": 4, "LDPCTX": 2, "SVPCTX": 2, "MTPR": 30, "MFPR": 30, "CHMK": 10, "CHME": 8,
    "CHMS": 8, "CHMU": 8, "PROBER": 30, "PROBEW": 30, "CALLS": 20, "CALLG": 15, "RET": 5, "MOVL": 40, "MOVPSL": 15,
    "BPT": 3, "XFC": 3, "PUSHR": 15, "POPR": 15, "BISPSW": 20, "BICPSW": 10, "DIVL2": 15, "ASHL": 25, "RSB": 4,
    "JMP": 5, "JSB": 5,
}  # fmt: skip
NAMES, FREQUENCIES = list(WEIGHTS), list(accumulate(WEIGHTS.values()))
SLOT = 16
READABLE_REGISTERS = [0, 1, 2, 3, 4, 8, 9, 10, 11, 12, 13, 16, 17, 18, 19, 21, 24, 26, 32, 33, 34, 56, 62, 201, 202]
REGISTER_VALUES = {
    0: None, 1: None, 2: None, 3: None, 4: None,
    8: [0x80004200, 0x80004204, 0x80008000, 0x4200, 0x80004201], 9: [64, 8, 9, 0, 8192, 8193, 65],
    10: [0x7F804700, 0x7F804704, 2], 11: [2_097_088, 2_097_152, 2_088_960, 2_088_959, 2_097_150],
    12: [0x4000, 0x4004, 0x8000, 0x4002], 13: [64, 60, 8192, 8193, 34], 16: [0x4800, 0x4880, 0x7FA0, 0x7FA4, 1],
    17: [0x4400, 0x7E00, 0x8000, 0x4402, 0x4400], 18: [0, 1, 15, 20, 24, 31, 33], 19: [0, 1, 2, 3, 4, 5],
    20: [0, 1, 2, 8, 15, 16], 21: [0, 2, 0xFFFE, 1, 0x10000], 24: [0, 0x41, 0x51, 0xC1, 0x60, 0x20, 0x80000080, 1],
    25: [0xFFFFFFF0, 0xFFFFFFFF, 0xFFFFFFFC, 0], 32: [0, 0x40], 34: [0, 0x40], 35: None, 56: [0, 1, 1, 1, 2],
    57: None, 58: None, 200: [0x5000, 0x5018, 0x5002, 0x7FE8, 0x7FEC], 26: None, 62: None, 202: None, 7: None,
}  # fmt: skip


class Code:
    """Bytes of instructions that are drawn from `random`.

    `places` are addresses that specifiers like, `targets` are those of code. Code stands in slots of 16 bytes, each of
    which begins with an instruction, so that a handler can go on at the next slot.
    """

    def __init__(self, random, places: list, targets: list):
        self.random = random
        self.places = places
        self.targets = targets

    def number(self, size: int) -> int:
        pick = self.random.random()
        if pick < 0.25:
            value = self.random.choice(EDGES)
        elif pick < 0.65:
            value = self.place()
        elif pick < 0.8:
            value = self.random.randrange(-9, 40)
        else:
            value = self.random.getrandbits(8 * size)
        return value % (1 << 8 * size)

    def place(self) -> int:
        return self.random.choice(self.places) + self.random.choice([0, 0, 0, 0, -1, -2, -3, 1, 2, 4, -4, -8]) & WORD

    def instruction(self) -> bytes:
        if self.random.random() < 0.012:
            return bytes([self.random.randrange(256)])
        name = self.random.choices(NAMES, cum_weights=FREQUENCIES)[0]
        if name == "MTPR":
            return self.to_register()
        if name == "MFPR":
            return self.from_register()
        opcode = OPCODE_OF[name]
        data = bytes([WAIT, 1] if opcode == WAIT else [opcode])
        if name in ("JMP", "JSB") and self.random.random() < 0.8:
            return data + b"\x9f" + self.random.choice(self.targets).to_bytes(4, "little")
        for place, (access, size) in enumerate(TABLE[opcode][1]):
            data += self.short_operand(name, place) or self.specifier(access, size)
        return data

    def short_operand(self, name: str, place: int):
        """Operands that would mostly make no sense: small counts, masks, modes and positions."""
        pick = self.random.random()
        if pick < 0.15:
            return None
        if name in ("CHMK", "CHME", "CHMS", "CHMU", "BISPSW", "BICPSW") and pick < 0.8:
            return bytes([self.random.choice([0, 1, 4, 15, 32, 36, 47])])
        if name in ("BISPSW", "BICPSW"):
            return b"\x8f" + bytes([self.random.choice([0x20, 0xA0, 0xFF, 0x10]), self.random.random() < 0.1])
        if name in ("PROBER", "PROBEW") and place < 2:
            return bytes([self.random.choice([0, 1, 2, 3, 4, 63] if place else [0, 1, 2, 3])])
        if name in ("ASHL", "ROTL") and place == 0:
            return b"\x8f" + bytes([self.random.choice([0, 1, 7, 31, 32, 33, 127, 128, 200, 225, 255])])
        if name.startswith("BB") and place == 0:
            return bytes([self.random.randrange(40)])
        if name == "CALLS" and place == 0:
            return bytes([self.random.randrange(4)])
        if name in ("PUSHR", "POPR"):
            return b"\x8f" + self.random.choice([b"\x03\x00", b"\x00\x40", b"\xff\xff", b"\x01\x50", b"\x30\x08"])
        return None

    def to_register(self) -> bytes:
        number = self.random.choice(list(REGISTER_VALUES))
        values = REGISTER_VALUES[number]
        value = self.random.choice(values) if values else self.place() if number < 5 else self.number(4)
        spelt = bytes([value]) if value < 64 else b"\x8f" + value.to_bytes(4, "little")
        if self.random.random() < 0.1:
            spelt = self.specifier("r", 4)
        return b"\xda" + spelt + self.small(number)

    def small(self, number: int) -> bytes:
        return bytes([number]) if number < 64 else b"\x8f" + number.to_bytes(4, "little")

    def from_register(self) -> bytes:
        number = self.random.choice(READABLE_REGISTERS + [20, 25, 35, 57, 200, 5])
        return b"\xdb" + self.small(number) + self.specifier("w", 4)

    def specifier(self, access: str, size: int) -> bytes:
        if access == "b":
            value = self.random.choice([0, 0, 0, 1, 2, 3, 4, 8, 16, 0xEE])
            if self.random.random() < 0.04:
                value = self.random.getrandbits(8 * size)
            return value.to_bytes(size, "little")
        if self.random.random() < 0.12 and access != "b":
            base = self.base("a" if access == "r" else access, size, True)
            return bytes([0x40 | self.random.randrange(15)]) + base
        return self.base(access, size, False)

    def base(self, access: str, size: int, indexed: bool) -> bytes:
        if self.random.random() < 0.01:
            return bytes([self.random.randrange(256)])
        forms = ["memory"] * 3 + ["absolute"] * 2 + ["displaced"] * 2
        if not indexed:
            forms += ["register"] * 6 if access != "a" else []
            forms += {"r": ["literal"] * 4 + ["immediate"] * 3}.get(access, ["immediate"] if access != "m" else [])
        form = self.random.choice(forms)
        register = self.random.randrange(15)
        if form == "literal":
            return bytes([self.random.randrange(64)])
        if form == "immediate":
            return b"\x8f" + self.number(size).to_bytes(size, "little")
        if form == "register":
            return bytes([0x50 | min(register, 13 if size == 8 else 14)])
        if form == "absolute":
            return b"\x9f" + self.place().to_bytes(4, "little")
        if form == "memory":
            return bytes([self.random.choice([0x60, 0x70, 0x80, 0x90]) | register])
        bytes_of = self.random.choice([1, 1, 2, 4])
        value = self.random.choice([0, 4, 8, 0xFC, 2, 16]) if bytes_of == 1 else self.number(bytes_of)
        mode = {1: 0xA0, 2: 0xC0, 4: 0xE0}[bytes_of] | (0x10 if self.random.random() < 0.25 else 0)
        return bytes([mode | self.random.randrange(16)]) + value.to_bytes(bytes_of, "little")

    def slots(self, count: int, macros: list) -> bytes:
        """`count` slots: in some stands what a macro makes, in others what is drawn, with NOP after it."""
        data = b""
        for _ in range(count):
            slot = self.random.choice(macros)() if self.random.random() < 0.3 else b""
            while True:
                more = self.instruction()
                if len(slot) + len(more) > SLOT:
                    break
                slot += more
            data += slot + b"\x01" * (SLOT - len(slot))
        return data
