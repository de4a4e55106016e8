"""Random tests of plain instructions, one after another, in one image: registers, codes, the instruction, its PSL.

A handler goes on at the next test, whose address stands in R11; the trail and the dump tell what came of all.
"""

from .random_code import EDGES
from .table import OPCODE_OF, TABLE

PLACE, END = 0x200, 0xC000
DATA, POINTERS, STACK, VECTORS, HANDLERS = 0xC100, 0xE000, 0xEF00, 0xF200, 0xF400
TRAP, RESERVED_OPERAND = 0x34, 0x18
SIMPLE = [
    name
    for name, forms in TABLE.values()
    if forms and name not in ("MTPR", "MFPR", "CHMK", "CHME", "CHMS", "CHMU", "JMP", "JSB", "BSBB", "BSBW", "CALLG")
]  # fmt: skip


def long(value: int) -> bytes:
    return (value & 0xFFFFFFFF).to_bytes(4, "little")


class Tests:
    def __init__(self, random):
        self.random = random

    def value(self, size: int = 4) -> int:
        random = self.random
        pick = random.random()
        if pick < 0.5:
            value = random.choice(EDGES)
        elif pick < 0.7:
            value = (1 << random.randrange(8 * size)) + random.randrange(-1, 2)
        elif pick < 0.8:
            value = -random.randrange(300)
        else:
            value = random.getrandbits(8 * size)
        return value % (1 << 8 * size)

    def data_place(self) -> int:
        return DATA + self.random.randrange(0x1000)

    def operand(self, access: str, size: int) -> bytes:
        random = self.random
        if access == "b":
            return (random.randrange(3)).to_bytes(size, "little")
        forms = ["absolute", "absolute", "based", "stepped", "back", "indexed", "deferred"]
        forms += ["register"] * 8 if access != "a" else []
        forms += ["literal", "literal", "immediate", "immediate", "immediate"] if access == "r" else []
        form = random.choice(forms)
        if form == "literal":
            return bytes([random.randrange(64)])
        if form == "immediate":
            return b"\x8f" + self.value(size).to_bytes(size, "little")
        if form == "register":
            return bytes([0x50 + random.randrange(3)])
        if form == "absolute":
            return b"\x9f" + long(self.data_place())
        if form == "indexed":
            return b"\x45" + random.choice([b"\x67", b"\x87", b"\x77", b"\xa7\x05", b"\x9f" + long(self.data_place())])
        if form == "deferred":
            return random.choice([b"\x98", b"\xb8\x04", b"\xd8\xfc\xff", b"\x45\x98"])
        return {"based": bytes([0xA7, random.randrange(128)]), "stepped": b"\x87", "back": b"\x77"}[form]

    def instruction(self) -> bytes:
        name = self.random.choice(SIMPLE)
        opcode = OPCODE_OF[name]
        data = bytes([opcode])
        for place, (access, size) in enumerate(TABLE[opcode][1]):
            data += self.special(name, place, access, size) or self.operand(access, size)
        if name == "CALLS":
            data += bytes([self.random.randrange(256), self.random.choice([0, 0x40, 0x85, 0x0F, 0xC8, 0x10])])
        if name.startswith("CASE"):
            data += b"".join((8 + k).to_bytes(2, "little") for k in range(4))
        return data

    def special(self, name: str, place: int, access: str, size: int):
        random = self.random
        if name.startswith("BB") and place == 0:
            return bytes([random.randrange(34)]) if random.random() < 0.7 else b"\x8f" + long(random.randrange(-99, 99))
        if name.startswith("CASE"):
            base = random.choice([0, 5, 63])
            if place == 0 and random.random() < 0.8:
                return bytes([min(63, random.randrange(7))])
            return bytes([base if place == 1 else random.randrange(4)]) if random.random() < 0.8 and place else None
        if name in ("ASHL", "ROTL") and place == 0 and random.random() < 0.7:
            return b"\x8f" + bytes([random.randrange(-40, 40) & 0xFF])
        if name in ("BISPSW", "BICPSW"):
            return b"\x8f" + bytes([random.randrange(256), random.random() < 0.1])
        if name in ("PUSHR", "POPR"):
            return b"\x8f" + bytes([random.randrange(8), random.choice([0, 0x40, 0x80])])
        if name == "CALLS":
            return b"\xaf\x00" if place == 1 else bytes([random.randrange(9)])
        return None

    def test(self) -> bytes:
        random = self.random
        data = b""
        for register in range(3):
            data += b"\xd0\x8f" + long(self.value()) + bytes([0x50 + register])
        data += b"\xd0\x8f" + long(random.randrange(-9, 9)) + b"\x55"
        data += b"\xd0\x8f" + long(self.data_place()) + b"\x57"
        data += b"\xd0\x8f" + long(POINTERS + 8 + 4 * random.randrange(64)) + b"\x58"
        data += b"\xd0\x8f" + long(STACK - random.randrange(64)) + b"\x5e"
        data += b"\xb9\x8f\xff\x00\xb8\x8f" + bytes([random.randrange(256) & 0xEF, 0])
        data += self.instruction() + b"\x01\x01\xdc\x53"
        return b"\x9e\xcf" + (len(data) + 1).to_bytes(2, "little") + b"\x5b" + data

    def make(self) -> bytes:
        random = self.random
        image = bytearray(0xFE00)
        code = b"\xd0\x8f" + long(STACK) + b"\x5e\xda\x8f" + long(VECTORS) + b"\x11"
        while len(code) < END - PLACE - 200:
            code += self.test()
        image[0 : len(code) + 1] = code + b"\x00"
        put = lambda place, data: image.__setitem__(slice(place - PLACE, place - PLACE + len(data)), data)
        for place in range(DATA, DATA + 0x1100, 4):
            put(place, long(self.value()))
        for k in range(80):
            put(POINTERS + 4 * k, long(self.data_place()))
        for offset in range(0, 0x104, 4):
            put(VECTORS + offset, long(HANDLERS + (16 if offset == TRAP else 0) | 1))
        put(HANDLERS, b"\xd0\x5b\x6e\x02")
        put(HANDLERS + 16, b"\xd0\x8e\x54\x02")
        return bytes(image)


def random_tests(random) -> bytes:
    return Tests(random).make()
