"""Random images of guests: tables, vectors, handlers, packets and code, reached by a prelude that sets registers."""

from .random_code import SLOT, Code

PAGES = 64
SIZE = 512 * PAGES
START = 0x200
CODE, SLOTS = 0x800, 0x200
S_TABLE, P0_TABLE, VECTORS, P1_TABLE, BLOCKS, PACKETS = 0x4000, 0x4200, 0x4400, 0x4600, 0x4800, 0x5000
HANDLERS, STACKS = 0x5800, 0x6000
SYSTEM = 0x80000000
DATA_PAGES = [0, 1, 2, 3] + list(range(0x14, 0x20)) + [0x3C, 0x3D, 0x3E, 0x3F]
BUFFERS = [0x2800, 0x2A00, 0x4000, 0x4200, 0x4400, 0x3000, 0x5000, 0x7E00, 0x7E01, 0x8000, 2**32 - 1]
STACK_PAGES = list(range(0x30, 0x3C))
DATA_PLACES = [
    0x0, 0x1FC, 0x11FE, 0x2800, 0x2A00, 0x29FF, 0x3000, 0x31FF, 0x3200, 0x3E00, 0x3FFE, 0x7800, 0x79FD, 0x7C00, 0x7FFC,
    0x2A40, 0x2C10, 0x3300, 0x3480,
]  # fmt: skip
HARD_PLACES = [
    0x8000, 0x4220, 0x4020, 0x4488, 0x4800, 0x5000, 0x5014, 0x6100, 0x61FE, 0x80000000, 0x80004220, 0x80004054,
    0x80004254, 0x80008000, 0x7FFFFE00, 0x7FFFFFFC, 0x7FFF8000, 0x40000000, 0xC0000000, 0x7FFFB000, 0x80004604,
]  # fmt: skip


def long(value: int) -> bytes:
    return (value & 0xFFFFFFFF).to_bytes(4, "little")


class Image:
    def __init__(self, random):
        self.random = random
        self.data = bytearray(b"\x01" * SIZE)
        self.mapped = random.random() < 0.8
        self.wild = random.choice([0, 0, 0, 0.02, 0.1, 0.25])
        self.base = SYSTEM if self.mapped else 0
        self.wild_pages = set(DATA_PAGES)
        if random.random() < 0.4:
            self.wild_pages |= set(random.sample(STACK_PAGES, 4))
        places = DATA_PLACES * 4 + [place for place in HARD_PLACES if self.mapped or place < 0x8001]
        if self.mapped:
            places += [SYSTEM + place for place in DATA_PLACES] * 2 + [0x7FFF8000 + place for place in DATA_PLACES]
        targets = [place + CODE + SLOT * random.randrange(SLOTS) for place in (0, 0, self.base) for _ in range(9)]
        self.code = Code(random, places, targets)

    def put(self, place: int, data: bytes) -> None:
        self.data[place : place + len(data)] = data[: max(0, SIZE - place)]

    def entry(self, page: int, usual: int) -> int:
        """A page table entry: mostly valid, modified and the page itself; for pages of data now and then anything."""
        random = self.random
        wild = self.wild if page in self.wild_pages else 0
        valid = SYSTEM if random.random() >= wild else 0
        modify = 0x04000000 if random.random() >= max(wild, 0.25) else 0
        code = usual if random.random() >= 2 * wild else random.randrange(16)
        frame = page if random.random() >= wild else random.choice([random.choice(DATA_PAGES), 0x21, 0x40, 0x1FFFFF])
        return valid | code << 27 | modify | frame

    def tables(self) -> None:
        usual_system = self.random.choice([2, 4, 4, 13])
        usual_process = self.random.choice([4, 4, 4, 4, 13, 14, 5])
        for page in range(64):
            self.put(S_TABLE + 4 * page, long(self.entry(page, usual_system)))
            self.put(P0_TABLE + 4 * page, long(self.entry(page, usual_process)))
            self.put(P1_TABLE + 4 * page, long(self.entry(page, usual_process)))

    def vectors(self) -> None:
        for number in range(0x104 // 4):
            offset = 4 * number
            stack = 0 if self.random.random() < 0.75 or 0x40 <= offset <= 0x4C else 1
            if self.random.random() < self.wild / 4:
                stack = self.random.randrange(4)
            handler = HANDLERS + 64 * self.handler_of(offset)
            self.put(VECTORS + offset, long(self.base + handler | stack))
        for number in range(9):
            self.put(HANDLERS + 64 * number, self.handler(number)[:64])

    def handler_of(self, offset: int) -> int:
        kinds = {0x08: 0, 0x20: 1, 0x24: 1, 0x3C: 2, 0x34: 3, 0x40: 4, 0x44: 4, 0x48: 4, 0x4C: 4, 0x88: 7, 0xFC: 8}
        if offset in kinds:
            return kinds[offset]
        return 5 if offset < 0x80 else 6

    def handler(self, number: int) -> bytes:
        """Shows a byte now and then, does something, drops the parameters, and goes on at the next slot."""
        random = self.random
        target = b"\xd0\x8f" + long(random.choice(self.code.targets)) + b"\x6e"
        next_slot = b"\xc0\x10\x6e\xca\x0f\x6e"
        data = bytes([0xDA, 0x30 + number, 35]) if random.random() < 0.3 and number != 8 else b""
        if number == 0:
            data += self.write(0, self.stack())
        elif number == 7:
            data += self.write(19, random.choice([4, 4, 3]))
        elif number == 8:
            data += self.write(34, 0)
        if random.random() < 0.3:
            data += self.code.instruction()
        if number == 1:
            # where the instruction itself can't be fetched, elsewhere; else after it
            data += b"\xd1\xae\x04\xae\x08\x12\x0b\xc0\x08\x5e" + target + b"\x02"
        drop = [0, 8, 8, 4, 4, 0, 0, 0, 0][number]
        data += bytes([0xC0, drop, 0x5E]) if drop else b""
        data += next_slot if number in (0, 1, 2, 5) else b""
        return data + b"\x02"

    def packets(self) -> None:
        random = self.random
        for number in range(12):
            fields = [
                random.choice([1, 2, 3, 3, 0, 4]),
                random.choice([0, 0, 1, 1, 2, 4]),
                random.choice([0, 0, 1, 3, 4, 2047]),
                random.choice(BUFFERS),
                random.choice([0, 5, 132, 133, 20]),
                random.getrandbits(32),
            ]
            self.put(PACKETS + 24 * number, b"".join(map(long, fields)))

    def block(self, place: int) -> None:
        """A process control block that mostly can be loaded."""
        random = self.random
        values = [self.stack() for _ in range(4)] + [self.code.number(4) for _ in range(14)]
        values += [random.choice(self.code.targets), self.psl(), 0x80004200]
        values += [64 | random.choice([4, 4, 0, 3]) << 24, 0x7F804700, random.choice([2_097_088, 2_097_152])]
        if random.random() < self.wild:
            values[random.randrange(24)] = random.getrandbits(32)
        self.put(place, b"".join(map(long, values)))

    def stack(self) -> int:
        base = self.random.choice([SYSTEM, 0, 0]) if self.mapped else 0
        return base + STACKS + 0x100 * self.random.randrange(1, 24) + self.random.choice([0, 0, 0, 0, 2, 0xFC])

    def psl(self) -> int:
        random = self.random
        mode = random.choice([0, 0, 1, 2, 3, 3])
        previous = max(mode, random.randrange(4))
        ipl = random.choice([0, 0, 0, 1, 22]) if mode == 0 else 0
        wild = random.getrandbits(32) if random.random() < self.wild / 2 else 0
        return mode << 24 | previous << 22 | ipl << 16 | random.choice([0, 0, 0x20, 0xA0, 0x3F]) | wild

    def write(self, number: int, value: int) -> bytes:
        """MTPR of a number to a register."""
        spelt = bytes([number]) if number < 64 else b"\x8f" + long(number)
        return b"\xda" + (bytes([value]) if value < 64 else b"\x8f" + long(value)) + spelt

    def leave(self) -> bytes:
        """Pushes a PSL and a PC, and goes there."""
        return b"\xdd\x8f" + long(self.psl()) + b"\xdd\x8f" + long(self.random.choice(self.code.targets)) + b"\x02"

    def change_entry(self) -> bytes:
        """Writes an entry of a page of data."""
        page = self.random.choice(sorted(self.wild_pages))
        table = self.random.choice([S_TABLE, P0_TABLE, P1_TABLE])
        kept, self.wild = self.wild, max(self.wild, 0.1)
        entry = self.entry(page, self.random.choice([4, 4, 13, 2]))
        self.wild = kept
        return b"\xd0\x8f" + long(entry) + b"\x9f" + long(self.base + table + 4 * page)

    def set_registers(self) -> bytes:
        """Two registers become addresses."""
        numbers = self.random.sample(range(14), 2)
        return b"".join(b"\xd0\x8f" + long(self.code.place()) + bytes([0x50 + number]) for number in numbers)

    def mask(self) -> bytes:
        """A procedure's entry mask, with any registers, and now and then the overflow trap's enable."""
        return bytes([self.random.randrange(256), self.random.choice([0, 0, 0x40, 0x0F])])

    def macros(self) -> list:
        """What instructions drawn one by one hardly come to: changes of mode, stack, tables and requests."""
        random = self.random
        return [
            self.leave,
            self.leave,
            self.change_entry,
            self.change_entry,
            lambda: self.write(16, BLOCKS + 0x80 * random.randrange(8)) + b"\x06\x02",
            lambda: b"\xdd\x00\xdd\x8f" + long(random.choice(self.code.targets)) + b"\x07\x06\x02",
            lambda: self.write(20, random.randrange(16)) + self.write(18, 0),
            lambda: self.write(200, PACKETS + 24 * random.randrange(12)),
            lambda: self.write(25, 0xFFFFFFFF - random.randrange(20)) + self.write(24, random.choice([0x51, 0xD1])),
            lambda: self.write(24, 0xC1) + self.write(18, random.choice([0, 0, 1, 21])),
            lambda: self.write(18, 0) + b"\xfd\x01",
            lambda: bytes([0xBC + random.randrange(4), random.randrange(64)]),
            lambda: b"\xc6\x00" + bytes([0x50 + random.randrange(12)]),
            lambda: b"\xb8\x20\xc0\x8f" + long(0x7FFFFFF0) + bytes([0x50 + random.randrange(12)]),
            lambda: b"\xd0\x8f" + long(self.stack()) + b"\x5e",
            self.set_registers,
            self.set_registers,
            self.set_registers,
            self.set_registers,
            lambda: b"\xfb\x00\xaf\x02\x11\x03" + self.mask() + b"\x04",
            lambda: b"\x16\xaf\x02\x11\x01\x05",
        ]

    def prelude(self) -> bytes:
        random = self.random
        data = self.write(4, self.stack()) + self.write(17, VECTORS) + self.write(12, S_TABLE)
        data += self.write(13, 64) + self.write(8, SYSTEM + P0_TABLE) + self.write(9, random.choice([64, 64, 62]))
        data += self.write(10, 0x7F804700) + self.write(11, random.choice([2_097_088, 2_097_090]))
        data += self.write(16, BLOCKS) + self.write(19, random.choice([4, 4, 4, 0, 2]))
        for number in range(4):
            data += self.write(number, self.stack())
        for register in range(14):
            data += b"\xd0\x8f" + long(self.code.number(4)) + bytes([0x50 + register])
        if random.random() < 0.5:
            data += self.write(25, 0xFFFFFFFF - random.randrange(90)) + self.write(24, random.choice([0x51, 0x11]))
        data += self.write(32, random.choice([0, 0x40])) + self.write(34, random.choice([0, 0, 0, 0x40]))
        if self.mapped:
            data += self.write(56, 1)
        return data + (b"\x06\x02" if random.random() < 0.3 else self.leave())

    def make(self) -> bytes:
        random = self.random
        if random.random() < 0.03:
            self.put(0, random.randbytes(SIZE))
        code = self.code.slots(SLOTS, self.macros())
        for place in (CODE - len(code), CODE, CODE + len(code), CODE + 2 * len(code), CODE + 3 * len(code)):
            self.data[max(0, place) : place + len(code)] = code[max(0, -place) :]
        del self.data[SIZE:]
        self.put(CODE + SLOT * (SLOTS - 1), b"\x17\x9f" + long(random.choice(self.code.targets)))
        for place in DATA_PLACES:
            self.put(place, long(random.choice([self.code.place(), self.code.number(4), 0])))
        for place in range(STACKS, STACKS + 0x1800, 4):
            if random.random() < 0.3:
                self.put(place, long(random.choice([random.choice(self.code.targets), self.code.place(), self.psl()])))
        self.tables()
        self.packets()
        for number in range(8):
            self.block(BLOCKS + 0x80 * number)
        self.vectors()
        self.put(START, self.prelude())
        return bytes(self.data)


def random_image(random) -> bytes:
    return Image(random).make()
