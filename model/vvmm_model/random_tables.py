"""Random guests that change their page tables, contexts and mapping all the time, and look through them at each step.

Their code stands in slots of 32 bytes in pages that every table keeps as they are; a fault goes on at the next slot.
"""

SIZE, START = 0x8000, 0x200
CODE, SLOT, SLOTS = 0x800, 32, 0xC0
S_TABLES = [0x4000, 0x4100]
TABLES = [0x4800 + 0x100 * k for k in range(6)]
VECTORS, BLOCKS, PACKETS, HANDLERS = 0x4400, 0x5000, 0x5400, 0x5800
KERNEL_STACK, INTERRUPT_STACK = 0x6FF0, 0x6EF0
SPARE_TABLE, SPARE_S_TABLE = 0x5A00, 0x5B00
SYSTEM, MODIFY = 0x80000000, 0x04000000
STACKS = [SYSTEM + 0x6FE0, 0x6FE0, SYSTEM + 0x6600, 0x6600, SYSTEM + 0x4890, SYSTEM + 0x6402, 0x40006F00]
KEPT_PAGES = set(range(0x01, 0x20)) | {0x22, 0x28, 0x29, 0x2A, 0x2C, 0x2D, 0x37}
DATA_PAGES = [0x00, 0x24, 0x25, 0x26, 0x30, 0x31, 0x32, 0x33, 0x34, 0x35, 0x36, 0x38, 0x39, 0x3A, 0x20, 0x21]
TABLE_PAGES = [0x20, 0x21, 0x24, 0x25, 0x26]
P1_FIRST = 0x1FFFC0


def long(value: int) -> bytes:
    return (value & 0xFFFFFFFF).to_bytes(4, "little")


class TablesImage:
    def __init__(self, random):
        self.random = random
        self.data = bytearray(SIZE)
        self.wild = random.choice([0.03, 0.1, 0.25])

    def put(self, place: int, data: bytes) -> None:
        self.data[place : place + len(data)] = data

    def entry(self, page: int) -> int:
        random = self.random
        if page in KEPT_PAGES:
            return SYSTEM | 4 << 27 | (MODIFY if random.random() < 0.9 or page != 0x37 else 0) | page
        valid = 0 if random.random() < self.wild else SYSTEM
        modify = 0 if random.random() < 0.3 else MODIFY
        code = random.choice([4, 4, 4, 2, 3, 5, 8, 13, 14, 15, 0])
        frame = random.choice([page, page, random.choice(DATA_PAGES)])
        if frame in TABLE_PAGES and frame != page and random.random() < 0.7:
            frame = page
        if random.random() < self.wild / 16:
            frame = random.choice([0x40, 0x41, 0x1FFFFF])
        return valid | code << 27 | modify | frame

    def table(self) -> bytes:
        return b"".join(long(self.entry(page)) for page in range(64))

    def table_entry_place(self) -> int:
        page = self.random.choice(DATA_PAGES)
        return self.random.choice(TABLES + TABLES + S_TABLES) + 4 * page

    def address(self) -> int:
        """Of a byte of a page of data, in any region; mostly of the page's edge or of a table's entry."""
        random = self.random
        page = random.choice(DATA_PAGES)
        inner = random.choice([0, 1, 4, 0x80, 0x1FC, 0x1FD, 0x1FE, 0x1FF, random.randrange(512)])
        region = random.choice([0, 0, SYSTEM, 0x40000000 + 512 * P1_FIRST])
        if page in TABLE_PAGES or random.random() < 0.2:
            return region + self.table_entry_place()
        return region + 512 * page + inner

    def write(self, number: int, value: int) -> bytes:
        spelt = bytes([number]) if number < 64 else b"\x8f" + long(number)
        return b"\xda" + (bytes([value]) if value < 64 else b"\x8f" + long(value)) + spelt

    def look(self) -> bytes:
        opcode = self.random.choice([0x90, 0xB0, 0xD0, 0x9A, 0x3C])
        return bytes([opcode, 0x9F]) + long(self.address()) + bytes([0x50 + self.random.randrange(6)])

    def change(self) -> bytes:
        opcode = self.random.choice([0x80, 0xA0, 0xC0, 0x88, 0xAC, 0x90, 0xB0, 0xD0])
        return bytes([opcode, self.random.randrange(64), 0x9F]) + long(self.address())

    def quad(self) -> bytes:
        return b"\x7d\x9f" + long(self.address()) + b"\x9f" + long(self.address())

    def probe(self) -> bytes:
        random = self.random
        asked = bytes([0x0C + random.randrange(2), random.randrange(4), random.choice([0, 1, 4, 63])])
        return asked + b"\x9f" + long(self.address()) + b"\xdc\x56"

    def change_entry(self) -> bytes:
        place = self.table_entry_place()
        region = self.random.choice([SYSTEM, SYSTEM, 0, 0x40000000 + 512 * P1_FIRST])
        return b"\xd0\x8f" + long(self.entry(place % 0x100 // 4)) + b"\x9f" + long(region + place)

    def change_entry_unmapped(self) -> bytes:
        place = self.table_entry_place()
        store = b"\xd0\x8f" + long(self.entry(place % 0x100 // 4)) + b"\x9f" + long(place)
        return b"\xda\x00\x38" + store + b"\xda\x01\x38"

    def flip_entry(self) -> bytes:
        """Changes valid, code or modify of an entry."""
        bits = self.random.choice([SYSTEM, 1 << 27, MODIFY, 1])
        return b"\xcc\x8f" + long(bits) + b"\x9f" + long(SYSTEM + self.table_entry_place())

    def context(self) -> bytes:
        return self.write(16, BLOCKS + 0x80 * self.random.randrange(8)) + b"\x06\xc0\x08\x5e"

    def bases(self) -> bytes:
        random = self.random
        return random.choice(
            [
                self.write(8, SYSTEM + random.choice(TABLES)),
                self.write(9, random.choice([64, 64, 50, 57])),
                self.write(10, self.p1_base()),
                self.write(11, P1_FIRST + random.choice([0, 0, 32, 48])),
                self.write(12, random.choice(S_TABLES)),
                self.write(13, random.choice([64, 64, 56])),
            ]
        )

    def p1_base(self) -> int:
        return SYSTEM + self.random.choice(TABLES) - 4 * P1_FIRST & 0xFFFFFFFF

    def leave(self) -> bytes:
        """On in another mode, from the next slot."""
        mode = self.random.choice([0, 1, 2, 3, 3])
        psl = mode << 24 | max(mode, self.random.randrange(4)) << 22
        return b"\xdd\x8f" + long(psl) + b"\x9f\xaf\x01\x02"

    def kernel(self) -> bytes:
        return b"\xbc\x00"

    def stack(self) -> bytes:
        value = self.random.choice(STACKS)
        return b"\xd0\x8f" + long(value) + b"\x5e\xbc\x01"

    def packet(self) -> bytes:
        return self.write(200, PACKETS + 24 * self.random.randrange(8))

    def slot(self) -> bytes:
        choices = [self.look] * 6 + [self.change] * 6 + [self.probe] * 4
        choices += [self.change_entry] * 4 + [self.flip_entry] * 4 + [self.change_entry_unmapped] * 2 + [self.context] * 3 + [self.bases, self.leave, self.quad, self.stack]
        choices += [self.kernel] * 3 + [self.packet]
        data = b""
        while True:
            more = self.random.choice(choices)()
            if len(data) + len(more) > SLOT:
                return data + b"\x01" * (SLOT - len(data))
            data += more

    def handlers(self) -> None:
        """On at the next slot; where the code can't be reached any more, with tables that nobody changes."""
        next_slot = b"\xc0\x20\x6e\xca\x1f\x6e\x02"
        kernel_again = b"\xd4\xae\x04"
        is_code = b"\xd1\xae\x04\x8f" + long(CODE + SLOT * SLOTS) + b"\x1a\x1c"
        spare = self.write(8, SYSTEM + SPARE_TABLE) + self.write(9, 64)
        spare += self.write(12, SPARE_S_TABLE) + self.write(13, 64)
        self.put(HANDLERS, next_slot)
        self.put(HANDLERS + 64, is_code + spare + b"\xc0\x08\x5e" + next_slot)
        self.put(HANDLERS + 128, b"\xc0\x04\x5e" + kernel_again + b"\x02")
        self.put(HANDLERS + 192, self.write(0, SYSTEM + KERNEL_STACK) + next_slot)
        self.put(HANDLERS + 256, b"\x02")
        for place in (SPARE_TABLE, SPARE_S_TABLE):
            self.put(place, b"".join(long(0xA4000000 + page) for page in range(64)))
        for offset in range(0, 0x104, 4):
            kind = {0x08: 3, 0x20: 1, 0x24: 1, 0x3C: 1, 0x34: 2, 0x40: 2}.get(offset, 0 if offset < 0x80 else 4)
            self.put(VECTORS + offset, long(SYSTEM + HANDLERS + 64 * kind))

    def block(self, place: int) -> None:
        random = self.random
        values = [SYSTEM + KERNEL_STACK, 0x6D00, 0x6C00, 0x6B00] + [random.getrandbits(32) for _ in range(14)]
        values += [CODE, 0, SYSTEM + random.choice(TABLES), random.choice([64, 64, 60]) | 4 << 24]
        values += [self.p1_base(), P1_FIRST + random.choice([0, 0, 40])]
        self.put(place, b"".join(map(long, values)))

    def packets(self) -> None:
        random = self.random
        for number in range(8):
            buffer = random.choice(TABLES[::2] + [0x6000, 0x6200, 0x6400])
            fields = [random.choice([1, 1, 2]), 0, random.randrange(4), buffer, 0, 0]
            self.put(PACKETS + 24 * number, b"".join(map(long, fields)))

    def make(self) -> bytes:
        random = self.random
        for place in S_TABLES + TABLES:
            self.put(place, self.table())
        for number in range(8):
            self.block(BLOCKS + 0x80 * number)
        self.packets()
        self.handlers()
        for place in range(START, CODE, SLOT):
            self.put(place, b"\x17\x9f" + long(CODE))
        for number in range(SLOTS):
            self.put(CODE + SLOT * number, self.slot())
        self.put(CODE + SLOT * (SLOTS - 1), b"\x17\x9f" + long(CODE + SLOT * random.randrange(SLOTS - 1)))
        data = self.write(4, SYSTEM + INTERRUPT_STACK) + self.write(17, VECTORS) + self.write(12, S_TABLES[0])
        data += self.write(13, 64) + self.write(8, SYSTEM + TABLES[0]) + self.write(9, 64)
        data += self.write(10, self.p1_base()) + self.write(11, P1_FIRST) + self.write(0, SYSTEM + KERNEL_STACK)
        for number, value in ((1, 0x6D00), (2, 0x6C00), (3, 0x6B00)):
            data += self.write(number, value)
        data += self.write(56, 1) + b"\xdd\x00\xdd\x8f" + long(CODE) + b"\x02"
        self.put(START, data)
        return bytes(self.data)

    def volume(self) -> bytes:
        """Four blocks, each two tables."""
        return b"".join(self.table() for _ in range(8))
