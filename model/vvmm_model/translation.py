"""A guest's memory management: from virtual addresses to places of its memory, and what PROBE finds."""

PAGE = 512
VALID, MODIFY, FRAME = 0x80000000, 0x04000000, 0x1FFFFF
WORD = 0xFFFFFFFF

# who may read and write by the protection code: for kernel, executive, supervisor, user; r is read alone, w is both
PROTECTION = [
    "----", "----", "w---", "r---", "wwww", "ww--", "wr--", "rr--",
    "www-", "wwr-", "wrr-", "rrr-", "wwwr", "wwrr", "wrrr", "rrrr",
]  # fmt: skip


def codes_that_allow(mode: int, letters: str) -> int:
    """A mask of the codes; executive has whatever kernel has, since both run in one mode of the real machine."""
    modes = (0, 1) if mode == 1 else (mode,)
    return sum(1 << code for code, row in enumerate(PROTECTION) if any(row[m] in letters for m in modes))


READABLE = [codes_that_allow(mode, "rw") for mode in range(4)]
WRITABLE = [codes_that_allow(mode, "w") for mode in range(4)]


class Fault(Exception):
    """An exception of the instruction: its vector, and what is pushed above PC and PSL, in the order of pushes."""

    def __init__(self, vector: int, *pushed: int):
        self.vector = vector
        self.pushed = pushed


class Beyond(Exception):
    """A reference beyond the guest's memory, which stops the guest."""


LENGTH, TABLE, WRITE = 1, 2, 4
ACCESS_VIOLATION, NOT_VALID = 0x20, 0x24


def entry_place(g, va: int, intent: int) -> int:
    """Where the page table entry of a virtual address stands in the guest's memory."""
    page = va >> 9 & 0x1FFFFF
    region = va >> 30
    if region == 2:
        if page >= g.slr:
            raise Fault(ACCESS_VIOLATION, va, LENGTH | intent)
        place = g.sbr + 4 * page
    else:
        if region == 0 and page < g.p0lr:
            entry = g.p0br + 4 * page & WORD
        elif region == 1 and page >= g.p1lr:
            entry = g.p1br + 4 * page & WORD
        else:
            raise Fault(ACCESS_VIOLATION, va, LENGTH | intent)
        if entry >> 30 != 2 or (entry >> 9 & 0x1FFFFF) >= g.slr:
            raise Fault(ACCESS_VIOLATION, va, LENGTH | TABLE | intent)
        system = g.sbr + 4 * (entry >> 9 & 0x1FFFFF)
        if system >= g.size:
            raise Beyond
        above = g.longs[system >> 2]
        if not above & VALID:
            raise Fault(NOT_VALID, va, TABLE | intent)
        place = (above & FRAME) * PAGE + entry % PAGE
    if place >= g.size:
        raise Beyond
    return place


def walk(g, va: int, mode: int, write: bool):
    """The place of a byte, and the place of its page's entry, None with mapping off."""
    if not g.mapen:
        if va >= g.size:
            raise Beyond
        return va, None
    intent = WRITE if write else 0
    place = entry_place(g, va, intent)
    entry = g.longs[place >> 2]
    codes = WRITABLE if write else READABLE
    if not codes[mode] >> (entry >> 27 & 15) & 1:
        raise Fault(ACCESS_VIOLATION, va, intent)
    if not entry & VALID:
        raise Fault(NOT_VALID, va, intent)
    byte = (entry & FRAME) * PAGE + va % PAGE
    if byte >= g.size:
        raise Beyond
    return byte, place


def read(g, va: int, size: int) -> int:
    """The little-endian number at an address, as the current mode may read it."""
    if va % PAGE + size <= PAGE:
        place = walk(g, va, g.mode, False)[0]
        return int.from_bytes(g.memory[place : place + size], "little")
    number = 0
    for k in range(size):
        number |= g.memory[walk(g, va + k & WORD, g.mode, False)[0]] << 8 * k
    return number


def places_to_write(g, va: int, size: int, mode: int, clear: list):
    """The places of bytes to be written: the first one where they lie in one page, else a list.

    What has a clear modify bit is added to `clear`: the entry's place, and the address of the first byte.
    """
    if va % PAGE + size <= PAGE:
        place, entry = walk(g, va, mode, True)
        note_clear(g, va, entry, clear)
        return place
    places = []
    for k in range(size):
        place, entry = walk(g, va + k & WORD, mode, True)
        note_clear(g, va + k & WORD, entry, clear)
        places.append(place)
    return places


def note_clear(g, va: int, entry, clear: list) -> None:
    if entry is not None and not g.longs[entry >> 2] & MODIFY:
        clear.append((entry, va))


def store(g, places, size: int, value: int) -> None:
    data = (value & (1 << 8 * size) - 1).to_bytes(size, "little")
    if isinstance(places, int):
        g.memory[places : places + size] = data
    else:
        for place, byte in zip(places, data):
            g.memory[place] = byte


def probe(g, va: int, mode: int, write: bool):
    """Whether a byte is accessible, and whether its page is there: found, valid and in memory."""
    if not g.mapen:
        inside = va < g.size
        return inside, inside
    try:
        place = entry_place(g, va, WRITE if write else 0)
    except Fault as fault:
        if fault.vector == NOT_VALID:
            raise
        return False, False
    entry = g.longs[place >> 2]
    allowed = (WRITABLE if write else READABLE)[mode] >> (entry >> 27 & 15) & 1
    there = entry & VALID and (entry & FRAME) * PAGE < g.size
    return bool(allowed), bool(there)
