"""Bytes to instruction: operand specifiers as the VAX Architecture Reference Manual has them.

The bytes are asked for one by one, and no further byte is asked for where no instruction can go on.
"""

from dataclasses import dataclass

from .table import TABLE, WAIT


class UnknownOpcode(Exception):
    """No instruction has these opcode bytes."""


class ReservedMode(Exception):
    """A specifier is of a reserved form."""


@dataclass(frozen=True)
class Specifier:
    """`mode` is the high half of the first byte, 0 for a literal and 16 for a branch's displacement.

    `value` is the literal, the immediate, the absolute address or the displacement as its bytes are;
    `begin` and `end` are where the base specifier's extension begins, and where it ends, in the instruction.
    """

    mode: int
    register: int
    value: int
    index: int | None
    begin: int
    end: int


@dataclass(frozen=True)
class Decoded:
    opcode: int
    specifiers: tuple
    length: int


# bytes of a displacement, by the mode
DISPLACEMENT = {10: 1, 11: 1, 12: 2, 13: 2, 14: 4, 15: 4}


class Reader:
    """Takes bytes from `byte_at`, which gives the byte at an offset or raises what the access meets."""

    def __init__(self, byte_at):
        self.byte_at = byte_at
        self.place = 0

    def byte(self) -> int:
        result = self.byte_at(self.place)
        self.place += 1
        return result

    def number(self, size: int) -> int:
        return sum(self.byte() << 8 * k for k in range(size))


def decode(byte_at) -> Decoded:
    reader = Reader(byte_at)
    opcode = reader.byte()
    if opcode not in TABLE:
        raise UnknownOpcode
    if opcode == WAIT and reader.byte() != 1:
        raise UnknownOpcode
    forms = TABLE[opcode][1]
    specifiers = tuple(specifier(reader, access, size) for access, size in forms)
    return Decoded(opcode, specifiers, reader.place)


def specifier(reader: Reader, access: str, size: int) -> Specifier:
    if access == "b":
        begin = reader.place
        return Specifier(16, 0, reader.number(size), None, begin, reader.place)
    index = None
    first = reader.byte()
    if first >> 4 == 4:
        index = first & 15
        if index == 15:
            raise ReservedMode
        first = reader.byte()
    mode, register = first >> 4, first & 15
    check_mode(mode, register, access, size, index)
    begin = reader.place
    if mode < 4:
        return Specifier(0, 0, first, None, begin, reader.place)
    value = 0
    if mode in DISPLACEMENT:
        value = reader.number(DISPLACEMENT[mode])
    elif register == 15 and mode == 8:
        value = reader.number(size)
    elif register == 15 and mode == 9:
        value = reader.number(4)
    return Specifier(mode, register, value, index, begin, reader.place)


def check_mode(mode: int, register: int, access: str, size: int, index: int | None) -> None:
    """Raises where the first byte of a specifier can't stand for this operand."""
    reserved = (
        (mode < 4 and (access != "r" or index is not None))
        or (mode == 4)
        or (mode == 5 and (access == "a" or index is not None))
        or (mode in (5, 6, 7) and register == 15)
        or (mode == 5 and size == 8 and register == 14)
        or (mode == 8 and register == 15 and index is not None)
    )
    if reserved:
        raise ReservedMode


def decode_bytes(data: bytes, at: int = 0) -> Decoded | None:
    """The instruction that begins at a place of `data`, if its bytes spell one."""

    def byte_at(offset):
        return data[at + offset]

    try:
        return decode(byte_at)
    except (IndexError, UnknownOpcode, ReservedMode):
        return None
