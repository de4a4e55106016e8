"""The assembler: a text's lines to an image's bytes, or the first line that is refused, and why."""

import re
from dataclasses import dataclass

from .decoding import DISPLACEMENT, ReservedMode, check_mode
from .script import lines_of
from .table import OPCODE_OF, TABLE, WAIT
from .texts import is_object_name, read_decimal

FIRST_ADDRESS = 0x200
DATA_SIZES = {".byte": 1, ".word": 2, ".long": 4}
REGISTERS = {"R%d" % number: number for number in range(16)} | {"AP": 12, "FP": 13, "SP": 14, "PC": 15}
WIDTH_MODES = {"B": 10, "W": 12, "L": 14}
REGISTER = "(" + "|".join(sorted(REGISTERS, key=len, reverse=True)) + ")"
PC = 15


class AsmRefused(Exception):
    def __init__(self, line: int, kind: str):
        self.line = line
        self.kind = kind


class BadLine(Exception):
    """The line is of no form."""


@dataclass
class Field:
    """A name's field: its size, whether it is a difference, and where the specifier or instruction ends."""

    name: str
    size: int
    end: int | None


@dataclass
class Line:
    """`parts` are bytes, and fields of names that are filled when all lines are known."""

    number: int
    label: str | None
    parts: list
    length: int


def assemble(text: bytes) -> bytes:
    return b"".join(data for line, data in filled(text))


def listing(text: bytes) -> bytes:
    """Each line with its address and its bytes, and after them the names with their addresses."""
    shown, names, address = [], [], FIRST_ADDRESS
    for piece, (line, data) in zip(lines_of(text), filled(text)):
        shown.append(b"%08X %-16s %s\n" % (address, data.hex().upper().encode(), piece))
        if line.label is not None:
            names.append(b"%08X T %s\n" % (address, line.label.encode()))
        address += line.length
    return b"".join(shown + names)


def filled(text: bytes) -> list:
    """The lines, each with its bytes."""
    lines, names, address = [], {}, FIRST_ADDRESS
    for number, piece in enumerate(lines_of(text), 1):
        try:
            line = read_line(number, piece.decode("latin-1"), address)
        except BadLine:
            raise AsmRefused(number, "BadLine")
        if line.label is not None:
            if line.label in names:
                raise AsmRefused(number, "TwiceNamed")
            names[line.label] = address
        lines.append(line)
        address += line.length
    return [(line, fill(line, names)) for line in lines]


def fill(line: Line, names: dict) -> bytes:
    fields = [part for part in line.parts if isinstance(part, Field)]
    if any(field.name not in names for field in fields):
        raise AsmRefused(line.number, "NoName")
    return b"".join(field_bytes(line, part, names) for part in line.parts)


def field_bytes(line: Line, part, names: dict) -> bytes:
    if isinstance(part, bytes):
        return part
    value = names[part.name] - (part.end or 0)
    limit = 1 << 8 * part.size - 1
    if part.size < 4 and not -limit <= value < limit:
        raise AsmRefused(line.number, "OutOfReach")
    return (value % (1 << 8 * part.size)).to_bytes(part.size, "little")


def is_name(text: str) -> bool:
    return text.isascii() and is_object_name(text.encode())


def read_line(number: int, text: str, address: int) -> Line:
    text = text.partition(";")[0].strip(" \t")
    label = None
    head, colon, rest = text.partition(":")
    if colon:
        if not is_name(head):
            raise BadLine
        label, text = head, rest
        if text:
            if text[0] not in " \t" or text[1] in " \t":
                raise BadLine
            text = text[1:]
    parts = read_statement(text, address) if text else []
    length = sum(len(part) if isinstance(part, bytes) else part.size for part in parts)
    return Line(number, label, parts, length)


def read_statement(text: str, address: int) -> list:
    match = re.fullmatch(r"([^ \t]+)(?:[ \t]([^ \t]+))?", text)
    if not match:
        raise BadLine
    word, operands = match.groups()
    if word in DATA_SIZES:
        return [data_field(DATA_SIZES[word], operands)]
    if word not in OPCODE_OF:
        raise BadLine
    opcode = OPCODE_OF[word]
    forms = TABLE[opcode][1]
    texts = operands.split(",") if operands is not None else []
    if len(texts) != len(forms):
        raise BadLine
    parts = [bytes([opcode, 1] if opcode == WAIT else [opcode])]
    for operand, (access, size) in zip(texts, forms):
        parts += read_operand(operand, access, size)
    return with_ends(parts, address)


def with_ends(parts: list, address: int) -> list:
    """Tells each difference the address after its field, which is where its specifier ends."""
    for part in parts:
        address += len(part) if isinstance(part, bytes) else part.size
        if isinstance(part, Field):
            part.end = address
    return parts


def data_field(size: int, text: str | None):
    if text is None:
        raise BadLine
    if size == 4 and is_name(text):
        return Field(text, 4, None)
    return number_field(text, size)


def number_field(text: str, size: int) -> bytes:
    number = None
    if re.fullmatch(r"\^X[0-9A-F]{1,16}", text):
        number = int(text[2:], 16)
    elif text.isascii():
        number = read_decimal(text.encode(), 2**64 - 1)
    if number is None or number >> 8 * size:
        raise BadLine
    return number.to_bytes(size, "little")


def read_operand(text: str, access: str, size: int) -> list:
    if access == "b":
        return [Field(text, size, 0)] if is_name(text) else [number_field(text, size)]
    index = None
    match = re.fullmatch(r"(.*)\[" + REGISTER + r"\]", text)
    if match:
        text, index = match[1], REGISTERS[match[2]]
        if index == PC:
            raise BadLine
    mode, register, extension = read_base(text, size)
    try:
        check_mode(mode, register, access, size, index)
    except ReservedMode:
        raise BadLine
    first = [] if index is None else [0x40 | index]
    if mode == 0:
        return [bytes(first) + extension]
    return [bytes(first + [mode << 4 | register])] + ([extension] if extension else [])


SIMPLE = [(REGISTER, 5), (r"\(" + REGISTER + r"\)", 6), (r"-\(" + REGISTER + r"\)", 7)]
STEPPED = [(r"\(" + REGISTER + r"\)\+", 8), (r"@\(" + REGISTER + r"\)\+", 9)]


def read_base(text: str, size: int):
    """A specifier's mode and register, and what stands after its first byte; of a literal, the byte itself."""
    if text.startswith("S^#"):
        literal = number_field(text[3:], 1)
        if literal[0] > 63:
            raise BadLine
        return 0, 0, literal
    if text.startswith("I^#"):
        return 8, PC, number_field(text[3:], size)
    if text.startswith("@#"):
        return 9, PC, number_field(text[2:], 4)
    for pattern, mode in SIMPLE + STEPPED:
        match = re.fullmatch(pattern, text)
        if match:
            register = REGISTERS[match[1]]
            if mode >= 8 and register == PC:
                raise BadLine
            return mode, register, None
    return read_displacement(text)


def read_displacement(text: str):
    match = re.fullmatch(r"(@?)([BWL])\^(.*)", text, re.DOTALL)
    if not match:
        raise BadLine
    mode = WIDTH_MODES[match[2]] + len(match[1])
    size = DISPLACEMENT[mode]
    if is_name(match[3]):
        return mode, PC, Field(match[3], size, 0)
    based = re.fullmatch(r"(.*)\(" + REGISTER + r"\)", match[3])
    if not based:
        raise BadLine
    return mode, REGISTERS[based[2]], number_field(based[1], size)
