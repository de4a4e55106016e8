"""The disassembler: an image's bytes to a text that assembles to them."""

from .decoding import DISPLACEMENT, decode_bytes
from .table import TABLE

REGISTERS = ["R%d" % number for number in range(12)] + ["AP", "FP", "SP", "PC"]
PC = 15


def disassemble(image: bytes) -> str:
    lines, at = [], 0
    while at < len(image):
        decoded = decode_bytes(image, at)
        if decoded is None:
            lines.append(".byte " + field(image[at], 1))
            at += 1
        else:
            lines.append(instruction_text(decoded))
            at += decoded.length
    return "".join(line + "\n" for line in lines)


def field(value: int, size: int) -> str:
    return "^X%0*X" % (2 * size, value)


def instruction_text(decoded) -> str:
    name, forms = TABLE[decoded.opcode]
    operands = [operand_text(spec, size) for spec, (_, size) in zip(decoded.specifiers, forms)]
    return name + (" " + ",".join(operands) if operands else "")


def operand_text(spec, size: int) -> str:
    if spec.mode == 16:
        return field(spec.value, size)
    return base_text(spec, size) + ("" if spec.index is None else "[%s]" % REGISTERS[spec.index])


def base_text(spec, size: int) -> str:
    mode, register = spec.mode, REGISTERS[spec.register]
    if mode == 0:
        return "S^#%d" % spec.value
    if mode == 8 and spec.register == PC:
        return "I^#" + field(spec.value, size)
    if mode == 9 and spec.register == PC:
        return "@#" + field(spec.value, 4)
    simple = {5: "%s", 6: "(%s)", 7: "-(%s)", 8: "(%s)+", 9: "@(%s)+"}
    if mode in simple:
        return simple[mode] % register
    deferred = "@" if mode % 2 else ""
    width = {1: "B", 2: "W", 4: "L"}[DISPLACEMENT[mode]]
    return "%s%s^%s(%s)" % (deferred, width, field(spec.value, DISPLACEMENT[mode]), register)
