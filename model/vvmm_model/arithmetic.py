"""Moves, arithmetic and logic. Each instruction is a function of the guest and its operands' values.

`g.codes` are the low eight bits of the PSL: N 8, Z 4, V 2, C 1, and the overflow trap's enable 20 (hexadecimal).
"""

from .operands import Register, signed

N, Z, V, C, OVERFLOW_ENABLE = 8, 4, 2, 1, 0x20
WORD = 0xFFFFFFFF


def give(g, destination, size: int, value: int) -> None:
    """Writes a result: to a register, whose upper bits stay, or later to memory."""
    if type(destination) is not Register:
        g.stores.append((destination, size, value))
        return
    number = destination.number
    if size == 4:
        g.work[number] = value & WORD
    elif size == 8:
        g.work[number] = value & WORD
        g.work[number + 1] = value >> 32 & WORD
    else:
        mask = (1 << 8 * size) - 1
        g.work[number] = g.work[number] & ~mask | value & mask


def sign_and_zero(value: int, size: int) -> int:
    value &= (1 << 8 * size) - 1
    return (N if value >> 8 * size - 1 else 0) | (0 if value else Z)


def logic_codes(g, value: int, size: int) -> None:
    """N and Z of the result, V clear, C kept."""
    g.codes = g.codes & ~(N | Z | V) | sign_and_zero(value, size)


def overflow(g, exact: int, size: int) -> int:
    """V where the exact result doesn't fit; with the enable set also a trap after the instruction."""
    if -(1 << 8 * size - 1) <= exact < 1 << 8 * size - 1:
        return 0
    if g.codes & OVERFLOW_ENABLE:
        g.trap = 1
    return V


def exact_codes(g, exact: int, size: int, carry: bool) -> None:
    g.codes = g.codes & ~15 | sign_and_zero(exact, size) | overflow(g, exact, size) | (C if carry else 0)


def exact_codes_keep_carry(g, exact: int, size: int) -> None:
    g.codes = g.codes & ~(N | Z | V) | sign_and_zero(exact, size) | overflow(g, exact, size)


def add(g, a: int, b: int, destination, size: int, carry_in: int = 0) -> None:
    exact = signed(a, size) + signed(b, size) + carry_in
    exact_codes(g, exact, size, a + b + carry_in >> 8 * size)
    give(g, destination, size, exact)


def subtract(g, a: int, b: int, destination, size: int, borrow_in: int = 0) -> None:
    """b minus a."""
    exact = signed(b, size) - signed(a, size) - borrow_in
    exact_codes(g, exact, size, b < a + borrow_in)
    give(g, destination, size, exact)


def multiply(g, a: int, b: int, destination, size: int) -> None:
    exact = signed(a, size) * signed(b, size)
    exact_codes(g, exact, size, False)
    give(g, destination, size, exact)


def divide(g, a: int, b: int, destination, size: int) -> None:
    """b by a, toward zero; without a quotient that fits the dividend stays."""
    divisor, dividend = signed(a, size), signed(b, size)
    if divisor == 0:
        g.codes = g.codes & ~15 | sign_and_zero(b, size) | V
        g.trap = 2
        return give(g, destination, size, b)
    exact = abs(dividend) // abs(divisor)
    if (dividend < 0) != (divisor < 0):
        exact = -exact
    exact_codes(g, exact, size, False)
    give(g, destination, size, exact)


def logic(operation):
    def execute(g, a: int, b: int, destination, size: int) -> None:
        value = operation(a, b)
        logic_codes(g, value, size)
        give(g, destination, size, value)

    return execute


THREE_OPERANDS = {
    "ADD": add,
    "SUB": subtract,
    "MUL": multiply,
    "DIV": divide,
    "BIS": logic(lambda a, b: a | b),
    "BIC": logic(lambda a, b: b & ~a),
    "XOR": logic(lambda a, b: a ^ b),
}


def of_two(operation, size: int):
    return lambda g, a, modified: operation(g, a, modified[0], modified[1], size)


def of_three(operation, size: int):
    return lambda g, a, b, destination: operation(g, a, b, destination, size)


def move(size: int):
    def execute(g, value, destination):
        logic_codes(g, value, size)
        give(g, destination, size, value)

    return execute


def widen(size: int, to: int):
    """MOVZ: the value is zero-extended already; the result has the wider size."""
    return move(to)


def convert(size: int, to: int):
    def execute(g, value, destination):
        exact = signed(value, size)
        exact_codes(g, exact, to, False)
        give(g, destination, to, exact)

    return execute


def complement(size: int):
    return lambda g, value, destination: move(size)(g, ~value, destination)


def negate(size: int):
    def execute(g, value, destination):
        exact = -signed(value, size)
        exact_codes(g, exact, size, value != 0)
        give(g, destination, size, exact)

    return execute


def compare_codes(g, a: int, b: int, size: int) -> None:
    less = N if signed(a, size) < signed(b, size) else 0
    g.codes = g.codes & ~15 | less | (Z if a == b else 0) | (C if a < b else 0)


def compare(size: int):
    return lambda g, a, b: compare_codes(g, a, b, size)


def test(size: int):
    return lambda g, value: compare_codes(g, value, 0, size)


def bit_test(size: int):
    return lambda g, a, b: logic_codes(g, a & b, size)


def clear(size: int):
    return lambda g, destination: move(size)(g, 0, destination)


def increment(size: int):
    return lambda g, modified: add(g, 1, modified[0], modified[1], size)


def decrement(size: int):
    return lambda g, modified: subtract(g, 1, modified[0], modified[1], size)


def add_with_carry(g, a, modified):
    add(g, a, modified[0], modified[1], 4, g.codes & C)


def subtract_with_carry(g, a, modified):
    subtract(g, a, modified[0], modified[1], 4, g.codes & C)


def shift(g, count, value, destination):
    """ASHL: times two to the count; a negative count divides, rounding down."""
    by = signed(count, 1)
    exact = signed(value, 4) << by if by >= 0 else signed(value, 4) >> -by
    exact_codes(g, exact, 4, False)
    give(g, destination, 4, exact)


def rotate(g, count, value, destination):
    by = count % 32
    result = (value << by | value >> 32 - by) & WORD
    logic_codes(g, result, 4)
    give(g, destination, 4, result)


def by_width(size: int, letter: str) -> dict:
    rows = {}
    for name, operation in THREE_OPERANDS.items():
        rows[name + letter + "2"] = of_two(operation, size)
        rows[name + letter + "3"] = of_three(operation, size)
    for name, maker in [
        ("MNEG", negate), ("MOV", move), ("CMP", compare), ("MCOM", complement), ("BIT", bit_test),
        ("CLR", clear), ("TST", test), ("INC", increment), ("DEC", decrement),
    ]:  # fmt: skip
        rows[name + letter] = maker(size)
    return rows


ARITHMETIC = {**by_width(1, "B"), **by_width(2, "W"), **by_width(4, "L")}
ARITHMETIC |= {
    "CVTWL": convert(2, 4), "CVTWB": convert(2, 1), "CVTBL": convert(1, 4),
    "CVTBW": convert(1, 2), "CVTLB": convert(4, 1), "CVTLW": convert(4, 2),
    "MOVZWL": widen(2, 4), "MOVZBL": widen(1, 4), "MOVZBW": widen(1, 2),
    "MOVAB": move(4), "MOVAW": move(4), "MOVAL": move(4), "MOVAQ": move(4),
    "CLRQ": clear(8), "MOVQ": move(8),
    "ADWC": add_with_carry, "SBWC": subtract_with_carry, "ASHL": shift, "ROTL": rotate,
}  # fmt: skip
