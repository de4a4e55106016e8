"""Operands: each specifier becomes a function of the guest that evaluates it, with its side effects.

`g.work` are the registers as the instruction's operands leave them; `g.r[15]` is the instruction's own address.
A read operand is its value; a written one is a destination; a modified one is both; an address is an address;
the base of bits is a destination register or an address; a branch is its target.
"""

from .translation import places_to_write, read

WORD = 0xFFFFFFFF


class Register:
    """A destination that is a register; a quadword goes on in the next one."""

    __slots__ = ("number",)

    def __init__(self, number: int):
        self.number = number


REGISTERS = [Register(number) for number in range(16)]


def signed(value: int, size: int) -> int:
    sign = 1 << 8 * size - 1
    return (value & sign - 1) - (value & sign)


def operand(spec, access: str, size: int, length: int):
    """The function that evaluates an operand of an instruction of this length."""
    if access == "b":
        distance = length + signed(spec.value, size)
        return lambda g: g.r[15] + distance & WORD
    if spec.mode == 0:
        return lambda g: spec.value
    if spec.mode == 5:
        return register_operand(spec.register, access, size)
    if spec.mode == 8 and spec.register == 15 and access == "r":
        return lambda g: spec.value
    address = address_of(spec, size)
    if access in "av":
        return address
    if access == "r":
        return lambda g: read(g, address(g), size)
    if access == "w":
        return lambda g: places_to_write(g, address(g), size, g.mode, g.clear)
    return lambda g: modified(g, address(g), size)


def modified(g, va: int, size: int):
    """A modified operand in memory: its value and its destination, by one access with write intent."""
    places = places_to_write(g, va, size, g.mode, g.clear)
    if isinstance(places, int):
        return int.from_bytes(g.memory[places : places + size], "little"), places
    return int.from_bytes(bytes(g.memory[place] for place in places), "little"), places


def register_operand(number: int, access: str, size: int):
    destination = REGISTERS[number]
    mask = (1 << 8 * size) - 1
    if access in "wv":
        return lambda g: destination
    if access == "m":
        return lambda g: (g.work[number] & mask, destination)
    if size == 8:
        return lambda g: g.work[number] | g.work[number + 1] << 32
    if size == 4:
        return lambda g: g.work[number]
    return lambda g: g.work[number] & mask


def address_of(spec, size: int):
    base = base_address(spec, size)
    if spec.index is None:
        return base
    return lambda g: base(g) + size * g.work[spec.index] & WORD


def base_address(spec, size: int):
    mode, number, end = spec.mode, spec.register, spec.end
    if mode == 6:
        return lambda g: g.work[number]
    if mode == 7:
        return lambda g: step_register(g, number, -size)
    if mode == 8 and number == 15:
        return lambda g: g.r[15] + spec.begin & WORD
    if mode == 8:
        return lambda g: step_register(g, number, size) - size & WORD
    if mode == 9 and number == 15:
        return lambda g: spec.value
    if mode == 9:
        return lambda g: stepped_pointer(g, number)
    distance = signed(spec.value, {10: 1, 11: 1, 12: 2, 13: 2, 14: 4, 15: 4}[mode])
    if number == 15:
        place = lambda g: g.r[15] + end + distance & WORD
    else:
        place = lambda g: g.work[number] + distance & WORD
    if mode % 2 == 0:
        return place
    return lambda g: read(g, place(g), 4)


def step_register(g, number: int, by: int) -> int:
    g.work[number] = result = g.work[number] + by & WORD
    return result


def stepped_pointer(g, number: int) -> int:
    """Autoincrement deferred: the longword at the register, which then goes on by four."""
    pointer = read(g, g.work[number], 4)
    g.work[number] = g.work[number] + 4 & WORD
    return pointer
