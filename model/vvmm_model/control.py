"""Branches, loops, CASE, stack instructions, calls and the other instructions that complete by themselves."""

from .arithmetic import C, N, V, Z, exact_codes_keep_carry, compare_codes, give, logic_codes
from .operands import Register, signed
from .translation import Fault, places_to_write, read

WORD = 0xFFFFFFFF
RESERVED_OPERAND = 0x18
AP, FP, SP = 12, 13, 14


def push(g, value: int) -> None:
    """Pushes a longword: the stack pointer goes down at once, the bytes are stored when all accesses are made."""
    g.work[SP] = sp = g.work[SP] - 4 & WORD
    g.stores.append((places_to_write(g, sp, 4, g.mode, g.clear), 4, value))


def pop(g) -> int:
    value = read(g, g.work[SP], 4)
    g.work[SP] = g.work[SP] + 4 & WORD
    return value


def branch(taken):
    def execute(g, target):
        if taken(g.codes):
            g.next = target

    return execute


def jump(g, target):
    g.next = target


def call_subroutine(g, target):
    push(g, g.next)
    g.next = target


def return_from_subroutine(g):
    g.next = pop(g)


def branch_on_low_bit(wanted: int):
    def execute(g, value, target):
        if value & 1 == wanted:
            g.next = target

    return execute


def branch_on_bit(wanted: int, becomes: int | None):
    """Branches where the bit is as wanted; the bit may then become something."""

    def execute(g, position, base, target):
        if type(base) is Register:
            bit = bit_in_register(g, position, base, becomes)
        else:
            bit = bit_in_memory(g, position, base, becomes)
        if bit == wanted:
            g.next = target

    return execute


def changed(value: int, bit: int, becomes: int) -> int:
    return value | 1 << bit if becomes else value & ~(1 << bit)


def bit_in_register(g, position: int, base, becomes) -> int:
    if position > 31:
        raise Fault(RESERVED_OPERAND)
    value = g.work[base.number]
    if becomes is not None:
        g.work[base.number] = changed(value, position, becomes)
    return value >> position & 1


def bit_in_memory(g, position: int, base: int, becomes) -> int:
    va = base + (signed(position, 4) >> 3) & WORD
    bit = position % 8
    if becomes is None:
        return read(g, va, 1) >> bit & 1
    place = places_to_write(g, va, 1, g.mode, g.clear)
    value = g.memory[place]
    g.stores.append((place, 1, changed(value, bit, becomes)))
    return value >> bit & 1


def add_compare_branch(size: int):
    def execute(g, limit, by, modified, target):
        exact = signed(modified[0], size) + signed(by, size)
        exact_codes_keep_carry(g, exact, size)
        give(g, modified[1], size, exact)
        index, end = signed(exact, size), signed(limit, size)
        if index <= end if signed(by, size) >= 0 else index >= end:
            g.next = target

    return execute


def count_and_branch(by: int, taken):
    """AOB and SOB: the index goes on by one, and decides together with the limit."""

    def execute(g, *operands):
        *limit, (value, destination), target = operands
        exact = signed(value, 4) + by
        exact_codes_keep_carry(g, exact, 4)
        give(g, destination, 4, exact)
        if taken(signed(exact, 4), signed(limit[0], 4) if limit else 0):
            g.next = target

    return execute


def case(size: int):
    def execute(g, selector, base, limit):
        table = g.next
        chosen = selector - base & (1 << 8 * size) - 1
        compare_codes(g, chosen, limit, size)
        if chosen <= limit:
            g.next = table + signed(read(g, table + 2 * chosen & WORD, 2), 2) & WORD
        else:
            g.next = table + 2 * (limit + 1) & WORD

    return execute


def push_address(g, address):
    push(g, address)
    logic_codes(g, address, 4)


def push_registers(g, mask):
    values = list(g.work)
    for number in range(14, -1, -1):
        if mask >> number & 1:
            push(g, values[number])


def pop_registers(g, mask):
    """Pops in rising order; a popped SP is SP's result, but doesn't move the pops that follow."""
    at, popped = g.work[SP], {}
    for number in range(15):
        if mask >> number & 1:
            popped[number] = read(g, at, 4)
            at = at + 4 & WORD
    g.work[SP] = at
    for number, value in popped.items():
        g.work[number] = value


def change_psw(operation):
    def execute(g, mask):
        if mask >> 8:
            raise Fault(RESERVED_OPERAND)
        g.codes = operation(g.codes, mask)

    return execute


def move_psl(g, destination):
    give(g, destination, 4, g.psl)


def entry_mask(g, procedure: int) -> int:
    mask = read(g, procedure, 2)
    if mask & 0x3000:
        raise Fault(RESERVED_OPERAND)
    return mask


def call(g, mask: int, arguments: int, by_stack: bool, procedure: int) -> None:
    """Pushes a frame and goes to the procedure, after its entry mask."""
    alignment = g.work[SP] & 3
    g.work[SP] &= ~3
    for number in range(11, -1, -1):
        if mask >> number & 1:
            push(g, g.work[number])
    push(g, g.next)
    push(g, g.work[FP])
    push(g, g.work[AP])
    push(g, alignment << 30 | by_stack << 29 | (mask & 0xFFF) << 16 | g.codes & 0xE0)
    push(g, 0)
    g.work[FP] = g.work[SP]
    g.work[AP] = arguments
    g.codes = g.codes & 0x10 | mask >> 14 << 5 & 0x20 | mask >> 15 << 7
    g.next = procedure + 2 & WORD


def call_with_list(g, arguments, procedure):
    call(g, entry_mask(g, procedure), arguments, False, procedure)


def call_with_stack(g, count, procedure):
    mask = entry_mask(g, procedure)
    push(g, count)
    call(g, mask, g.work[SP], True, procedure)


def return_from_procedure(g):
    frame = g.work[FP]
    at = lambda offset: read(g, frame + offset & WORD, 4)
    at(0)
    saved = at(4)
    if saved & 0xFF00:
        raise Fault(RESERVED_OPERAND)
    restored = {AP: at(8), FP: at(12)}
    g.next = at(16)
    end = 20
    for number in range(12):
        if saved >> 16 + number & 1:
            restored[number] = at(end)
            end += 4
    sp = frame + end + (saved >> 30) & WORD
    if saved >> 29 & 1:
        count = read(g, sp, 4)
        sp = sp + 4 + 4 * (count & 0xFF) & WORD
    for number, value in restored.items():
        g.work[number] = value
    g.work[SP] = sp
    g.codes = saved & 0xFF


def faults(vector: int):
    def execute(g):
        raise Fault(vector)

    return execute


CONTROL = {
    "NOP": lambda g: None, "BPT": faults(0x2C), "XFC": faults(0x14),
    "RSB": return_from_subroutine, "RET": return_from_procedure,
    "BSBB": call_subroutine, "BSBW": call_subroutine, "JSB": call_subroutine,
    "BRB": jump, "BRW": jump, "JMP": jump,
    "BNEQ": branch(lambda c: not c & Z), "BEQL": branch(lambda c: c & Z),
    "BGTR": branch(lambda c: not c & (N | Z)), "BLEQ": branch(lambda c: c & (N | Z)),
    "BGEQ": branch(lambda c: not c & N), "BLSS": branch(lambda c: c & N),
    "BGTRU": branch(lambda c: not c & (C | Z)), "BLEQU": branch(lambda c: c & (C | Z)),
    "BVC": branch(lambda c: not c & V), "BVS": branch(lambda c: c & V),
    "BCC": branch(lambda c: not c & C), "BCS": branch(lambda c: c & C),
    "BLBS": branch_on_low_bit(1), "BLBC": branch_on_low_bit(0),
    "BBS": branch_on_bit(1, None), "BBC": branch_on_bit(0, None),
    "BBSS": branch_on_bit(1, 1), "BBCS": branch_on_bit(0, 1),
    "BBSC": branch_on_bit(1, 0), "BBCC": branch_on_bit(0, 0),
    "BBSSI": branch_on_bit(1, 1), "BBCCI": branch_on_bit(0, 0),
    "ACBB": add_compare_branch(1), "ACBW": add_compare_branch(2), "ACBL": add_compare_branch(4),
    "AOBLSS": count_and_branch(1, lambda index, limit: index < limit),
    "AOBLEQ": count_and_branch(1, lambda index, limit: index <= limit),
    "SOBGEQ": count_and_branch(-1, lambda index, _: index >= 0),
    "SOBGTR": count_and_branch(-1, lambda index, _: index > 0),
    "CASEB": case(1), "CASEW": case(2), "CASEL": case(4),
    "PUSHL": push_address, "PUSHAB": push_address, "PUSHAW": push_address,
    "PUSHAL": push_address, "PUSHAQ": push_address,
    "PUSHR": push_registers, "POPR": pop_registers,
    "BISPSW": change_psw(lambda codes, mask: codes | mask),
    "BICPSW": change_psw(lambda codes, mask: codes & ~mask),
    "MOVPSL": move_psl, "CALLG": call_with_list, "CALLS": call_with_stack,
}  # fmt: skip
