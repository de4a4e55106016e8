"""Instructions that the kernel does for a guest: CHM, REI, MTPR, MFPR, LDPCTX, SVPCTX, HALT, WAIT and PROBE.

Each gets its operands' values, makes the guest what it is afterwards, and answers the kind of the step.
"""

from . import registers
from .arithmetic import N, V, Z, give, logic_codes
from .exceptions import (
    CHANGE_MODE_ON_INTERRUPT_STACK,
    INTERRUPT_STACK,
    INTERRUPT_STACK_BIT,
    Stop,
    current_stack,
    find_pushes,
    initiate,
    make_pushes,
)
from .kinds import FAULT, PLAIN, SENSITIVE
from .operands import signed
from .translation import Beyond, Fault, probe, read

WORD = 0xFFFFFFFF
RESERVED_OPERAND = 0x18
KERNEL_STACK_NOT_VALID = 0x08
MUST_BE_ZERO = 0xF820FF00


def halt(g):
    g.complete()
    g.stop(0x06)
    return SENSITIVE


def wait(g):
    g.complete()
    g.waiting = True
    return SENSITIVE


def move_to_register(g, value, number):
    registers.check_write(g, number, value)
    logic_codes(g, value, 4)
    g.complete()
    registers.write(g, number, value)
    return SENSITIVE


def move_from_register(g, number, destination):
    registers.check_read(number)
    if g.clear:
        return g.meet_clear_modify_bit()
    value = registers.READS[number](g)
    logic_codes(g, value, 4)
    give(g, destination, 4, value)
    g.complete()
    return SENSITIVE


def change_mode(named: int):
    def execute(g, code):
        if g.psl & INTERRUPT_STACK_BIT:
            g.stop(CHANGE_MODE_ON_INTERRUPT_STACK)
            return SENSITIVE
        mode = min(named, g.mode)
        pushed = signed(code, 2) & WORD
        if mode:
            sp = g.work[14] if mode == g.mode else g.stacks[mode]
            find_pushes(g, sp, 3, mode, [])
        before = g.r
        g.complete()
        try:
            initiate(g, 0x40 + 4 * named, [pushed], change_mode=mode)
        except Stop as stop:
            g.r = before
            g.stop(stop.code)
        return SENSITIVE

    return execute


def return_from_interrupt(g):
    sp = g.work[14]
    pc = read(g, sp, 4)
    psl = read(g, sp + 4 & WORD, 4)
    check_new_psl(g.psl, psl)
    g.stacks[current_stack(g)] = sp + 8 & WORD
    g.set_psl(psl)
    g.r[14] = g.stacks[current_stack(g)]
    g.r[15] = pc
    if g.mode >= g.astlvl and not psl & INTERRUPT_STACK_BIT:
        g.sisr |= 1 << 2
    return SENSITIVE


def check_new_psl(old: int, new: int) -> None:
    mode, previous, ipl = new >> 24 & 3, new >> 22 & 3, new >> 16 & 31
    on_stack = new & INTERRUPT_STACK_BIT
    if (
        new & MUST_BE_ZERO
        or mode < (old >> 24 & 3)
        or (mode != 0 and (on_stack or ipl))
        or mode > previous
        or (on_stack and not old & INTERRUPT_STACK_BIT)
        or (on_stack and ipl == 0)
        or ipl > (old >> 16 & 31)
    ):
        raise Fault(RESERVED_OPERAND)


def control_block(g) -> list:
    if g.pcbb + 96 > g.size:
        raise Beyond
    return g.longs[g.pcbb // 4 : g.pcbb // 4 + 24].tolist()


def load_context(g):
    block = control_block(g)
    p0br, lengths, p1br, p1lr = block[20:24]
    p0lr, astlvl = lengths & 0x3FFFFF, lengths >> 24 & 7
    allowed = (
        registers.is_p0_base(g, p0br)
        and not lengths & 0xF8C00000
        and p0lr <= 8192
        and astlvl <= 4
        and p1br % 4 == 0
        and not p1lr & 0x7FC00000
        and registers.is_p1_length(g, p1lr & 0x3FFFFF)
    )
    if not allowed:
        raise Fault(RESERVED_OPERAND)
    old = g.p0br, g.p0lr, g.p1br, g.p1lr
    g.p0br, g.p0lr, g.p1br, g.p1lr = p0br, p0lr, p1br, p1lr & 0x3FFFFF
    clear = []
    try:
        places = find_pushes(g, block[0], 2, 0, clear)
    except (Beyond, Fault) as trouble:
        g.p0br, g.p0lr, g.p1br, g.p1lr = old
        return context_without_stack(g, trouble)
    make_pushes(g, places, [block[19], block[18]], clear)
    if g.psl & INTERRUPT_STACK_BIT:
        g.stacks[INTERRUPT_STACK] = g.r[14]
    g.stacks[0:4] = block[0:4]
    g.astlvl = astlvl
    g.r = block[4:18] + [block[0] - 8 & WORD, g.next]
    g.set_psl(g.psl & ~INTERRUPT_STACK_BIT)
    return SENSITIVE


def context_without_stack(g, trouble):
    """The new context's PC and PSL can't be pushed: nothing is loaded."""
    if isinstance(trouble, Beyond):
        raise trouble
    g.initiate_or_stop(KERNEL_STACK_NOT_VALID)
    return FAULT


def save_context(g):
    sp = g.r[14]
    pc = read(g, sp, 4)
    psl = read(g, sp + 4 & WORD, 4)
    control_block(g)
    popped = sp + 8 & WORD
    on_stack = g.psl & INTERRUPT_STACK_BIT
    if not on_stack:
        g.stacks[0] = popped
    block = g.stacks[0:4] + g.r[0:14] + [pc, psl]
    for k, value in enumerate(block):
        g.longs[g.pcbb // 4 + k] = value
    g.r[15] = g.next
    if on_stack:
        g.r[14] = popped
        return SENSITIVE
    g.r[14] = g.stacks[INTERRUPT_STACK]
    ipl = max(g.psl >> 16 & 31, 1)
    g.set_psl(g.psl & ~(31 << 16) | ipl << 16 | INTERRUPT_STACK_BIT)
    return SENSITIVE


def test_access(write: bool):
    """PROBER and PROBEW: the first and the last byte, for the less privileged of two modes."""

    def execute(g, asked, length, base):
        mode = max(asked & 3, g.psl >> 22 & 3)
        last = base + max(length, 1) - 1 & WORD
        first_allowed, first_there = probe(g, base, mode, write)
        last_allowed, last_there = probe(g, last, mode, write)
        g.codes &= ~(N | Z | V)
        if not (first_allowed and last_allowed):
            g.codes |= Z
        if first_there and last_there:
            g.retire()
            g.complete()
            return PLAIN
        g.complete()
        return SENSITIVE

    return execute


PRIVILEGED = {"HALT", "WAIT", "MTPR", "MFPR", "LDPCTX", "SVPCTX"}
SENSITIVE_INSTRUCTIONS = {
    "HALT": halt, "WAIT": wait, "MTPR": move_to_register, "MFPR": move_from_register,
    "CHMK": change_mode(0), "CHME": change_mode(1), "CHMS": change_mode(2), "CHMU": change_mode(3),
    "REI": return_from_interrupt, "LDPCTX": load_context, "SVPCTX": save_context,
    "PROBER": test_access(False), "PROBEW": test_access(True),
}  # fmt: skip
