"""Exceptions and interrupts: what is pushed where, and how the guest goes on."""

from .translation import MODIFY, Beyond, Fault, places_to_write, store

WORD = 0xFFFFFFFF
INTERRUPT_STACK_BIT = 1 << 26
INTERRUPT_STACK = 4
KERNEL_STACK_NOT_VALID = 0x08
BEYOND_MEMORY, BAD_VECTOR, NO_INTERRUPT_STACK, CHANGE_MODE_ON_INTERRUPT_STACK = 0x10, 0x07, 0x04, 0x0A


class Stop(Exception):
    """The guest stops with this code; nothing else of it has changed."""

    def __init__(self, code: int):
        self.code = code


def current_stack(g) -> int:
    """The number of the stack pointer that R14 is: the mode's, or the interrupt stack's."""
    return INTERRUPT_STACK if g.psl & INTERRUPT_STACK_BIT else g.mode


def stack_pointer(g, stack: int) -> int:
    return g.r[14] if stack == current_stack(g) else g.stacks[stack]


def find_pushes(g, sp: int, count: int, mode: int, clear: list) -> list:
    """The places of `count` longwords below a stack pointer, from the highest down."""
    return [places_to_write(g, sp - 4 * (k + 1) & WORD, 4, mode, clear) for k in range(count)]


def make_pushes(g, places: list, values: list, clear: list) -> None:
    """Sets the clear modify bits in the order of the walk, and then writes."""
    for entry, _ in clear:
        g.longs[entry >> 2] |= MODIFY
    for place, value in zip(places, values):
        store(g, place, 4, value)


def initiate(g, offset: int, pushed=(), level=None, change_mode=None) -> bool:
    """Initiates what the vector at `offset` stands for; whether it was taken, and not vector 08 in its place.

    The PC to be pushed is in `g.r[15]`. `level` is that of an interrupt, `change_mode` the new mode of a CHM.
    """
    if g.scbb + offset + 4 > g.size:
        raise Stop(BEYOND_MEMORY)
    vector = g.longs[g.scbb + offset >> 2]
    chosen = vector & 3
    if chosen >= 2 or (change_mode is not None and chosen):
        raise Stop(BAD_VECTOR)
    mode = change_mode or 0
    in_interrupt = bool(g.psl & INTERRUPT_STACK_BIT) or chosen == 1 or offset == KERNEL_STACK_NOT_VALID
    stack = INTERRUPT_STACK if in_interrupt else mode
    sp = stack_pointer(g, stack)
    values = [g.psl, g.r[15], *pushed]
    clear = []
    try:
        places = find_pushes(g, sp, len(values), mode, clear)
    except Beyond:
        raise Stop(BEYOND_MEMORY)
    except Fault:
        if stack == INTERRUPT_STACK:
            raise Stop(NO_INTERRUPT_STACK)
        initiate(g, KERNEL_STACK_NOT_VALID)
        return False
    make_pushes(g, places, values, clear)
    g.vector = offset
    g.stacks[current_stack(g)] = g.r[14]
    g.r[14] = sp - 4 * len(values) & WORD
    g.r[15] = vector & ~3
    g.set_psl(new_psl(g, offset, chosen, level, mode, in_interrupt))
    g.waiting = False
    return True


def new_psl(g, offset: int, chosen: int, level, mode: int, in_interrupt: bool) -> int:
    ipl = g.psl >> 16 & 31
    if level is not None:
        ipl = level
    elif chosen == 1 or offset == KERNEL_STACK_NOT_VALID:
        ipl = 31
    previous = 0 if level is not None else g.mode
    return mode << 24 | previous << 22 | ipl << 16 | (INTERRUPT_STACK_BIT if in_interrupt else 0)


CLOCK, RECEIVE, TRANSMIT, KCALL = (24, 0xC0), (20, 0xF8), (20, 0xFC), (21, 0x100)


def pending(g):
    """The highest interrupt above the IPL: its level and vector; receive comes before transmit."""
    ipl = g.psl >> 16 & 31
    if ipl >= 24:
        return None
    if g.clock.request:
        return CLOCK
    if ipl < 21 and g.kcall_due:
        return KCALL
    if ipl < 20:
        if g.console.receive_request:
            return RECEIVE
        if g.console.transmit_request:
            return TRANSMIT
    level = g.sisr.bit_length() - 1
    return (level, 0x80 + 4 * level) if level > ipl else None


def end_request(g, interrupt) -> None:
    if interrupt == CLOCK:
        g.clock.request = False
    elif interrupt == KCALL:
        g.kcall_due = False
    elif interrupt == RECEIVE:
        g.console.receive_request = False
    elif interrupt == TRANSMIT:
        g.console.transmit_request = False
    else:
        g.sisr &= ~(1 << interrupt[0])
